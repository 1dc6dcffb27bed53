#!/usr/bin/perl
# A stand-in for the program, which faults.py completes; Perl starts in 2 ms. A fault is in commands whose words match, and changes $out, $err,
# $status, or files.
my @real = (PROGRAM, @ARGV);
exec @real unless "@ARGV" =~ m{MATCH};
# with standard output closed this script is opened in its place
if (!defined fileno(STDOUT) || (stat(STDOUT))[1] == (stat($0))[1]) { close(STDOUT); exec @real }
my %before = map { $_ => -M $_ } grep { -e } @ARGV;
my $child = fork();
if (!$child) { open(STDOUT, '>', "FOLDER/out$$"); open(STDERR, '>', "FOLDER/err$$"); exec @real }
waitpid($child, 0);
my ($status, $out, $err) = ($? >> 8);
for (['out', \$out], ['err', \$err]) { open(my $f, '<', "FOLDER/$$_[0]$child"); local $/; ${$$_[1]} = <$f> // ''; unlink "FOLDER/$$_[0]$child" }
CODE;
syswrite(STDOUT, $out) if length $out; syswrite(STDERR, $err) if length $err; exit $status;
