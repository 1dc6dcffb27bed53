# Fails if a description isn't one by the schema of the OpenAPI Initiative, which comes with Perl's JSON::Validator. With an address and
# a token it prints the operations of the client that Perl's OpenAPI::Client makes of the description, and what it gets.
use strict; use warnings; use OpenAPI::Client; use JSON::Validator;
my $schema = JSON::Validator->new->schema($ARGV[0])->schema;
die join("\n", @{$schema->errors}), "\n" if @{$schema->errors};
exit unless @ARGV > 1;
my $client = OpenAPI::Client->new($ARGV[0], base_url => $ARGV[1]);
$client->ua->on(start => sub { $_[1]->req->headers->authorization("Bearer $ARGV[2]") });
print join(" ", grep { $client->can($_) } qw(list look put remove history release restore erase getTxt)), "\n";
my $put = $client->put({app => "shop", locale => "de.txt"}, body => 'de{a{"A"} menu{open{"O"}}}');
print $client->look({app => "shop", locale => "de", path => "a"})->res->json->{value}, "\n";
print $client->lookRoot({app => "shop", locale => "de", path => "menu/open"})->res->json->{value}, "\n";
print scalar @{$client->history({app => "shop", last => 10})->res->json->{history}}, "\n";
print $client->history({app => "shop", last => "many"})->res->code, "\n";
print $client->getTxt({app => "shop", locale => "de"})->res->body, "\n";
