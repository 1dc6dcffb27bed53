#!/usr/bin/env bash
# Tries the launcher bin/resb in checkouts that are made for it, with a program and a toolchain that only print their arguments.
# Ends with status 0 if each trial passes, and else with 1.
set -u
top=$(cd "$(dirname "$0")/.." && pwd -P)
made=$(mktemp -d) || exit 2
trap 'rm -rf "$made"' EXIT
failed=0

# checkout FOLDER: makes a checkout in which the program is built.
checkout() {
    local crate
    mkdir -p "$1/bin"
    cp "$top"/bin/* "$1/bin"
    for crate in rb_tree rb_lint rb_serve rb_files rb_tool; do
        mkdir -p "$1/crates/$crate/src" "$1/crates/$crate/specs" "$1/crates/$crate/proofs" "$1/crates/$crate/out"
        echo 'fn main() {}' >"$1/crates/$crate/src/main.rt"
    done
    printf '%s\n' 'rb_tree:' 'rb_lint: rb_tree' 'rb_serve: rb_tree' 'rb_files: rb_tree' 'rb_tool: rb_lint rb_tree' >"$1/crates.txt"
    touch -d '1 hour ago' "$1/crates.txt" "$1"/crates/*/src "$1"/crates/*/src/main.rt "$1"/crates/*/specs
    program "$1/crates/rb_tool/out/rb_tool"
}

# program FILE: writes a program that prints its arguments.
program() {
    printf '#!/bin/sh\necho "ran: $*"\n' >"$1"
    chmod +x "$1"
}

# trial NAME WANTED COMMAND..: compares what the command prints, on standard output and standard error, and its status.
trial() {
    local name=$1 wanted=$2 found
    shift 2
    found=$("$@" 2>&1)
    found="$found; $?"
    if [ "$found" = "$wanted" ]; then
        echo "ok: $name"
    else
        printf 'differs: %s\n  wanted: %s\n  found: %s\n' "$name" "$wanted" "$found"
        failed=1
    fi
}

checkout "$made/first place"
trial 'a checkout' 'ran: get a b; 0' "$made/first place/bin/resb" get a b

mkdir "$made/links"
ln -s "$made/first place/bin/resb" "$made/links/one"
ln -s one "$made/links/two"
ln -s links "$made/folder"
trial 'a symbolic link' 'ran: check a; 0' "$made/links/one" check a
trial 'a link to a link, through a linked folder' 'ran: check a; 0' "$made/folder/two" check a
mkdir "$made/other"
ln -s ../links/two "$made/other/three"
cd "$made/other" || exit 2
trial 'a relative link' 'ran: --version; 0' ./three --version

mv "$made/first place" "$made/second"
trial 'a checkout that was moved' 'ran: serve; 0' "$made/second/bin/resb" serve

# a toolchain that is nowhere
tools=$made/tools
mkdir "$tools"
for tool in dirname readlink realpath find sed awk nproc tee grep mktemp mkdir mv cp rm cat sleep chmod touch env nice setsid sh; do
    ln -s "$(command -v "$tool")" "$tools/$tool"
done
ln -s "$(python3 -c 'import sys; print(sys.executable)')" "$tools/python3"
second=$made/second
without() {
    env PATH="$tools" "$second/bin/resb" "$@"
}
newer='resb: its sources are newer than the program that runs'
missing='rt, the command of the toolchain, is not on the PATH'

touch -d '1 hour' "$second/crates/rb_tool/proofs"
trial 'proofs that are newer' 'ran: serve; 0' without serve
touch -d '1 hour' "$second/crates/rb_tool/src/main.rt"
trial 'newer sources and no toolchain' "$newer, and $missing
ran: serve; 0" without serve
mv "$second/crates/rb_tool/out/rb_tool" "$made/rb_tool"
trial 'no program and no toolchain' "resb: not built, and $missing; 2" without serve
trial 'no program and no toolchain, unproved' "resb: $missing; 2" without --unproved serve

# rt LINE..: writes a toolchain that prints its arguments, and then does what the lines say.
rt() {
    printf '%s\n' '#!/bin/sh' 'echo "of rt: $*"' "$@" >"$tools/rt"
    chmod +x "$tools/rt"
}
building='resb: proving and building; a first build takes 25 to 40 minutes, and one that is interrupted continues where it stopped
resb: bin/resb --unproved COMMAND answers in two to three minutes meanwhile'

rt 'exit 1'
trial 'a build that fails' "$building
of rt: all check --jobs 3
resb: the build failed; 2" env RESB_JOBS=3 PATH="$tools" "$second/bin/resb" lint

# It proves the crates, links the program, and prints its version, as the real one does.
linking='cp ../../../rb_tool "out/${PWD##*/}"; echo "resb 0.0.0"'
rt 'case $* in' "'all check --jobs 3') ;;" "*) $linking ;;" 'esac'
trial 'a build says so on standard error, and nothing of it is on standard output' 'ran: lint a; 0' \
    env RESB_JOBS=3 PATH="$tools" /bin/sh -c '"$0" lint a 2>"$1"' "$second/bin/resb" "$made/said"
trial 'what a build writes' "$building; 0" cat "$made/said"
touch -d '1 hour ago' "$second/crates/rb_tool/src/main.rt"
trial 'a program that was just built' 'ran: check a; 0' without check a

touch -d '1 hour' "$second/crates/rb_tool/src/main.rt"
trial 'no build is wanted' "$newer, and RESB_NO_BUILD is set
ran: check a; 0" env RESB_NO_BUILD=1 PATH="$tools" "$second/bin/resb" check a
rm "$second/crates/rb_tool/out/rb_tool"
trial 'no build is wanted, and there is no program' 'resb: not built, and RESB_NO_BUILD is set; 2' \
    env RESB_NO_BUILD=1 PATH="$tools" "$second/bin/resb" check a

touch -d '1 hour ago' "$second/crates/rb_tool/src/main.rt"
# Without the whole program `serve` and `check` have others, and the whole one is proved behind them, as long as a file `hold` is there.
behind=$second/crates/rb_tool/out/behind
goes_on='resb: the other commands are proved behind this one; kill -- -N ends that, and the next command continues it'
serving='resb: proving and building; a first build takes 15 to 25 minutes, the other commands 10 more, and one that is interrupted continues where it stopped
resb: bin/resb --unproved COMMAND answers in two to three minutes meanwhile'
continuing='resb: continuing what is proved behind another command'
failing='of rt: all check --jobs 3
resb: the build failed; 2'
with() {
    RESB_JOBS=3 PATH="$tools" "$second/bin/resb" "$@" 2>&1 | sed 's/ -[0-9]* ends/ -N ends/'
    return "${PIPESTATUS[0]}"
}
# holds COMMAND..: waits until a command succeeds, at most two minutes.
holds() {
    local n
    for n in $(seq 1200); do
        ! "$@" 2>/dev/null || return 0
        sleep 0.1
    done
    return 1
}
rt 'while [ "${PWD##*/}" = rb_tool ] && [ -e ../../hold ]; do sleep 0.1; done' \
    'case $* in' "'all check --jobs 3') [ ! -e ../../fails ] || exit 1 ;;" "*) $linking ;;" 'esac'
touch "$second/hold" "$second/fails"
trial 'the program of a command fails' "$serving
$failing" with serve
rm "$second/fails"
trial 'the program of a command answers' "$serving
$goes_on
ran: serve; 0" with serve
trial 'the whole program is proved behind it' '; 0' holds grep -q 'resb: proving and building' "$behind.log"
trial 'nothing more is proved behind a second command' 'ran: serve a; 0' with serve a
trial 'a command with another program' "$continuing
$serving
$goes_on
ran: check a; 0" with check a
process=$(cat "$behind")
kill -- "-$process"
trial 'what is proved behind a command ends' '; 0' holds eval "! kill -0 -- -$process"
trial 'no build is wanted behind a command' 'ran: serve; 0' env RESB_NO_BUILD=1 PATH="$tools" "$second/bin/resb" serve
trial 'a command lacks the whole program, and no build is wanted' 'resb: not built, and RESB_NO_BUILD is set; 2' \
    env RESB_NO_BUILD=1 PATH="$tools" "$second/bin/resb" lint a
trial 'the next command continues it' "$goes_on
ran: serve b; 0" with serve b
(sleep 1 && rm "$second/hold") &
trial 'a command waits for the whole program' "$continuing
$building
ran: lint a; 0" with lint a
trial 'then nothing is proved behind a command' 'ran: serve; 0' with serve
trial 'that is noted' '; 1' test -e "$behind"
touch -d '1 hour' "$second/crates/rb_lint/src/main.rt"
trial 'a change that the program of a command does not have' 'ran: serve; 0' without serve
touch -d '1 hour' "$second/crates/rb_tree/src/main.rt"
touch "$second/fails"
trial 'a change that it has' "$serving
$failing" with serve
touch -d '1 hour ago' "$second"/crates/*/src/main.rt
rm "$second/crates/rb_tool/out/rb_tool"
: >"$behind"
trial 'a build behind a command fails' "$goes_on
ran: serve; 0" with serve
trial 'its log tells' '; 0' holds grep -q 'resb: the build failed' "$behind.log"
trial 'it is not tried again' 'ran: serve; 0' with serve
trial 'the next command that needs it tells' "$building
$failing" with fmt a
rm -r "$second/crates/rb_serve/out" "$second/crates/rb_files/out"

rt 'echo cannot compile >&2' 'exit 1'
compiling='resb: compiling with nothing proved, which takes two to three minutes; the next --unproved command begins at once'
unproved='resb: nothing is proved of the program that runs'
trial 'nothing proved, and it does not compile' "$compiling
cannot compile
resb: the compilation failed; 2" env PATH="$tools" "$second/bin/resb" --unproved check de.txt
# It makes a program in its temporary folder and runs it there, as the real one does.
rt 'mkdir -p "$TMPDIR/a/b"' \
    "printf '#!/bin/sh\necho \"ran unproved: \$*\"\n' >\"\$TMPDIR/a/b/new\"" \
    'chmod +x "$TMPDIR/a/b/new"' 'mv "$TMPDIR/a/b/new" "$TMPDIR/a/b/program"' 'sleep 9'
trial 'nothing proved' "$compiling
$unproved
ran unproved: check de.txt -q; 0" env PATH="$tools" "$second/bin/resb" --unproved check de.txt -q
rm "$tools/rt"
trial 'nothing proved, the second time, without a toolchain' "$unproved
ran unproved: look de=de.txt; 0" without --unproved look de=de.txt
trial 'the proved program is another one' "resb: not built, and RESB_NO_BUILD is set; 2" \
    env RESB_NO_BUILD=1 PATH="$tools" "$second/bin/resb" check a
touch -d '2 hours' "$second/crates/rb_tool/src/main.rt"
trial 'nothing proved, after a change' "resb: $missing; 2" without --unproved --version
exit "$failed"
