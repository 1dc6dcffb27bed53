#!/usr/bin/env bash
# Checks the errors of resb if standard output can't be written: `cannot write stdout` and status 2, or `Write` and status 1 of `serve`; and
# that nothing is said if the reader of a pipe has ended.
#
# usage: stdout.sh PROGRAM
# Ends with status 0 if all agree, with 1 if not; says `skipped` if there is no such program or no /dev/full.
set -u
program=${1:?usage: stdout.sh PROGRAM}
if [ ! -x "$program" ] || [ ! -c /dev/full ]; then
    echo "skipped: $program or /dev/full is not there"
    exit 0
fi
program=$(realpath "$program")
examples=$(realpath "$(dirname "$0")/../examples")
made=$(mktemp -d) || exit 2
trap 'rm -rf "$made"' EXIT
failed=0

# Compares a status and the lines of standard error with the expected ones.
agrees() {
    if [ "$2" = "$3" ] && [ "$(cat "$made/errors")" = "$4" ]; then
        echo "ok: $1"
    else
        echo "differs: $1: status $2, $(cat "$made/errors")"
        failed=1
    fi
}

# Runs a command whose standard output is a device that is full, and then one whose standard output is closed.
refuses() {
    local status=$1 errors=$2
    shift 2
    "$program" "$@" <"$examples/first-run.jsonl" >/dev/full 2>"$made/errors"
    agrees "$1 to a full device" $? "$status" "$errors"
    "$program" "$@" <"$examples/first-run.jsonl" >&- 2>"$made/errors"
    agrees "$1 to a closed output" $? "$status" "$errors"
}

"$program" compile "$examples/icudata/de.txt" "$made/de.res" >/dev/null || exit 2
refuses 2 'cannot write stdout' compile "$examples/icudata/de.txt" "$made/again.res"
refuses 2 'cannot write stdout' check "$made/de.res"
refuses 2 'cannot write stdout' get "$made/de.res" months/0
refuses 1 Write serve

# Runs a command whose output is longer than a pipe has space for, and whose reader ends at once: nothing is said.
is_quiet() {
    "$program" "$@" 2>"$made/errors" | true
    agrees "$1 to a reader that ends" "${PIPESTATUS[0]}" 2 ''
}

printf 'root{a{"%0300000d"}}' 1 >"$made/long.txt"
"$program" compile "$made/long.txt" "$made/long.res" >/dev/null || exit 2
is_quiet json "$made/long.res"
is_quiet text "$made/long.res"
is_quiet get "$made/long.res" a
is_quiet get --raw "$made/long.res" a
is_quiet compile "$made/long.txt" -
is_quiet diff "$made/de.res" "$made/long.res"

# the file is written though nothing could be printed, and has its usual bytes
if cmp -s "$made/de.res" "$made/again.res"; then
    echo "ok: the file is written"
else
    echo "differs: the file is not written"
    failed=1
fi
exit "$failed"
