#!/usr/bin/env bash
# Checks that a replacement while a lookup's item is in use doesn't compile, as the item borrows from the engine. The program
# programs/held.rt.in is rejected for this borrow; without the two lines that use the item, marked `held`, it compiles and runs.
#
# usage: no_change_while_lent.sh      (the variable RT names the command `rt`, if it is another)
set -eu
cd "$(dirname "$0")"
. ./scratch_repository.sh
rt=${RT:-rt}
made=$(mktemp -d)
trap 'rm -rf "$made"' EXIT
repository "$made" held rb_engine rb_parents rb_tree
program=$made/crates/held/src/main.rt
cd "$made/crates/held"

if "$rt" try >"$made/said" 2>&1 || ! grep -q 'error\[borrow-e0502\]: cannot borrow `\*engine` as mutable' "$made/said"; then
    cat "$made/said"
    echo 'not refused: a replacement while a lookup is held'
    exit 1
fi
echo 'ok: a replacement while a lookup is held is refused'

grep -v '// held$' "$program" >"$made/free"
cp "$made/free" "$program"
if ! "$rt" try >"$made/said" 2>&1; then
    cat "$made/said"
    echo 'refused: a replacement while nothing is held'
    exit 1
fi
echo 'ok: a replacement while nothing is held runs'
