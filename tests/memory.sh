#!/usr/bin/env bash
# Refuses each allocation in turn. The program programs/memory.rt.in starts an engine, makes the tables that save time (open locales,
# kept items, hints), makes requests of each kind and a release, and loads, installs and lists bundles; after a call that is answered
# out of memory it compares the whole state, and calls once more. Served lines are tried over the built program
# (refused_allocations.py).
# The program programs/acceptance.rt.in accepts a file of each kind that is expensive to check, which Python writes: out of memory the
# file is returned, and within three times what its acceptance takes with memory.
#
# The toolchain refuses one allocation of a run, by its number. So each run first allocates and frees some blocks, fewer each time, down
# to a run in which no allocation of the calls is refused, and allocates after them until the number is reached. A last run of the first
# program also makes lookups of each kind (by names, within steps, from an open locale, from what is kept), reads ahead, replaces and
# removes, after which as many allocations remain: these calls make none.
#
# usage: memory.sh      (the variable RT names the command `rt`, if it is another)
set -eu
cd "$(dirname "$0")"
. ./scratch_repository.sh
rt=${RT:-rt}
tests=$PWD
made=$(mktemp -d)
trap 'rm -rf "$made"' EXIT

fails() {
    tail -n 5 "$said"
    echo "$1"
    exit 1
}
# Prints the number of blocks that were allocated after the calls of a run.
left() {
    grep -A 2 "^== $1\$" "$said" | sed -n 's/^\([0-9]*\) left$/\1/p'
}
# Prints the output of the first case of a run without the line `kept`.
first_not_kept() {
    awk '/^== / { if (begun && !kept) exit; begun = 1; kept = 0; text = "" }
        /^kept$/ { kept = 1 }
        begun { text = text $0 "\n" }
        END { if (!kept) printf "%s", text }' "$said"
}
# try_cases NAME REFUSED: runs a program with the allocation REFUSED refused, once for each of its cases, all of which must be kept.
try_cases() {
    local name=$1 refused=$2 runs
    cd "$made/$name/crates/$name"
    # The interpreter, which counts steps, is slow, and refuses the same allocations.
    "$rt" try --fail-alloc "$refused" --steps 1 --cases "$made/$name/cases" >"$said" 2>&1 || true
    runs=$(find "$made/$name/cases" -type f | wc -l)
    grep -q "^cases=$runs ended=$runs fault=0 differs=0 no-answer=0" "$said" || fails 'a run stopped'
    [ "$(grep -c '^kept$' "$said")" = "$runs" ] || fails "not kept: $(first_not_kept)"
}
# refuse PROGRAM REFUSED INPUTS FURTHER LIBRARY..: runs a program with the allocation REFUSED refused, and once more with the input FURTHER
# if it isn't empty. INPUTS are words MARK:FEWEST: inputs that begin with MARK, behind REFUSED - 1 down to FEWEST blocks. One run has the
# inputs of all marks, as reading and building the program takes longer than they do.
refuse() {
    local name=$1 refused=$2 inputs=$3 further=$4 input fewest count
    shift 4
    said=$made/$name/said
    rm -rf "${made:?}/$name"
    mkdir "$made/$name"
    (cd "$tests" && repository "$made/$name" "$name" "$@")
    mkdir "$made/$name/cases"
    for input in $inputs; do
        for ((count = ${input#*:}; count < refused; count++)); do
            echo "${input%:*}$count" >"$made/$name/cases/${input%:*}$count"
        done
    done
    [ -z "$further" ] || echo "$further" >"$made/$name/cases/$further"
    try_cases "$name" "$refused"
    for input in $inputs; do
        fewest=${input#*:}
        [ -n "$(left "${input%:*}$fewest")" ] || fails 'not every allocation was refused in some run'
        echo "ok: each of $((refused - fewest - 1 - $(left "${input%:*}$fewest"))) allocations refused in turn"
    done
}
# Writes the files that are expensive to check, each after its number of blocks, as cases NUMBER-BLOCKS; prints the fewest blocks of each.
dear_files() {
    python3 - "$tests" "$@" <<'END'
import sys

sys.path.insert(0, sys.argv[1])
from support.files import shared_arrays, suffixes
from support.hostile import *

folder, refused = sys.argv[2], int(sys.argv[3])
# each with more allocations than its reading and acceptance make
files = [
    (one_key(random_letters)(20_000), 24), (many_tables(20_000), 24), (overlapping_arrays(20_000 // 12, True), 24),
    (shared_arrays(62), 16), (suffixes(20_000 // 9), 64), (overlapping_tables(40_000 // 88, True), 64),
    (copies(random_letters, 2, 100)(30_000), 164),
]
for number, (data, most) in enumerate(files):
    for blocks in range(refused - most, refused):
        with open(f"{folder}/{number}-{blocks}", "wb") as case:
            case.write(b"%08d" % blocks + data)
print(*(refused - most for _, most in files))
END
}
# refuse_files REFUSED: accepts each expensive file with each of its allocations refused.
refuse_files() {
    local name=acceptance refused=$1 number=0 fewest all sum=0
    said=$made/$name/said
    mkdir "$made/$name"
    (cd "$tests" && repository "$made/$name" "$name" rb_validator rb_format rb_tree)
    mkdir "$made/$name/cases"
    all=$(dear_files "$made/$name/cases" "$refused")
    try_cases "$name" "$refused"
    for fewest in $all; do
        [ -n "$(left "$number-$fewest")" ] || fails "not every allocation was refused in some run of file $number"
        sum=$((sum + refused - fewest - 1 - $(left "$number-$fewest")))
        number=$((number + 1))
    done
    echo "ok: each of $sum allocations refused in turn over $number files that are expensive to check"
}

# each FEWEST leaves at least 30 blocks more than the calls allocate
refuse memory 1000 :30 30q rb_engine rb_fallback rb_packages rb_validator rb_format rb_locales rb_parents rb_views rb_tree
[ "$(left 30q)" = "$(left 30)" ] || fails 'lookups, replacements or removals take memory'
echo 'ok: lookups, replacements and removals take none'
refuse_files 220
