#!/usr/bin/env bash
# Runs all tests, side by side where processors allow, and prints a line for each part with its time and its processor time.
#
# usage: all.sh [--quick]
#   --quick  leaves out the gate (`rt ci`), the mutants and the programs that the toolchain interprets; needs a built program
#
# The gate proves every crate from nothing, runs the tests in Rattle and builds the program. The mutants in crates/*/gate/ come after
# it, as they are tried over the libraries that it proved. What runs the built program comes last; tests in Python are run by pytest, which
# prints a line for each file. What can't run because a tool is missing is skipped, counted by its reason, and named in the last lines;
# tools/need names the packages that are missing. JUNIT names a file for pytest's results.
# Ends with status 0 if every part that ran passed, and else with 1.
set -u
cd "$(dirname "$0")/.." || exit 2
quick=
case ${1-} in
    '') ;;
    --quick) quick=1 ;;
    *)
        echo 'usage: all.sh [--quick]' >&2
        exit 2
        ;;
esac
program=crates/rb_tool/out/rb_tool
logs=$(mktemp -d)
trap 'rm -rf "$logs"' EXIT
processors=$(nproc)
# Debian's packages work with Debian's interpreter only
python=$(for one in python3 /usr/bin/python3; do
    if "$one" -c 'import hypothesis, pytest, xdist' 2>/dev/null; then command -v "$one" && break; fi
done)

# part NAME COMMAND..: runs a part, and prints its times, its skipped tests, and its output if it fails
part() {
    local name=$1 began=$SECONDS status=0 used TIMEFORMAT='%U %S'
    local log="$logs/$name.log"
    shift
    { time "$@" >"$log" 2>&1 </dev/null; } 2>"$logs/$name.used" || status=$?
    used=$(awk '{ print int($1 + $2) }' "$logs/$name.used")
    if [ "$status" = 0 ]; then
        printf 'ok      %5d s  %s, %d s of processor time\n' $((SECONDS - began)) "$name" "$used"
        grep '^ok  ' "$log"
        grep -i 'skipped' "$log" | grep -v ' passed' | sed "s/^skipped  */skipped /; s/^/$name: /" >"$logs/$name.skipped"
    else
        { printf 'FAILED  %5d s  %s, status %s:\n' $((SECONDS - began)) "$name" "$status" && failures "$log"; } | tee "$logs/$name.failed"
    fi
    return "$status"
}

# failures LOG: prints the lines of a log that say what failed, and its end
failures() {
    grep -E -A 8 '^ *(--- FAIL|panic:|FAILED|AssertionError|Traceback)' "$1" | head -n 80
    echo '-- the last lines:'
    tail -n 30 "$1"
}

# start NAME COMMAND..: runs a part in the background, once fewer than one a processor are running
start() {
    while [ "$(jobs -rp | wc -l)" -ge "$processors" ]; do
        wait -n
    done
    part "$@" &
}

# start_if COMMAND NAME ..: starts a part if a command is there
start_if() {
    local command=$1
    shift
    if command -v "$command" >/dev/null; then
        start "$@"
    else
        echo "$1: skipped: $command is not there" | tee "$logs/$1.skipped"
    fi
}

# pytest NAME MARKED OPTION..: starts the tests in Python with a mark, if an interpreter has what they need
pytest() {
    local name=$1 marked=$2
    shift 2
    if [ -z "$python" ]; then
        echo "$name: skipped: pytest, hypothesis or xdist is missing" | tee "$logs/$name.skipped"
        return
    fi
    part "$name" "$python" -m pytest tests -m "$marked" --program="$program" ${JUNIT:+--junit-xml "${JUNIT%.xml}-$name.xml"} "$@"
}

# proofs LANES: runs the gate with one job for each proof: a second one costs half as much processor time again for little gain
proofs() {
    RT_JOBS=$1 rt ci
}

# lanes: prints how many proofs run side by side: one a processor, each with 4 GB of memory
lanes() {
    local memory
    memory=$(sed -n 's/^MemAvailable: *\([0-9]*\) kB/\1/p' /proc/meminfo)
    memory=$((memory / 4000000))
    [ "$memory" -lt "$processors" ] || memory=$processors
    [ "$memory" -gt 0 ] || memory=1
    echo "$memory"
}

# archive HOW: builds the library for C programs, which gateways link. `rt ci` proves it and builds no archive: HOW is --bare for one of exports
# over what it left, and --built for the one that is there.
archive() {
    command -v gcc >/dev/null && part archive tools/library "$1" deploy/out/library
}

# linked: tries the library, and the gateways, one after the other as both build in deploy/out. They wait most of the time.
linked() {
    part library tests/library.sh --built &
    part gateway deploy/gateway/test
    part gateways deploy/test
    wait
}

summary() {
    wait
    cat "$logs"/*.skipped 2>/dev/null >"$logs/all"
    echo "$(find "$logs" -name '*.log' | wc -l) parts in $((SECONDS / 60)) min $((SECONDS % 60)) s," \
        "$(find "$logs" -name '*.failed' | wc -l) failed, $(wc -l <"$logs/all") reasons why tests were skipped"
    sort "$logs/all" | uniq -c
    for failed in "$logs"/*.failed; do
        [ ! -e "$failed" ] || head -n 1 "$failed"
    done
    ! compgen -G "$logs/*.failed" >/dev/null
}

if [ -n "$quick" ] && [ ! -x "$program" ]; then
    echo "$program isn't built: bin/resb --version builds it" >&2
    exit 2
fi
lacks=$(tools/need) || printf 'These packages are missing, so tests are skipped (tools/need --install):\n%s\n' "$lacks"
start launcher tests/launcher.sh
start release tests/release.sh
start_if python3 definitions tests/trusted.py --inner
start_if python3 functions bench/functions.py --self-test
start_if pyflakes3 pyflakes pyflakes3 tests bench bench/measure bin/*.py library tools/lsp tools/exchange tools/{icu2text,pages,proofs,cldr-parents,plural-categories,resb-ci}
start_if mypy mypy mypy --cache-dir=/dev/null tests/support bench/measuring.py
if [ -z "$quick" ]; then
    # these interpret programs and need no proof, so they run beside the gate
    part memory tests/memory.sh &
    part no_change_while_lent tests/no_change_while_lent.sh &
    if ! part gate proofs "$(lanes)"; then
        summary
        exit 1
    fi
    grep -h 'passed, .* failed' "$logs/gate.log"
    archive --bare &
    if command -v python3 >/dev/null; then
        part mutants tests/edits.py --gate --jobs "$(lanes)" --within 15
        tail -n 1 "$logs/mutants.log"
    fi
fi
if [ -n "$quick" ] && [ -e crates/resb/out/libresb.a ]; then
    archive --built
fi
wait
if [ -e deploy/out/library/resb.pc ]; then
    linked &
else
    echo 'library, gateways, package: skipped: the library for C programs is not built (tools/library builds it)' | tee "$logs/library.skipped"
fi
for script in examples replies stdout files clients project page_commands package; do
    start "$script" "tests/$script.sh" "$program"
done
while [ "$(jobs -rp | wc -l)" -ge "$processors" ]; do
    wait -n
done
start_if cc refused_allocations tests/refused_allocations.py "$program"
pytest python 'not alone and not hand' -n $(((processors + 1) / 2)) &
start_if python3 pages tools/pages --check "$program"
start_if genrb icu tests/icu.sh "$program" brkitr translit
wait
# what measures memory or time has the machine to itself
pytest alone 'alone and not hand'
summary
