#!/usr/bin/env bash
# Serves lines of requests with a built program, each file of them by a new process, and compares the replies.
#
# Each NAME.jsonl in replies/ has its replies in NAME.replies.jsonl; the server's options are in NAME.arguments, if it has any. Requests that are too long to store are made here: the
# longest text and one byte more, the longest file and one word more, a string of 200,000 units that is found before and after lookups that fail, the 4,096 bundles that an
# application may have, and 5,001 common bundles.
#
# usage: replies.sh PROGRAM
# Ends with status 0 if all agree, with 1 if one differs; says `skipped` if there is no such program.
set -u
program=${1:?usage: replies.sh PROGRAM}
if [ ! -x "$program" ]; then
    echo "skipped: $program is not there"
    exit 0
fi
program=$(realpath "$program")
cd "$(dirname "$0")/replies" || exit 2
made=$(mktemp -d) || exit 2
trap 'rm -rf "$made"' EXIT
failed=0

# Serves a file of requests with the options that follow, and compares the status, the replies and standard error.
answers() {
    name=$1 requests=$2 replies=$3
    shift 3
    if "$program" serve "$@" <"$requests" >"$made/output" 2>"$made/errors" &&
        cmp "$made/output" "$replies" && [ ! -s "$made/errors" ]; then
        echo "ok: $name"
    else
        echo "differs: $name"
        failed=1
    fi
}

# Prints a character many times.
repeat() {
    head -c "$2" /dev/zero | tr '\0' "$1"
}

# Prints the install of root{a{".."}}, a text of this many bytes.
install_text() {
    printf '{"op":"install","app":"shop","locale":"root","text":"root{a{\\"'
    repeat x $(($1 - 11))
    printf '\\"}}"}\n'
}

# Prints the install of the longest file, which has at `a` a binary of 67,108,792 zeros, or of a file that has one word more.
install_file() {
    printf '{"op":"install","app":"shop","locale":"%s","file":"' "$1"
    printf '2000DA271400000000000200526573420101000000000000000000000000000007000020050000000700000'
    printf '0%sFFFF00%sFFFF00010000006100AAAA0100180009000010%sFFFF03' "$2" "$2" "$3"
    repeat 0 "$4"
    printf '"}\n'
}

# Prints the install of a bundle that has its name at `a`, from a text.
install_name() {
    printf '{"op":"install","app":"%s","locale":"%s","text":"%s{a{\\"%s\\"}}"}\n' "$1" "$2" "$2" "$2"
}

# Prints a lookup by shop from root.
look() {
    printf '{"op":"look","app":"shop","locale":"root","path":"%s"}\n' "$1"
}

# Prints the reply to a lookup that finds a string, whose text is standard input.
found() {
    printf '{"actual":"root","type":"string","valid":"root","value":"'
    cat
    printf '"}\n'
}

for requests in *.jsonl; do
    case $requests in
        *.replies.jsonl) ;;
        *)
            options=
            [ ! -f "${requests%.jsonl}.arguments" ] || options=$(cat "${requests%.jsonl}.arguments")
            # shellcheck disable=SC2086 # each word is an option
            answers "$requests" "$requests" "${requests%.jsonl}.replies.jsonl" $options
            ;;
    esac
done

{
    install_text 8388609
    install_text 8388608
} >"$made/requests"
printf '{"error":"BadText"}\n{"ok":true}\n' >"$made/replies"
answers 'the longest text' "$made/requests" "$made/replies"

{
    install_file de F8 B8 134217584
    install_file fr F9 BC 134217592
} >"$made/requests"
printf '{"ok":true}\n{"error":"BadFile"}\n' >"$made/replies"
answers 'the longest file' "$made/requests" "$made/replies"

{
    printf '{"op":"install","app":"shop","locale":"root","text":"root{a{\\"'
    repeat x 200000
    printf '\\"} c{\\"C\\"}}"}\n'
    for path in a b c b a; do
        look "$path"
    done
} >"$made/requests"
{
    printf '{"ok":true}\n'
    repeat x 200000 | found
    printf '{"error":"Missing"}\n'
    printf C | found
    printf '{"error":"Missing"}\n'
    repeat x 200000 | found
} >"$made/replies"
answers 'a long string around lookups that fail' "$made/requests" "$made/replies"
{
    for ((i = 0; i < 4096; i++)); do
        install_name shop "qq_$i"
    done
    install_name shop qq_4096
    install_name shop qq_7
    install_name bank qq
    printf '{"op":"list","app":"bank"}\n'
} >"$made/requests"
{
    yes '{"ok":true}' | head -n 4096
    printf '{"error":"Full"}\n{"error":"Exists"}\n{"ok":true}\n{"names":["qq"]}\n'
} >"$made/replies"
answers 'the most bundles of an application' "$made/requests" "$made/replies"

common=()
for ((i = 0; i <= 5000; i++)); do
    printf 'qq_%d{a{"qq_%d"}}\n' "$i" "$i" >"$made/$i.txt"
    common+=("qq_$i=$made/$i.txt")
done
{
    printf '{"op":"install","app":"shop","locale":"root","text":"root{b:alias{\\"/ICUDATA/qq_0/a\\"} c:alias{\\"/ICUDATA/qq_5000/a\\"} d:alias{\\"/ICUDATA/qq_5001/a\\"}}"}\n'
    for path in b c d; do
        look "$path"
    done
} >"$made/requests"
printf '%s\n' '{"ok":true}' '{"actual":"qq_0","type":"string","valid":"root","value":"qq_0"}' \
    '{"actual":"qq_5000","type":"string","valid":"root","value":"qq_5000"}' '{"error":"NoBundle"}' >"$made/replies"
answers 'more common bundles than an application may have' "$made/requests" "$made/replies" "${common[@]}"
exit "$failed"
