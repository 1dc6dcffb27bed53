#!/usr/bin/env bash
# Runs examples/project in a copy, as its README says: make, its checks, and strings out to a translator and back.
#
# usage: project.sh PROGRAM
# Ends with status 1 if a step differs from what is expected; says `skipped` of what lacks make or /usr/bin/python3.
set -u
program=${1:?usage: project.sh PROGRAM}
if [ ! -x "$program" ]; then
    echo "skipped: $program is not there"
    exit 0
fi
if ! command -v make >/dev/null; then
    echo "skipped: make is not there"
    exit 0
fi
RESB=$(realpath "$program")
export RESB EXCHANGE
cd "$(dirname "$0")/.." || exit 2
EXCHANGE=$PWD/tools/resb-exchange
made=$(mktemp -d) || exit 2
trap 'rm -rf "$made"' EXIT
project=$PWD/examples/project
cp -r "$project" "$made/project"
cd "$made/project" || exit 2
failed=0

# expect WHAT STATUS OUTPUT COMMAND..: runs a command, and compares its status and all that it prints
expect() {
    local printed status
    printed=$("${@:4}" 2>&1)
    status=$?
    if [ "$status" = "$2" ] && [ "$printed" = "$3" ]; then
        echo "ok: $1"
    else
        printf 'differs: %s\nstatus %s, wanted %s\n' "$1" "$status" "$2"
        diff <(echo "$3") <(echo "$printed")
        failed=1
    fi
}

# count FOLDER: how many files a folder has, at any depth
count() {
    find "$1" -type f | wc -l
}

lacking="texts/shop/el.txt:1:1: warning: the root has 'search', and this text doesn't [missing-key]
texts/shop/el.txt:2:5: warning: the root has 'cart/back', and this text doesn't [missing-key]"
make -s >/dev/null || failed=1
expect '3 modules in 12 locales' 0 36 count build
expect 'a second make does nothing' 0 '' make -s
expect 'all files are bundles' 0 '' "$RESB" check -q build/*/*.res
expect 'the checks' 0 "$lacking" make -s check
expect 'the strings that are missing' 0 'texts/shop: cart/back: missing in el
texts/shop: search: missing in el' bash -c 'make -s coverage FORMAT=list | grep missing'
expect 'a lookup' 0 '{"actual":"de_AT","type":"string","valid":"de_AT","value":"Zur Kassa"}' \
    "$RESB" look de_AT cart/checkout build/shop/*.res
expect 'a string that is inherited' 0 '{"actual":"root","type":"string","valid":"el","value":"Search the shop"}' \
    "$RESB" look el search build/shop/*.res
printf 'el {\n    search { "x" }\n    search { "y" }\n}\n' >texts/mail/el.txt
expect 'an error fails the checks' 1 "texts/mail/el.txt:3: DuplicateKey
$lacking" ./check
cp "$project/texts/mail/el.txt" texts/mail/
if [ -x /usr/bin/python3 ]; then
    cp -r texts before
    make -s out LOCALE=el >/dev/null || failed=1
    expect 'a file for each module' 0 3 count out
    make -s back LOCALE=el || failed=1
    for text in texts/*/el.txt; do
        "$RESB" compile -q "$text" after.res && "$RESB" compile -q "before/${text#texts/}" before.res || failed=1
        expect "${text#texts/} unchanged by a round trip" 0 '' cmp before.res after.res
    done
    sed -i 's|<source>Keep shopping</source>|&<target>Συνέχεια αγορών</target>|; s|<source>Search the shop</source>|&<target>Αναζήτηση</target>|' out/shop.el.xlf
    make -s back LOCALE=el || failed=1
    expect 'the translated texts lack nothing' 0 '' ./check
    make -s >/dev/null || failed=1
    expect 'the translation' 0 '{"actual":"el","type":"string","valid":"el","value":"Αναζήτηση"}' "$RESB" look el search build/shop/*.res
    make -s out LOCALE=th >/dev/null || failed=1
    expect 'a new language' 0 '3 texts/account/th.txt texts/mail/th.txt texts/shop/th.txt' \
        sh -c 'echo $(ls out/*.th.xlf | wc -l) texts/*/th.txt'
else
    echo 'skipped: the exchange with a translator: /usr/bin/python3 is missing'
fi
exit "$failed"
