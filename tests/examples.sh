#!/usr/bin/env bash
# Runs each file of examples/ through a built program, and compares what it prints with what is written beside it.
#
# A bundle text is compiled, and its file checked. NAME.jsonl is served and compared with NAME.replies.jsonl. In a folder the file
# parents.txt has the explicit parents, and each other LOCALE.txt is a bundle of ICUDATA; requests.jsonl is served over them, once
# as texts and once as files, and compared with replies.jsonl. A file that is none of these counts as a failure.
#
# usage: examples.sh PROGRAM
# Ends with status 0 if all agree, with 1 if one differs; says `skipped` if there is no such program.
set -u
program=${1:?usage: examples.sh PROGRAM}
if [ ! -x "$program" ]; then
    echo "skipped: $program is not there"
    exit 0
fi
program=$(realpath "$program")
cd "$(dirname "$0")/../examples" || exit 2
made=$(mktemp -d) || exit 2
trap 'rm -rf "$made"' EXIT
failed=0

fails() {
    echo "$1"
    failed=1
}

# Compares standard input with a file.
agrees() {
    if diff "$2" -; then
        echo "ok: $1"
    else
        fails "differs: $1"
    fi
}

# Compiles a bundle text to a file, and checks it.
accepts() {
    mkdir -p "$(dirname "$made/$1")"
    if "$program" compile "$1" "$made/${1%.txt}.res" >/dev/null && "$program" check "$made/${1%.txt}.res" >/dev/null; then
        echo "ok: $1"
    else
        fails "refused: $1"
    fi
}

# Serves the requests of a folder over its bundles, which are texts or files as the ending says, in the folder given.
serves() {
    local arguments=() text locale
    [ ! -f "$1/parents.txt" ] || arguments+=(--parents "$1/parents.txt")
    for text in "$1"/*.txt; do
        locale=$(basename "$text" .txt)
        [ "$locale" = parents ] || arguments+=("$locale=$3/$1/$locale.$2")
    done
    agrees "$1, .$2" "$1/replies.jsonl" < <("$program" serve "${arguments[@]}" <"$1/requests.jsonl")
}

while IFS= read -r file; do
    case $file in
        clients/*) ;; # tests/clients.sh runs them
        project/*) ;; # tests/project.sh runs it
        README.md | */README.md | *.replies.jsonl | */replies.jsonl) ;;
        *.txt) accepts "$file" ;;
        */requests.jsonl) ;;
        */*) fails "not run: $file" ;;
        *.jsonl) agrees "$file" "${file%.jsonl}.replies.jsonl" < <("$program" serve <"$file") ;;
        *) fails "not run: $file" ;;
    esac
done < <(find . -type f | sed 's,^\./,,' | sort)
for folder in */; do
    [ -f "$folder/requests.jsonl" ] || continue
    serves "${folder%/}" txt .
    serves "${folder%/}" res "$made"
done
exit "$failed"
