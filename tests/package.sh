#!/usr/bin/env bash
# Packages a built program twice, compares the packages byte by byte, and checks what is in them. Then clean_root.sh installs,
# upgrades and removes them. PROGRAM is packaged as it is, unless --build is given.
#
# usage: package.sh [--build] PROGRAM
#   --build  builds the program with the commit of this checkout, which proves two crates once more (before a release)
# Ends with status 0 if all is as it should be, and says `skipped` if a tool, the program or the history isn't there.
set -eu
top=$(cd "$(dirname "$0")/.." && pwd -P)
build=
if [ "${1-}" = --build ]; then
    build=1
    shift
fi
program=$(realpath "${1:?usage: package.sh [--build] PROGRAM}")
for tool in git dpkg dpkg-deb tar gzip; do
    command -v "$tool" >/dev/null || {
        echo "skipped: $tool is not there"
        exit 0
    }
done
if [ ! -x "$program" ] || ! git -C "$top" rev-parse -q --verify HEAD >/dev/null; then
    echo 'skipped: no program, or no commit'
    exit 0
elif [ -n "$(git -C "$top" status --porcelain --untracked-files=no)" ]; then
    echo 'skipped: changes that are not committed'
    exit 0
fi
made=$(mktemp -d)
trap 'rm -rf "$made"' EXIT

fail() {
    echo "FAILED: $1" >&2
    exit 1
}

only_resb=
if ! command -v go >/dev/null || ! command -v gcc >/dev/null || [ ! -d /usr/share/gocode/src/github.com/mattn/go-sqlite3 ] ||
    [ ! -d /usr/share/gocode/src/go.etcd.io/etcd ] || [ ! -e "$top/deploy/out/library/resb.pc" ]; then
    echo 'skipped: resb-gateway: packages or the library for C programs are missing to build it'
    only_resb=--only-resb
fi

# Packages the program, built with the commit if that is asked for.
make_first() {
    local commit began=$SECONDS
    if [ -z "$build" ]; then
        "$top/tools/package" --program "$program" $only_resb "$made/first" >/dev/null
        return 0
    fi
    "$top/tools/package" $only_resb "$made/first" >/dev/null
    dpkg-deb -x "$made"/first/resb_*.deb "$made/built"
    program=$made/built/usr/bin/resb
    commit=$(git -C "$top" rev-parse HEAD)
    "$program" --version | grep -qx "resb [0-9.]* ($commit)" || fail "resb --version names not $commit"
    echo "ok: resb --version names version and commit; built in $((SECONDS - began)) s"
}

make_first
"$top/tools/package" --program "$program" $only_resb "$made/second" >/dev/null
diff -r "$made/first" "$made/second"
echo 'ok: two runs give the same bytes'

mkdir -p "$made/root/var/lib/dpkg/info" "$made/root/var/lib/dpkg/updates" "$made/unpacked"
touch "$made/root/var/lib/dpkg/status" "$made/root/var/lib/dpkg/available"
dpkg --root="$made/root" --force-depends --force-not-root --log=/dev/null -i "$made"/first/resb_*.deb >"$made/said" 2>&1 || {
    cat "$made/said"
    exit 1
}
tar -C "$made/unpacked" -xzf "$made"/first/resb_*.tar.gz
diff -r "$made/unpacked/usr" "$made/root/usr"
echo 'ok: it is installed, and the archive has the same files'
if command -v python3 >/dev/null; then
    "$top/tests/installed.py" links "$made/unpacked/usr/share/doc/resb"
    echo 'ok: links of pages lead to files of the package'
fi

examples=$made/root/usr/share/doc/resb/examples
"$made/root/usr/bin/resb" serve <"$examples/first-run.jsonl" | diff - "$examples/first-run.replies.jsonl"
echo 'ok: the first session'
if command -v python3 >/dev/null && python3 -c 'import tomllib' 2>/dev/null; then
    body='{"jsonrpc":"2.0","id":1,"method":"initialize","params":{"capabilities":{}}}'
    printf 'Content-Length: %s\r\n\r\n%s' ${#body} "$body" | RESB=$made/root/usr/bin/resb python3 "$made/root/usr/bin/resb-lsp" |
        grep -q '"serverInfo":{"name":"resb-lsp"}' || fail 'resb-lsp of the package answers no editor'
    "$made/root/usr/bin/resb-ci" --help >/dev/null
    "$made/root/usr/share/resb/editors/vscode/pack" "$made/resb.vsix"
    echo 'ok: the language server, and the files for editors'
else
    echo 'skipped: the language server: python3 3.11 is not there'
fi
# page_of NAME: prints a manual page of the package
page_of() { gunzip -c "$made/root/usr/share/man/man1/$1.1.gz" | mandoc -T ascii | col -bx; }

# has_entry COMMAND: checks that the manual page resb(1) has a command with each option and each status of its help
has_entry() {
    local option status
    page_of resb | sed "1,/^   $1\$/d; /^   [a-z]/,\$d" >"$made/entry"
    grep -q "^ *resb $1" "$made/entry" || fail "the manual page has no entry of $1"
    for option in $("$program" help "$1" | sed -n '/^Options:/,/^$/s/^[^-]*\(-., \)*\(--[a-z-]*\).*/\2/p'); do
        [ "$option" = --help ] || grep -qE -e "^     (-., )?$option( |$)" "$made/entry" || fail "the manual page lacks $option of $1"
    done
    for status in $("$program" help "$1" | sed -n '/^Status:/,$s/^  \([0-9]\)  .*/\1/p'); do
        grep -q "^     $status  " "$made/entry" || fail "the manual page lacks the status $status of $1"
    done
}

if command -v mandoc >/dev/null && command -v col >/dev/null && command -v python3 >/dev/null; then
    commands=$("$program" --help | sed -n '/^Commands:/,/^$/s/^  \([a-z]*\) .*/\1/p')
    [ -n "$commands" ] || fail 'the program lists no commands'
    for command in $commands; do
        [ "$command" = help ] || has_entry "$command"
    done
    for call in icu2text 'resb-exchange export' 'resb-exchange import' 'resb-exchange convert'; do
        # shellcheck disable=SC2086
        for option in $("$made/root/usr/bin/"$call --help | grep -o -e '--[a-z-]*' | sort -u); do
            page_of "${call%% *}" | grep -q -e "$option" || fail "the manual page of $call lacks $option"
        done
    done
    echo 'ok: the manual pages have all options'
else
    echo 'skipped: the options on manual pages: mandoc, col or python3 is not there'
fi
bash -c '. "$1" && complete -p resb' - "$made/root/usr/share/bash-completion/completions/resb" >/dev/null
echo 'ok: a completion'
[ -z "$only_resb" ] || exit 0

# The files of the gateway's package are those of its archive, and none is of the other package.
mkdir "$made/gateway" "$made/archive"
dpkg-deb -x "$made"/first/resb-gateway_*.deb "$made/gateway"
tar -C "$made/archive" -xzf "$made"/first/resb-gateway_*.tar.gz
diff -r --no-dereference "$made/gateway/usr" "$made/archive/usr"
# shellcheck disable=SC2016
same=$(cd "$made/gateway" && find . ! -type d -exec sh -c '[ ! -e "$1/$2" ] || echo "$2"' - "$made/root" {} \;)
[ -z "$same" ] || fail "both packages have $same"
if command -v mandoc >/dev/null && command -v col >/dev/null && command -v python3 >/dev/null; then
    gunzip -c "$made/gateway/usr/share/man/man8/resb-gateway.8.gz" >"$made/page"
    mandoc -T lint -W warning "$made/page" || fail 'the manual page of resb-gateway has mistakes'
    mandoc -T ascii "$made/page" | col -bx >"$made/shown"
    for option in $("$made/gateway/usr/bin/resb-gateway" -help 2>&1 | sed -n 's/^  \(-[a-z-]*\).*/\1/p'); do
        grep -qE -e "^     $option( |$)" "$made/shown" || fail "the manual page of resb-gateway lacks $option"
        grep -qF -e " $option" "$made/gateway/usr/share/bash-completion/completions/resb-gateway" || fail "the completion of resb-gateway lacks $option"
    done
fi
bash -c '. "$1" && complete -p resb-gateway' - "$made/gateway/usr/share/bash-completion/completions/resb-gateway" >/dev/null
for unit in resb-gateway.service resb-gateway-backup.service resb-gateway-backup.timer; do
    [ -f "$made/gateway/usr/lib/systemd/system/$unit" ] || fail "there is no $unit"
done
echo 'ok: the files of resb-gateway'

# Makes the package of version 1.1.0, by the commit before the first that has changes below "Unreleased", or else from the new one.
make_old() {
    local commit
    mkdir "$made/old" "$made/old.root"
    printf '#!/bin/sh\necho "resb 1.1.0"\n' >"$made/old.program"
    chmod 755 "$made/old.program"
    commit=$(git -C "$top" rev-parse -q --verify 'v1.1.0^{commit}') ||
        commit=$(git -C "$top" rev-parse -q --verify "$(git -C "$top" log --reverse --format=%H -S'## Unreleased' -- CHANGELOG.md | head -n 1)^") || commit=
    if [ -n "$commit" ] && git -C "$top" show "$commit:CHANGELOG.md" | grep -m 1 '^## ' | grep -qx '## 1.1.0'; then
        git clone -q --no-checkout "$top" "$made/old.clone"
        git -C "$made/old.clone" checkout -q "$commit"
        "$made/old.clone/tools/package" --program "$made/old.program" "$made/old" >/dev/null
        echo "ok: version 1.1.0 is packaged from its commit"
    else
        dpkg-deb -R "$made"/first/resb_*.deb "$made/old.root"
        sed -i 's/^Version: .*/Version: 1.1.0/' "$made/old.root/DEBIAN/control"
        dpkg-deb --root-owner-group -Zgzip --build "$made/old.root" "$made/old/resb_1.1.0_amd64.deb" >/dev/null
        echo 'ok: version 1.1.0 is the new package under that version, as its commit is not in the history'
    fi
}

make_old
dpkg --compare-versions "$(dpkg-deb -f "$made"/first/resb_*.deb Version)" gt 1.1.0 || fail 'the packages are not later than 1.1.0'
"$top/tests/clean_root.sh" "$made/old" "$made/first"
