#!/usr/bin/env bash
# Tries tools/release in a clone, over a program that only names its version and a command: what it refuses, the version and the changelog that
# it writes, and the packages with their sums.
#
# usage: release.sh
# Says `skipped` if a tool or the history isn't there.
set -eu
top=$(cd "$(dirname "$0")/.." && pwd -P)
for tool in git dpkg-deb tar gzip sha256sum; do
    command -v "$tool" >/dev/null || {
        echo "skipped: $tool is not there"
        exit 0
    }
done
if ! git -C "$top" rev-parse -q --verify HEAD >/dev/null; then
    echo 'skipped: no commit'
    exit 0
fi
made=$(mktemp -d)
trap 'rm -rf "$made"' EXIT
git clone -q "$top" "$made/clone"
cp "$top/tools/release" "$top/tools/package" "$top/tools/pages" "$top/tools/version" "$made/clone/tools/"
cp "$top/SECURITY.md" "$top/CHANGELOG.md" "$made/clone/"
cd "$made/clone"
commit() { git -c user.name=test -c user.email=test@example.org commit -qam "$1" --allow-empty; }
commit 'the release as it is here'

fail() {
    echo "FAILED: $1" >&2
    exit 1
}

# refuses TEXT COMMAND..: checks that a command is refused with a text
refuses() {
    local said status=0
    said=$("${@:2}" 2>&1) || status=$?
    if [ "$status" != 2 ] || ! grep -qF "$1" <<<"$said"; then fail "${*:2}: status $status, $said"; fi
    echo "ok: $1"
}

cat >"$made/program" <<'END'
#!/bin/sh
case $* in
    --help) printf 'Commands:\n  check  Checks files\n  help   Print help\n\nStatus:\n  0  done\n' ;;
    'help check') printf 'Checks files\n\nOptions:\n  -h, --help  Print help\n\nStatus:\n  0  done\n' ;;
    *) echo 'resb 9.8.7' ;;
esac
END
chmod 755 "$made/program"
made_of() { tools/release make --program "$made/program" --only-resb "$made/out"; }
refuses 'usage: tools/release prepare VERSION' tools/release
refuses '9.8 is no version' tools/release prepare 9.8
refuses "isn't later than" tools/release prepare 0.9.0
refuses 'SECURITY.md has a placeholder' made_of
sed -i 's/security@resb\.invalid/security@example.org/' SECURITY.md
refuses 'changes below "Unreleased"' made_of
tools/release prepare 9.8.7 >/dev/null
refuses 'no changes below "Unreleased"' tools/release prepare 9.8.8
grep -q '"9.8.7"' crates/rb_arguments/src/command_line.rt || fail 'the source names another version'
grep -qx '#define RESB_VERSION "9.8.7"' library/resb.h || fail 'the header names another version'
grep -qF 'b"9.8.7\0"' crates/resb/src/version.rt || fail 'the library names another version'
grep -qx '__version__ = "9.8.7"' library/python/resb/__init__.py || fail 'the package for Python has another version'
[ "$(cat library/rust/*/Cargo.toml library/rust/Cargo.lock | grep -cx 'version = "9.8.7"')" = 4 ] || fail 'the crates have another version'
grep -qx "## 9.8.7 - $(date -u +%Y-%m-%d)" CHANGELOG.md || fail 'the changelog lacks the version'
refuses 'not committed' made_of
commit 'the version'
made_of >"$made/said"
(cd "$made/out" && sha256sum -c --quiet SHA256SUMS)
[ "$(dpkg-deb -f "$made"/out/resb_9.8.7_amd64.deb Version)" = 9.8.7 ] || fail 'the package has another version'
grep -q 'git tag -a v9.8.7' "$made/said" || fail 'it says not how to tag'
refuses "isn't empty" made_of
git -c user.name=test -c user.email=test@example.org tag -a v9.8.7 -m 'resb 9.8.7'
refuses 'v9.8.7 is tagged already' made_of
echo 'ok: version, changelog, packages and sums'
