#!/usr/bin/env bash
# Runs the commands that pages show without what they print, as they are written there, over files that are made for them. As root it runs
# those of a service too, in a copy of this machine whose changes are dropped. test_documents_commands.py checks that each command of each
# page runs here or elsewhere.
#
# usage: page_commands.sh PROGRAM
# Ends with status 1 if a command fails; says `skipped` of what lacks a tool.
set -u
program=${1:?usage: page_commands.sh PROGRAM}
if [ ! -x "$program" ]; then
    echo "skipped: $program is not there"
    exit 0
fi
program=$(realpath "$program")
top=$(cd "$(dirname "$0")/.." && pwd -P)
made=$(mktemp -d) || exit 2
trap 'rm -rf "$made"' EXIT
mkdir "$made/bin"
ln -s "$program" "$made/bin/resb"
for script in icu2text resb-exchange; do ln -s "$top/tools/$script" "$made/bin/$script"; done
PATH=$made/bin:$PATH
failed=0

# block PAGE SECTION [NUMBER]: prints an indented block of a section of a page, the first one by default
block() {
    awk -v section="$2" -v number="${3:-1}" '
        /^```/ { fenced = !fenced }
        /^#/ && !fenced { on = $0 ~ "^#+ " section "$"; found = 0 }
        on && !fenced && /^    / { if (!inside) { inside = 1; found++ } if (found == number) print gap substr($0, 5); gap = ""; next }
        inside && /^$/ { gap = gap "\n"; next }
        { inside = 0; gap = "" }' "$top/$1"
}

# inline PAGE START: prints the first command between backticks on a page that begins with a text
inline() {
    awk -v start="$2" 'BEGIN { RS = "`" } index($0, start) == 1 && !/\n/ { gsub(/\\\|/, "|"); print; exit }' "$top/$1"
}

# runs WHAT COMMANDS: runs commands in the folder, and says whether all of them succeed
runs() {
    local said
    if [ -z "$2" ]; then
        echo "differs: $1: the page has no such commands"
        failed=1
    elif said=$(cd "$made/work" && bash -eu -o pipefail -c "$2" 2>&1 </dev/null); then
        echo "ok: $1"
    else
        printf 'differs: %s\n%s\n' "$1" "$said"
        failed=1
    fi
}

# needs TOOL WHAT: says whether a tool is there
needs() {
    command -v "$1" >/dev/null && return 0
    echo "skipped: $2: $1 is not there"
    return 1
}

# fresh: begins an empty folder with the texts of a module, and files of them
fresh() {
    rm -rf "$made/work"
    mkdir -p "$made/work/texts/ui" "$made/work/bundles" "$made/work/old" "$made/work/new"
    cd "$made/work" || exit 2
    printf 'root {\n    open { "Open" }\n}\n' >texts/ui/root.txt
    printf 'de {\n    open { "Öffnen" }\n}\n' >texts/ui/de.txt
    cp texts/ui/de.txt old/
    printf 'de {\n    open { "Auf" }\n}\n' >new/de.txt
    resb compile -q --to bundles texts/ui/*.txt && cp bundles/de.res de.res
}

# as_service: runs the commands of a service and of a container, in a copy of this machine whose changes stay in memory and whose network is its own.
# There a stand-in for systemctl starts the command of the unit, and one for podman takes a folder for the volume and the copy for the image.
as_service() {
    local token=TOKEN-0123456789-0123456789 hash
    hash=$(printf %s $token | sha256sum | cut -d ' ' -f 1)
    fresh
    mkdir copy && ln -s "$top/deploy" "$top/library" "$top/tests" .
    echo "shop write $hash" >tokens
    cat >started <<'END'
#!/bin/sh
# started USER -- COMMAND..: starts a gateway as a user, and waits until it serves
runuser -u "$@" >/run/journal 2>&1 &
until grep -q 'ready with' /run/journal; do
    kill -0 $! || exit 1
    sleep 0.1
done
END
    cat >systemctl <<'END'
#!/bin/sh
set -eu
[ "$*" != daemon-reload ] || exit 0
[ "$1 $2" = 'enable --now' ]
/usr/bin/systemctl enable "$3"
[ ! -e /run/journal ] || exit 0
unit() { sed -n "s/^$1=//p" "/etc/systemd/system/$unit.service"; }
unit=$3
install -d -o "$(unit User)" -g "$(unit Group)" -m "$(unit StateDirectoryMode)" "/var/lib/$(unit StateDirectory)"
started "$(unit User)" -- $(unit ExecStart)
END
    cat >podman <<'END'
#!/bin/sh
set -eu
step() { tests/installed.py step deploy/Containerfile "$1"; }
entry=$(step ENTRYPOINT) start='runuser -u'
case "$1 $2" in
'build --format') [ "$6 $7" = '-f deploy/Containerfile' ] && exit ;;
'volume create')
    rm -r "$(step VOLUME)"
    exec install -d -o "$(step USER)" -m 700 "$(step VOLUME)"
    ;;
esac
[ "$1" = run ]
while shift && [ "$1" != resb-gateway ]; do
    case $1 in
    -i | --rm | --read-only) ;;
    -d) start=started ;;
    -p | --memory) shift ;;
    -v) [ "$2" = "bundles:$(step VOLUME)" ] && shift ;;
    --entrypoint) entry=$2 && shift ;;
    *) exit 2 ;;
    esac
done
shift
$start "$(step USER)" -- $entry "$@"
END
    cat >commands <<END
ends() { kill "\$(pgrep -u resb-gateway resb-gateway)"; while pgrep -u resb-gateway resb-gateway; do sleep 0.1; done; }
$(block deploy/OPERATIONS.md Start 2)
$(block deploy/OPERATIONS.md Start)
$(inline deploy/OPERATIONS.md 'resb-gateway -healthcheck' | sed 's/ADDRESS/127.0.0.1:6422/')
curl -sf -H 'Authorization: Bearer $token' -X PUT --data-binary 'de{a{"A"}}' http://127.0.0.1:6422/v1/shop/de.txt
$(block deploy/OPERATIONS.md 'Backup, restore, upgrade' | sed -n '1s#FILE#/root/copied#p')
ends
$(inline deploy/OPERATIONS.md 'chown -R')
rm /var/lib/resb-gateway/*
$(block deploy/OPERATIONS.md 'Backup, restore, upgrade' | sed '1d; s#FILE#/root/copied#')
$(block docs/INSTALL.md 'A container' | sed '/^tools/d')
$(block docs/INSTALL.md 'A container' 2 | sed "s/HASH/$hash/")
$(inline docs/INSTALL.md 'resb-gateway -healthcheck')
curl -sf -H 'Authorization: Bearer $token' http://127.0.0.1:6422/v1/shop
ends
END
    cat >enter <<'END'
mount -t tmpfs tmpfs copy && mkdir copy/upper copy/work copy/root
mount -t overlay overlay -o lowerdir=/,upperdir=copy/upper,workdir=copy/work copy/root
mount --rbind /dev copy/root/dev
mount -t proc proc copy/root/proc
mount -t tmpfs tmpfs copy/root/run
install -m 755 systemctl podman started copy/root/usr/local/sbin
chroot copy/root /usr/bin/env -i HOME=/root PATH=/usr/local/sbin:/usr/local/bin:/usr/sbin:/usr/bin:/sbin:/bin bash -eux -o pipefail -c "cd '$PWD'; . ./commands"
END
    runs 'deploy/OPERATIONS: a service, and INSTALL: a container' "unshare --mount --pid --fork --kill-child --net bash -eu -c 'ip link set lo up; . ./enter'"
}

fresh
runs 'OPERATIONS: a server with limits' "$(block docs/OPERATIONS.md Limits)"
resb lines shop bundles/de.res >changes.jsonl
runs 'OPERATIONS: a restart' "$(block docs/OPERATIONS.md 'Stopping, restarting, upgrading')"
printf '{"op":"look","app":"shop","locale":"de","path":"open"}\n' | cat changes.jsonl - >requests.jsonl
if needs jq 'lines from a shell'; then
    runs 'SERVER: from a shell' "$(block docs/SERVER.md 'From a shell')"
    runs 'JSON: strings with their paths' "$(block docs/JSON.md 'With jq')"
fi
# diff ends with status 1, as the bundles differ
runs 'GUIDE: differences' "$(block docs/GUIDE.md Releases | sed 's/$/ || [ $? = 1 ]/')"
runs 'GUIDE: a list of differences' "$(block docs/GUIDE.md Releases 2) && [ -s changes.txt ]"
if needs make 'a makefile'; then
    block docs/GUIDE.md make >Makefile
    runs 'GUIDE: make' "make -s && [ -f build/ui/de.res ] && make -s && rm -r build && $(inline docs/GUIDE.md 'make -j') -s && [ -f build/ui/de.res ]"
fi
if needs nvim 'GUIDE: Vim'; then
    printf 'de { a { "x" "y" } }\n' >vim.txt
    runs 'GUIDE: Vim' "nvim --headless -n -u NONE -i NONE -c '$(inline docs/GUIDE.md ':set')' -c 'silent make' \
        -c '$(inline docs/GUIDE.md ':%!')' -c 'wqall!' vim.txt && resb fmt --check vim.txt"
fi
runs 'INSTALL: the files of an archive' "tar -czf texts.tar.gz texts && $(inline docs/INSTALL.md 'tar -t') texts.tar.gz | grep -c texts/ui/de.txt"
runs 'TROUBLESHOOTING: a member of a line, and a folder' \
    "printf '%s' $(od -An -v -tx1 de.res | tr -d ' \n') | $(inline docs/TROUBLESHOOTING.md 'xxd') >sent.res && resb check sent.res && $(inline docs/TROUBLESHOOTING.md 'ls -ld') bundles && $(inline docs/TROUBLESHOOTING.md 'ulimit')"
if needs git 'differences in git'; then
    runs 'GUIDE: git' "git init -q . && $(block docs/GUIDE.md git)"
fi
if needs genrb 'shipping'; then
    runs 'GUIDE: shipping' "$(block docs/GUIDE.md Shipping) && [ -f ship/ui/de.res ]"
fi
runs 'TUTORIAL: its commands, to paste' "EXAMPLES=$top/examples; $(block docs/TUTORIAL.md 'A first hour with resb') | grep -c '^resb compile'"
fresh
mkdir -p src/main/resources po app/src/main/res/values App/en.lproj
printf 'hello=Hello\n' >src/main/resources/app.properties
printf 'msgid "Hello"\nmsgstr "Hallo"\n' >po/de.po
printf '<resources><string name="hello">Hello</string></resources>\n' >app/src/main/res/values/strings.xml
printf '"hello" = "Hello";\n' >App/en.lproj/Localizable.strings
for section in 'From .properties' 'From PO' 'From Android and iOS'; do
    if [ "$section" != 'From PO' ] || /usr/bin/python3 -c 'import polib' 2>/dev/null; then
        while IFS= read -r line; do
            runs "EXCHANGE: $section" "rm -rf texts && $line && [ -f texts/root.txt ]"
        done < <(block docs/EXCHANGE.md "$section")
    else
        echo "skipped: EXCHANGE: $section: python3-polib is not there"
    fi
done

fresh
runs 'EXCHANGE: to .properties' "$(inline docs/EXCHANGE.md 'resb-exchange convert --from resb') && find out -name 'app*.properties' | grep -c ."
runs 'PROJECT: several processes' "$(inline docs/PROJECT.md 'ls -d')"
runs 'PROJECT: a whole project' "$(block docs/PROJECT.md 'Settings of a project')"
runs 'PROJECT: a baseline' "$(block docs/PROJECT.md 'Old warnings') && resb init . && [ -f resb.toml ]"

fresh
cp -r "$top/examples" .
runs 'examples: requests' "$(block examples/README.md Examples)"

fresh
mkdir -p res tools && cp bundles/*.res res/ && ln -s "$top/tools/icu2text" tools/icu2text
commands=$(block docs/ICU.md 'Can resb read my files\\?')
runs 'ICU: texts of files' "$(grep -v -- --package <<<"$commands")"
data=$(PATH=$PATH:/sbin ldconfig -p | sed -n 's/.*libicudata.* => //p' | head -n 1)
if [ -z "$data" ]; then
    echo 'skipped: the package of libicudata: libicudata is not there'
elif needs objcopy 'the package of libicudata'; then
    runs "ICU: the package of libicudata" "PATH=$PATH:/sbin; $(block docs/ICU.md "Where ICU's data are")"
    name=icudt${data##*.so.}l.dat
    [ -e "$name" ] || mv icudt*.dat "$name"
    runs 'ICU: texts of a tree' "$(grep -- --tree <<<"${commands//icudt72l.dat/$name}")"
fi

# commands at the top of this repository
runs 'CONTRIBUTING: what a crate promises' "cd '$top'; crate=\$($(inline CONTRIBUTING.md tools/proofs | sed s/CRATE/rb_engine/)); grep -q 'Engine::handle' <<<\"\$crate\""
runs 'examples/library: what the engine promises' "cd '$top'; $(inline examples/library/README.md tools/proofs) >'$made/promises'"
runs 'LIBRARY: what the library promises' "cd '$top'; $(inline docs/LIBRARY.md tools/proofs) >'$made/promises'"
if [ -e "$top/.git" ] && needs git 'CONTRIBUTING: git grep'; then
    runs 'CONTRIBUTING: enums of error codes' "cd '$top'; $(inline CONTRIBUTING.md 'git grep '\''variant')"
    runs 'CONTRIBUTING: replies that are written down' "cd '$top'; $(inline CONTRIBUTING.md 'git grep -l')"
fi
if needs man 'COMMANDS: a manual page'; then
    manual=$(inline docs/COMMANDS.md 'tools/pages --manual')
    runs 'COMMANDS: a manual page' "cd '$top'; MANPAGER=cat ${manual/ | / \'$program\' | } >/dev/null"
fi
runs 'deploy/OPERATIONS: the variables of deploy/single' "cd '$top'; { $(inline deploy/OPERATIONS.md 'deploy/single --help') || [ \$? = 2 ]; } 2>&1 | grep RESB_STATE"

# the commands of an operator over a gateway that the tests of deploy/ have built
gateway=$top/deploy/out/bin/gateway
if [ -x "$gateway" ]; then
    fresh
    ln -s "$gateway" "$made/bin/resb-gateway"
    : >tokens
    runs 'deploy/OPERATIONS: tokens' "$(block deploy/OPERATIONS.md Tokens | sed 's#/etc/resb/##')"
    mkdir -p etc state && : >etc/tokens && cp /etc/ssl/certs/ca-certificates.crt etc/etcd-ca.pem
    openssl req -x509 -newkey ec -pkeyopt ec_paramgen_curve:P-256 -nodes -subj /CN=gateway -keyout etc/etcd.key -out etc/etcd.pem 2>/dev/null
    # its etcd isn't there
    runs 'deploy/README: the options of a gateway' "{ $(block deploy/README.md 'On real machines' |
        sed 's#/etc/resb/#etc/#g; s#10\.0\.0\.[1-3]:#127.0.0.1:#g') -check-config || [ \$? = 2 ]; } 2>&1 | grep '^resb-gateway: -etcd: '"
    resb-gateway init -state state
    sed "s#/etc/resb/tokens#etc/tokens#; s#/var/lib/resb-gateway#state#" "$top/deploy/gateway.example.json" >gateway.json
    runs 'deploy/OPERATIONS: the example of settings' 'resb-gateway -config gateway.json -check-config'
    runs 'deploy/OPERATIONS: the options of a gateway' "$(inline deploy/OPERATIONS.md 'resb-gateway options')"
    runs 'deploy/OPERATIONS: what takes space' "$(inline deploy/OPERATIONS.md 'resb-gateway list') -state state || [ \$? = 1 ]"
    runs 'SECURITY: the version of a gateway' "$(inline SECURITY.md 'resb-gateway -version')"
    service='deploy/OPERATIONS: a service'
    if [ "$(id -u)" != 0 ]; then
        echo "skipped: $service: this is not root"
    elif [ -e /var/lib/resb-gateway ] || [ -e /etc/resb ]; then
        echo "skipped: $service: a gateway is installed here"
    elif [ "$(stat -c %d /)" != "$(stat -c %d "$made")" ] || [ "$(stat -c %d /)" != "$(stat -c %d "$top")" ]; then
        echo "skipped: $service: $made and $top are not on the file system of /"
    elif needs systemctl "$service" && needs runuser "$service" && needs sqlite3 "$service" && needs ip "$service"; then
        as_service
    fi
else
    echo 'skipped: the commands of a gateway: deploy/out/bin/gateway is not built (deploy/gateway/test builds it)'
fi
exit "$failed"
