# The functions that the commands of deploy/ share. Sourced with `here` set to that folder. A name that a function here sets is set in
# the script.
# shellcheck shell=sh disable=SC2034

top=$(CDPATH='' cd -- "$here/.." && pwd)
if [ -f "$here/bin/gateway" ]; then
    # tools/package laid the programs there, where a checkout has their sources; nothing is built, and the state is the user's
    installed=1
    out=$here
    states=${XDG_STATE_HOME:-${HOME:-/root}/.local/state}/resb
else
    installed=
    out=$here/out
    states=$out
fi
libraries=/usr/share/gocode
# the folder with libresb, which tools/library writes
library=${RESB_LIBRARY:-$out/library}
# a Go of Debian's backports is installed beside /usr/bin/go, which is older; the newest of them is found first
for newer in /usr/lib/go-1.2[1-9]/bin; do
    [ ! -x "$newer/go" ] || PATH=$newer:$PATH
done

# prints the Debian packages that are missing for building a gateway
missing_packages() {
    command -v go >/dev/null || printf ' golang-go'
    command -v gcc >/dev/null || printf ' gcc'
    command -v pkg-config >/dev/null || printf ' pkg-config'
    [ -d "$libraries/src/github.com/mattn/go-sqlite3" ] || printf ' golang-github-mattn-go-sqlite3-dev'
    [ -d "$libraries/src/github.com/prometheus/client_golang" ] || printf ' golang-github-prometheus-client-golang-dev'
    [ -d "$libraries/src/go.etcd.io/etcd" ] || printf ' golang-etcd-server-dev'
}

# prints the go.mod FILE with each library that it requires found in Debian's packages, without those that aren't installed
debian_module() {
    replaced=
    left_out=//
    for required in $(sed -n 's/^	\([a-z][^ ]*\) v.*/\1/p' "$1"); do
        from=$libraries/src/${required%/v2}
        [ ! -d "$out/modules/$required" ] || from=$out/modules/$required
        if [ -f "$from/go.mod" ]; then
            replaced="$replaced	$required => \"$from\"
"
        else
            left_out="$left_out\\|$required "
        fi
    done
    grep -v -e "^	\\($left_out\\)" "$1"
    printf 'replace (\n%s)\n' "$replaced"
}

# copies a part of a library, or all of it, and writes a go.mod for it: for a library that has none in Debian's package, or one that requires
# what isn't packaged: make_module LIBRARY PART
make_module() {
    [ -e "$libraries/src/$1/$2" ] || return 0
    mkdir -p "$out/modules/$1"
    cp -Ru "$libraries/src/$1/$2" "$out/modules/$1/"
    grep -qsx 'go 1.19' "$out/modules/$1/go.mod" || printf 'module %s\n\ngo 1.19\n' "$1" >"$out/modules/$1/go.mod"
}

# writes the file of modules over Debian's libraries for a folder: write_module FOLDER
write_module() {
    mkdir -p "$out"
    make_module github.com/matttproud/golang_protobuf_extensions pbutil
    make_module github.com/coreos/go-semver semver
    make_module github.com/coreos/go-systemd journal
    make_module github.com/coreos/go-systemd daemon
    make_module github.com/coreos/pkg capnslog
    make_module google.golang.org/grpc .
    debian_module "$1/go.mod" >"$out/debian.mod.$$"
    mv "$out/debian.mod.$$" "$out/debian.mod"
}

# runs Go in the folder, only over Debian's libraries: in_go FOLDER ARGUMENTS..
in_go() {
    go_folder=$1
    go_command=$2
    shift 2
    write_module "$go_folder"
    # Go doesn't notice that a library changed; it notices a changed definition
    stamp=$(cat "$library/resb.h" "$library/libresb.a" 2>/dev/null | sha256sum | cut -c 1-16)
    # flags and not GOFLAGS, where Go 1.19 takes no path with a space
    (cd "$go_folder" && PKG_CONFIG_PATH="$library" CGO_CFLAGS="-O2 -DRESB_STAMP=stamp_$stamp" GO111MODULE=on GOFLAGS='' GOCACHE="$out/go" GOPROXY=off \
        go "$go_command" "-modfile=$out/debian.mod" "-tags=${go_tags:-libsqlite3}" "$@")
}

run_go() { in_go "$here" "$@"; }

# runs Go over what needs no C: the tests that ask a built gateway
run_pure() {
    go_command=$1
    shift
    write_module "$here"
    (cd "$here" && CGO_ENABLED=0 GO111MODULE=on GOFLAGS='' GOCACHE="$out/go" GOPROXY=off go "$go_command" "-modfile=$out/debian.mod" -tags=libsqlite3 "$@")
}

# builds the gateway
build_gateway() { [ -n "$installed" ] || "$here/gateway/build" "$out/bin/gateway"; }

# adds a line to the file of tokens, or to the file `new`, unless it is there
allow() {
    if [ "${#3}" -lt 20 ]; then
        echo "${0##*/}: the token for $1 is too short: it must have at least 20 characters; '$1' without one makes one" >&2
        exit 2
    fi
    line="$1 $2 $(printf %s "$3" | sha256sum | cut -d ' ' -f 1)"
    grep -Fqx -e "$line" "$state/tokens" || echo "$line" >>"${new:-$state/tokens}"
}

# makes a token, if the application has none for it
make_token() {
    if ! grep -q "^$(printf %s "$1" | sed 's/\./\\./g') $2 " "$state/tokens"; then
        made=$(od -An -N24 -v -tx1 /dev/urandom | tr -d ' \n')
        allow "$1" "$2" "$made"
        echo "${0##*/}: the token to $2 for $1 is $made"
    fi
}

# writes what the arguments of a command give into the file of tokens; a script that uses it has `state` and `usage`
give_tokens() {
    touch "$state/tokens"
    for given in "$@"; do
        app=${given%%=*}
        may='write'
        case $app in
        *:read)
            app=${app%:read}
            may='read'
            ;;
        esac
        case $app in
        '' | *[!A-Za-z0-9_.-]*) usage ;;
        esac
        case $given in
        *=) usage ;;
        *=*) allow "$app" "$may" "${given#*=}" ;;
        *) make_token "$app" "$may" ;;
        esac
    done
}

# does a command of the operator over the state of `single`: operate COMMAND ARGUMENT
operate() {
    [ -x "$out/bin/gateway" ] || "$here/gateway/build" "$out/bin/gateway"
    "$out/bin/gateway" "$1" -state "${RESB_STATE:-${states:-$out}/single}" -- "$2"
}
