#!/usr/bin/env bash
# Checks which files `resb compile` changes: after an error an older file stays whole, links stay links, devices are written through,
# and no text is overwritten. Also checks standard input and output, names on a terminal, and the commands on many files. All of it
# with a built program.
#
# usage: files.sh PROGRAM
# Ends with status 0 if all checks pass, with 1 if not; says `skipped` if there is no such program.
set -u
program=${1:?usage: files.sh PROGRAM}
if [ ! -x "$program" ]; then
    echo "skipped: $program is not there"
    exit 0
fi
program=$(realpath "$program")
made=$(mktemp -d) || exit 2
trap 'rm -rf "$made"' EXIT
cd "$made" || exit 2
failed=0

# holds NAME COMMAND..: checks that the command succeeds
holds() {
    local name=$1
    shift
    if "$@"; then
        echo "ok: $name"
    else
        echo "differs: $name"
        failed=1
    fi
}

# says NAME STATUS WANTED COMMAND..: compares what the command prints, and its status
says() {
    local name=$1 status=$2 wanted=$3 found code
    shift 3
    found=$("$@" 2>&1)
    code=$?
    holds "$name" test "$code: $found" = "$status: $wanted"
}

printf 'de{a{"A"}}' >de.txt
printf 'fr{a{"B"}}' >fr.txt
printf 'bad{\na:int{09}}' >bad.txt
says 'a text is no OUT' 2 'resb: OUT is a bundle text: fr.txt' "$program" compile de.txt fr.txt
holds 'it is not changed' test "$(cat fr.txt)" = 'fr{a{"B"}}'
ln -s de.txt link
says 'OUT is IN, by a link' 2 'resb: OUT is IN: link' "$program" compile de.txt link
says 'IN by a link is OUT' 2 'resb: OUT is IN: link' "$program" compile link link
says 'a file is written' 0 'wrote 76 bytes' "$program" compile de.txt de.res
says 'or quietly' 0 '' "$program" compile -q de.txt de.res

exec 3<de.res
"$program" compile -q fr.txt de.res
holds 'who has the older file open reads it whole' cmp -s /dev/fd/3 <("$program" compile de.txt -)
exec 3<&-
cp de.res older.res
{ printf 'big{'; for n in $(seq 4000); do printf 'k%s{"a string of some length"}' "$n"; done; printf '}'; } >big.txt
(ulimit -f 8; "$program" compile big.txt de.res) >/dev/null 2>&1
holds 'a file that grows too large leaves the older one' cmp -s de.res older.res
"$program" compile -q fr.txt de.res
# full COMMAND..: runs a command whose files may have 8,192 bytes; a longer write fails, as on a full disk
full() (
    trap '' XFSZ
    ulimit -f 8
    "$@"
)
says 'a full disk' 2 'cannot write de.res' full "$program" compile big.txt de.res
holds 'leaves the older file' cmp -s de.res <("$program" compile fr.txt -)
says 'a full disk, and no older file' 2 'cannot write none.res' full "$program" compile big.txt none.res
holds 'leaves nothing' test ! -e none.res

# unfinished FOLDER: lists the unfinished files in a folder
unfinished() {
    find "$1" -maxdepth 1 -name '.resb-unfinished-*'
}
rm -f $(unfinished .)
full "$program" compile big.txt de.res 2>/dev/null
holds 'nothing is left over if writing fails' test -z "$(unfinished .)"
cp de.txt p.res.resb-unfinished
says 'a text beside its file' 0 'wrote 76 bytes' "$program" compile p.res.resb-unfinished p.res
holds 'it stays' cmp -s de.txt p.res.resb-unfinished
echo mine >o.res.resb-unfinished
"$program" compile -q de.txt o.res
holds "a user's file of a like name stays" test "$(cat o.res.resb-unfinished)" = mine

ln -s target.res through.res
"$program" compile -q de.txt through.res
holds 'a link leads to the file that is written' test -L through.res -a -f target.res
cp target.res older.res
says 'a full disk behind a link' 2 'cannot write through.res' full "$program" compile big.txt through.res
holds 'leaves link and file' sh -c 'test -L through.res && cmp -s target.res older.res'
mkdir elsewhere
ln -s elsewhere/far.res near.res
ln -s ../near.res elsewhere/round.res
says 'a link through folders' 0 'wrote 76 bytes' "$program" compile de.txt elsewhere/round.res
holds 'the file is beside its own place' test -L near.res -a -L elsewhere/round.res -a -f elsewhere/far.res
ln -s victim.txt l.res
echo 'victim{}' >victim.txt
says 'a link to a text' 2 'resb: OUT is a bundle text: l.res' "$program" compile de.txt l.res
holds 'the text stays' test "$(cat victim.txt)" = 'victim{}'
rm victim.txt
says 'a link to a text that is missing' 2 'resb: OUT is a bundle text: l.res' "$program" compile de.txt l.res
holds 'it stays missing' test ! -e victim.txt
ln -s loop.res loop.res
says 'a link to itself' 2 'cannot write loop.res' "$program" compile de.txt loop.res
says 'a folder' 2 'cannot write elsewhere' "$program" compile de.txt elsewhere
says 'a file in a file' 2 'cannot write de.res/x.res' "$program" compile de.txt de.res/x.res
says 'no name' 2 'cannot write ' "$program" compile de.txt ''

# user COMMAND..: runs a command without the rights of root, who may write everywhere
cp "$program" resb
chmod 755 . resb
chmod 644 ./*.txt
user() {
    if [ "$(id -u)" = 0 ]; then
        setpriv --reuid 65534 --regid 65534 --clear-groups "$@"
    else
        "$@"
    fi
}
mkdir closed
cp older.res closed/old.res
chmod 666 closed/old.res
chmod 555 closed
says 'a folder that takes no new file' 2 'cannot write closed/old.res' user ./resb compile big.txt closed/old.res
holds 'keeps its file' cmp -s closed/old.res older.res
says 'and takes none' 2 'cannot write closed/new.res' user ./resb compile de.txt closed/new.res
chmod 755 closed
mkdir open
chmod 777 open
cp older.res open/old.res
chmod 444 open/old.res
says 'a file that may not be written' 2 'cannot write open/old.res' user ./resb compile big.txt open/old.res
holds 'stays' cmp -s open/old.res older.res
long=$(printf '%0251d' 0).res
says 'a long name' 0 'wrote 76 bytes' "$program" compile de.txt "$long"
says 'a full disk and a long name' 2 "cannot write $long" full "$program" compile big.txt "$long"
holds 'leaves the older file there' cmp -s "$long" <("$program" compile de.txt -)

cp de.txt source.rb
says 'OUT is standard input' 2 'resb: OUT is IN: source.rb' sh -c "'$program' compile - source.rb <source.rb"
holds 'which stays' cmp -s source.rb de.txt
ln -s source.rb to-source
says 'OUT is standard input, by a link' 2 'resb: OUT is IN: to-source' sh -c "'$program' compile - to-source <source.rb"
says 'standard input from elsewhere' 0 'wrote 76 bytes' sh -c "'$program' compile - from.res <source.rb"

"$program" compile de.txt - >wanted.res
"$program" compile de.txt /dev/stdout >made.res
holds 'standard output by its device' cmp -s made.res wanted.res
{ echo front; "$program" compile de.txt /dev/stdout; echo end; } >made.res
holds 'is written where it is' cmp -s made.res <(echo front; cat wanted.res; echo end)
echo front >made.res
"$program" compile de.txt /dev/stdout >>made.res
holds 'is added to' cmp -s made.res <(echo front; cat wanted.res)
holds 'may be a pipe' cmp -s wanted.res <("$program" compile de.txt /dev/stdout | cat)
"$program" compile de.txt made.res >made.res
holds 'may be named itself' cmp -s made.res wanted.res
ln -s /proc/self/fd/1 output
says 'a full disk behind standard output' 2 'cannot write stdout' \
    sh -c "trap '' XFSZ; ulimit -f 8; '$program' compile big.txt output >made.res"
holds 'removes nothing' test -L output -a -f made.res
"$program" compile -q de.txt /dev/fd/3 3>made.res
holds 'a descriptor of a file' cmp -s made.res wanted.res
holds 'a descriptor of a pipe' cmp -s wanted.res <("$program" compile -q de.txt /dev/fd/3 3>&1 | cat)
says 'a descriptor of a file without a name' 2 'cannot write /dev/fd/3' \
    sh -c "exec 3>gone.res; rm gone.res; '$program' compile de.txt /dev/fd/3"
holds 'makes none' test ! -e gone.res
chmod 640 target.res
"$program" compile -q fr.txt target.res
holds 'permissions stay' test "$(stat -c %a target.res)" = 640
says 'a device is written through' 0 'wrote 76 bytes' "$program" compile de.txt /dev/null
holds 'standard output has only the file' cmp -s <("$program" compile fr.txt -) target.res
holds 'standard input is read' cmp -s <("$program" compile - - <fr.txt) target.res
says 'an error of standard input' 1 '-:2: BadInt' "$program" compile - - <bad.txt

says 'no folder' 2 'resb: DIR is empty' "$program" compile --to '' de.txt
mkdir links
ln -s ../fr.txt links/de.res
says 'a link to a text of the same command' 1 'resb: OUT is IN: links/de.res
links/fr.res: wrote 76 bytes' "$program" compile --to links de.txt fr.txt
holds 'the text stays' test "$(cat fr.txt)" = 'fr{a{"B"}}'
ln -s ../bad.txt links/list.res
printf 'list{a{"A"}}' >list.txt
says 'a link to another text' 1 'resb: OUT is a bundle text: links/list.res' "$program" compile --to links list.txt
cp fr.txt other
ln -sf ../other links/de.res
says 'a link to a text of another name' 1 'resb: OUT is IN: links/de.res
links/other.res: wrote 76 bytes' "$program" compile --to links de.txt other

mkdir out
says 'many texts' 1 "out/de.res: wrote 76 bytes
bad.txt:2: BadInt
out/fr.res: wrote 76 bytes" "$program" compile --to out de.txt bad.txt fr.txt
says 'many files' 0 "out/de.res: ok, 1 visits
out/fr.res: ok, 1 visits" "$program" check out/de.res out/fr.res
says 'a lookup' 0 '{"actual":"de","type":"string","valid":"de","value":"A"}' "$program" look de_AT a out/de.res fr.txt
says 'a lookup that finds nothing' 1 '{"error":"NoBundle"}' "$program" look it a out/de.res
says 'lines that serve takes' 0 '{"ok":true}
{"ok":true}' sh -c "'$program' lines shop out/de.res fr_FR=fr.txt | '$program' serve"
says 'a file without a name' 2 'cannot read ' "$program" lines shop '='
says 'a missing comma' 0 'list.txt:1:11: warning: two texts side by side are joined into one; is a comma missing? [joined-strings]' \
    sh -c "printf 'list{a{\"A\" \"B\",\"C\"}}' >list.txt; '$program' lint list.txt"
says 'nothing doubtful' 0 '' "$program" lint de.txt

# small SCRIPT: runs a script in a new mount namespace, where the folder `disk` is a disk of 64 KB and /dev is a copy
small() {
    mkdir -p disk
    unshare -m sh -euc "
        mount -t tmpfs -o size=64k tmpfs disk
        mount -t tmpfs tmpfs /dev
        mknod -m 666 /dev/null c 1 3
        mknod -m 666 /dev/urandom c 1 9
        ln -s /proc/self/fd /dev/fd
        ln -s /proc/self/fd/0 /dev/stdin
        ln -s /proc/self/fd/1 /dev/stdout
        $1"
}
if small true 2>/dev/null; then
    says 'a disk that is full' 0 'cannot write disk/de.res
2' small "cp older.res disk/de.res; '$program' compile big.txt disk/de.res || echo \$?
        cmp -s disk/de.res older.res; test -z \"\$(find disk -name '.resb-*')\""
    says 'a disk that is full, and a link to it' 0 'cannot write to-disk
2' small "cp older.res disk/de.res; ln -s disk/de.res to-disk; '$program' compile big.txt to-disk || echo \$?
        cmp -s disk/de.res older.res; test -L to-disk; rm to-disk; test -z \"\$(find . -name '.resb-unf*')\""
    says 'a disk that has no room for a name' 0 'cannot write disk/de.res
2' small "mount -o remount,size=64k,nr_inodes=2 disk; cp older.res disk/de.res; '$program' compile fr.txt disk/de.res || echo \$?
        cmp -s disk/de.res older.res"
    says 'many texts, and a disk that is full' 0 'cannot write disk/big.res
disk/de.res: wrote 76 bytes
disk/fr.res: wrote 76 bytes
1' small "'$program' compile --to disk big.txt de.txt fr.txt || echo \$?
        test ! -e disk/big.res; test -z \"\$(find disk -name '.resb-*')\""
    says 'a disk that is full behind /dev/stdout' 0 'cannot write stdout
2' small "'$program' compile big.txt /dev/stdout >disk/f || echo \$?; test -L /dev/stdout; test -f disk/f"
else
    echo 'files: skipped: a full disk, which only root can make'
fi

# terminal COMMAND..: runs a command on a terminal, and removes the carriage returns that the terminal adds
terminal() {
    python3 -c 'import pty, sys; sys.exit(pty.spawn(sys.argv[1:]) >> 8)' "$@" </dev/null | tr -d '\r'
}
forged=$(printf 'x\033[31m\ny\302\233\342\200\256.res')
escaped='x\u{1b}[31m\u{a}y\u{9b}\u{202e}.res'
cp de.res "$forged"
says 'a name in a pipe' 2 "cannot read $forged.none" "$program" check "$forged.none"
says 'a name on a terminal' 0 "cannot read $escaped.none: no such file" terminal "$program" check "$forged.none"
says 'a name on a terminal, and success' 0 "$escaped: ok, 1 visits
$escaped: ok, 1 visits" terminal "$program" check "$forged" "$forged"
holds 'an option on a terminal' grep -qF -- '--x\u{1b}[31m' <(terminal "$program" check "$(printf -- '--x\033[31m')")
says 'an argument on a terminal' 0 "resb: \u{7f} is no error word: resb explain lists them" \
    terminal "$program" explain "$(printf '\177')"

# Arguments that aren't UTF-8: a letter of Latin-1, a surrogate, the second of three, and a long one.
latin=$(printf 'caf\351-\303\251.txt')
says 'a letter of Latin-1' 2 "bad argument: it isn't UTF-8: caf\xe9-é.txt" "$program" check "$latin"
says 'a surrogate' 2 "bad argument: it isn't UTF-8: \xed\xa0\x80" "$program" "$(printf '\355\240\200')"
says 'the second of three' 2 "bad argument: it isn't UTF-8: b\xff" "$program" a "$(printf 'b\377')" "$(printf 'c\377')"
long=$(head -c 5000 /dev/zero | tr '\0' x)
says 'a long one' 2 "bad argument: it isn't UTF-8: $long\xff$long" "$program" check "$long$(printf '\377')$long"
says 'one on a terminal' 0 "bad argument: it isn't UTF-8: \xff\u{1b}[31m" terminal "$program" "$(printf '\377\033[31m')"

# Characters that a terminal acts on, in JSON and in texts.
printf 'root{a{"x\302\233\342\200\256y"}}' >acts.txt
"$program" compile -q acts.txt acts.res
raw=$(printf 'x\302\233\342\200\256y')
shown='x\u009b\u202ey'
line='{"op":"look","app":"shop","locale":"de","path":"a"}'
says 'an item in a pipe' 0 '{"type":"string","value":"'"$raw"'"}' "$program" get acts.res a
says 'an item on a terminal' 0 '{"type":"string","value":"'"$shown"'"}' terminal "$program" get acts.res a
says 'a lookup on a terminal' 0 '{"actual":"root","type":"string","valid":"root","value":"'"$shown"'"}' \
    terminal "$program" look de a root=acts.res
says 'replies on a terminal' 0 '{"ok":true}
{"actual":"root","type":"string","valid":"root","value":"'"$shown"'"}' \
    terminal sh -c "{ '$program' lines shop root=acts.txt; echo '$line'; } | '$program' serve"
says 'lines on a terminal' 0 '{"op":"install","app":"shop","locale":"root","text":"root{a{\"'"$shown"'\"}}"}' \
    terminal "$program" lines shop root=acts.txt
says 'a value, everywhere' 0 '{"a":"'"$shown"'"}' "$program" json acts.res
says 'a text, everywhere' 0 'root {
    a { "'"$shown"'" }
}' "$program" text --name root acts.res
exit "$failed"
