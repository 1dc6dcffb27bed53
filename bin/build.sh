# Builds for bin/resb, which reads this file after it has set `top`, `program`, `unproved` and `sources`.

behind=$top/crates/rb_tool/out/behind # the process that proves behind a command, until it ends by itself

say() {
    printf 'resb: %s\n' "$1" >&2
}

no_toolchain='rt, the command of the toolchain, is not on the PATH'

has_toolchain() {
    command -v rt >/dev/null
}

# Runs or builds the program that has the command, if there is none of the present sources.
run_or_build() {
    case ${1-} in
        --unproved)
            shift
            run_unproved "$@"
            ;;
        serve) crate=rb_serve ;;
        compile | check | get | text | json | lines | look | explain) crate=rb_files ;;
        *) crate=rb_tool ;;
    esac
    older=$program
    program=$top/crates/$crate/out/$crate
    if [ "$crate" != rb_tool ] && is_current "$program" "${program%/*}/built" "$(sources_below)"; then
        [ ! -e "$behind" ] || go_on_behind
    elif [ "${RESB_NO_BUILD-}" = 1 ]; then
        run_older 'RESB_NO_BUILD is set'
    elif has_toolchain; then
        build
    else
        run_older "$no_toolchain"
    fi
}

# Prints the folders of the sources of the crate and of all crates below it.
sources_below() {
    awk -F: -v crate="$crate" '
        function visit(name,  uses, i) {
            if (!(name in line)) return
            print "crates/" name "/src", "crates/" name "/specs"
            i = split(line[name], uses, " ")
            delete line[name]
            for (; i; i--) visit(uses[i])
        }
        { line[$1] = $2 }
        END { visit(crate) }' "$top/crates.txt"
}

# Lets an existing program run although its sources are newer, the whole one if it is there.
run_older() {
    [ ! -x "$older" ] || program=$older
    if [ -x "$program" ]; then
        say "its sources are newer than the program that runs, and $1"
    else
        say "not built, and $1"
        exit 2
    fi
}

# Runs a command by a program of which nothing is proved. It is stored beside the proved one, under another name, until the sources change.
run_unproved() {
    is_current "$unproved" "$unproved" "$sources" || compile_unproved
    say 'nothing is proved of the program that runs'
    exec "$unproved" "$@"
}

compile_unproved() {
    if ! has_toolchain; then
        say "$no_toolchain"
        exit 2
    fi
    say 'compiling with nothing proved, which takes two to three minutes; the next --unproved command begins at once'
    mkdir -p "${unproved%/*}"
    began=$(mktemp)
    trap 'rm -f "$began"' EXIT
    if ! (cd "$top/crates/rb_tool" && python3 "$top/bin/unproved.py" "$unproved") >&2; then
        say 'the compilation failed'
        exit 2
    fi
    touch -r "$began" "$unproved"
    rm -f "$began"
    trap - EXIT
}

# Prints how many crates are proved at a time: one for each processor, and at most one for 3 GB of free memory.
jobs() {
    free=$(sed -n 's/^MemAvailable: *\([0-9]*\) kB/\1/p' /proc/meminfo 2>/dev/null || :)
    room=$((${free:-0} / 3000000))
    many=$(nproc 2>/dev/null || echo 1)
    [ "$room" -ge "$many" ] || many=$room
    [ "$many" -gt 0 ] || many=1
    echo "${RESB_JOBS:-$many}"
}

# Proves the program and all crates below it, and builds it. Standard error gets the progress.
prove_and_build() {
    cd "$top/crates/$crate" || return 1
    if python3 "$top/bin/prove.py" --can 2>/dev/null; then
        python3 "$top/bin/prove.py" "$crate" "$(jobs)"
    else
        rt all check --jobs "$(jobs)" 2>&1 && RT_BACKEND=llvm rt run -- --version 2>&1
    fi
}

# Checks whether a process proves behind another command.
is_behind() {
    [ -e "$behind" ] && grep -qF "$top/bin/resb" "/proc/$(cat "$behind")/cmdline" 2>/dev/null
}

# Proves and builds the whole program behind this command, at the lowest priority, unless that is done already.
go_on_behind() {
    ! is_behind && [ "${RESB_NO_BUILD-}" != 1 ] && has_toolchain || return 0
    mkdir -p "${behind%/*}"
    # shellcheck disable=SC2016 # "$0" is the program of the inner shell
    setsid sh -c 'echo 19 2>/dev/null >/proc/self/autogroup; exec nice -n 19 "$0" --version' "$top/bin/resb" \
        </dev/null >"$behind.log" 2>&1 &
    echo $! >"$behind"
    say "the other commands are proved behind this one; kill -- -$! ends that, and the next command continues it"
}

# Ends the process that proves behind another command; what it did is stored.
end_behind() {
    if is_behind && [ "$(cat "$behind")" != $$ ]; then
        say 'continuing what is proved behind another command'
        kill -- "-$(cat "$behind")"
        while is_behind; do sleep 0.1; done
    fi
}

build() {
    end_behind
    takes='25 to 40 minutes'
    [ "$crate" = rb_tool ] || takes='15 to 25 minutes, the other commands 10 more'
    say "proving and building; a first build takes $takes, and one that is interrupted continues where it stopped"
    say 'bin/resb --unproved COMMAND answers in two to three minutes meanwhile'
    log=$(mktemp)
    began=$(mktemp)
    trap 'rm -f "$log" "$began"' EXIT
    if ! prove_and_build </dev/null >"$log" || ! grep -q '^resb ' "$log" || [ ! -x "$program" ]; then
        [ "$crate" != rb_tool ] || rm -f "$behind"
        cat "$log" >&2
        say 'the build failed'
        exit 2
    fi
    mv -f "$began" "${program%/*}/built"
    rm -f "$log"
    trap - EXIT
    if [ "$crate" = rb_tool ]; then
        rm -f "$behind"
    else
        go_on_behind
    fi
}
