# Completion of resb for bash: source this file, or put it into /usr/share/bash-completion/completions/resb.
_resb() {
    local word=${COMP_WORDS[COMP_CWORD]} before=${COMP_WORDS[COMP_CWORD - 1]} flags= formats=
    local commands='compile check get lint fmt coverage init explain lines look text json diff serve help --help --version'
    if [ "$COMP_CWORD" -eq 1 ]; then
        COMPREPLY=($(compgen -W "$commands" -- "$word"))
        return
    fi
    case ${COMP_WORDS[1]} in
        # options, by tools/pages
        compile) flags='--to --from --json --no-fallback --force --quiet --help' ;;
        check) flags='--json --quiet --help' ;;
        get) flags='--raw --help' ;;
        lint) flags='--against --root --allow --deny --strict --all --format --color --name --config --no-config --list --help' formats='text full json sarif github' ;;
        fmt) flags='--check --diff --quiet --config --no-config --help' ;;
        coverage) flags='--parents --cldr-parents --format --config --no-config --help' formats='table list json csv' ;;
        init) flags='--help' ;;
        explain) flags='--help' ;;
        lines) flags='--op --json --help' ;;
        look) flags='--parents --cldr-parents --trace --help' ;;
        text) flags='--name --help' ;;
        json) flags='--inherit --parents --cldr-parents --path --pretty --help' ;;
        diff) flags='--json --stat --config --no-config --help' ;;
        serve) flags='--parents --cldr-parents --app-bytes --bundle-bytes --reply-bytes --line-bytes --apps --steps --keep-serving --extended --help' ;;
        # end
    esac
    case $before in
        --to) COMPREPLY=($(compgen -d -- "$word")) && return ;;
        --app-bytes | --bundle-bytes | --reply-bytes | --line-bytes | --apps | --steps) COMPREPLY=() && return ;;
        --allow | --deny) COMPREPLY=($(compgen -W "$(resb lint --list 2>/dev/null | cut -d: -f1)" -- "$word")) && return ;;
        --format) COMPREPLY=($(compgen -W "$formats" -- "$word")) && return ;;
        explain) COMPREPLY=($(compgen -W "$(resb explain 2>/dev/null | sed -n 's/^  \([A-Za-z]*\):.*/\1/p')" -- "$word")) && return ;;
        help) COMPREPLY=($(compgen -W "$commands" -- "$word")) && return ;;
        --op) COMPREPLY=($(compgen -W 'install replace' -- "$word")) && return ;;
        --color) COMPREPLY=($(compgen -W 'auto always never' -- "$word")) && return ;;
    esac
    case $word in
        -*) COMPREPLY=($(compgen -W "$flags" -- "$word")) ;;
        *) COMPREPLY=($(compgen -f -- "$word")) ;;
    esac
}
complete -o filenames -F _resb resb
