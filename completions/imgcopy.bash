# Completion of imgcopy for bash.

_imgcopy() {
    local word=${COMP_WORDS[COMP_CWORD]} before=${COMP_WORDS[COMP_CWORD - 1]} commands options=""
    commands="redo run open backup restore audit verify show list renew help"
    COMPREPLY=()
    if [ "$COMP_CWORD" -eq 1 ] || [ "$COMP_CWORD" -eq 2 -a "${COMP_WORDS[1]}" = help ]; then
        [[ $word == -* ]] && commands="--help --version"
        COMPREPLY=($(compgen -W "$commands" -- "$word"))
        return
    fi
    case $before in
        --pages | --frames | --on | --copy | --from | --to | --txn | --page | --until) return ;;
        --save | --into) compopt -o filenames; COMPREPLY=($(compgen -d -- "$word")); return ;;
        --manifest)
            if [ "${COMP_WORDS[1]}" != run ]; then
                compopt -o filenames
                COMPREPLY=($(compgen -f -- "$word"))
                return
            fi
            ;;
        -o | --output | --log-out | --master) compopt -o filenames; COMPREPLY=($(compgen -f -- "$word")); return ;;
    esac
    case ${COMP_WORDS[1]} in
        redo) options="-o --output --force --until --help" ;;
        run) options="--pages --frames --save --manifest --force --strict --help" ;;
        open) options="--pages --frames --salvage --strict --help" ;;
        backup) options="--on --full --into --help" ;;
        restore) options="--copy -o --output --log-out --force --until --manifest --no-manifest --help" ;;
        audit) options="--all --master --until --manifest --no-manifest --help" ;;
        verify) options="--manifest --no-manifest --help" ;;
        renew) options="--help" ;;
        show) options="--from --to --txn --page --commits --json --help" ;;
        list) options="--json --manifest --no-manifest --help" ;;
    esac
    if [[ $word == -* ]]; then
        COMPREPLY=($(compgen -W "$options" -- "$word"))
        return
    fi
    compopt -o filenames
    case ${COMP_WORDS[1]} in
        open | backup | verify | list | renew) COMPREPLY=($(compgen -d -- "$word")) ;;
        restore | audit | show) COMPREPLY=($(compgen -f -- "$word")) ;;
    esac
}

complete -F _imgcopy imgcopy
