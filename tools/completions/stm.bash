# Completions of stm for bash: source this file, or put it where bash-completion looks.
_stm() {
    local word=${COMP_WORDS[COMP_CWORD]} command=${COMP_WORDS[1]}
    local commands="run check world explore print explain help"
    local options="--help"
    case $command in
    run) options="--workers --tries --checkpoint --seed --help" ;;
    check) options="--after --help" ;;
    print) options="--from --after --help" ;;
    explore) options="--states --to --find --deny --dot --help" ;;
    explain) options="--schedule --after --help" ;;
    esac
    if [ "$COMP_CWORD" -eq 1 ]; then
        COMPREPLY=($(compgen -W "$commands --help --version" -- "$word"))
    elif [ "$command" = help ]; then
        COMPREPLY=($(compgen -W "$commands" -- "$word"))
    elif [ "${COMP_WORDS[COMP_CWORD - 1]}" = --deny ]; then
        COMPREPLY=($(compgen -W "parked threw broke overflow zerodiv outside" -- "$word"))
    elif [ "${word#-}" != "$word" ]; then
        COMPREPLY=($(compgen -W "$options" -- "$word"))
    else
        COMPREPLY=($(compgen -f -- "$word"))
    fi
}
complete -o filenames -F _stm stm
