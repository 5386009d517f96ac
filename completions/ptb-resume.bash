# This file completes the arguments of ptb-resume in bash: a file, --, and the command with its own completions.

_ptb_resume() {
    local current=${COMP_WORDS[COMP_CWORD]}
    COMPREPLY=()
    case $COMP_CWORD:$current in
    1:-*) mapfile -t COMPREPLY < <(compgen -W '--help -h --version -V' -- "$current") ;;
    1:*) mapfile -t COMPREPLY < <(compgen -f -- "$current") ;;
    2:*) COMPREPLY=(--) ;;
    *) if declare -F _command_offset >/dev/null; then _command_offset 3; fi ;;
    esac
}

complete -o filenames -o default -F _ptb_resume ptb-resume
