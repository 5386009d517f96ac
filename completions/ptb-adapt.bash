# This file completes the arguments of ptb-adapt in bash.

_ptb_adapt() {
    local current=${COMP_WORDS[COMP_CWORD]} previous=${COMP_WORDS[COMP_CWORD - 1]} options
    options='--dialect --separator --random --quiet -q --help -h --version -V'
    COMPREPLY=()
    case $previous:$current in
    --dialect:*) mapfile -t COMPREPLY < <(compgen -W 'palo-alto pittman denver microsoft' -- "$current") ;;
    --random:*) mapfile -t COMPREPLY < <(compgen -W 'fraction zero one' -- "$current") ;;
    --separator:*) ;;
    *:-*) mapfile -t COMPREPLY < <(compgen -W "$options" -- "$current") ;;
    *) mapfile -t COMPREPLY < <(compgen -f -- "$current") ;;
    esac
}

complete -o filenames -F _ptb_adapt ptb-adapt
