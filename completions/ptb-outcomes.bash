# This file completes the arguments of ptb-outcomes in bash.

_ptb_outcomes() {
    local current=${COMP_WORDS[COMP_CWORD]} previous=${COMP_WORDS[COMP_CWORD - 1]} options
    options='--by --match --top --sampled --merge --program --options --csv --json --html --help -h --version -V'
    COMPREPLY=()
    case $previous:$current in
    --by:*) mapfile -t COMPREPLY < <(compgen -W 'outcome ending last-line answer:' -- "$current") ;;
    --match:* | --top:* | --options:*) ;;
    --html:* | --program:*) mapfile -t COMPREPLY < <(compgen -f -- "$current") ;;
    *:-*) mapfile -t COMPREPLY < <(compgen -W "$options" -- "$current") ;;
    *) mapfile -t COMPREPLY < <(compgen -f -- "$current") ;;
    esac
}

complete -o filenames -F _ptb_outcomes ptb-outcomes
