# This file completes the arguments of ptb-shares in bash: a program, a depth, and options.

_ptb_shares() {
    local current=${COMP_WORDS[COMP_CWORD]} previous=${COMP_WORDS[COMP_CWORD - 1]}
    COMPREPLY=()
    case $COMP_CWORD:$previous:$current in
    1:*:-*) mapfile -t COMPREPLY < <(compgen -W '--help -h --version -V' -- "$current") ;;
    1:*) mapfile -t COMPREPLY < <(compgen -f -X '!*.bas' -- "$current"; compgen -d -- "$current") ;;
    2:* | *:--steps:* | *:--memory:* | *:--choose:*) ;;
    *) mapfile -t COMPREPLY < <(compgen -W '--steps --memory --choose' -- "$current") ;;
    esac
}

complete -o filenames -F _ptb_shares ptb-shares
