# This file completes the arguments of ptb in bash, as soon as bash has read it.

_ptb() {
    local current=${COMP_WORDS[COMP_CWORD]} previous=${COMP_WORDS[COMP_CWORD - 1]}
    COMPREPLY=()
    case $previous in
    --answers | --under | --after)
        mapfile -t COMPREPLY < <(compgen -W 'none' -- "$current")
        return
        ;;
    --form)
        mapfile -t COMPREPLY < <(compgen -W '1 2' -- "$current")
        return
        ;;
    --steps | --memory | --choose | --seed | --first | --shares | --sample)
        # a number; no file is offered in its place
        compopt +o default 2>/dev/null
        return
        ;;
    esac
    case $current in
    -*)
        mapfile -t COMPREPLY < <(compgen -W \
            '--steps --memory --choose --answers --seed --all --under --after --first --shares --sample --form --chances --list --check --help -h --version -V' -- "$current")
        ;;
    *)
        mapfile -t COMPREPLY < <(compgen -f -X '!*.bas' -- "$current"; compgen -d -- "$current")
        ;;
    esac
}

complete -o filenames -o default -F _ptb ptb
