# The head of the scripts of tests, which read this file first. It names the root of the repository in root, the program in
# ptb, and in folder a folder that is removed at the end. It counts checks: in passed those that hold, in failed the others.
set -u
root=$(dirname "$(dirname "$(readlink -f "$0")")")
ptb=${PTB:-$root/ptb}
folder=$(mktemp -d)
trap 'rm -rf "$folder"' EXIT
passed=0
failed=0

# Counts a check by whether it holds.
count() {
    if [ "$2" = yes ]; then
        passed=$((passed + 1))
    else
        failed=$((failed + 1))
        echo "failed: $1"
    fi
}

# count_if NAME COMMAND ARGUMENT..: a check that holds if the command succeeds
count_if() {
    local name=$1
    shift
    if "$@"; then count "$name" yes; else count "$name" no; fi
}

# count_same NAME TEXT DUE: a check that holds if the texts are the same
count_same() {
    if [ "$2" = "$3" ]; then
        count "$1" yes
    else
        count "$1" no
        printf '    said: %s\n    due:  %s\n' "$2" "$3" >&2
    fi
}

# Prints the counts, as the last command of a script; its status says whether all checks hold.
conclude() {
    echo "$passed passed, $failed failed"
    [ "$failed" = 0 ]
}
