#!/bin/bash
# Runs all tests of the built program, as many scripts at a time as there are processors, and prints what each of them printed.
# The last line is the sum of their counts. PTB names another program than the one that ./ptb builds.
. "$(dirname "$(readlink -f "$0")")/shared/head.sh"

# tried SCRIPT ARGUMENT..: a script that is run
tried() { echo "$*" >>"$folder/scripts"; }

# run SCRIPT ARGUMENT..: runs a script, and leaves what it prints and its status in files of its name
run() {
    "$root/tests/$1" "${@:2}" >"$folder/$1.output" 2>"$folder/$1.errors"
    echo $? >"$folder/$1.status"
}

# counted SCRIPT: prints what a script printed, and adds what it counted. One that ends without a count, or with a status that
# does not fit its count, is a failure.
counted() {
    local last
    echo "== $1"
    cat "$folder/$1.errors" >&2
    cat "$folder/$1.output"
    last=$(tail -n 1 "$folder/$1.output")
    if [[ $last =~ ^([0-9]+)\ passed,\ ([0-9]+)\ failed$ ]] &&
        [ "$(cat "$folder/$1.status")" = $((BASH_REMATCH[2] > 0)) ]; then
        passed=$((passed + BASH_REMATCH[1]))
        failed=$((failed + BASH_REMATCH[2]))
    else
        failed=$((failed + 1))
    fi
}

tried binary.sh
tried listings.py
tried builds.sh
tried dev.sh
tried installation.sh
tried releases.sh
tried resumption.sh
tried shares.sh
tried tools.py
tried chances.py
tried terminal.py
tried documents.py
tried bugs.py
tried promises.py
tried refusals.sh
tried extremes.sh
tried stress.sh 1 30

# the program is built before the scripts start, and those that take longest, the last ones, are started first
[ -n "${PTB-}" ] || "$root/tools/is-built" || "$root/build" </dev/null || exit
export -f run
export root folder
tac "$folder/scripts" | xargs -P "$(nproc)" -L 1 bash -c 'run "$@"' run
while read -r script _; do counted "$script"; done <"$folder/scripts"
conclude
