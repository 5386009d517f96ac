#!/bin/bash
# Times loading and translation: bench/loads.sh [OTHER_PTB]
#
# Three programs stop at their first command: one of a single line, and two of some 32 KB, with short lines and with long ones. A row
# has the milliseconds of a run, with the start of the process, and those of --list, which loads the program and prints it; a run loads
# it and translates it. They are the middle of ten rounds of ten runs, and beside them those of another build where one is named.
set -eu
bench=$(dirname "$(readlink -f "$0")")
program=$bench/../crates/ptb/out/ptb
other=${1:-}
[ -x "$program" ] || "$bench/../ptb" <"$bench/../examples/hello.bas" >/dev/null
room=$(mktemp -d)
trap 'rm -rf "$room"' EXIT

printf '1 STOP\n' >"$room/one.bas"
awk 'BEGIN { print "1 STOP"; for (k = 2; k < 3000; k++) print k, "A=A+" k % 9 }' >"$room/short.bas"
awk 'BEGIN { print "1 STOP"; for (k = 2; k < 470; k++) print k, "IF A>(B+" k "*3)/2 LET @(I)=@(I+1)-C*(D-" k "); PRINT #6,A,B; GOTO 1" }' >"$room/long.bas"

# the microseconds of one of ten runs
time_of() {
    local start
    start=$(date +%s%N)
    for _ in 1 2 3 4 5 6 7 8 9 10; do "$@" </dev/null >/dev/null; done
    echo $((($(date +%s%N) - start) / 10000))
}

# the middle of ten rounds, in milliseconds
middle() { sort -n "$1" | awk '{ t[NR] = $1 } END { printf "%.2f ms", (t[5] + t[6]) / 2000 }'; }

row() {
    local file=$room/$1.bas name
    shift
    for name in run list other; do : >"$room/times.$name"; done
    for _ in 1 2 3 4 5 6 7 8 9 10; do
        time_of "$program" --memory 32767 "$file" >>"$room/times.run"
        time_of "$program" --memory 32767 --list "$file" >>"$room/times.list"
        if [ -n "$other" ]; then time_of "$other" --memory 32767 "$file" >>"$room/times.other"; fi
    done
    printf '%s: a run %s, --list %s' "$*" "$(middle "$room/times.run")" "$(middle "$room/times.list")"
    if [ -n "$other" ]; then printf ', a run by the other build %s' "$(middle "$room/times.other")"; fi
    printf '\n'
}

row one a program of one line
row short "a program of $(wc -c <"$room/short.bas") bytes in $(wc -l <"$room/short.bas") lines"
row long "a program of $(wc -c <"$room/long.bas") bytes in $(wc -l <"$room/long.bas") lines"
