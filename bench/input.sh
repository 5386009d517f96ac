#!/bin/bash
# Times INPUT: bench/input.sh [OTHER_PTB]
#
# `10 INPUT A;GOTO 10` reads 200,000 lines, and so does bench/input.c, a C program that works out the same expressions and prints the same
# bytes. There are three inputs: written numbers, sums and products, and expressions with A, with parentheses, and with mistakes. A row has
# the middle of the times of ten rounds, to /dev/null, in turn, and how many times the one of C that of ptb is. Where another build of
# ptb is named, its middle is beside them.
set -eu
bench=$(dirname "$(readlink -f "$0")")
program=$bench/../crates/ptb/out/ptb
other=${1:-}
[ -x "$program" ] || "$bench/../ptb" <"$bench/../examples/hello.bas" >/dev/null
room=$(mktemp -d)
trap 'rm -rf "$room"' EXIT

cc -O2 -o "$room/input" "$bench/input.c"
printf '10 INPUT A;GOTO 10\n' >"$room/input.bas"
awk 'BEGIN { for (k = 0; k < 200000; k++) print (k * 7919) % 32768 }' >"$room/numbers"
awk 'BEGIN { for (k = 0; k < 200000; k++) print k % 97 "*" k % 89 "+" k % 1009 "-" k % 13 }' >"$room/sums"
awk 'BEGIN {
    for (k = 0; k < 200000; k++)
        if (k % 50 == 49) print (k % 100 == 99 ? "1/0" : "")
        else print "(A+" k % 31 ")/2*" k % 7 " > A-" k % 11
}' >"$room/expressions"

# the statuses of a run that ends for lack of a line
by_ptb() { "$1" --steps 1000000 "$room/input.bas" <"$2" || [ $? = 5 ]; }
by_c() { "$room/input" <"$1"; }

# the microseconds of a command
time_of() {
    local start
    start=$(date +%s%N)
    "$@" >/dev/null 2>&1
    echo $((($(date +%s%N) - start) / 1000))
}

# the middle of the numbers of a file
middle() { sort -n "$1" | awk '{ t[NR] = $1 } END { print (t[int((NR + 1) / 2)] + t[int(NR / 2) + 1]) / 2 }'; }

row() {
    local input=$room/$1 name
    if ! cmp -s <(by_ptb "$program" "$input" 2>/dev/null) <(by_c "$input"); then
        echo "$1: ptb and the C program print different bytes" >&2
        exit 1
    fi
    for name in ptb c other; do : >"$room/times.$name"; done
    for _ in 1 2 3 4 5 6 7 8 9 10; do
        time_of by_ptb "$program" "$input" >>"$room/times.ptb"
        time_of by_c "$input" >>"$room/times.c"
        if [ -n "$other" ]; then time_of by_ptb "$other" "$input" >>"$room/times.other"; fi
    done
    printf '200000 lines of %s: ' "$1"
    awk -v own="$(middle "$room/times.ptb")" -v c="$(middle "$room/times.c")" \
        'BEGIN { printf "%.0f ms, a C program %.0f ms (%.2f)", own / 1000, c / 1000, own / c }'
    if [ -n "$other" ]; then printf ', other build %.0f ms' "$(awk -v t="$(middle "$room/times.other")" 'BEGIN { print t / 1000 }')"; fi
    printf '\n'
}

for input in numbers sums expressions; do row "$input"; done
