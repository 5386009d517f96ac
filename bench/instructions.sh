#!/bin/bash
# Counts the instructions of the processor for a command, by valgrind: bench/instructions.sh [OTHER_PTB]
#
# Each loop of bench/steps/ does 50,000 commands, and so do a loop with RND and one with INPUT. Those of a program that stops at once are
# taken off. Then the instructions for one more run of a listing. The counts do not depend on what else the machine does.
set -eu
bench=$(dirname "$(readlink -f "$0")")
program=$bench/../crates/ptb/out/ptb
other=${1:-}
[ -x "$program" ] || "$bench/../ptb" <"$bench/../examples/hello.bas" >/dev/null
room=$(mktemp -d)
trap 'rm -rf "$room"' EXIT

for name in sum let_if_goto let_next nested_for gosub expression sieve print primes; do
    sed 's/ROUNDS/300/' "$bench/steps/$name.bas" >"$room/$name.bas"
done
printf '10 A=RND(6);G.10\n' >"$room/rnd.bas"
printf '10 INPUT A;G.10\n' >"$room/input.bas"
printf '10 STOP\n' >"$room/stop.bas"
printf '10 F.I=1TO6;A=A+RND(6);N.I;P.A\n' >"$room/dice.bas"
awk 'BEGIN { for (k = 0; k < 25000; k++) print k % 1000 "+" k % 7 }' >"$room/lines"

# instructions PTB ARGUMENT..
instructions() {
    valgrind --tool=callgrind --callgrind-out-file="$room/out" "$@" <"$room/lines" 2>&1 >/dev/null |
        sed -n 's/.*Collected : \([0-9]*\)$/\1/p'
}

# for_a_command PTB FILE, for_a_run PTB
for_a_command() {
    local all none
    all=$(instructions "$1" --seed 1 --steps 50000 --memory 32767 "$2")
    none=$(instructions "$1" --seed 1 --memory 32767 "$room/stop.bas")
    echo $(((all - none + 25000) / 50000))
}
for_a_run() {
    local all some
    all=$(instructions "$1" --all --first 2000 "$room/dice.bas")
    some=$(instructions "$1" --all --first 1000 "$room/dice.bas")
    echo $(((all - some + 500) / 1000))
}

# row TITLE COMMAND ARGUMENT..
row() {
    local title=$1 command=$2
    shift 2
    printf '%s: %d' "$title" "$("$command" "$program" "$@")"
    if [ -n "$other" ]; then printf ', other build %d' "$("$command" "$other" "$@")"; fi
    printf '\n'
}

row 'a sum and a jump' for_a_command "$room/sum.bas"
row 'LET, IF and GOTO' for_a_command "$room/let_if_goto.bas"
row 'LET and NEXT' for_a_command "$room/let_next.bas"
row 'nested FOR' for_a_command "$room/nested_for.bas"
row 'GOSUB and RETURN' for_a_command "$room/gosub.bas"
row 'two long expressions' for_a_command "$room/expression.bas"
row 'a sieve' for_a_command "$room/sieve.bas"
row 'PRINT of nine items' for_a_command "$room/print.bas"
row 'primes by a subroutine' for_a_command "$room/primes.bas"
row 'RND and GOTO' for_a_command "$room/rnd.bas"
row 'INPUT and GOTO' for_a_command "$room/input.bas"
row 'one more run of a dice game of 20 commands' for_a_run
