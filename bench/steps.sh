#!/bin/bash
# Times loops in ptb, and in Lua 5.4 and yabasic where they are installed: bench/steps.sh [SERIES]
#
# Each loop of bench/steps/ does the same work in each of them, and all must print the same number at its end. They run in turn, ten times or as
# often as SERIES says. A row has ptb's commands and the middle of its times; for each of the others the middle of its times, and how
# many times ptb's that is.
set -eu
bench=$(dirname "$(readlink -f "$0")")
program=$bench/../crates/ptb/out/ptb
series=${1:-10}
[ -x "$program" ] || "$bench/../ptb" <"$bench/../examples/hello.bas" >/dev/null
room=$(mktemp -d)
trap 'rm -rf "$room"' EXIT

# the rounds of each loop, and what it is
loops() {
    cat <<'LOOPS'
sum 200 a sum and a jump
let_if_goto 100 LET, IF and GOTO
let_next 300 LET and NEXT, with three operators
nested_for 600 nested FOR
gosub 100 GOSUB and RETURN
expression 80 two long expressions
sieve 100 a sieve of 8,000 elements
print 20 PRINT of nine items, to a file
primes 400 primes by a subroutine
LOOPS
}

others() {
    for other in lua5.4 yabasic; do
        if command -v "$other" >/dev/null; then echo "$other"; fi
    done
}

# the kind of file that an interpreter runs
kind() {
    case $1 in
    ptb) echo bas ;;
    lua5.4) echo lua ;;
    yabasic) echo yab ;;
    esac
}

# run INTERPRETER FILE: its output is kept in a file
run() {
    case $1 in
    ptb) "$program" --steps 1000000000 --memory 32767 "$2" ;;
    *) "$1" "$2" ;;
    esac </dev/null >"$room/output" 2>/dev/null
}

# the microseconds of a run
time_of() {
    local start
    start=$(date +%s%N)
    run "$@"
    echo $((($(date +%s%N) - start) / 1000))
}

# the middle of the numbers of a file
middle() { sort -n "$1" | awk '{ t[NR] = $1 } END { print (t[int((NR + 1) / 2)] + t[int(NR / 2) + 1]) / 2 }'; }

# the last number that was printed, by which the work is compared
result() { tr -c '0-9\n-' '\n' <"$room/output" | grep -E '^-?[0-9]+$' | tail -n 1; }

# the commands that a loop is for ptb
commands() { "$program" --all --steps 1000000000 --memory 32767 "$1" </dev/null | sed -n '1s/^RUN none [A-Z]* \([0-9]*\) .*/\1/p'; }

# prepare NAME ROUNDS: writes the programs of a loop, and says of which interpreters there are some
prepare() {
    local other file
    for other in ptb $(others); do
        file=$bench/steps/$1.$(kind "$other")
        [ -f "$file" ] || continue
        sed "s/ROUNDS/$2/" "$file" >"$room/program.$(kind "$other")"
        : >"$room/times.$other"
        echo "$other"
    done
}

# cell OTHER MIDDLE: the time of another interpreter, and how many times ptb's it is
cell() {
    awk -v name="$1" -v time="$(middle "$room/times.$1")" -v own="$2" \
        'BEGIN { printf ", %s %.0f ms (%.2f)", name, time / 1000, time / own }'
}

row() {
    local name=$1 rounds=$2 title=$3 interpreters other own due
    interpreters=$(prepare "$name" "$rounds")
    for _ in $(seq "$series"); do
        for other in $interpreters; do
            time_of "$other" "$room/program.$(kind "$other")" >>"$room/times.$other"
            if [ "$other" = ptb ]; then
                due=$(result)
            elif [ "$(result)" != "$due" ]; then
                echo "$title: $other prints $(result), and ptb $due" >&2
                exit 1
            fi
        done
    done
    own=$(middle "$room/times.ptb")
    printf '%s: %d commands, ptb %.0f ms' "$title" "$(commands "$room/program.bas")" "$(awk -v t="$own" 'BEGIN { print t / 1000 }')"
    for other in $interpreters; do
        if [ "$other" != ptb ]; then cell "$other" "$own"; fi
    done
    printf '\n'
}

loops | while read -r name rounds title; do row "$name" "$rounds" "$title"; done
