#!/bin/bash
# Times ptb --chances: bench/chances.sh [OTHER_PTB]
#
# Prints the milliseconds that tables of chances take, written to /dev/null: of 100 and of 200 tosses of a coin, of craps with 20 throws, and
# of a gambler's ruin with 1,000 rounds, whose runs nobody can list. Then those of 16 tosses, and of a program with 100,000 runs that are
# never in one state, each beside the listing of these runs by --all, in turn with it. Each is the middle and the least of ten rounds, and
# beside them those of another build of ptb where one is named. At last the memory that 1,000 and 10,000 states take that wait at once.
set -eu
root=$(dirname "$(readlink -f "$0")")/..
program=$root/crates/ptb/out/ptb
other=${1:-}
[ -x "$program" ] || "$root/ptb" <"$root/examples/hello.bas" >/dev/null
room=$(mktemp -d)
trap 'rm -rf "$room"' EXIT

tosses() { printf '10 F.I=1TO%d;A=A+RND(2)*2-3;N.I\n20 P.#1,A\n' "$1"; }
tosses 16 >"$room/sixteen.bas"
tosses 100 >"$room/tosses.bas"
tosses 200 >"$room/more_tosses.bas"
cp "$root/examples/craps.bas" "$room/craps.bas"
printf '10 A=10;F.I=1TO1000\n20 A=A+RND(2)*2-3;IF A*(20-A)=0 P.#1,A;STOP\n30 N.I\n40 P.A\n' >"$room/ruin.bas"
printf '10 A=RND(10);B=RND(10);C=RND(10);D=RND(10)\n20 P.A\n' >"$room/fewer_apart.bas"
printf '10 A=RND(10);B=RND(10);C=RND(10);D=RND(10);E=RND(10)\n20 P.A\n' >"$room/apart.bas"

# time_of BUILD OPTION FILE: the nanoseconds that a table or a listing takes
time_of() {
    local start
    start=$(date +%s%N)
    "$1" "$2" "$room/$3.bas" </dev/null >/dev/null
    echo $(($(date +%s%N) - start))
}

# the middle and the least of ten times, a line each, as milliseconds
summary() { sort -n "$room/$1" | awk '{ t[NR] = $1 } END { printf "%.1f ms (least %.1f)", (t[5] + t[6]) / 2 / 1e6, t[1] / 1e6 }'; }

# row TITLE FILE [listed]: the times of a table, and of the listing of its runs
row() {
    rm -f "$room/times" "$room/listing" "$room/other"
    for _ in 1 2 3 4 5 6 7 8 9 10; do
        time_of "$program" --chances "$2" >>"$room/times"
        if [ -n "${3:-}" ]; then time_of "$program" --all "$2" >>"$room/listing"; fi
        if [ -n "$other" ]; then time_of "$other" --chances "$2" >>"$room/other"; fi
    done
    printf '%s: %s' "$1" "$(summary times)"
    if [ -n "${3:-}" ]; then printf ', the listing %s' "$(summary listing)"; fi
    if [ -n "$other" ]; then printf ', other build %s' "$(summary other)"; fi
    printf '\n'
}

row '100 tosses' tosses
row '200 tosses' more_tosses
row 'craps with 20 throws' craps
row 'ruin with 1,000 rounds' ruin
row '16 tosses, 65,536 runs' sixteen listed
row '100,000 runs never in one state' apart listed

# memory FILE: the most memory that a table takes, in kB
memory() {
    local counting peak=0 kilobytes
    "$program" --chances "$room/$1.bas" </dev/null >/dev/null &
    counting=$!
    while read -r kilobytes < <(awk '/^VmHWM/ { print $2 }' "/proc/$counting/status" 2>/dev/null) && [ -n "$kilobytes" ]; do
        peak=$kilobytes
        sleep 0.01
    done
    wait "$counting"
    echo "$peak"
}
# before their last question, the runs are in 1,000 and in 10,000 states
fewer=$(memory fewer_apart)
more=$(memory apart)
printf 'memory: %d kB for 1,000 states, %d kB for 10,000, so %d bytes a state\n' "$fewer" "$more" $(((more - fewer) * 1024 / 9000))
