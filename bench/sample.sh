#!/bin/bash
# Times ptb --sample: bench/sample.sh [OTHER_PTB]
#
# Prints the seconds that a million sampled runs take, written to /dev/null, in three programs: a dice game of 25 commands and seven
# questions, one roll of a die, and a loop of 109 commands with four questions. Each is the middle and the least of ten rounds, and
# beside them those of another build of ptb where one is named, in turn with it. Then the memory for a thousand runs and for a million.
set -eu
root=$(dirname "$(readlink -f "$0")")/..
program=$root/crates/ptb/out/ptb
other=${1:-}
[ -x "$program" ] || "$root/ptb" <"$root/examples/hello.bas" >/dev/null
room=$(mktemp -d)
trap 'rm -rf "$room"' EXIT

printf '10 S=0;T=0;F.I=1TO7\n20 D=RND(6);S=S+D\n30 N.I\n40 P.S\n' >"$room/game.bas"
printf '10 P.RND(6)\n' >"$room/roll.bas"
printf '10 B=RND(10);C=RND(10);D=RND(10);E=RND(10)\n20 F.I=1TO52;A=I/2;N.I\n' >"$room/loop.bas"

# the nanoseconds that a sample of this program takes
sample_time() {
    local start
    start=$(date +%s%N)
    "$1" --seed 1 --sample 1000000 "$2" </dev/null >/dev/null
    echo $(($(date +%s%N) - start))
}

# the middle and the least of ten times, a line each, as seconds
summary() { sort -n | awk '{ t[NR] = $1 } END { printf "%5.2f (least %.2f)", (t[5] + t[6]) / 2 / 1e9, t[1] / 1e9 }'; }

for file in game roll loop; do
    : >"$room/times"
    : >"$room/other"
    for _ in 1 2 3 4 5 6 7 8 9 10; do
        sample_time "$program" "$room/$file.bas" >>"$room/times"
        if [ -n "$other" ]; then sample_time "$other" "$room/$file.bas" >>"$room/other"; fi
    done
    printf '1000000 runs of the %s: %s seconds' "$file" "$(summary <"$room/times")"
    if [ -n "$other" ]; then printf ', other build %s' "$(summary <"$room/other")"; fi
    printf '\n'
done

# memory RUNS: the most memory that is held for so many runs, in kB
memory() {
    local sampling peak=0 kilobytes
    "$program" --seed 1 --sample "$1" "$room/game.bas" </dev/null >/dev/null &
    sampling=$!
    while read -r kilobytes < <(awk '/^VmHWM/ { print $2 }' "/proc/$sampling/status" 2>/dev/null) && [ -n "$kilobytes" ]; do
        peak=$kilobytes
        sleep 0.01
    done
    wait "$sampling"
    echo "$peak"
}
printf 'memory: %d kB for 100000 runs, %d kB for 1000000\n' "$(memory 100000)" "$(memory 1000000)"
