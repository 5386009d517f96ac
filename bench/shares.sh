#!/bin/bash
# Times ptb --all --shares: bench/shares.sh [OTHER_PTB]
#
# Prints the seconds that 10,000 lists take, written to /dev/null: of four throws of a die with ten sides, and of the same after a loop
# of 2002 commands. Each is the middle and the least of ten rounds, and beside them those of another build of ptb where one is named, in
# turn with it.
set -eu
root=$(dirname "$(readlink -f "$0")")/..
program=$root/crates/ptb/out/ptb
other=${1:-}
[ -x "$program" ] || "$root/ptb" <"$root/examples/hello.bas" >/dev/null
room=$(mktemp -d)
trap 'rm -rf "$room"' EXIT

printf '10 F.I=1TO9;S=S+RND(10);N.I\n20 P.S\n' >"$room/throws.bas"
printf '5 F.I=1TO1000;A=I;N.I\n10 F.I=1TO9;S=S+RND(10);N.I\n20 P.S\n' >"$room/after_a_loop.bas"

# the nanoseconds that the lists of this program take
lists_time() {
    local start
    start=$(date +%s%N)
    "$1" --all --shares 4 "$2" </dev/null >/dev/null
    echo $(($(date +%s%N) - start))
}

# the middle and the least of ten times, a line each, as seconds
summary() { sort -n | awk '{ t[NR] = $1 } END { printf "%5.2f (least %.2f)", (t[5] + t[6]) / 2 / 1e9, t[1] / 1e9 }'; }

for file in throws after_a_loop; do
    : >"$room/times"
    : >"$room/other"
    for _ in 1 2 3 4 5 6 7 8 9 10; do
        lists_time "$program" "$room/$file.bas" >>"$room/times"
        if [ -n "$other" ]; then lists_time "$other" "$room/$file.bas" >>"$room/other"; fi
    done
    printf '%d lists of %s: %s seconds' "$("$program" --all --shares 4 "$room/$file.bas" </dev/null | wc -l)" "$file" "$(summary <"$room/times")"
    if [ -n "$other" ]; then printf ', other build %s' "$(summary <"$room/other")"; fi
    printf '\n'
done
