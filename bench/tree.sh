#!/bin/bash
# Times ptb --all: bench/tree.sh [OTHER_PTB]
#
# Prints the microseconds that a run takes in listings of 10,000 runs of 4, 25, 110 and 790 commands: the middle and the least of ten
# rounds, and beside them those of another build of ptb where one is named, in turn with it. Then the seconds of a tree whose first thousand
# commands are the same in all of its 100,000 runs, and the runs a second and the memory of trees of 1,000, 100,000 and 1,000,000 runs, also
# of a program that has all the memory there can be and fills the array. At last a tree of 1,000,000 runs by one process, by shares on
# all cores, and as often as there are cores, side by side, which shows what the cores do together.
set -eu
root=$(dirname "$(readlink -f "$0")")/..
program=$root/crates/ptb/out/ptb
other=${1:-}
[ -x "$program" ] || "$root/ptb" <"$root/examples/hello.bas" >/dev/null
room=$(mktemp -d)
trap 'rm -rf "$room"' EXIT

# the nanoseconds that a listing of this program takes
listing_time() {
    local start
    start=$(date +%s%N)
    "$1" --all "$2" </dev/null >/dev/null
    echo $(($(date +%s%N) - start))
}

# the middle and the least of ten times, a line each, as microseconds a run of 10,000
summary() { sort -n | awk '{ t[NR] = $1 } END { printf "%6.2f (least %.2f)", (t[5] + t[6]) / 2 / 1e7, t[1] / 1e7 }'; }

# runs of 5 + 2 * rounds commands, or of 4
for rounds in 0 10 52 392; do
    printf '10 B=RND(10);C=RND(10);D=RND(10);E=RND(10)\n' >"$room/runs.bas"
    commands=4
    if [ "$rounds" -gt 0 ]; then
        printf '20 F.I=1TO%d;A=I/2;N.I\n' "$rounds" >>"$room/runs.bas"
        commands=$((5 + 2 * rounds))
    fi
    : >"$room/times"
    : >"$room/other"
    for _ in 1 2 3 4 5 6 7 8 9 10; do
        listing_time "$program" "$room/runs.bas" >>"$room/times"
        if [ -n "$other" ]; then listing_time "$other" "$room/runs.bas" >>"$room/other"; fi
    done
    printf '%4d commands a run: %s microseconds' "$commands" "$(summary <"$room/times")"
    if [ -n "$other" ]; then printf ', other build %s' "$(summary <"$room/other")"; fi
    printf '\n'
done

# a long beginning that all runs share
printf '10 F.I=1TO500;A=A/2+I*3-I;N.I\n20 B=RND(10)*1000,B=B+RND(10)*100\n30 C=RND(10);D=RND(10);E=RND(10)\n40 P.#1,A+B,C,D,E\n' >"$room/shared.bas"
seconds() { awk -v t="$(listing_time "$1" "$2")" 'BEGIN { printf "%.2f", t / 1e9 }'; }
printf '100,000 runs with 1,001 commands in common: %s s' "$(seconds "$program" "$room/shared.bas")"
if [ -n "$other" ]; then printf ', other build %s s' "$(seconds "$other" "$room/shared.bas")"; fi
printf '\n'

# tree TITLE FILE RUNS WORDS..: the runs a second, and the memory that is held at most
tree() {
    local title=$1 file=$2 runs=$3 start listing peak=0 spent listed
    shift 3
    start=$(date +%s%N)
    "$program" "$@" --all --first "$runs" "$file" </dev/null >"$room/reports" &
    listing=$!
    # the peak of the memory that is held, as long as there is one to read
    while read -r kilobytes < <(awk '/^VmHWM/ { print $2 }' "/proc/$listing/status" 2>/dev/null) && [ -n "$kilobytes" ]; do
        peak=$kilobytes
        sleep 0.01
    done
    wait "$listing"
    spent=$((($(date +%s%N) - start) / 1000000 + 1))
    listed=$(grep -c '^RUN ' "$room/reports")
    printf '%7d runs%s: %7d a second, %d kB of memory\n' "$listed" "$title" $((listed * 1000 / spent)) "$peak"
}

printf '10 PRINT RND(10)+RND(10)+RND(10)+RND(10)+RND(10)+RND(10)\n' >"$room/six.bas"
printf '10 F.I=0TO SIZE/2-1;@(I)=I;N.I\n20 F.I=1TO4;A=A+RND(10);N.I;P.A\n' >"$room/full.bas"
for runs in 1000 100000 1000000; do
    tree '' "$room/six.bas" "$runs"
done
tree ' with a full array' "$room/full.bas" 10000 --memory 32767 --steps 100000

# 1,000,000 runs by one process, by as many as there are cores, one share for each of their first two answers, and by as many that list all of
# them. Processors that are threads of one core do less together than each does alone, so shares are held to the last.
cores=$(nproc)
PTB=$program "$root/tools/shares" "$room/six.bas" 2 </dev/null >"$room/lists"
by_one() { "$program" --all "$room/six.bas" </dev/null >/dev/null; }
# what xargs starts has an empty input
by_shares() { xargs -P "$cores" -I{} "$program" --all --under {} "$room/six.bas" <"$room/lists" >/dev/null; }
side_by_side() {
    for _ in $(seq "$cores"); do by_one & done
    wait
}
# milliseconds COMMAND: how long it takes
milliseconds() {
    local start
    start=$(date +%s%N)
    "$1"
    echo $((($(date +%s%N) - start) / 1000000))
}
for _ in 1 2 3 4 5 6 7 8 9; do
    for way in by_one by_shares side_by_side; do milliseconds "$way" >>"$room/$way"; done
done
middle() { sort -n "$room/$1" | sed -n 5p; }
awk -v one="$(middle by_one)" -v shares="$(middle by_shares)" -v all="$(middle side_by_side)" -v cores="$cores" 'BEGIN {
    printf "1000000 runs: %.2f s by one process, %.2f s by shares on %d cores, %.2f of their number; ", one / 1000, shares / 1000, cores, one / shares / cores
    printf "%d times %.2f s side by side, of which shares reach %.2f\n", cores, all / 1000, all / shares / cores
}'
