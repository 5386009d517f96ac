#!/bin/bash
# Shows how times grow: bench/growth.sh
#
# Each row is one kind of work, once, twice, four and eight times as much of it: commands, runs of a listing, answers of one run, and
# lines for INPUT. A cell has the least of five times in milliseconds, to /dev/null.
set -eu
bench=$(dirname "$(readlink -f "$0")")
program=$bench/../crates/ptb/out/ptb
[ -x "$program" ] || "$bench/../ptb" <"$bench/../examples/hello.bas" >/dev/null
room=$(mktemp -d)
trap 'rm -rf "$room"' EXIT

printf '10 A=A+1;I.A=30000A=0\n20 G.10\n' >"$room/commands.bas"
printf '10 P.RND(10)+RND(10)+RND(10)+RND(10)+RND(10)+RND(10)\n' >"$room/runs.bas"
printf '10 A=RND(6);G.10\n' >"$room/answers.bas"
printf '10 INPUT A;G.10\n' >"$room/lines.bas"

# what does COUNT times a kind of work
work() {
    case $1 in
    commands) "$program" --steps "$2" "$room/commands.bas" </dev/null ;;
    runs) "$program" --all --first "$2" "$room/runs.bas" </dev/null ;;
    answers) "$program" --seed 1 --steps $(($2 * 2)) "$room/answers.bas" </dev/null ;;
    lines) "$program" --steps 1000000000 "$room/lines.bas" <"$room/lines.$2" ;;
    esac >/dev/null 2>&1 || true
}

# prepare KIND COUNT: the lines for INPUT
prepare() {
    if [ "$1" = lines ]; then awk -v n="$2" 'BEGIN { for (k = 0; k < n; k++) print k % 1000 "+" k % 7 }' >"$room/lines.$2"; fi
}

# the least milliseconds of five
least() {
    local start
    for _ in 1 2 3 4 5; do
        start=$(date +%s%N)
        work "$@"
        echo $(($(date +%s%N) - start))
    done | sort -n | awk 'NR == 1 { printf "%.1f", $1 / 1000000 }'
}

# row KIND COUNT TITLE
row() {
    local kind=$1 count=$2 factor cells=()
    shift 2
    for factor in 1 2 4 8; do
        prepare "$kind" $((count * factor))
        cells+=("$(least "$kind" $((count * factor))) ms")
    done
    printf '%s: %s\n' "$*" "$(printf '%s, ' "${cells[@]}" | sed 's/, $//')"
}

row commands 10000000 10,000,000 commands
row runs 100000 100,000 runs of a listing
row answers 1000000 1,000,000 answers of one run
row lines 100000 100,000 lines for INPUT
