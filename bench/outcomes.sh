#!/bin/bash
# Prints the seconds of the processor that tools/outcomes takes for a million reports, the least of five: bench/outcomes.sh
#
# Two listings are read. In the first one the runs have seven outcomes; in the second one each run is an
# outcome of its own. The reports are of three answers each.
set -eu
root=$(dirname "$(readlink -f "$0")")/..
reports=$(mktemp)
trap 'rm -f "$reports"' EXIT
TIMEFORMAT='%U'
for outcomes in 7 1000000; do
    awk -v outcomes=$outcomes 'BEGIN {
        for (k = 0; k < 1000000; k++)
            printf "RUN %d/100,%d/100,%d/100 END 4 7\n%6d\n\n", 1 + int(k / 10000), 1 + int(k / 100) % 100, 1 + k % 100, k % outcomes
    }' >"$reports"
    seconds=$(for _ in 1 2 3 4 5; do
        { time "$root/tools/outcomes" <"$reports" >/dev/null; } 2>&1
    done | sort -n | head -n 1)
    echo "$outcomes outcomes: $seconds seconds"
done
