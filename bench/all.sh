#!/bin/bash
# Writes the tables of docs/performance.md again: bench/all.sh [TABLE ..]
#
# It runs the other scripts of this folder, one after the other, and puts what they print between the marks `<!-- TABLE -->` and
# `<!-- end -->` of the page. Run it on a machine that does nothing else.
set -eu
bench=$(dirname "$(readlink -f "$0")")
page=$bench/../docs/performance.md
room=$(mktemp -d)
trap 'rm -rf "$room"' EXIT

# rows SCRIPT: its lines `title: result` as rows of a table, with the script
rows() {
    "$bench/$1" | tee /dev/stderr | sed -E "s/^ *([^:]*): +(.*)\$/| \1 | \2 | \`bench\/$1\` |/"
}

# the lines `title: N commands, ptb M ms, OTHER M ms (R), ..` of steps.sh as rows
loops() {
    "$bench/steps.sh" 10 | tee /dev/stderr | sed -E -e 's/^(.*): ([0-9]+) commands, ptb ([0-9]+) ms/| \1 | \2 | \3 |/' \
        -e 's/, [a-z0-9.]+ ([0-9]+) ms \(([0-9.]+)\)/ \1 (\2) |/g' -e 's/\|\|/|/g'
}

head_of() {
    case $1 in
    loops) printf '| Loop | Commands | ptb | Lua 5.4 | yabasic |\n|---|---|---|---|---|\n' ;;
    instructions) printf '| Loop | Instructions | Command |\n|---|---|---|\n' ;;
    *) printf '| What | Result | Command |\n|---|---|---|\n' ;;
    esac
}

body_of() {
    case $1 in
    loops) loops ;;
    instructions) rows instructions.sh ;;
    listings) rows tree.sh && rows sample.sh && rows shares.sh ;;
    chances) rows chances.sh ;;
    input) rows input.sh ;;
    loading) rows loads.sh ;;
    growth) rows growth.sh ;;
    esac
}

# put NAME: a table in its place
put() {
    { head_of "$1" && body_of "$1"; } >"$room/table"
    awk -v begins="<!-- $1 -->" -v table="$room/table" '
        $0 == begins { print; while ((getline line < table) > 0) print line; inside = 1 }
        $0 == "<!-- end -->" { inside = 0 }
        !inside && $0 != begins { print }' "$page" >"$room/page"
    cp "$room/page" "$page"
}

[ $# -gt 0 ] || set -- loops instructions listings chances input loading growth
for name; do put "$name"; done
