#!/bin/sh
# Times ptb on program texts: bench/time.sh [OPTION.. --] FILE..
# The best of five runs of each file, in seconds. Options before `--` go to ptb.
set -eu
root=$(dirname "$(readlink -f "$0")")/..
program=$root/crates/ptb/out/ptb
[ -x "$program" ] || "$root/ptb" <"$root/examples/hello.bas" >/dev/null
options=
case " $* " in
*' -- '*)
    while [ "$1" != -- ]; do
        options="$options $1"
        shift
    done
    shift
    ;;
esac
for file; do
    best=
    for _ in 1 2 3 4 5; do
        start=$(date +%s%N)
        # shellcheck disable=SC2086
        "$program" $options <"$file" >/dev/null || true
        spent=$(($(date +%s%N) - start))
        if [ -z "$best" ] || [ "$spent" -lt "$best" ]; then best=$spent; fi
    done
    printf '%s %d.%03d s\n' "$file" $((best / 1000000000)) $((best / 1000000 % 1000))
done
