#!/bin/bash
# Tests tools/shares: the listings of shares, joined, are the complete listing, even if some were killed and then resumed or
# restarted. They are made by xargs, and by GNU parallel if that is installed. PTB names another program than the one that
# ./ptb builds.
. "$(dirname "$(readlink -f "$0")")/shared/head.sh"
. "$root/tests/shared/built.sh"
export PTB folder

# five programs: no question, the same questions in each run, fewer questions in some, a bound that an answer sets, lines that are missing
printf '10 PRINT "HI"\n' >"$folder/none.bas"
printf '10 PRINT RND(3)+RND(2)*RND(2)\n' >"$folder/same.bas"
printf '10 A=RND(2);IF A=2 B=RND(3);PRINT B\n' >"$folder/fewer.bas"
printf '10 A=RND(4);B=RND(A);IF B>1 C=RND(B)-1;PRINT A/C\n' >"$folder/bounds.bas"
printf '10 INPUT A;PRINT A+RND(2);IF A<3 GOTO 10\n' >"$folder/lines.bas"

# share NUMBER LIST PROGRAM ARGUMENT..: writes a share to a file of its own, which has its name once it is complete
share() {
    local number=$1 list=$2 program=$3
    shift 3
    "$PTB" "$@" --all --under "$list" "$program" <"$folder/input" >"$folder/part.$number.new" && mv "$folder/part.$number.new" "$folder/part.$number"
}
export -f share

# the lists with their numbers, as many digits in each
numbered() { awk '{ printf "%05d %s\n", NR, $0 }'; }

# those of the numbered lists whose share isn't whole
missing() { while read -r number list; do [ -e "$folder/part.$number" ] || echo "$number $list"; done; }

# by_xargs PROGRAM ARGUMENT..: makes the shares on standard input
by_xargs() { xargs -r -P 4 -L 1 bash -c 'program=$1; shift; number=${@: -2:1}; list=${@: -1}; share "$number" "$list" "$program" "${@:1:$#-2}"' share "$@"; }

# halve FILE: leaves the first half of a share in a file of the name that it has until it is whole
halve() {
    head -c $(($(wc -c <"$1") / 2)) "$1" >"$1.new"
    rm "$1"
}

# resume_shares PROGRAM ARGUMENT..: resumes those of the shares on standard input of which there is a part
resume_shares() {
    local number list program=$1
    shift
    while read -r number list; do
        if [ ! -s "$folder/part.$number.new" ]; then continue; fi
        "$root/tools/resume" "$folder/part.$number.new" -- "$PTB" "$@" --all --under "$list" "$program" <"$folder/input" &&
            mv "$folder/part.$number.new" "$folder/part.$number"
    done
}

# shared NAME PROGRAM INPUT ARGUMENT..: compares the shares at some depths with the complete listing
shared() {
    local name=$1 program=$folder/$2 depth last
    printf '%b' "$3" >"$folder/input"
    shift 3
    "$PTB" "$@" --all "$program" <"$folder/input" >"$folder/whole"
    for depth in 1 2 9; do
        rm -f "$folder"/part.*
        "$root/tools/shares" "$program" "$depth" "$@" <"$folder/input" | numbered >"$folder/lists"
        by_xargs "$program" "$@" <"$folder/lists"
        cat "$folder"/part.* >"$folder/joined"
        count_if "$name, shares of $depth questions" cmp -s "$folder/whole" "$folder/joined"
        # two were killed: the first is resumed after half of its bytes, and what there is of the last is thrown away
        halve "$folder/part.00001"
        resume_shares "$program" "$@" <"$folder/lists"
        last=$(tail -n 1 "$folder/lists")
        if [ "$(wc -l <"$folder/lists")" -gt 1 ]; then mv "$folder/part.${last%% *}" "$folder/part.${last%% *}.new"; fi
        missing <"$folder/lists" | by_xargs "$program" "$@"
        cat "$folder"/part.????? >"$folder/joined"
        count_if "$name, shares of $depth questions, two of them killed" cmp -s "$folder/whole" "$folder/joined"
        rm -f "$folder"/part.*
        if command -v parallel >/dev/null; then
            sed 's/^[0-9]* //' "$folder/lists" | parallel --will-cite -k "$PTB" "$@" --all --under {} "$program" '<' "$folder/input" >"$folder/joined" 2>"$folder/said"
            count_if "$name, shares of $depth questions, by parallel" cmp -s "$folder/whole" "$folder/joined"
        fi
    done
}

shared 'no question' none.bas ''
shared 'the same questions' same.bas ''
shared 'fewer questions' fewer.bas ''
shared 'a bound that an answer sets' bounds.bas ''
shared 'missing lines' lines.bas '1\n' --choose 3 --steps 20

# ---- killed in the midst

# 1024 runs of some milliseconds each, in 16 shares
printf '10 A=RND(4)*RND(4)*RND(4)*RND(4)*RND(4)\n20 FOR I=1 TO 30;FOR J=1 TO 3000;NEXT J;PRINT #20,A,I;NEXT I\n' >"$folder/large.bas"
large=(--steps 500000)
: >"$folder/input"
"$PTB" "${large[@]}" --all "$folder/large.bas" <"$folder/input" >"$folder/whole"
"$root/tools/shares" "$folder/large.bas" 2 "${large[@]}" <"$folder/input" | numbered >"$folder/lists"

# bytes_of FILE..: how many bytes there are in files of which some may be missing
bytes_of() { cat "$@" 2>/dev/null | wc -c; }

# kill_at BYTES PID GLOB: kills a process and its group when there are so many bytes in the files, and waits for its end
kill_at() {
    until [ "$(bytes_of $3)" -ge "$1" ] || ! kill -0 "$2" 2>/dev/null; do sleep 0.01; done
    kill -KILL -- "-$2" 2>/dev/null
    wait "$2" 2>/dev/null
}

whole=$(wc -c <"$folder/whole")
set -m
by_xargs "$folder/large.bas" "${large[@]}" <"$folder/lists" 2>/dev/null &
set +m
kill_at $((whole / 2)) $! "$folder/part.*"
count_if 'shares are killed in the midst' [ "$(bytes_of "$folder"/part.*)" -lt "$whole" ]
resume_shares "$folder/large.bas" "${large[@]}" <"$folder/lists"
missing <"$folder/lists" | by_xargs "$folder/large.bas" "${large[@]}"
cat "$folder"/part.????? >"$folder/joined"
count_if 'killed shares are resumed' cmp -s "$folder/whole" "$folder/joined"

if command -v parallel >/dev/null; then
    sed 's/^[0-9]* //' "$folder/lists" >"$folder/unnumbered"
    # made by parallel, each in a file of its own; those that a log has as complete aren't made again
    by_parallel() {
        parallel --will-cite --joblog "$folder/log" --resume-failed --results "$folder/parts/{#}" \
            "$PTB" "${large[@]}" --all --under {} "$folder/large.bas" '<' "$folder/input" <"$folder/unnumbered" >"$folder/said" 2>&1
    }
    set -m
    by_parallel &
    set +m
    kill_at $((whole / 2)) $! "$folder/parts/*"
    count_if 'parallel is killed in the midst' [ "$(grep -c . "$folder/log")" -le 16 ]
    by_parallel
    count 'parallel resumes' "$([ $? = 0 ] && echo yes || echo no)"
    (cd "$folder/parts" && cat $(seq "$(wc -l <"$folder/lists")")) >"$folder/joined"
    count_if 'shares that parallel resumes' cmp -s "$folder/whole" "$folder/joined"
else
    echo 'parallel is not installed: shares were made by xargs alone'
fi

# ---- what is printed, and in which order

printf '1/2\n2/2,1/3\n2/2,2/3\n2/2,3/3\n' >"$folder/due"
"$root/tools/shares" "$folder/fewer.bas" 2 </dev/null >"$folder/lists"
count_if 'a run that is over sooner is a line of its own' cmp -s "$folder/due" "$folder/lists"
count 'no depth' "$("$root/tools/shares" "$folder/fewer.bas" </dev/null >/dev/null 2>&1; [ $? = 64 ] && echo yes || echo no)"
count 'no program' "$("$root/tools/shares" "$folder/nothing.bas" 2 </dev/null >/dev/null 2>&1; [ $? = 66 ] && echo yes || echo no)"

conclude
