#!/bin/bash
# Tests ./dev in a copy of the repository's layout, in which rt and all scripts only print how they were called: each
# command of its help, and each one that CONTRIBUTING.md and the other pages name.
. "$(dirname "$(readlink -f "$0")")/shared/head.sh"
copy="$folder/a copy"

# stand_in PATH: a script that prints its path in the copy, its arguments and RT_JOBS
stand_in() {
    mkdir -p "$(dirname "$1")"
    printf '#!/bin/sh\necho "%s$(printf " <%%s>" "$@") in $(basename "$PWD"), ${RT_JOBS-no} jobs"\n' "${1#"$copy/"}" >"$1"
    chmod +x "$1"
}
mkdir -p "$copy/bin"
cp "$root/dev" "$root/crates.txt" "$copy/"
for path in "$root"/crates/*/; do mkdir -p "$copy/crates/$(basename "$path")"; done
for path in build tools/release tools/try-bugs $(cd "$root" && ls tests/*.sh tests/*.py bench/*.sh); do stand_in "$copy/$path"; done
stand_in "$copy/bin/rt"
mv "$copy/bin/rt" "$folder/rt"
sed -i 's|echo "bin/|echo "|' "$folder/rt"
unset RT_JOBS

# starts TEXT ARGUMENT..: whether ./dev with these arguments starts just this
starts() {
    local due=$1
    shift
    [ "$(PATH="$folder:$PATH" "$copy/dev" "$@" 2>&1)" = "$due" ]
}
# refuses TEXT ARGUMENT..: whether they are refused for this, and nothing is started
refuses() {
    local due=$1
    shift
    [ "$(PATH="$folder:$PATH" "$copy/dev" "$@" 2>&1 >"$folder/output")" = "dev: $due; ./dev help lists the commands" ] &&
        [ ! -s "$folder/output" ]
}

count_if 'check' starts 'rt <check> in ptb_expr, no jobs' check expr
count_if 'with options, and a full name' starts 'rt <check> <--only> <ptb_expr::a b> in ptb_expr, no jobs' check ptb_expr --only 'ptb_expr::a b'
count_if 'the crate of the program' starts 'rt <check> in ptb, no jobs' check ptb
count_if 'unit' starts 'rt <test> in ptb_machine_tests, no jobs' unit machine_tests
count_if 'lemma' starts 'rt <lemma> <take> <length> in ptb_text, no jobs' lemma text take length
count_if 'plant' starts 'rt <plant> <--minutes> <5> in ptb_text, no jobs' plant text --minutes 5
count_if 'bugs' starts 'rt <must-fail> <ptb_text> in a copy, no jobs' bugs text
count_if 'one bug' starts 'tools/try-bugs <ptb_text> <a_name> in a copy, no jobs' bugs text a_name
count_if 'more bugs' starts 'tools/try-bugs <--more> <ptb_text> in a copy, no jobs' bugs --more text
count_if 'format' starts 'rt <fmt> in ptb_text, no jobs' format text
count_if 'build' starts 'build <> in a copy, no jobs' build
count_if 'test' starts 'tests/all.sh <> in a copy, no jobs' test
count_if 'test of one script' starts 'tests/stress.sh <7> <60> in a copy, no jobs' test stress.sh 7 60
count_if 'bench' starts 'bench/time.sh <a> in a copy, no jobs' bench time.sh a
count_if 'gate' starts 'rt <ci> in a copy, 4 jobs' gate
RT_JOBS=2 count_if 'gate with other jobs' starts 'rt <ci> in a copy, 2 jobs' gate
count_if 'gate of two crates' starts 'rt <ci> <ptb_text> <ptb> in a copy, 4 jobs' gate text ptb
count_if 'gate of a crate that is missing' refuses "no crate 'nosuch'" gate text nosuch
count_if 'release' starts 'tools/release <../release> in a copy, no jobs' release ../release
count_if 'more bugs of all crates' starts 'tools/try-bugs <--more> in a copy, no jobs' bugs --more
count_if 'of two crates' starts 'tools/try-bugs <--more> <ptb_text> <ptb> in a copy, no jobs' bugs --more text ptb
count_if 'of a crate that is missing' refuses "no crate 'nosuch'" bugs --more text nosuch
for argument in '' nosuch; do
    count_if "check needs a crate, not '$argument'" refuses "no crate '$argument'" check $argument
    count_if "bugs needs a crate, not '$argument'" refuses "no crate '$argument'" bugs $argument
    count_if "bench needs a script, not '$argument'" refuses "no script '$argument' in bench" bench $argument
done
count_if 'a script of the tests that is missing' refuses "no script 'nosuch' in tests" test nosuch
count_if 'another command' refuses "no command 'nosuch'" nosuch

# ---- some planted bugs of a crate

real="$folder/a repository"
mkdir -p "$real/tools" "$real/crates/low/src" "$real/crates/high/"{src,must-fail,more-bugs} "$folder/lists"
cp "$root/tools/try-bugs" "$real/tools/"
touch "$real/crates.txt" "$real/HANDLES" "$real/crates/low/src/lib.rt"
touch "$real/crates/high/must-fail/"{one,two,three}.edit "$real/crates/high/more-bugs/"{four,five}.edit
printf '#!/bin/sh\nfind . -type f | sort | tr "\\n" " "; echo "$*"; echo "$PWD" >&2; exit 3\n' >"$folder/lists/rt"
chmod +x "$folder/lists/rt"
# tries ARGUMENT ..: starts tools/try-bugs; its status is in status
tries() {
    PATH="$folder/lists:$PATH" "$real/tools/try-bugs" "$@" >"$folder/output" 2>"$folder/errors"
    status=$?
}
# copy_with NAME ..: what rt finds in the copy if it has these bugs, and its arguments
copy_with() {
    echo "./HANDLES ./crates.txt $(printf './crates/high/must-fail/%s.edit ' "$@")./crates/low/src/lib.rt must-fail high"
}
tries high one three.edit
count_same 'the copy has the sources and these bugs' "$(cat "$folder/output")" "$(copy_with one three)"
count_if 'its status is that of rt' [ $status = 3 ]
count_if 'the copy is removed' [ ! -e "$(cat "$folder/errors")" ]
tries high four one
count_same 'bugs of both folders' "$(cat "$folder/output")" "$(copy_with four one)"
tries --more high
count_same 'all of more-bugs' "$(cat "$folder/output")" "$(copy_with five four)"
tries --more
count_same 'all of more-bugs of all crates' "$(cat "$folder/output")" "$(copy_with five four)"
tries high one nosuch
due='64 try-bugs: there is no nosuch.edit in must-fail or more-bugs of crates/high'
count_same 'a bug that is missing' "$status $(cat "$folder/errors")" "$due"
tries --more low
due='64 try-bugs: there is no bug in crates/low/more-bugs'
count_same 'a crate without more bugs' "$status $(cat "$folder/errors")" "$due"
echo 'high: low lib' >"$real/crates.txt"
mkdir -p "$real/crates/"{low,high}/out/{rlib,incremental}
touch "$real/crates/"{low,high}/out/{rlib,incremental}/kept
tries high one
due=$(copy_with one | sed 's|./crates/low/src|./crates/low/out/rlib/kept &|')
count_same 'what is kept of the crates below' "$(cat "$folder/output")" "$due"
rm -r "$real/crates/high/more-bugs"
tries --more
count_same 'no more bugs' "$status $(cat "$folder/errors")" '64 try-bugs: no crate has a folder more-bugs'

# ---- the help, and what pages name

"$copy/dev" help >"$folder/help"
count_if 'without arguments the help is printed' starts "$(cat "$folder/help")"

# example LINE: a call of ./dev for a line of its help or a call on a page, with a crate and a script that exist
example() {
    sed 's/ \[.*//; s/ *#.*//; s/CRATE/expr/; s/SCRIPT/time.sh/; s/FOLDER/folder/; s/WORD \.\./word/' <<<"$1"
}
# is_understood LINE: whether the call starts something
is_understood() {
    local words
    read -ra words <<<"$(example "$1")"
    [ "${words[0]}" = ./dev ] && PATH="$folder:$PATH" "$copy/dev" "${words[@]:1}" >"$folder/output" 2>&1 && [ -s "$folder/output" ]
}
named=$(grep -o '^\./dev [a-z]*' "$folder/help" | sort -u)
due=$(sed -n 's/^\([a-z |]*\))\( .*\)\{0,1\}$/\1/p' "$root/dev" | tr -d ' ' | tr '|' '\n' | grep -vx help | sed 's|^|./dev |' | sort)
count_if 'the help has a line for each command' [ "$named" = "$due" ]
# starts_what_it_says LINE: whether a line of the help names what its example starts
starts_what_it_says() {
    local said=${1##*  }
    said=${said#./}
    said=${said%SCRIPT}
    is_understood "${1%%   *}" && [[ "$(tr -d '<>' <"$folder/output")" = "$said"* ]]
}
while IFS= read -r line; do count_if "the help's $line" starts_what_it_says "$line"; done <"$folder/help"

for page in CONTRIBUTING.md docs/gate.md tests/README.md; do
    while IFS= read -r line; do
        count_if "$page: $line" is_understood "$line"
    done < <(grep -oE '^    \./dev [^#]*|`\./dev [^`]*`' "$root/$page" | tr -d '`' | sed 's/^ *//')
done
count_if 'CONTRIBUTING.md names commands' grep -q '\./dev check ' "$root/CONTRIBUTING.md"

conclude
