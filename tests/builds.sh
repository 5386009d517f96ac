#!/bin/bash
# Tests the start script and the build in a copy of the repository's layout, with a kit that proves nothing: its prover
# notes which crates it is called for, and its program prints its arguments and its input.
. "$(dirname "$(readlink -f "$0")")/shared/head.sh"
copy="$folder/a copy"
kit=$folder/kit

# ---- the kit

mkdir -p "$folder/bin" "$kit/bin" "$kit/rlibs"
printf '#!/bin/sh\ncat >/dev/null\necho "%s"\n' "$kit/START-HERE.md" >"$folder/bin/rt"
cat >"$kit/bin/rattle" <<'END_OF_PROVER'
#!/bin/bash
# notes when it begins and ends a crate, and in between does what the file behaviour says
kit=$(dirname "$(dirname "$(readlink -f "$0")")")
arguments=" $* "
name=${arguments#* --crate-name }
name=${name%% *}
for made; do :; done
echo "begins $name" >>"$kit/calls"
echo "$arguments" >"$kit/arguments of $name"
mkdir -p "$TMPDIR/kept" || exit 1
echo "$TMPDIR" >"$kit/temporary"
echo "the prover's report on $name"
cat >/dev/null
. "$kit/behaviour"
case $made in *.rlib) mkdir -p "$made" ;; *) : >"$made" ;; esac
echo "ends $name" >>"$kit/calls"
END_OF_PROVER
cat >"$kit/bin/rattle-link" <<'END_OF_LINKER'
#!/bin/bash
kit=$(dirname "$(dirname "$(readlink -f "$0")")")
while [ "$1" != -o ]; do shift; done
cp "$kit/program" "$2" || exit
echo links >>"$kit/calls"
END_OF_LINKER
cat >"$kit/program" <<'END_OF_PROGRAM'
#!/bin/sh
echo "arguments:$(printf ' <%s>' "$@")"
cat
exit 7
END_OF_PROGRAM
chmod +x "$folder/bin/rt" "$kit/bin/rattle" "$kit/bin/rattle-link" "$kit/program"

# behaves TEXT: what the prover does from now on, in a shell where name is the crate
behaves() {
    echo "$1" >"$kit/behaviour"
}

# The crates for which the prover was called, in order.
crates_called() {
    sed -n 's/^begins //p' "$kit/calls" 2>/dev/null | xargs
}

# comes_before FIRST SECOND: whether the first call was noted before the second
comes_before() {
    awk -v first="$1" -v second="$2" '$0 == first { found = 1 } $0 == second { exit !found }' "$kit/calls"
}

# ---- the copy

# make_copy FILE: a copy with the crates of this list, of which nothing is built, and whose sources are a minute old
make_copy() {
    local crate
    rm -rf "$copy"
    mkdir -p "$copy/tools"
    cp "$root/ptb" "$root/build" "$copy/"
    cp "$root/tools/is-built" "$root/tools/build-crate" "$copy/tools/"
    cp "$1" "$copy/crates.txt"
    for crate in $(sed -n 's/^\([a-z_]*\):.*/\1/p' "$1"); do
        mkdir -p "$copy/crates/$crate/src"
        : >"$copy/crates/$crate/src/lib.rt"
    done
    find "$copy" -type f -exec touch -d '1 minute ago' {} +
    rm -f "$kit/calls"
}

# A list with two crates in the middle that do not need each other, and one that the program does not need.
cat >"$folder/crates.txt" <<'END_OF_LIST'
# the lowest
low:
left: low clap
right: low
high: left right
ptb: high
later: high
END_OF_LIST

# make_built_copy: a copy in which the program is built; it is built once and kept
make_built_copy() {
    behaves ''
    if [ ! -d "$folder/built" ]; then
        make_copy "$folder/crates.txt"
        "$copy/build" </dev/null 2>/dev/null || echo 'the kit of this test builds nothing' >&2
        cp -a "$copy" "$folder/built"
    fi
    rm -rf "$copy"
    cp -a "$folder/built" "$copy"
    rm -f "$kit/calls"
}

# changes CRATE: changes a source of this crate
changes() {
    touch "$copy/crates/$1/src/lib.rt"
}

# starts STATUS OUTPUT ERRORS ARGUMENTS..: whether ./ptb with these arguments has this status, writes this text, and for errors a line
# that fits the pattern ERRORS, or nothing where that is empty. Its input is "20 PRINT". The variable start names another path of
# the script, and start_path is the PATH of the script alone.
starts() {
    local due=$1 output=$2 pattern=$3
    shift 3
    timeout 60 env "PATH=${start_path:-$PATH}" "${start:-$copy/ptb}" "$@" <<<'20 PRINT' >"$folder/output" 2>"$folder/errors"
    status=$?
    if [ "$status" = "$due" ] && [ "$(cat "$folder/output")" = "$output" ] &&
        { if [ -n "$pattern" ]; then grep -q "$pattern" "$folder/errors"; else [ ! -s "$folder/errors" ]; fi; }; then
        return
    fi
    echo "    status $status, and $due is due; output and errors:"
    cat "$folder/output" "$folder/errors"
    return 1
} >&2

# starts_program ERRORS ARGUMENT..: the same where the program is run with these arguments
starts_program() {
    local pattern=$1
    shift
    starts 7 "arguments:$(printf ' <%s>' "$@")
20 PRINT" "$pattern" "$@"
}

# is_called_for CRATES: whether the prover was called for just these crates, in any order, since this was asked last
is_called_for() {
    local called
    called=$(crates_called | tr ' ' '\n' | sort | xargs)
    rm -f "$kit/calls"
    [ "$called" = "$(tr ' ' '\n' <<<"$1" | sort | xargs)" ] || { echo "    called for: $called" >&2 && return 1; }
}

# soon COMMAND..: waits until the command succeeds, ten seconds at most
soon() {
    for _ in $(seq 200); do
        if "$@" 2>/dev/null; then return; fi
        sleep 0.05
    done
    return 1
}

has_begun() {
    grep -qx "begins $1" "$kit/calls"
}

# Whether nothing of a build is left in the folder for temporary files, which is this test's own.
leaves_nothing() {
    [ -z "$(ls -A "$folder/temporary")" ]
}

path_without_kit=$PATH
PATH=$folder/bin:$PATH
mkdir "$folder/temporary"
export TMPDIR=$folder/temporary

# ---- nothing is built yet

make_copy "$folder/crates.txt"
behaves ''
for option in --help -h --version -V; do
    count_if "$option does not start the first build" starts 70 '' '^ptb: not built yet: ' "$option"
done
count_if 'nor does it with other arguments' starts 70 '' '^ptb: not built yet: ' --all --help
count_if 'no prover was called' is_called_for ''

# where there is no kit
is_refused_without_kit() {
    start_path=$1 starts 70 '' '^ptb: not built: this needs the Rattle kit, whose command is rt$' && [ "$(wc -l <"$folder/errors")" = 1 ]
}
if ! PATH=$path_without_kit command -v rt >/dev/null; then
    count_if 'without a kit nothing is built' is_refused_without_kit "$path_without_kit"
fi
mkdir "$folder/tools"
for tool in bash sh dirname readlink find sed; do ln -s "$(PATH=$path_without_kit command -v "$tool")" "$folder/tools/$tool"; done
ln -s "$(python3 -c 'import sys; print(sys.executable)')" "$folder/tools/python3"
count_if 'without rt nothing is built' is_refused_without_kit "$folder/tools"
mkdir "$folder/other"
printf '#!/bin/sh\nexit 2\n' >"$folder/other/rt"
chmod +x "$folder/other/rt"
count_if 'nor with another rt' is_refused_without_kit "$folder/other:$folder/tools"
printf '#!/bin/sh\necho "%s/other/START-HERE.md"\n' "$folder" >"$folder/other/rt"
count_if 'nor with a kit that has no prover' is_refused_without_kit "$folder/other:$folder/tools"
count_if 'and nothing was made' [ -z "$(find "$copy" -name out)" ]

# ---- the first build

count_if 'the first start builds the program and runs it' starts_program '^ptb: crate 5 of 5 (ptb)$' --all '' 'a  b'
count_if 'with a line for each crate' [ "$(sed -n 's/^ptb: crate . of 5 (\(.*\))$/\1/p' "$folder/errors" | sort | xargs)" = \
    'high left low ptb right' ]
count_if 'the program needs no crate after it in the list' is_called_for 'low left right high ptb'
count_if 'temporary files are below TMPDIR' grep -q "^$folder/temporary/" "$kit/temporary"
count_if 'a build leaves no temporary files' leaves_nothing

# finds_crates NAME CRATES: whether the prover of a crate is given the folders of just these crates
finds_crates() {
    [ "$(grep -o ' -L dependency=[^=]*/out/proved' "$kit/arguments of $1" | sed 's|.*/crates/||; s|/.*||' | sort | xargs)" = "$2" ]
}
# names_libraries NAME LIBRARIES: whether it is given just these libraries by name, those of other crates from their folders
names_libraries() {
    sed "s|$copy/crates/\([a-z]*\)/out/proved/|crate \1 |g; s|$kit/rlibs/|kit |g" "$kit/arguments of $1" >"$folder/named"
    [ "$(grep -o -- '--extern [^-]*\.rlib' "$folder/named" | sed 's/--extern //' | xargs)" = "$2" ]
}
count_if 'the prover finds all crates that a crate needs' finds_crates ptb 'high left low right'
count_if 'and those alone' finds_crates left low
count_if 'the libraries that a crate names are its own or the kit'\''s' names_libraries left \
    'std=kit std.rlib low=crate low low.rlib clap=kit clap.rlib'

make_copy "$root/crates.txt"
# Whether each crate of the real list was begun after those it names.
is_in_order() {
    local name named library
    while IFS=: read -r name named; do
        for library in $named; do
            if [ -d "$copy/crates/$library" ] && ! comes_before "ends $library" "begins $name"; then return 1; fi
        done
        if [ "$name" = ptb ]; then return; fi
    done < <(grep '^[a-z]' "$root/crates.txt")
}
behaves 'case "$name $arguments" in "ptb "*" --jobs 1 "*) ;; "ptb "*) kill -9 $$ ;; esac'
count_if 'the crates of this repository are built' starts_program '^ptb: crate [0-9]* of [0-9]* (ptb)$' --list
count_if 'each of them after those it names' is_in_order
# has_jobs CRATE NUMBER: whether its prover was called with this number of jobs
has_jobs() {
    grep -q -e "--jobs $2 " "$kit/arguments of $1"
}
cores=$(nproc)
count_if 'the crate for which most others wait has a job for each core' has_jobs ptb_text $((cores > 4 ? 4 : cores))
count_if 'one for which fewer wait has one job' has_jobs ptb_options 1
count_if 'a prover that was killed is started once more' [ "$(grep -cx 'begins ptb' "$kit/calls")" = 2 ]

# Whether the two crates in the middle are proved at the same time: each waits until the other has begun.
are_proved_together() {
    make_copy "$folder/crates.txt"
    behaves "case \$name in left) other=right ;; right) other=left ;; *) other=\$name ;; esac
        for _ in \$(seq 100); do if grep -qx \"begins \$other\" '$kit/calls'; then break; fi; sleep 0.05; done
        grep -qx \"begins \$other\" '$kit/calls' || exit 1"
    starts_program '' 2>/dev/null || [ "$status" = 7 ]
}
count_if 'crates that do not need each other are proved at the same time' are_proved_together

# ---- what is up to date stays as it is

make_built_copy
count_if 'a program that is up to date is run' starts_program '' --all
count_if 'and nothing is proved' is_called_for ''
# starts_from FOLDER SCRIPT: whether the program is run from this folder by this path of the script
starts_from() (
    cd "$1" && start=$2 starts_program '' x
)
count_if 'from another folder' starts_from "$copy/crates" ../ptb
ln -s "$copy/ptb" "$folder/link"
ln -s link "$folder/second link"
count_if 'through symbolic links' starts_from / "$folder/second link"

# Whether the process of ./ptb becomes the program.
is_replaced_by_program() {
    printf '#!/bin/sh\necho $$\n' >"$copy/crates/ptb/out/ptb"
    "$copy/ptb" </dev/null >"$folder/output" &
    wait $!
    [ "$(cat "$folder/output")" = $! ]
}
count_if 'the program takes the place of the start script' is_replaced_by_program
make_built_copy

changes right
for option in --help -h --version -V; do
    count_if "$option is answered by an old program" starts_program '' "$option"
done
count_if 'also after other arguments' starts_program '' --steps 5 --help
count_if 'and nothing was proved' is_called_for ''
count_if 'a file may have the name of an option' starts_program '^ptb: proving and building' -- --help
count_if 'a changed crate is built again, and those that need it' is_called_for 'right high ptb'
count_if 'once' starts_program ''
changes later
mkdir -p "$copy/crates/low/must-fail" "$copy/crates/low/more-bugs"
touch "$copy/crates/low/must-fail/name.edit" "$copy/crates/low/more-bugs/another_name.edit"
count_if 'files that the program is not made of change nothing' starts_program ''
count_if 'so nothing is proved' is_called_for ''
changes ptb
count_if 'a build for another reason' starts_program '^ptb: proving and building'
count_if 'passes over them, too' is_called_for 'ptb'
touch "$copy/crates.txt"
count_if 'a list that changed' starts_program '^ptb: proving and building'
count_if 'is a reason to build all crates' is_called_for 'low left right high ptb'
rm "$copy/crates/ptb/out/ptb"
count_if 'a program that was deleted is built again' starts_program '^ptb: proving and building'
count_if 'it alone' is_called_for 'ptb'
rm -r "$copy/crates/high/out/proved/high.rlib"
changes ptb
count_if 'a library that was deleted' starts_program '^ptb: proving and building'
count_if 'is built again' is_called_for 'high ptb'
touch -d '2 minutes ago' "$copy/crates/ptb/out/ptb"
count_if 'a program whose time is too old' starts_program '^ptb: proving and building'
count_if 'gets a new one if its crates are up to date' starts_program ''

# ---- a build that fails

make_built_copy
changes low
# at most ten seconds
until_left_begins='for _ in {1..200}; do if grep -qx "begins left" "$kit/calls"; then break; fi; sleep 0.05; done'
behaves "if [ \$name = right ]; then $until_left_begins; exit 1; fi; if [ \$name = left ]; then sleep 20; fi"
SECONDS=0
count_if 'a crate that is not proved ends the build' starts 70 '' "^ptb: not built; see $copy/crates/right/out/build.log\$" --all
count_if 'at once' [ "$SECONDS" -lt 10 ]
count_if "the log has the prover's report" grep -qx "the prover's report on right" "$copy/crates/right/out/build.log"
count_if 'nothing is begun that needs it' is_called_for 'low left right'
count_if 'a build that fails leaves no temporary files' leaves_nothing
behaves ''
count_if 'the next build' starts_program '^ptb: proving and building'
count_if 'takes up what is missing' is_called_for 'left right high ptb'
changes left
behaves 'if [ "$name" = left ]; then kill -9 $$; fi'
count_if 'a prover that is killed twice ends the build' starts 70 '' "^ptb: not built; see $copy/crates/left/out/build.log\$"
count_if 'it was called twice' is_called_for 'left left'
make_copy "$folder/crates.txt"
: >"$copy/crates/low/out"
behaves ''
count_if 'a folder that cannot be made ends the build' starts 70 '' "^ptb: not built; see $copy/crates/low/out/build.log\$"
make_built_copy
rm -r "$copy/crates/high/out/proved/high.rlib"
changes ptb
behaves 'if [ "$name" = high ]; then mkdir "$made"; exit 1; fi'
count_if 'a library of which a part was made' starts 70 '' '^ptb: not built; '
behaves ''
rm "$kit/calls"
count_if 'is not taken for the library' starts_program '^ptb: proving and building'
count_if 'it is made again' is_called_for 'high ptb'

# ---- a source that changes while the program is built

make_built_copy
changes low
behaves "if [ \$name = right ]; then $until_left_begins; touch '$copy/crates/left/src/lib.rt'; sleep 0.5; fi"
count_if 'a source changes after its crate is built, or while that is proved' starts_program '^ptb: proving and building'
rm -f "$kit/calls"
behaves ''
count_if 'the next start builds again' starts_program '^ptb: proving and building'
count_if 'this crate and those that need it' is_called_for 'left high ptb'
changes high
behaves "if [ \"\$name\" = high ]; then sleep 0.1; touch '$copy/crates/high/src/lib.rt'; fi"
count_if 'a source changes while its crate is proved' starts_program '^ptb: proving and building'
rm -f "$kit/calls"
behaves ''
count_if 'the next start builds once more' starts_program '^ptb: proving and building'
count_if 'that crate and the program' is_called_for 'high ptb'
count_if 'and no more' starts_program ''

# ---- two builds at once

# build_twice: starts two builds, the second while the first is at work; their statuses and errors
build_twice() {
    local first second
    rm -f "$kit/calls"
    "$copy/build" </dev/null 2>"$folder/first" &
    first=$!
    soon has_begun low
    "$@"
    "$copy/build" </dev/null 2>"$folder/second" &
    second=$!
    wait "$first"
    statuses=$?
    wait "$second"
    statuses+=" $?"
}
make_copy "$folder/crates.txt"
behaves 'sleep 0.3'
build_twice true
count_if 'two builds at once both succeed' [ "$statuses" = '0 0' ]
count_if 'each crate is proved once' is_called_for 'low left right high ptb'
count_if 'the second says that it waits' [ "$(cat "$folder/second")" = 'ptb: waiting for another build of the program' ]
make_copy "$folder/crates.txt"
replace_list() {
    cp -p "$copy/crates.txt" "$copy/crates.new" && mv "$copy/crates.new" "$copy/crates.txt"
}
build_twice replace_list
count_if 'even if the list of crates is replaced meanwhile' [ "$statuses" = '0 0' ]
count_if 'then each crate is proved once, too' is_called_for 'low left right high ptb'
make_copy "$folder/crates.txt"
behaves "sleep 0.5; if [ \"\$name\" = right ] && [ ! -e '$folder/failed before' ]; then : >'$folder/failed before'; exit 1; fi"
build_twice true
count_if 'if the first fails the second does its work' [ "$statuses" = '70 0' ]
count_if 'the program is there then' starts_program ''

# ---- a program that runs is replaced

# Whether a program in machine code that runs while it is built again is replaced and continues.
is_replaced_while_it_runs() {
    local running
    make_built_copy
    cp "$(PATH=$path_without_kit command -v sleep)" "$copy/crates/ptb/out/ptb"
    touch -d '30 seconds ago' "$copy/crates/ptb/out/ptb"
    "$copy/crates/ptb/out/ptb" 60 &
    running=$!
    changes ptb
    starts_program '^ptb: proving and building' && kill "$running"
}
count_if 'a program that runs is replaced' is_replaced_while_it_runs

# Whether the old program stays in place until the new one is complete.
stays_until_the_end() {
    make_built_copy
    changes high
    behaves "if [ \"\$name\" = ptb ]; then [ -x '$copy/crates/ptb/out/ptb' ] && : >'$folder/was there'; fi"
    starts_program '^ptb: proving and building' && [ -e "$folder/was there" ]
}
count_if 'the old program is there until then' stays_until_the_end

# ---- a build that is interrupted

# Starts a build whose prover for the crate low takes half a minute, and waits until that runs: its number is in a file.
start_long_build() {
    make_built_copy
    changes low
    rm -f "$folder/prover"
    behaves "if [ \"\$name\" = low ]; then echo \$\$ >'$folder/number'; mv '$folder/number' '$folder/prover'; exec sleep 30; fi"
    "$copy/build" </dev/null >/dev/null 2>&1 &
    build=$!
    soon [ -e "$folder/prover" ]
}
has_ended() {
    ! kill -0 "$(cat "$folder/prover")"
}
is_interrupted() {
    start_long_build
    kill -TERM "$build"
    wait "$build"
    [ $? = 130 ] && soon has_ended
}
count_if 'a build that is interrupted ends its provers' is_interrupted
count_if 'and leaves no temporary files' leaves_nothing
behaves ''
rm -f "$kit/calls"
count_if 'the next build starts where it was' starts_program '^ptb: proving and building'
count_if 'with the crate that was interrupted' is_called_for 'low left right high ptb'

# kill_build CRATE: kills a build outright while the prover is at work on this crate, which then ends well; in between low changes
kill_build() {
    make_built_copy
    changes "$1"
    rm -f "$folder/may end"
    behaves "for _ in {1..200}; do if [ -e '$folder/may end' ]; then break; fi; sleep 0.05; done"
    "$copy/build" </dev/null >/dev/null 2>&1 &
    build=$!
    soon has_begun "$1"
    kill -KILL "$build"
    wait "$build" 2>/dev/null
    sleep 0.1
    changes low
    : >"$folder/may end"
    soon grep -qx "ends $1" "$kit/calls"
    sleep 1
}
kill_build right
count_if 'a build that is killed begins no further crate' is_called_for right
kill_build ptb
rm "$kit/calls"
count_if 'what it still completes is older than what changed since it began' starts_program '^ptb: proving and building'
count_if 'and is built again' is_called_for 'low left right high ptb'

# ---- progress at a terminal

# Whether a build shows at a terminal, in one line, what it is at.
shows_one_line() {
    make_built_copy
    changes left
    changes right
    behaves 'if [ "$name" = left ] || [ "$name" = right ]; then sleep 1; fi'
    script -qec "'$copy/build'" /dev/null </dev/null >"$folder/screen"
    grep -q 'ptb: 1 of 5 crates built, 0 minutes so far; now left, right' "$folder/screen" && [ "$(wc -l <"$folder/screen")" = 1 ]
}
count_if 'at a terminal a build shows its progress in one line' shows_one_line

conclude
