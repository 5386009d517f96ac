#!/bin/bash
# Runs the built program over files, pipes and devices, and compares what it writes and its status.
# PTB names another program than the one that ./ptb builds.
. "$(dirname "$(readlink -f "$0")")/shared/head.sh"

# Whether the last run had this status, and wrote just these bytes and this text for errors.
is_as_due() {
    printf '%b' "$2" >"$folder/output_due"
    printf '%b' "$3" >"$folder/errors_due"
    if [ "$status" = "$1" ] && cmp -s "$folder/output" "$folder/output_due" && cmp -s "$folder/errors" "$folder/errors_due"; then
        echo yes
    else
        echo no
        {
            echo "    status $status, and $1 is due; output and errors:"
            cat "$folder/output" "$folder/errors"
        } >&2
    fi
}

# run WORDS..: runs the program with these words; its input is the caller's.
run() {
    "$ptb" "$@" >"$folder/output" 2>"$folder/errors"
    status=$?
}

# plain NAME PROGRAM STATUS OUTPUT WORDS..: a program on standard input, which has no input lines
plain() {
    local name=$1 program=$2 due=$3 output=$4
    shift 4
    printf '%b' "$program" >"$folder/program"
    run "$@" <"$folder/program"
    count "$name" "$(is_as_due "$due" "$output" '')"
}

# refused NAME PROGRAM STATUS LINES WORDS..: the same where nothing is written but these lines for errors
refused() {
    local name=$1 program=$2 due=$3 lines=$4
    shift 4
    printf '%b' "$program" >"$folder/program"
    run "$@" <"$folder/program"
    count "$name" "$(is_as_due "$due" '' "$lines\\n")"
}

# complains NAME WORDS..: words that are refused with a text of their own, before anything is read
complains() {
    local name=$1
    shift
    run "$@" </dev/null
    if [ "$status" = 64 ] && [ ! -s "$folder/output" ] && [ -s "$folder/errors" ]; then
        count "$name" yes
    else
        count "$name" no
    fi
}

"$ptb" <"$root/examples/hello.bas" >/dev/null || exit 1

# ---- statuses of runs

plain 'END' '10 PRINT "HI"\n' 0 'HI\n'
plain 'an empty program' '' 0 ''
plain 'STOP' '10 STOP\n20 PRINT\n' 0 ''
plain 'WHAT' '10 PRINT 2*-3\n' 1 'WHAT?\n10 PRINT 2*?-3\n'
plain 'HOW' '10 PRINT 1/0\n' 2 'HOW?\n10 PRINT 1/0?\n'
plain 'SORRY' '10 PRINT @(32767)\n' 3 'SORRY\n10 PRINT @(32767)?\n'
plain 'LIMIT' '10 GOTO 10\n' 4 '' --steps 5
plain 'NOINPUT' '10 INPUT A\n' 5 'A:'
plain 'NOANSWER' '10 PRINT RND(6)\n' 6 ''
plain 'BADANSWER' '10 PRINT RND(6)\n' 7 '' --answers 7
plain 'answers' '10 PRINT RND(6),RND(6)\n' 0 '     2     6\n' --answers 2,6,1

# ---- answers instead of lines

plain 'no answer instead of a line' '10 INPUT A;PRINT A\n' 6 'A:' --choose 2
plain 'a bad answer instead of a line' '10 INPUT A;PRINT A\n' 7 'A:' --choose 2 --answers 3
plain 'an answer instead of a line' '10 INPUT A;PRINT A\n' 0 'A:2\n     2\n' --choose 2 --answers 2
plain 'a drawn answer instead of a line' '10 INPUT A;PRINT A\n' 0 'A:1\n     1\n' --choose 1 --seed 7
plain 'all answers instead of a line' '10 INPUT A;PRINT A\n' 0 \
    'RUN 1/2 END 2 11\nA:1\n     1\n\nRUN 2/2 END 2 11\nA:2\n     2\n\n' --choose 2 --all
plain 'the runs after one with an answer instead of a line' '10 INPUT A;PRINT A\n' 0 \
    'RUN 2/2 END 2 11\nA:2\n     2\n\n' --choose 2 --all --after 1/2 --first 1
refused 'an answer instead of a line that is above its bound' '10 INPUT A\n' 67 \
    'ptb: not a run\n  --after: item 1 is 3, but its question allows 1 to 2' --choose 2 --all --after 3
refused 'answers instead of lines with a listing of the text' '10 P.\n' 64 'ptb: --list stands alone' \
    --choose 2 --list
complains 'no answers instead of lines' --choose 0
complains 'too many answers instead of lines' --choose 32768
complains 'answers instead of lines twice' --choose 2 --choose 2

printf '10 INPUT A,B;PRINT A+B\n' >"$folder/two.bas"
printf ')\n4\n' >"$folder/one.txt"
run --choose 5 --answers 3 "$folder/two.bas" <"$folder/one.txt"
count 'an answer where the lines are over' "$(is_as_due 0 'A:)\nWHAT?\nA:4\nB:3\n     7\n' '')"

# every game of the example: 8 numbers, and three guesses of 1 to 8 or fewer; 1 + 7 + 49 of the games with each number are won
run --all --choose 8 "$root/examples/eight.bas" </dev/null
games=$(grep -c '^RUN ' "$folder/output")/$(grep -c '^RUN .* STOP ' "$folder/output")
count 'every game of an example' "$([ "$games" = 3200/456 ] && echo yes || echo no)"

# ---- listings and refused programs

plain 'a listing' '10 P.1\n20 P.2\n010\tP.3\r\n20' 0 '10 P.3\n' --list
refused 'a number too big' '32768 P.1\n' 65 'ptb: line 1: number too big'
refused 'a bad byte' '10 P.\n20 P.\0177\n' 65 'ptb: line 2: bad byte at 6' --list
refused 'a full program' '1 P.1234567890\n2 P.1234567890\n3 P.1234567890\n4 P.1234567890\n5 P.1\n' 65 \
    'ptb: line 5: program full' --memory 64

# ---- all runs

plain 'all runs' '10 PRINT "HI"\n' 0 'RUN none END 1 3\nHI\n\n' --all
plain 'the first runs' '10 P.RND(6)\n' 0 'RUN 1/6 END 1 7\n     1\n\n' --all --first 1
plain 'answers alone' '10 P.RND(6)\n' 0 'RUN 1 END 1 7\n     1\n\n' --all --first 1 --form 1
plain 'the runs after one' '10 P.RND(2)\n' 0 'RUN 2/2 END 1 7\n     2\n\n' --all --after 1
plain 'the runs after one with its bound' '10 P.RND(2)\n' 0 'RUN 2/2 END 1 7\n     2\n\n' --all --after 1/2
refused 'answers that are no run' '10 P.RND(2)\n' 67 \
    'ptb: not a run\n  --after: item 1 is 3, but its question allows 1 to 2' --all --after 3
refused 'a bound that is another' '10 P.RND(2)\n' 67 \
    'ptb: not a run\n  --after: item 1 states the bound 3, but its question has 2' --all --after 1/3
refused 'one answer too many' '10 P.RND(2)\n' 67 \
    'ptb: not a run\n  --after: the run is over after 1 item' --all --after 1,1
refused 'two answers too many' '10 P.RND(2),RND(2)\n' 67 \
    'ptb: not a run\n  --after: the run is over after 2 items' --all --after 1,2,1,1
refused 'an answer for a run without questions' '10 P.1\n' 67 \
    'ptb: not a run\n  --after: the run is over after 0 items' --all --after 1
refused 'an answer that is missing' '10 P.RND(2),RND(6)\n' 67 \
    'ptb: not a run\n  --after: item 2 is missing; its question allows 1 to 6' --all --after 2
plain 'a share' '10 P.RND(2)\n' 0 'RUN 2/2 END 1 7\n     2\n\n' --all --under 2
plain 'a share with its bound' '10 P.RND(2)\n' 0 'RUN 1/2 END 1 7\n     1\n\n' --all --under 1/2 --first 1
plain 'a share that is the whole' '10 P.RND(1)\n' 0 'RUN 1/1 END 1 7\n     1\n\n' --all --under none
plain 'the runs of a share after one' '10 P.RND(2),RND(2)\n' 0 'RUN 2/2,2/2 END 1 13\n     2     2\n\n' --all --under 2 --after 2,1
refused 'a share that no run begins' '10 P.RND(2)\n' 67 \
    'ptb: no run begins so\n  --under: item 1 is 3, but its question allows 1 to 2' --all --under 3
refused 'a share with a bound that is another' '10 P.RND(2)\n' 67 \
    'ptb: no run begins so\n  --under: item 1 states the bound 3, but its question has 2' --all --under 1/3 --after 9
refused 'a share with an answer too many' '10 P.RND(2)\n' 67 \
    'ptb: no run begins so\n  --under: the run is over after 1 item' --all --under 1,1
refused 'a run of another share' '10 P.RND(2)\n' 67 \
    'ptb: not a run\n  --after: the list does not begin with the items of --under' --all --under 2 --after 1
refused 'a share without all runs' '10 P.RND(2)\n' 64 'ptb: --under needs --all' --under 2
refused 'a share with a listing of the text' '10 P.RND(2)\n' 64 'ptb: --list stands alone' --under 2 --list
refused 'a share that is spelled wrong' '10 P.RND(2)\n' 64 \
    'ptb: bad list\n  --under: item 1 ("01") is not a number from 1 to 32767' --all --under 01

# ---- lists that split the runs

branches='10 A=RND(2);IF A=2 B=RND(3);PRINT B\n'
plain 'lists of one answer' "$branches" 0 '1/2\n2/2\n' --all --shares 1
plain 'lists of two answers' "$branches" 0 '1/2\n2/2,1/3\n2/2,2/3\n2/2,3/3\n' --all --shares 2
plain 'lists of all answers in form 1' "$branches" 0 '1\n2,1\n2,2\n2,3\n' --all --shares 9 --form 1
plain 'a list of an empty program' '' 0 'none\n' --all --shares 1
plain 'lists with numbers for lines' '10 INPUT A,B\n' 0 '1/3\n2/3\n3/3\n' --all --shares 1 --choose 3
plain 'lists of runs that are cut off' '10 A=RND(2);GOTO 10\n' 0 '1/2,1/2\n1/2,2/2\n2/2,1/2\n2/2,2/2\n' --all --shares 9 --steps 3
refused 'lists without --all' "$branches" 64 'ptb: --shares needs --all' --shares 1
refused 'lists of a share' "$branches" 64 'ptb: --shares excludes --after, --first and --under' --all --shares 1 --under 2
refused 'lists after a run' "$branches" 64 'ptb: --shares excludes --after, --first and --under' --all --shares 1 --after 1
refused 'the first lists' "$branches" 64 'ptb: --shares excludes --after, --first and --under' --all --shares 1 --first 1
refused 'lists with a listing of the text' "$branches" 64 'ptb: --list stands alone' --all --shares 1 --list
refused 'lists of no answers' "$branches" 64 \
    "error: invalid value '0' for '--shares <N>': expected a number from 1 to 64\\n\\nFor more information, try '--help'." \
    --all --shares 0
refused 'lists of a text that is refused' '0 P.\n' 65 'ptb: line 1: no statement number' --all --shares 1

# ---- samples

# the first words of seed 7 give 3, 5 and 5 modulo 6
rolls='RUN 3/6 END 1 7\n     3\n\nRUN 5/6 END 1 7\n     5\n\nRUN 5/6 END 1 7\n     5\n\n'
plain 'a sample' '10 P.RND(6)\n' 0 "$rolls" --seed 7 --sample 3
plain 'a sample in form 1' '10 P.RND(6)\n' 0 'RUN 3 END 1 7\n     3\n\n' --seed 7 --sample 1 --form 1
plain 'a sample of runs that ask once and twice' '10 A=RND(2);IF A=2 B=RND(3);PRINT B\n' 0 \
    'RUN 1/2 END 2 0\n\nRUN 1/2 END 2 0\n\nRUN 1/2 END 2 0\n\nRUN 2/2,1/3 END 4 7\n     1\n\n' --seed 7 --sample 4
plain 'a sample with numbers for lines' '10 INPUT A\n' 0 'RUN 3/6 END 1 4\nA:3\n\n' --seed 7 --sample 1 --choose 6
plain 'a sample of runs that are cut off' '10 A=RND(2);GOTO 10\n' 0 'RUN 1/2,1/2 LIMIT 3 0\n\n' --seed 7 --sample 1 --steps 3
plain 'a sample of an empty program' '' 0 'RUN none END 0 0\n\nRUN none END 0 0\n\n' --seed 7 --sample 2
refused 'a sample without a seed' '10 P.RND(6)\n' 64 'ptb: --sample needs --seed' --sample 3
refused 'a sample beside all runs' '10 P.RND(6)\n' 64 'ptb: --seed excludes --all' --seed 7 --sample 3 --all
refused 'a sample with a listing of the text' '10 P.RND(6)\n' 64 'ptb: --list stands alone' --seed 7 --sample 3 --list
refused 'a sample of no run' '10 P.RND(6)\n' 64 \
    "error: invalid value '0' for '--sample <N>': expected a number from 1 to 1000000000\\n\\nFor more information, try '--help'." \
    --seed 7 --sample 0
refused 'a sample of a text that is refused' '0 P.\n' 65 'ptb: line 1: no statement number' --seed 7 --sample 3

# ---- mistakes in a text

typos='30 LET A=(3+4, X=4\n20 GOTO 412\n10 IF 0 PTINT "X"\n'
mistakes='WHAT?\n10 IF 0 P?TINT "X"\nHOW?\n20 GOTO 412?\nWHAT?\n30 LET A=(3+4?, X=4\n'
plain 'a text without mistakes' '10 PRINT "HI"\n' 0 '' --check
plain 'three mistakes, by the numbers of their lines' "$typos" 1 "$mistakes" --check
plain 'mistakes with a limit of commands' "$typos" 1 "$mistakes" --check --steps 1 --memory 64
plain 'two mistakes of a line, and none after a malformed command' '10 GOSUB 99;A=32768;PRINT )\n' 1 \
    'HOW?\n10 GOSUB 99?;A=32768;PRINT )\nHOW?\n10 GOSUB 99;A=32768?;PRINT )\n' --check
plain 'faults that depend on values' '10 GOTO A\n20 RETURN\n' 0 '' --check
plain 'a parenthesis that is missing after a division by 0' '10 PRINT (1/0\n' 1 'WHAT?\n10 PRINT (1/0?\n' --check
plain 'the fault of a run there' '10 PRINT (1/0\n' 2 'HOW?\n10 PRINT (1/0?\n'
plain 'jumps to written numbers' '10 GOTO (20)\n20 GOSUB +10;GOTO (30)\n' 1 'HOW?\n20 GOSUB +10;GOTO (30)?\n' --check
plain 'a jump to a number that is computed' '10 GOTO 411+1\n' 0 '' --check
plain 'an empty program has no mistakes' '' 0 '' --check
refused 'mistakes of a text that is refused' '0 P.\n' 65 'ptb: line 1: no statement number' --check
refused 'mistakes with a listing of the text' '10 P.1\n' 64 'ptb: --list stands alone' --check --list
for words in --all '--answers x' '--after 1' '--first 1' '--choose 2' '--seed 7' '--form 1' '--under 2' '--shares 2' '--sample 3'; do
    # shellcheck disable=SC2086
    refused "mistakes with $words" '10 P.1\n' 64 'ptb: --check stands alone' --check $words
done
refused 'mistakes with chances' '10 P.1\n' 64 'ptb: --check stands alone' --chances --check

# ---- the chances of results

again='10 A=RND(2);IF A=2 A=RND(3)\n20 P.#1,A\n'
plain 'the one result of an empty program' '' 0 'CHANCE 1/1 1 END 0\n\n' --chances
plain 'the chances of three results' "$again" 0 \
    'CHANCE 2/3 2 END 1\n1\nCHANCE 1/6 1 END 1\n2\nCHANCE 1/6 1 END 1\n3\n' --chances
plain 'chances with a limit of commands' '10 A=RND(2)\n20 IF A=1 GOTO 10\n' 0 \
    'CHANCE 3/4 2 END 0\n\nCHANCE 1/4 1 LIMIT 0\n\n' --chances --steps 5
plain 'chances of faults, after those of other endings' '10 A=RND(3);P.#1,A;IF A=1 STOP\n20 IF A=2 P.1/0\n' 0 \
    'CHANCE 1/3 1 END 1\n3\nCHANCE 1/3 1 STOP 1\n1\nCHANCE 1/3 1 HOW 16\n20 IF A=2 P.1/0?\n' --chances --memory 64
plain 'chances of answers instead of lines' '10 INPUT A\n' 0 \
    'CHANCE 1/2 1 END 3\nA:1\nCHANCE 1/2 1 END 3\nA:2\n' --chances --choose 2
plain 'the chance that INPUT finds no line' '10 INPUT A;P.RND(2)\n' 0 'CHANCE 1/1 1 NOINPUT 2\nA:\n' --chances
refused 'chances of a text that is refused' '0 P.\n' 65 'ptb: line 1: no statement number' --chances
refused 'chances with a listing of the text' '10 P.1\n' 64 'ptb: --list stands alone' --chances --list
for words in --all '--answers x' '--after 1' '--first 1' '--seed 7' '--form 1' '--under 2' '--shares 2' '--sample 3'; do
    # shellcheck disable=SC2086
    refused "chances with $words" '10 P.1\n' 64 'ptb: --chances stands alone' --chances $words
done

# ---- files

printf '10 INPUT A\n20 PRINT A+1\n' >"$folder/game.bas"
printf '41\n' >"$folder/moves.txt"
run "$folder/game.bas" <"$folder/moves.txt"
count 'a file with input' "$(is_as_due 0 'A:41\n    42\n' '')"

printf '41' | "$ptb" "$folder/game.bas" >"$folder/output" 2>"$folder/errors"
status=$?
count 'a file with input from a pipe' "$(is_as_due 0 'A:41\n    42\n' '')"

run --list "$folder/game.bas" </dev/null
count 'the listing of a file' "$(is_as_due 0 '10 INPUT A\n20 PRINT A+1\n' '')"

printf '10 INPUT A,\n' >"$folder/typo.bas"
run --check "$folder/typo.bas" <"$folder"
count 'the mistakes of a file, with an input that cannot be read' "$(is_as_due 1 'WHAT?\n10 INPUT A,?\n' '')"

run --chances "$folder/game.bas" <"$folder/moves.txt"
count 'the chances of a file with input' "$(is_as_due 0 'CHANCE 1/1 1 END 6\n    42\n' '')"

run --chances "$folder/game.bas" <"$folder"
count 'chances with an input that cannot be read' "$(is_as_due 66 '' \
    'ptb: cannot read the input\n  standard input: Is a directory (os error 21)\n')"

run "$folder/missing.bas" </dev/null
count 'a missing file' "$(is_as_due 66 '' \
    "ptb: cannot read the program\\n  $folder/missing.bas: No such file or directory (os error 2)\\n")"

run '' </dev/null
count 'a file without a name' "$(is_as_due 66 '' \
    'ptb: cannot read the program\n  : No such file or directory (os error 2)\n')"

run --all "$folder/game.bas/more" </dev/null
count 'a file below a file' "$(is_as_due 66 '' \
    "ptb: cannot read the program\\n  $folder/game.bas/more: Not a directory (os error 20)\\n")"

run "$folder" </dev/null
count 'a folder as the program' "$(is_as_due 66 '' \
    "ptb: cannot read the program\\n  $folder: Is a directory (os error 21)\\n")"

run <"$folder"
count 'a folder as the program on standard input' "$(is_as_due 66 '' \
    'ptb: cannot read the program\n  standard input: Is a directory (os error 21)\n')"

run "$folder/game.bas" <"$folder"
count 'a folder as the input' "$(is_as_due 66 'A:' \
    'ptb: cannot read the input\n  standard input: Is a directory (os error 21)\n')"

head -c 16777217 /dev/zero | tr '\0' '\n' >"$folder/long_input"
run --all "$folder/game.bas" <"$folder/long_input"
count 'an input that is too long' "$(is_as_due 66 '' \
    'ptb: cannot read the input\n  standard input has more than 16777216 bytes\n')"
rm "$folder/long_input"

# a name that is no option, and one with blanks around it
cp "$folder/game.bas" "$folder/-"
cp "$folder/game.bas" "$folder/ game "
program=$(readlink -f "$ptb")
for name in - ' game '; do
    (cd "$folder" && exec "$program" "$name" <moves.txt >output 2>errors)
    status=$?
    count "a file with the name '$name'" "$(is_as_due 0 'A:41\n    42\n' '')"
done

printf '10 PRINT RND(2),RND(2),RND(2)\n' >"$folder/three.bas"
run --all --steps 100 --memory 4096 --choose 2 --under 2 --after 2/2,1,1 --first 2 --form 1 "$folder/three.bas" </dev/null
count 'sixteen arguments' "$(is_as_due 0 \
    'RUN 2,1,2 END 1 19\n     2     1     2\n\nRUN 2,2,1 END 1 19\n     2     2     1\n\n' '')"

# ---- an input is read when a line is asked for

printf '10 PRINT "HI"\n' >"$folder/greeting.bas"
run "$folder/greeting.bas" <"$folder"
count 'an input that cannot be read, and is not asked for' "$(is_as_due 0 'HI\n' '')"

run --all "$folder/greeting.bas" <"$folder"
count 'a listing reads its input whole' "$(is_as_due 66 '' \
    'ptb: cannot read the input\n  standard input: Is a directory (os error 21)\n')"

# what the program shows while its input is a pipe that stays open, and what it shows at the end
printf '10 INPUT A\n20 PRINT A*2\n30 INPUT B\n' >"$folder/questions.bas"
mkfifo "$folder/lines"
sleep 60 >"$folder/lines" &
holder=$!
"$ptb" "$folder/questions.bas" <"$folder/lines" >"$folder/output" 2>"$folder/errors" &
process=$!
# shows_soon BYTES: whether just these are shown within five seconds
shows_soon() {
    printf '%b' "$1" >"$folder/output_due"
    for _ in $(seq 100); do
        cmp -s "$folder/output" "$folder/output_due" && echo yes && return
        sleep 0.05
    done
    echo no
}
count 'a prompt is shown before its line has come' "$(shows_soon 'A:')"
printf '5\n' >"$folder/lines"
count 'a line is taken while the pipe stays open' "$(shows_soon 'A:5\n    10\nB:')"
printf '7' >"$folder/lines"
kill "$holder"
wait "$process"
status=$?
count 'a last line without its newline' "$(is_as_due 0 'A:5\n    10\nB:7\n' '')"

sleep 60 >"$folder/lines" &
holder=$!
timeout 10 "$ptb" "$folder/greeting.bas" <"$folder/lines" >"$folder/output" 2>"$folder/errors"
status=$?
kill "$holder"
count 'a program that asks for no line waits for none' "$(is_as_due 0 'HI\n' '')"

# ---- words

run --help </dev/null
helps=yes
for option in steps memory answers all after first chances list check help; do
    grep -q -e "--$option" "$folder/output" || helps=no
done
if [ "$status" = 0 ] && [ ! -s "$folder/errors" ]; then count '--help' "$helps"; else count '--help' no; fi

complains 'an unknown option' --stops 5
complains 'no steps' --steps 0
complains 'too many steps' --steps 1000000001
complains 'too little memory' --memory 63
complains 'too much memory' --memory 32768
complains 'a number with a separator' --steps 1,000
complains 'two programs' one.bas two.bas
refused 'steps that are no number' '' 64 \
    "error: invalid value '1e6' for '--steps <N>': expected a number from 1 to 1000000000\\n\\nFor more information, try '--help'." \
    --steps 1e6
refused 'a seed below 0' '' 64 \
    "error: invalid value '-1' for '--seed <N>': expected a number from 0 to 4294967295\\n\\nFor more information, try '--help'." \
    --seed -1
refused '--after without --all' '' 64 'ptb: --after needs --all' --after 1
refused '--first without --all' '' 64 'ptb: --first needs --all' --first 1
refused '--form without --all' '' 64 'ptb: --form needs --all' --form 1
refused '--answers with --all' '' 64 'ptb: --answers excludes --all' --answers 1 --all
refused '--list with --answers' '' 64 'ptb: --list stands alone' --list --answers none
refused 'a bad list' '' 64 'ptb: bad list\n  --answers: item 1 ("01") is not a number from 1 to 32767' --answers 01
refused 'a list with a blank' '' 64 'ptb: bad list\n  --after: item 2 (" 2") is not a number from 1 to 32767' \
    --all --after '1, 2'
refused 'a list with a bound' '' 64 \
    'ptb: bad list\n  --answers: item 1 ("1/3") has a bound; --answers takes numbers alone' --answers 1/3,1/2
refused 'a list without an item' '' 64 'ptb: bad list\n  --answers: item 3 ("") is not a number from 1 to 32767' \
    --answers 1,2,
refused 'two bad lists' '' 64 'ptb: bad list\n  --under: item 1 ("x") is not a number from 1 to 32767' \
    --all --after y --under x
complains 'an argument that is no text' $'\xff'

# ---- writers that fail

printf '10 PRINT "HI"\n20 GOTO 10\n30 GOTO 31\n' >"$folder/loop.bas"
for words in '' --list --check --chances '--seed 7 --sample 3'; do
    # shellcheck disable=SC2086
    "$ptb" $words "$folder/loop.bas" </dev/null >/dev/full 2>"$folder/errors"
    status=$?
    : >"$folder/output"
    count "a full device $words" "$(is_as_due 74 '' 'ptb: cannot write\n')"
done

for words in --help --version; do
    "$ptb" $words </dev/null >/dev/full 2>"$folder/errors"
    status=$?
    : >"$folder/output"
    count "a full device $words" "$(is_as_due 74 '' 'ptb: cannot write\n')"
done

mkfifo "$folder/pipe"
for words in '' --list --check --chances '--seed 7 --sample 3'; do
    # the reader opens the pipe and goes before the program writes
    (: <"$folder/pipe") &
    reader=$!
    (
        exec >"$folder/pipe"
        wait "$reader" 2>/dev/null
        sleep 0.2
        # shellcheck disable=SC2086
        exec "$ptb" $words "$folder/loop.bas" </dev/null 2>"$folder/errors"
    )
    status=$?
    wait "$reader"
    : >"$folder/output"
    count "a pipe whose reader has gone $words" "$(is_as_due 74 '' 'ptb: cannot write\n')"
done

# reports into a file at its size limit: it has a prefix, and a line says that the rest is missing
for words in --all '--seed 7 --sample 200'; do
    # shellcheck disable=SC2086
    run $words "$root/examples/throw.bas" </dev/null
    head -c 1024 "$folder/output" >"$folder/prefix"
    (
        trap '' XFSZ
        ulimit -f 1
        # shellcheck disable=SC2086
        exec "$ptb" $words "$root/examples/throw.bas" </dev/null >"$folder/limited" 2>"$folder/errors"
    )
    status=$?
    : >"$folder/output"
    count "a file at its size limit $words" "$(is_as_due 74 '' 'ptb: cannot write\n')"
    if cmp -s "$folder/prefix" "$folder/limited"; then count 'and what it holds' yes; else count 'and what it holds' no; fi
done

# ---- the examples, each with its input and its answers

for transcript in "$root"/examples/*.transcript; do
    example=${transcript%.transcript}
    answers=none
    if [ -f "$example.answers" ]; then answers=$(cat "$example.answers"); fi
    run --answers "$answers" "$example.bas" <"$example.input"
    if cmp -s "$folder/output" "$transcript" && [ ! -s "$folder/errors" ]; then
        count "example $(basename "$example")" yes
    else
        count "example $(basename "$example")" no
    fi
done

# the examples with few questions, each with all its runs
for runs in "$root"/examples/*.runs; do
    example=${runs%.runs}
    run --all --form 1 "$example.bas" <"$example.input"
    if [ "$status" = 0 ] && cmp -s "$folder/output" "$runs" && [ ! -s "$folder/errors" ]; then
        count "all runs of the example $(basename "$example")" yes
    else
        count "all runs of the example $(basename "$example")" no
    fi
done

# the mistakes in their texts: none where no file has them
for program in "$root"/examples/*.bas; do
    example=${program%.bas}
    run --check "$program" </dev/null
    if [ -f "$example.check" ]; then
        cp "$example.check" "$folder/mistakes"
    else
        : >"$folder/mistakes"
    fi
    due=0
    if [ -s "$folder/mistakes" ]; then due=1; fi
    if [ "$status" = "$due" ] && cmp -s "$folder/output" "$folder/mistakes" && [ ! -s "$folder/errors" ]; then
        count "mistakes of the example $(basename "$example")" yes
    else
        count "mistakes of the example $(basename "$example")" no
    fi
done

# each example has an input and a transcript, and a row in the list of examples
for program in "$root"/examples/*.bas; do
    example=${program%.bas}
    if [ -f "$example.input" ] && [ -s "$example.transcript" ] &&
        grep -q "^| \`$(basename "$example")\` |" "$root/examples/README.md"; then
        count "the files of the example $(basename "$example")" yes
    else
        count "the files of the example $(basename "$example")" no
    fi
done

# six shares of a tree are, one after the other, the whole
run --all "$root/examples/throw.bas" </dev/null
mv "$folder/output" "$folder/whole"
run --all --first 36 "$root/examples/throw.bas" </dev/null
mv "$folder/output" "$folder/shares"
for first in 1 2 3 4 5; do
    run --all --after "$first,6,6" --first 36 "$root/examples/throw.bas" </dev/null
    cat "$folder/output" >>"$folder/shares"
done
if [ "$(grep -c '^RUN ' "$folder/whole")" = 216 ] && cmp -s "$folder/whole" "$folder/shares"; then
    count 'shares of a tree' yes
else
    count 'shares of a tree' no
fi

conclude
