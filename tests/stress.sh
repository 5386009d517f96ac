#!/bin/bash
# Tries the built program on random texts, inputs and words: tests/stress.sh SEED SECONDS [--programs N] [--only K]
# It checks what must hold whatever the texts mean: that reports, plain runs, listings, portions, shares and samples agree. And
# it compares reports, and the lists that split the runs, with those of tests/stress/language.py, which plays the same programs.
# What is tried depends on SEED and the number of programs, 12 a second if it isn't given; SECONDS is a bound on the time.
# With --only K program K is tried by itself. With --self-test spoiled programs are tried, each of which must be found.
# PTB names another program than the one that ./ptb builds.
. "$(dirname "$(readlink -f "$0")")/shared/head.sh"
. "$root/tests/shared/built.sh"
PYTHONPATH=$root/tests/shared PTB=$PTB python3 -B "$root/tests/stress/main.py" "$@"
