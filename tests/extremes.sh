#!/bin/bash
# Runs the built program at the ends of its ranges, each time with a stack of 256 KiB and its arguments: the deepest
# parentheses and loops, the longest numbers, texts, inputs and lists of answers, the most steps, many questions to a
# seed, the least memory, many arguments, and unusual names of programs. Two of the runs begin 1,000,000,000 commands,
# so it takes as long as these do.
# PTB names another program than the one that ./ptb builds.
. "$(dirname "$(readlink -f "$0")")/shared/head.sh"
. "$root/tests/shared/built.sh"
PYTHONPATH=$root/tests/shared PTB=$PTB python3 -B "$root/tests/extremes/main.py"
