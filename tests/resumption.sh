#!/bin/bash
# Tries tools/resume: listings that are cut at each byte, killed at random moments, spoiled, whole, empty or missing.
# Arguments name parts of tests, as Spoiled; without any, all are run. PTB names another program than the one that ./ptb builds.
. "$(dirname "$(readlink -f "$0")")/shared/head.sh"
. "$root/tests/shared/built.sh"
PYTHONPATH=$root/tests/shared PTB=$PTB python3 -B "$root/tests/resumption/main.py" "$@"
