#!/bin/bash
# Runs the built program over some 60 requests, again and again. Each time one of its calls to the system is refused:
#
# - An allocation is refused, or it and all that follow: status 71 with its note, and a prefix of the reply is written. The run
#   may be complete if one allocation alone is refused, because room for the arguments, and for each number in a table of
#   chances, is asked for twice, and because a listing continues without the copies of its machine that are refused room.
# - A file can't be opened for lack of memory: status 71, and nothing is written.
# - A read or a write moves one byte of several: nothing changes.
# - A read fails: status 66, and nothing is written, or a prefix of what the run shows if the run had asked for the line.
# - A write fails: status 74, and a prefix is written.
#
# The refused call is the first, the second, and so on, until a run has no such call any more. So each call of each request is
# refused once. Two refusals in one run are not tried, except memory that stays out; nor are longer programs than these.
# A library that is loaded in front of the C library refuses the calls, so the proved program is tested as it is: `rt try
# --fail-alloc N` compiles the program again for each N.
#
# In the same way each allocation is refused to those tests of crates that pass whichever is refused. rt ci builds them; one
# that is missing is proved and built here.
#
# Arguments name parts of tests, as of_the_program; without any, all are run. PTB names another program than the one that ./ptb
# builds. CC names the C compiler; without it the one of the kit serves.
. "$(dirname "$(readlink -f "$0")")/shared/head.sh"
. "$root/tests/shared/built.sh"

# Makes the library that strikes calls of the program.
compiled() {
    "$@" -shared -fPIC -O1 -nostdlib -o "$folder/strike.so" "$root/tests/refusals/strike.c"
}

kit=$(dirname "$(dirname "$(readlink -f "$(command -v rt)")")")
compiled "${CC:-cc}" 2>/dev/null || compiled "$kit/toolchain/bin/clang" -fuse-ld=lld || exit 1
for crate in ptb_language_tests ptb_machine_tests ptb_tests; do
    [ -x "$root/crates/$crate/out/${crate}_tests" ] || (cd "$root/crates/$crate" && rt test >/dev/null) || exit 1
done
export PYTHONPATH=$root/tests/shared PTB STRIKE_LIBRARY=$folder/strike.so
python3 -B "$root/tests/refusals/main.py" "$@"
