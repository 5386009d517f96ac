# Names in PTB the program that is tested, for the script that reads this file: if PTB names no other, the built one, which is
# built first if a source is newer. The start script looks for newer sources at each start; here this is done once.
if [ -z "${PTB-}" ]; then
    "$root/ptb" <"$root/examples/hello.bas" >/dev/null || exit 1
    PTB=$root/crates/ptb/out/ptb
fi
