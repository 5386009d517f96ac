#!/bin/bash
# Makes docs/outcomes.png, the picture in README.md: the page that tools/outcomes makes of the three doors.
#
# It needs the built program, Python 3, and a Chromium (`chromium` of Debian). The first row of the page is
# opened, as by a click. PTB names another program than the one that ./ptb builds.
set -eu
root=$(dirname "$(dirname "$(readlink -f "$0")")")
ptb=${PTB:-$root/ptb}
folder=$(mktemp -d)
trap 'rm -rf "$folder"' EXIT
cd "$root"

printf '1\nY\n' | "$ptb" --all examples/doors.bas |
    tools/outcomes --by last-line --program examples/doors.bas --html "$folder/page.html"
sed -i '0,/<details/s//<details open/' "$folder/page.html"
HOME=$folder TMPDIR=$folder chromium --headless --no-sandbox --disable-gpu --hide-scrollbars \
    --window-size=900,680 --screenshot="$folder/page.png" "file://$folder/page.html" 2>"$folder/log" ||
    { cat "$folder/log" >&2; exit 1; }
mv "$folder/page.png" docs/outcomes.png
