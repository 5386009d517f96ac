#!/bin/bash
# Tests ./install in temporary folders, and compares the completions and man pages with --help. If zsh or fish is not
# installed, its completions are only compared with --help.
# PTB names another program than the one that ./ptb builds.
. "$(dirname "$(readlink -f "$0")")/shared/head.sh"

"$ptb" --help </dev/null >"$folder/help" || exit 1

# ---- each file has the options of --help and no others

# Words from standard input in one line, each once, in order.
in_one_line() {
    sort -u | tr '\n' ' '
}

long=$(sed -n 's/^ \{2,\}\(-[a-zA-Z], \)\{0,1\}--\([a-z][a-z-]*\).*/\2/p' "$folder/help" | in_one_line)
short=$(sed -n 's/^ \{2,\}-\([a-zA-Z]\)\(, .*\)\{0,1\}$/\1/p' "$folder/help" | in_one_line)
count_if '--help has the options that were there first' \
    [ "$(printf '%s\n' steps memory answers all after first list help | grep -cxF -f <(tr ' ' '\n' <<<"$long"))" = 8 ]

# The options of two dashes in a text, those in a man page, and those of one dash and a letter in a text.
long_in() {
    grep -oE -- '--[a-z][a-z-]*' | sed 's/^--//' | in_one_line
}
long_in_page() {
    sed 's/\\-/-/g; s/\\f[A-Z]/ /g' "$root/docs/$1.1" | long_in
}
short_in() {
    grep -oE -- "(^|[^a-zA-Z-])-[a-zA-Z]($|[^a-zA-Z-])" | grep -oE '[a-zA-Z]' | in_one_line
}

# The words that bash offers, from the list in its file; that zsh offers, from its lines of options; that fish offers.
bash_words=$(sed -n "/compgen -W/,/--/p" "$root/completions/ptb.bash" | grep "^ *'--")
count_same 'options in the bash completions' "$(long_in <<<"$bash_words")" "$long"
count_same 'short options in the bash completions' "$(short_in <<<"$bash_words")" "$short"
count_same 'options that the bash completions name at all' "$(long_in <"$root/completions/ptb.bash")" "$long"
# what zsh shows of an option is in brackets, and what it excludes in parentheses in front
zsh_words=$(grep "^    '[^:]" "$root/completions/_ptb" | sed "s/^ *'\(([^)]*)\)\{0,1\}'\{0,1\}//; s/\[.*//; s/[{},']/ /g")
count_same 'options in the zsh completions' "$(long_in <<<"$zsh_words")" "$long"
count_same 'short options in the zsh completions' "$(short_in <<<"$zsh_words")" "$short"
count_same 'options that the zsh completions name at all' "$(long_in <"$root/completions/_ptb")" "$long"
fish_words=$(grep '^complete -c ptb' "$root/completions/ptb.fish" | sed "s/ -d '.*//")
count_same 'options in the fish completions' \
    "$(grep -oE -- ' -l [^ ]+' <<<"$fish_words" | sed 's/^ -l //' | in_one_line)" "$long"
count_same 'short options in the fish completions' \
    "$(grep -oE -- ' -s [^ ]+' <<<"$fish_words" | sed 's/^ -s //' | in_one_line)" "$short"
man_words=$(sed -n '/^\.SH OPTIONS/,/^\.PP/p' "$root/docs/ptb.1" | grep -A1 '^\.TP' | grep '^\.B' | sed 's/\\-/-/g; s/[",]/ /g')
count_same 'options in the man page' "$(long_in <<<"$man_words")" "$long"
count_same 'short options in the man page' "$(short_in <<<"$man_words")" "$short"
count_same 'options that the man page names at all' "$(long_in_page ptb)" "$long"

# the pages of the tools have the options of their help; --all, --choose, --sample and --seed are those of ptb
count_same 'options that the man page of outcomes names' "$(long_in_page ptb-outcomes)" \
    "$({ echo --all --choose --sample --seed; "$root/tools/outcomes" --help; } | long_in)"
count_same 'options that the man page of adapt names' "$(long_in_page ptb-adapt)" "$("$root/tools/adapt" --help | long_in)"
count_same 'options that the man page of resume names' "$(long_in_page ptb-resume)" "$("$root/tools/resume" --help | long_in)"
count_same 'options that the man page of shares names' "$(long_in_page ptb-shares)" "$("$root/tools/shares" --help | long_in)"

# the completions of the tools have the options of their help
for tool in adapt outcomes resume shares; do
    due=$("$root/tools/$tool" --help | sed -n '/^option/,/^$/p' | grep '^ *-' | long_in)
    due=$(tr ' ' '\n' <<<"$due" | sed '/^$/d' | in_one_line)
    count_same "options in the bash completions of ptb-$tool" "$(sed '/^#/d' "$root/completions/ptb-$tool.bash" | long_in)" "$due"
    count_same "options in the zsh completions of ptb-$tool" "$(sed '/^#/d' "$root/completions/_ptb-$tool" | long_in)" "$due"
    count_same "options in the fish completions of ptb-$tool" \
        "$(grep -oE -- ' -l [^ ]+' "$root/completions/ptb-$tool.fish" | sed 's/^ -l //' | in_one_line)" "$due"
done

# ---- bash is asked

mkdir "$folder/here" "$folder/here/more games"
touch "$folder/here/dice.bas" "$folder/here/draw.bas" "$folder/here/dice.txt"

# offered_for COMMAND ARGUMENT..: what bash offers for the last of these arguments of a command, in a folder with two programs
offered_for() {
    local command=$1
    shift
    bash -c 'cd "$0" && . "$1" && COMP_WORDS=("${@:2}") && COMP_CWORD=$(($# - 2)) && "_${2//-/_}" && printf "%s\n" "${COMPREPLY[@]}"' \
        "$folder/here" "$root/completions/$command.bash" "$command" "$@" | sed '/^$/d' | in_one_line
}
offered() {
    offered_for ptb "$@"
}

count_if 'bash reads its completions, and knows whom to ask' \
    bash -c '. "$1" && complete -p ptb | grep -q -- "-F _ptb ptb\$"' bash "$root/completions/ptb.bash"
for option in $long; do
    case " $(offered "--$option") " in *" --$option "*) offers=yes ;; *) offers=no ;; esac
    count "bash offers --$option" "$offers"
done
count_same 'bash offers what begins so' "$(offered --a)" '--after --all --answers '
count_same 'bash offers all options' "$(offered --all --)" "$(tr ' ' '\n' <<<"$long" | sed '/^$/d; s/^/--/' | in_one_line)"
count_same 'bash offers no option that there is not' "$(offered --x)" ''
count_same 'bash offers programs and folders' "$(offered '')" 'dice.bas draw.bas more games '
count_same 'bash offers the program that begins so' "$(offered --all di)" 'dice.bas '
count_same 'bash offers the empty list' "$(offered --answers '')$(offered --after n)" 'none none '
count_same 'bash offers no file for a number' "$(offered --steps '')$(offered --first di)" ''

for tool in adapt outcomes resume shares; do
    count_if "bash reads the completions of ptb-$tool, and knows whom to ask" \
        bash -c '. "$1" && complete -p "ptb-$2" | grep -q -- "-F _ptb_$2 ptb-$2\$"' bash "$root/completions/ptb-$tool.bash" "$tool"
    count_same "bash offers --version for ptb-$tool" "$(offered_for "ptb-$tool" --v)" '--version '
done
count_same 'bash offers kinds of outcomes' "$(offered_for ptb-outcomes --by '')" 'answer: ending last-line outcome '
count_same 'bash offers dialects' "$(offered_for ptb-adapt --dialect p)" 'palo-alto pittman '
count_same 'bash offers kinds of RND' "$(offered_for ptb-adapt --random '')" 'fraction one zero '
count_same 'bash offers a listing to adapt' "$(offered_for ptb-adapt di)" 'dice.bas dice.txt '
count_same 'bash offers the options of ptb-adapt' "$(offered_for ptb-adapt --)" '--dialect --help --quiet --random --separator --version '
count_same 'bash offers a listing' "$(offered_for ptb-outcomes di)" 'dice.bas dice.txt '
count_same 'bash offers a file for a page' "$(offered_for ptb-outcomes --html di)" 'dice.bas dice.txt '
count_same 'bash offers a file to resume' "$(offered_for ptb-resume di)" 'dice.bas dice.txt '
count_same 'bash offers what comes after the file' "$(offered_for ptb-resume dice.txt '')" '-- '
count_same 'bash offers a program to share' "$(offered_for ptb-shares di)" 'dice.bas '
count_same 'bash offers nothing for a depth' "$(offered_for ptb-shares dice.bas '')" ''
count_same 'bash offers the options of runs' "$(offered_for ptb-shares dice.bas 2 --)" '--choose --memory --steps '
count_same 'bash offers the options of ptb-outcomes' "$(offered_for ptb-outcomes --)" \
    '--by --csv --help --html --json --match --merge --options --program --sampled --top --version '
count_same 'bash offers the options of ptb-resume' "$(offered_for ptb-resume --)" '--help --version '

# ---- zsh and fish are asked, where they are

if command -v zsh >/dev/null; then
    for name in ptb ptb-adapt ptb-outcomes ptb-resume ptb-shares; do
        count_if "zsh reads its completions of $name" zsh -n "$root/completions/_$name"
        count_same "zsh knows whom to ask for $name" "$(HOME=$folder zsh -fc "fpath=('$root/completions' \$fpath)
            autoload -Uz compinit && compinit -u -D && print -r -- \$_comps[$name]")" "_$name"
    done
else
    echo 'zsh is not installed: its completions were not read'
fi
if command -v fish >/dev/null; then
    # fish_offers LINE: what fish offers at the end of this line
    fish_offers() {
        HOME=$folder fish --no-config -c "for file in '$root'/completions/*.fish; source \$file; end; complete -C '$1'" |
            cut -f 1 | in_one_line
    }
    count_same 'fish offers what begins so' "$(fish_offers 'ptb --a')" '--after --all --answers '
    count_same 'fish offers kinds of outcomes' "$(fish_offers 'ptb-outcomes --by ')" 'answer: ending last-line outcome '
    count_same 'fish offers dialects' "$(fish_offers 'ptb-adapt --dialect p')" 'palo-alto pittman '
    count_same 'fish offers what comes after the file' "$(fish_offers 'ptb-resume x --' | grep -o '^-- ')" '-- '
    count_same 'fish offers options of the command that is resumed' "$(fish_offers 'ptb-resume x -- ptb --a')" '--after --all --answers '
    count_same 'fish offers options of runs' "$(fish_offers 'ptb-shares x 2 --s')" '--steps '
else
    echo 'fish is not installed: its completions were not read'
fi

# ---- ./install, from a copy of the repository

# A copy of what ./install reads; its program is newer than its sources.
make_copy() {
    local crate
    rm -rf "$folder/copy"
    mkdir -p "$folder/copy/crates/ptb/out"
    while read -r crate; do mkdir -p "$folder/copy/crates/$crate/src"; done < <(sed -n 's/^\([a-z_]*\):.*/\1/p' "$root/crates.txt")
    cp -R "$root/ptb" "$root/build" "$root/crates.txt" "$root/install" "$root/LICENSE" "$root/CHANGELOG.md" "$root/completions" \
        "$root/docs" "$root/examples" "$root/tools" "$folder/copy/"
    cp "$root/crates/ptb_options/src/help.rt" "$folder/copy/crates/ptb_options/src/"
    case $ptb in
    "$root/ptb") cp "$root/crates/ptb/out/ptb" "$folder/copy/crates/ptb/out/ptb" ;;
    *) cp "$ptb" "$folder/copy/crates/ptb/out/ptb" ;;
    esac
    find "$folder/copy" -type f -exec touch -d '1 minute ago' {} +
    touch "$folder/copy/crates/ptb/out/ptb"
}

# installed ARGUMENTS..: runs ./install of the copy with these arguments
installed() {
    "$folder/copy/install" "$@" </dev/null >"$folder/output" 2>"$folder/errors"
    status=$?
}

# The files below a folder, in order; and all files and folders below it.
files_below() {
    find "$1" -type f | sort
}
all_below() {
    find "$1" -mindepth 1 | sort
}

# Whether nothing is left of an installation in the folder for temporary files, which is this test's own.
leaves_nothing() {
    [ -z "$(ls -A "$folder/temporary")" ]
}
mkdir "$folder/temporary"
export TMPDIR=$folder/temporary

version=$("$root/tools/version")
count_if 'the version is three numbers' grep -qxE '[0-9]+\.[0-9]+\.[0-9]+' <<<"$version"
count_same 'the program has this version' "$("$ptb" --version </dev/null)" "ptb $version"
count_same 'the version is written once' "$(grep -rlF "\"$version\"" "$root/crates"/*/src "$root/tools" "$root/install" "$root/build" |
    sed "s|$root/||")" crates/ptb_options/src/help.rt

make_copy
place="$folder/a place/below"
installed "$place"
count_same 'install' "$status $(cat "$folder/errors")" '0 '
count_same 'install prints each file, and that PATH lacks the program' "$(sort "$folder/output")" \
    "$(echo "The shell finds ptb once $place/bin is in PATH."; files_below "$place" | sed 's/^/installed /')"
cp "$folder/output" "$folder/said"
count_same 'it puts these files there' "$(cd "$place" && files_below . | grep -v '^./share/doc/ptb/examples/')" "$(sed '/^$/d' <<END | sort
./bin/ptb
./bin/ptb-adapt
./bin/ptb-outcomes
./bin/ptb-resume
./bin/ptb-shares
./lib/ptb/ptb_tools/__init__.py
./lib/ptb/ptb_tools/adapt.py
./lib/ptb/ptb_tools/adaptation/__init__.py
./lib/ptb/ptb_tools/adaptation/dialects.py
./lib/ptb/ptb_tools/adaptation/expressions.py
./lib/ptb/ptb_tools/adaptation/layout.py
./lib/ptb/ptb_tools/adaptation/lines.py
./lib/ptb/ptb_tools/adaptation/notes.py
./lib/ptb/ptb_tools/adaptation/print_items.py
./lib/ptb/ptb_tools/adaptation/spelling.py
./lib/ptb/ptb_tools/adaptation/statements.py
./lib/ptb/ptb_tools/adaptation/storage.py
./lib/ptb/ptb_tools/adaptation/sums.py
./lib/ptb/ptb_tools/adaptation/tokens.py
./lib/ptb/ptb_tools/adaptation/translation.py
./lib/ptb/ptb_tools/adaptation/trees.py
./lib/ptb/ptb_tools/adaptation/whole.py
./lib/ptb/ptb_tools/branches.py
./lib/ptb/ptb_tools/chances.py
./lib/ptb/ptb_tools/command.py
./lib/ptb/ptb_tools/data.py
./lib/ptb/ptb_tools/outcomes.py
./lib/ptb/ptb_tools/page.css
./lib/ptb/ptb_tools/page.html
./lib/ptb/ptb_tools/page.js
./lib/ptb/ptb_tools/page.py
./lib/ptb/ptb_tools/progress.py
./lib/ptb/ptb_tools/reports.py
./lib/ptb/ptb_tools/resume.py
./lib/ptb/ptb_tools/shares.py
./lib/ptb/ptb_tools/sources.py
./lib/ptb/ptb_tools/tables.py
./lib/ptb/ptb_tools/text.py
./lib/ptb/ptb_tools/tree.py
./share/bash-completion/completions/ptb
./share/bash-completion/completions/ptb-adapt
./share/bash-completion/completions/ptb-outcomes
./share/bash-completion/completions/ptb-resume
./share/bash-completion/completions/ptb-shares
./share/doc/ptb/CHANGELOG.md
./share/doc/ptb/INSTALLED
./share/doc/ptb/LANGUAGE.md
./share/doc/ptb/LICENSE
./share/doc/ptb/LARGE-TREES.md
./share/doc/ptb/OLD-LISTINGS.md
./share/doc/ptb/TOOL.md
./share/doc/ptb/performance.md
./share/fish/vendor_completions.d/ptb-adapt.fish
./share/fish/vendor_completions.d/ptb-outcomes.fish
./share/fish/vendor_completions.d/ptb-resume.fish
./share/fish/vendor_completions.d/ptb-shares.fish
./share/fish/vendor_completions.d/ptb.fish
./share/man/man1/ptb-adapt.1.gz
./share/man/man1/ptb-outcomes.1.gz
./share/man/man1/ptb-resume.1.gz
./share/man/man1/ptb-shares.1.gz
./share/man/man1/ptb.1.gz
./share/zsh/site-functions/_ptb
./share/zsh/site-functions/_ptb-adapt
./share/zsh/site-functions/_ptb-outcomes
./share/zsh/site-functions/_ptb-resume
./share/zsh/site-functions/_ptb-shares
END
)"
count_if 'the examples' diff -r "$root/examples" "$place/share/doc/ptb/examples"
if command -v strip >/dev/null; then
    strip -o "$folder/stripped" "$folder/copy/crates/ptb/out/ptb"
    count_if 'the program, stripped' cmp "$folder/stripped" "$place/bin/ptb"
fi
for tool in adapt outcomes resume shares; do
    count_same "the tool $tool, with the folder of its package" "$(diff "$root/tools/$tool" "$place/bin/ptb-$tool" | sed '/^> /!d')" \
        '> FOLDER = f"{os.path.dirname(HERE)}/lib/ptb"'
    for option in -V --version; do
        count_same "ptb-$tool $option" "$(cd / && env -i "PATH=$PATH" "$place/bin/ptb-$tool" $option </dev/null)" "ptb-$tool $version"
        count_same "tools/$tool $option" "$(cd / && "$root/tools/$tool" $option </dev/null)" "ptb-$tool $version"
    done
done
count_same 'the package of the tools, with its version' "$(diff -r -x __pycache__ "$root/tools/ptb_tools" "$place/lib/ptb/ptb_tools" |
    sed '/^> /!d; s/ *#.*//')" "> VERSION = \"$version\""
for page in ptb ptb-adapt ptb-outcomes ptb-resume ptb-shares; do
    packed=$place/share/man/man1/$page.1.gz
    count_if "the man page of $page" cmp <(gzip -dc "$packed") "$root/docs/$page.1"
    # the bytes that say: a name is given; the time; how well it is packed
    count_same 'packed well, without a name and a time' "$(od -An -tx1 -j3 -N6 "$packed" | tr -d ' ')" 000000000002
    count_if "the completions of $page for bash" cmp "$root/completions/$page.bash" "$place/share/bash-completion/completions/$page"
    count_if "for zsh" cmp "$root/completions/_$page" "$place/share/zsh/site-functions/_$page"
    count_if "for fish" cmp "$root/completions/$page.fish" "$place/share/fish/vendor_completions.d/$page.fish"
done
for page in LICENSE CHANGELOG.md docs/LANGUAGE.md docs/TOOL.md; do
    count_if "the page $page" cmp "$root/$page" "$place/share/doc/ptb/$(basename "$page")"
done
count_same 'only programs may be run' "$(cd "$place" && find . -type f -exec stat -c '%a %n' {} + |
    sed 's|^\([0-9]*\) \./\([a-z]*\)/.*|\1 \2|' | sort -u | xargs)" '644 lib 644 share 755 bin'
count_if 'no temporary files are left' leaves_nothing
if command -v man >/dev/null && man -w ls >/dev/null 2>&1; then
    for page in ptb ptb-adapt ptb-outcomes ptb-resume ptb-shares; do
        count_same "man finds the page of $page" "$(MANPATH=$place/share/man man -w $page)" "$place/share/man/man1/$page.1.gz"
        count_same "and has nothing to say against $page" "$(man --warnings -l -E UTF-8 "$place/share/man/man1/$page.1.gz" 2>&1 >/dev/null)" ''
    done
fi

# once more, over a version that installed man pages uncompressed
: >"$place/share/man/man1/ptb.1"
installed "$place"
count_same 'install once more' "$status $(cat "$folder/errors")" '0 '
count_if 'the same files are there' cmp <(sed '/PATH/d' "$folder/said" | sort) <(files_below "$place" | sed 's/^/installed /')
PATH="$place/bin:$PATH" installed "$place/"
count_same 'nothing to say of PATH' "$status $(grep -c PATH "$folder/output")" '0 0'

# from here on the copy is a later version, with fewer examples
find "$folder/copy/examples" -type f ! -name 'hello.*' -delete

# ---- what runs while it is replaced

# soon COMMAND..: waits until the command succeeds, ten seconds at most
soon() {
    for _ in $(seq 200); do
        if "$@" 2>/dev/null; then return; fi
        sleep 0.05
    done
    return 1
}

# Whether a program and a tool that wait for their input while they are replaced end as if nothing had happened.
is_replaced_while_it_runs() {
    local program tool
    printf '10 INPUT A;PRINT A+1\n' >"$folder/next.bas"
    mkfifo "$folder/lines" "$folder/input"
    # opened for both, so that this does not wait for a reader
    exec 8<>"$folder/lines" 9<>"$folder/input"
    "$place/bin/ptb" "$folder/next.bas" <"$folder/lines" >"$folder/answer" 2>&1 8>&- 9>&- &
    program=$!
    "$place/bin/ptb-shares" "$root/examples/throw.bas" 1 <"$folder/input" >"$folder/lists" 2>&1 8>&- 9>&- &
    tool=$!
    soon grep -q 'A:' "$folder/answer"
    # the new tool is longer: what runs must not read on in it
    sed -i "2i # $(printf '%04000d' 0)" "$folder/copy/tools/shares" "$folder/copy/tools/ptb_tools/shares.py"
    installed "$place"
    echo 41 >&8
    exec 8>&- 9>&-
    wait "$program" && wait "$tool" && [ "$status" = 0 ] && grep -q '42$' "$folder/answer" && [ "$(wc -l <"$folder/lists")" = 6 ]
}
count_if 'a program that runs is replaced and continues' is_replaced_while_it_runs
count_if 'the new one is there' cmp "$folder/copy/tools/ptb_tools/shares.py" "$place/lib/ptb/ptb_tools/shares.py"
cp "$root/tools/shares" "$folder/copy/tools/shares"
cp "$root/tools/ptb_tools/shares.py" "$folder/copy/tools/ptb_tools/shares.py"
rm "$place/bin/ptb"
ln -s /nowhere "$place/bin/ptb"
installed "$place"
count_if 'a link is replaced, too' [ -f "$place/bin/ptb" ]

# ---- an installation that fails or is interrupted

mkdir "$folder/stubs"
# stub NAME TEXT: a command that does this for the program's new file, and the usual for others
stub() {
    rm -f "$folder/stubs"/*
    cat >"$folder/stubs/$1" <<END
#!/bin/bash
for last; do :; done
case "\$*" in */bin/ptb.*.new*) $2 ;; esac
PATH=\${PATH#*:} exec $1 "\$@"
END
    chmod +x "$folder/stubs/$1"
}
before=$(md5sum <"$place/bin/ptb")
stub cp 'head -c 1000 /dev/zero >"$last"; exit 1'
PATH=$folder/stubs:$PATH installed "$place"
count_same 'a program that cannot be written' "$status $(tail -n 1 "$folder/errors")" "73 install: cannot write $place/bin/ptb"
count_same 'it stays as it was' "$(md5sum <"$place/bin/ptb")" "$before"
count_same 'no part of it is left' "$(find "$place" -name '*.new*')" ''
stub mv 'kill -TERM $PPID; sleep 0.3; exit 0'
PATH=$folder/stubs:$PATH installed "$place"
count_same 'an installation that is interrupted' "$status $(grep -c 'bin/ptb$' "$folder/output")" '130 0'
count_same 'leaves no part' "$(find "$place" -name '*.new*')" ''
count_if 'and no temporary files' leaves_nothing
PATH=$folder/stubs:$PATH installed "$folder/first try"
count_same 'a first one that is interrupted' "$status" 130
installed --uninstall "$folder/first try"
count_same 'is removed' "$status $(find "$folder" -path '*first try*')" '0 '
if [ "$(ulimit -f)" = unlimited ]; then
    (
        trap '' XFSZ
        ulimit -f 100
        installed "$folder/limited"
        exit "$status"
    )
    count_same 'a file that is too big for the system' "$? $(find "$folder" -name '*.new*')" '73 '
    count_if 'leaves no temporary files' leaves_nothing
fi

# ---- removing

all_below "$folder/a place" >"$folder/there"
installed --uninstall "$place"
count_same 'uninstall' "$status $(cat "$folder/errors")" '0 '
count_same 'it prints all that was there' "$(sed 's/^removed //' "$folder/output" | sort)" "$(echo "$folder/a place"; cat "$folder/there")"
count_if 'with the folders that were made for it' [ ! -e "$folder/a place" ]
installed --uninstall "$place"
count_same 'uninstall once more' "$status $(cat "$folder/output" "$folder/errors")" \
    "66 install: nothing is installed there: no file $place/share/doc/ptb/INSTALLED"

# with folders and files of others
mkdir -p "$folder/shared/bin" "$folder/shared/share/zsh"
: >"$folder/shared/bin/other"
installed "$folder/shared"
: >"$folder/shared/share/doc/ptb/notes"
rm "$folder/shared/bin/ptb-resume"
(cd "$folder/shared" && "$folder/copy/install" ../shared >/dev/null)
rm "$folder/shared/bin/ptb-outcomes"
installed --uninstall "$folder/shared/"
count_same 'uninstall among files of others' "$status $(cat "$folder/errors")" '0 '
count_same 'it leaves what is not its own, and folders that were there' "$(cd "$folder/shared" && all_below . | xargs)" \
    './bin ./bin/other ./share ./share/doc ./share/doc/ptb ./share/doc/ptb/notes ./share/zsh'

count_same 'and prints only what was there' "$(grep -cE 'bin/(ptb-outcomes|other)$|/doc$' "$folder/output")" 0

# with a relative path
(cd "$folder" && timeout 60 "$folder/copy/install" relative/place </dev/null >"$folder/output" 2>&1)
count_same 'a relative PREFIX' "$(head -n 1 "$folder/output")" "installed $folder/relative/place/share/doc/ptb/INSTALLED"
installed --uninstall "$folder/relative/place"
count_if 'which is removed by its absolute path' [ ! -e "$folder/relative" ]

# with DESTDIR; the folder PREFIX itself stays away
DESTDIR=$folder/stage installed "$folder/below"
count_same 'install below DESTDIR' "$status $(cat "$folder/errors")" '0 '
count_same 'all of it is there, and no word on PATH' "$(sort "$folder/output")" \
    "$(files_below "$folder/stage$folder/below" | sed 's/^/installed /')"
count_same 'and nothing else' "$(cd "$folder/stage$folder" && find . -maxdepth 2 | sort | xargs)" '. ./below ./below/bin ./below/lib ./below/share'
count_if 'also not without DESTDIR' [ ! -e "$folder/below" ]
count_same 'the list of files knows nothing of DESTDIR' \
    "$(grep -c "$folder/stage" "$folder/stage$folder/below/share/doc/ptb/INSTALLED")" 0
DESTDIR=$folder/stage installed --uninstall "$folder/below"
count_same 'uninstall below DESTDIR' "$status $(find "$folder/stage" | sed "s|$folder/||")" '0 stage'

# where there is no strip
mkdir "$folder/tools"
for tool in $(sed 's/[^a-z]/\n/g' "$root/install" "$root/tools/is-built" "$root/tools/version" | sort -u) bash sh env; do
    if [ "$tool" != strip ] && [ -x "$(type -P "$tool")" ]; then ln -sf "$(type -P "$tool")" "$folder/tools/$tool"; fi
done
PATH=$folder/tools installed "$place"
count_same 'install without strip' "$status $(cat "$folder/errors")" '0 '
count_if 'the program as it was built' cmp "$folder/copy/crates/ptb/out/ptb" "$place/bin/ptb"

# without the repository
rm -rf "$folder/copy"
count_same 'what is installed runs without the repository' "$(cd / && env -i "$place/bin/ptb" <"$root/examples/hello.bas")" HI
count_same 'and helps' "$(cd / && env -i "$place/bin/ptb" --help)" "$(cat "$folder/help")"
printf '10 PRINT RND(2)\n' >"$folder/coin.bas"
(cd / && env -i "$place/bin/ptb" --all "$folder/coin.bas") </dev/null >"$folder/runs"
count_same 'the outcomes are shown without it' "$(cd / && env -i "PATH=$PATH" "$place/bin/ptb-outcomes" --by ending <"$folder/runs")" \
    '2 runs, 1 ending
100.00 %  1  ##############################  END, 2 runs

Answers count as equally likely, also those that --choose gives instead of lines.'
head -c 40 "$folder/runs" >"$folder/killed"
count_same 'a listing that was killed is resumed' \
    "$(PATH=$place/bin:$PATH ptb-resume "$folder/killed" -- ptb --all "$folder/coin.bas" </dev/null 2>&1; echo $?)" 0
count_if 'and is whole' cmp "$folder/runs" "$folder/killed"
# the lists that docs/LARGE-TREES.md shows for three dice, a run that is over sooner, and the program that PTB names
shares=$place/bin/ptb-shares
count_same 'shares are listed without it' \
    "$(cd / && env -i "PATH=$PATH" "$shares" "$root/examples/throw.bas" 1 </dev/null | tr '\n' ' ')" '1/6 2/6 3/6 4/6 5/6 6/6 '
printf '10 A=RND(2);IF A=2 B=RND(3);PRINT B\n' >"$folder/fewer.bas"
ln -s "$shares" "$folder/link"
count_same 'also by a link from elsewhere' \
    "$(cd / && env -i "PATH=$PATH" "$folder/link" "$folder/fewer.bas" 2 </dev/null | tr '\n' ' ')" '1/2 2/2,1/3 2/2,2/3 2/2,3/3 '
env -i "PATH=$PATH" PTB=/bin/false "$shares" "$folder/fewer.bas" 2 </dev/null >"$folder/output" 2>&1
count_same 'by the program that PTB names' "$? $(cat "$folder/output")" '1 '
env -i "PATH=$PATH" "$shares" "$folder/nothing.bas" 2 </dev/null >"$folder/output" 2>"$folder/errors"
count_same 'ptb-shares without a program' "$? $(cat "$folder/output")" '66 '
if [ -w /dev/full ]; then
    env -i "PATH=$PATH" "$shares" "$folder/fewer.bas" 2 </dev/null >/dev/full 2>"$folder/errors"
    count_same 'lists of ptb-shares that cannot be written' $? 74
fi
for tool in adapt outcomes resume shares; do
    "$place/bin/ptb-$tool" --help >"$folder/output"
    count_if "ptb-$tool helps by its name" grep -q "ptb-$tool" "$folder/output"
    "$place/bin/ptb-$tool" --unknown </dev/null >"$folder/output" 2>"$folder/errors"
    count_same "ptb-$tool refuses words" "$? $(grep -c "ptb-$tool" "$folder/errors")" '64 1'
done
count_same 'what bash would load is installed' "$(bash -c '. "$1" && complete -p ptb | grep -o "_ptb ptb"' bash \
    "$place/share/bash-completion/completions/ptb")" '_ptb ptb'

printf '10 A=INT(RND(1)*6):END\n' >"$folder/old.bas"
count_same 'a listing is adapted without it' \
    "$(cd / && env -i "PATH=$PATH" "$place/bin/ptb-adapt" -q "$folder/old.bas" 2>&1; echo $?)" $'10 A=RND(6)-1;STOP\n0'

# usage errors, help, a folder that cannot be made, and a program that cannot be built
make_copy
usage='usage: ./install PREFIX
       ./install --uninstall PREFIX
       ./install --help'
for arguments in '' 'one two' --unknown --uninstall '--uninstall one two' '--uninstall --help'; do
    # shellcheck disable=SC2086
    installed $arguments
    count_same "install $arguments" "$status $(cat "$folder/output" "$folder/errors")" "64 $usage"
done
for option in -h --help; do
    installed $option
    count_same "install $option" "$status $(head -n 3 "$folder/output") $(grep -c -e DESTDIR -e '^--uninstall removes' "$folder/output")" "0 $usage 2"
    count_same 'without an error' "$(cat "$folder/errors")" ''
done
touch "$folder/file"
installed "$folder/file"
count_same 'a file where a folder is needed' "$status $(tail -n 1 "$folder/errors")" \
    "73 install: cannot write $folder/file/share/doc/ptb/INSTALLED"
count_same 'and what was installed' "$(cat "$folder/output")" ''
mkdir -p "$folder/taken/bin/ptb"
installed "$folder/taken"
count_same 'a folder where a file is needed' "$status $(tail -n 1 "$folder/errors") $(ls -A "$folder/taken/bin/ptb")" \
    "73 install: cannot write $folder/taken/bin/ptb "
sed -i '/^pub const VERSION/d' "$folder/copy/crates/ptb_options/src/help.rt"
touch "$folder/copy/crates/ptb/out/ptb"
installed "$folder/nowhere"
count_same 'a version that is not known' "$status $(cat "$folder/errors") $(find "$folder" -name nowhere)" \
    '70 install: the sources do not name the version '
rm "$folder/copy/crates/ptb/out/ptb"
mkdir "$folder/bin"
printf '#!/bin/sh\necho no\nexit 1\n' >"$folder/bin/rt"
chmod +x "$folder/bin/rt"
PATH=$folder/bin:$PATH installed "$folder/nowhere"
count_same 'a program that cannot be built' "$status $(find "$folder" -name nowhere)" '70 '

# ---- the licence

count_same 'the licence' "$(sed -n '1p; 3p' "$root/LICENSE")" 'MIT License
Copyright (c) 2026 the ptb authors'

conclude
