#!/bin/bash
# Tests tools/release in a copy of the repository. Without git nothing is tested; without dpkg-deb there is no package to test, and
# without lintian the package is not checked against the rules of Debian.
# PTB names another program than the one that ./ptb builds.
. "$(dirname "$(readlink -f "$0")")/shared/head.sh"

if ! command -v git >/dev/null; then
    echo 'git is not installed: no release was made'
    echo '0 passed, 0 failed'
    exit
fi
"$ptb" --help </dev/null >/dev/null || exit 1

# ---- a repository with all that a release reads

copy=$folder/copy
mkdir -p "$copy/crates/ptb/out" "$folder/temporary"
while read -r crate; do mkdir -p "$copy/crates/$crate/src"; done < <(sed -n 's/^\([a-z_]*\):.*/\1/p' "$root/crates.txt")
cp -R "$root/ptb" "$root/build" "$root/install" "$root/crates.txt" "$root/LICENSE" "$root/README.md" "$root/CHANGELOG.md" "$root/.gitignore" \
    "$root/completions" "$root/docs" "$root/tools" "$copy/"
mkdir "$copy/examples"
cp "$root"/examples/hello.* "$copy/examples/"
cp "$root/crates/ptb_options/src/help.rt" "$copy/crates/ptb_options/src/"
case $ptb in
"$root/ptb") cp "$root/crates/ptb/out/ptb" "$copy/crates/ptb/out/ptb" ;;
*) cp "$ptb" "$copy/crates/ptb/out/ptb" ;;
esac
export TMPDIR=$folder/temporary HOME=$folder GIT_CONFIG_NOSYSTEM=1 TZ=Asia/Kolkata
unset SOURCE_DATE_EPOCH DEBEMAIL DEBFULLNAME

# commits MESSAGE: commits all changes in the copy
commits() {
    git -C "$copy" add -A &&
        GIT_COMMITTER_DATE='2026-01-02T03:04:05Z' git -C "$copy" -c user.name=a -c user.email=a@example.org commit -qm "$1" &&
        find "$copy" -type f ! -path '*/.git/*' ! -path '*/out/*' -exec touch -d '1 minute ago' {} + &&
        touch "$copy/crates/ptb/out/ptb"
}

# released ARGUMENT..: runs tools/release of the copy with these arguments
released() {
    "$copy/tools/release" "$@" </dev/null >"$folder/output" 2>"$folder/errors"
    status=$?
}

# refuses NAME STATUS LINE: whether no release is made, with this line
refuses() {
    released "$folder/refused"
    count_same "$1" "$status $(cat "$folder/output" "$folder/errors") $(find "$folder" -name refused)" "$2 $3 "
}

version=$("$root/tools/version")
count_same 'CHANGELOG.md begins with the version of the program' "$(sed -n 's/^## \([^ ]*\).*/\1/p' "$root/CHANGELOG.md" | head -n 1)" "$version"
refuses 'no release without a repository' 65 'release: this is no git repository'
git -C "$copy" init -q
commits 'All files'
proved=$(grep '^Proved with' "$root/README.md")

# ---- a release

released "$folder/first"
count_same 'a release' "$status $(cat "$folder/errors")" '0 '
archive=ptb-$version-linux-x86_64
package=ptb_$version-1_amd64.deb
if command -v dpkg-deb >/dev/null; then files="SHA256SUMS $archive.tar.gz $package"; else files="SHA256SUMS $archive.tar.gz"; fi
count_same 'it has these files' "$(find "$folder/first" -type f -printf '%f\n' | LC_ALL=C sort | xargs) $(LC_ALL=C sort "$folder/output" | xargs)" "$files $files"
count_same 'with their checksums' "$(cat "$folder/first/SHA256SUMS")" "$(cd "$folder/first" && sha256sum -- ptb*)"
count_same 'no temporary files are left' "$(ls -A "$folder/temporary")" ''
sleep 1.1
released "$folder/second"
count_if 'the same commit gives the same bytes' diff -r "$folder/first" "$folder/second"

# The text of PROVED.
is_proof_named() {
    [ "$(sed -n '1,2p; 4p' "$1")" = "ptb $version
commit $(git -C "$copy" rev-parse HEAD)
$proved" ]
}

# ---- the archive

mkdir "$folder/unpacked"
tar -C "$folder/unpacked" -xzf "$folder/first/$archive.tar.gz"
unpacked=$folder/unpacked/$archive
"$copy/install" "$folder/installed" </dev/null >/dev/null
count_same 'all of it is in one folder' "$(ls "$folder/unpacked")" "$archive"
count_same 'it has what ./install installs, and PROVED' "$(diff -rq "$folder/installed" "$unpacked" | sed "s|$folder/||g")" \
    "Only in installed/share/doc/ptb: INSTALLED
Only in unpacked/$archive/share/doc/ptb: PROVED"
count_if 'what was proved is named' is_proof_named "$unpacked/share/doc/ptb/PROVED"
count_same 'the program runs' "$(cd / && env -i "$unpacked/bin/ptb" <"$unpacked/share/doc/ptb/examples/hello.bas")" HI
tar --numeric-owner --utc -tvzf "$folder/first/$archive.tar.gz" >"$folder/list"
count_same 'its files are those of root, with the time of the commit' \
    "$(awk '{ print $2, $4, $5 }' "$folder/list" | sort -u)" '0/0 2026-01-02 03:04'
count_same 'in order' "$(awk '{ print $6 }' "$folder/list")" "$(awk '{ print $6 }' "$folder/list" | LC_ALL=C sort)"
count_same 'which all may read' "$(cut -c 1-10 "$folder/list" | sort -u | xargs)" '-rw-r--r-- -rwxr-xr-x drwxr-xr-x'

# ---- the package

if command -v dpkg-deb >/dev/null; then
    field() {
        dpkg-deb --field "$folder/first/$package" "$1"
    }
    count_same 'its name, version and architecture' "$(field Package) $(field Version) $(field Architecture)" "ptb $version-1 amd64"
    count_if 'it needs the C library and Python' grep -qxE 'libc6 \(>= 2\.[0-9]+\), python3 \(>= 3\.9\)' <<<"$(field Depends)"
    dpkg-deb --extract "$folder/first/$package" "$folder/extracted"
    count_same 'the program of the package runs' \
        "$(cd / && env -i "$folder/extracted/usr/bin/ptb" <"$folder/extracted/usr/share/doc/ptb/examples/hello.bas")" HI
    count_if 'its program, tools and man pages are those of the archive' eval "
        diff -r '$unpacked/bin' '$folder/extracted/usr/bin' && diff -r '$unpacked/lib' '$folder/extracted/usr/lib' && diff -r '$unpacked/share/man' '$folder/extracted/usr/share/man'"
    count_if 'its package names what was proved' is_proof_named "$folder/extracted/usr/share/doc/ptb/PROVED"
    count_same 'its documents have the names that Debian gives them' "$(find "$folder/extracted/usr/share/doc/ptb" -maxdepth 1 -type f \
        ! -name '*.md' -printf '%f\n' | LC_ALL=C sort | xargs)" 'PROVED changelog.Debian.gz changelog.gz copyright'
    count_same 'the completions of zsh are where Debian looks' "$(ls "$folder/extracted/usr/share/zsh")" vendor-completions
    count_if 'the checksums of its files' eval "dpkg-deb --control '$folder/first/$package' '$folder/control' &&
        (cd '$folder/extracted' && md5sum --quiet -c '$folder/control/md5sums')"
    count_same 'its files are those of root' "$(dpkg-deb --fsys-tarfile "$folder/first/$package" | tar --numeric-owner -tv | awk '{ print $2 }' | sort -u)" 0/0
    if command -v lintian >/dev/null; then
        TMPDIR=$folder lintian "$folder/first/$package" >"$folder/lintian" 2>/dev/null
        count_same 'lintian finds no error' "$? $(grep '^E:' "$folder/lintian")" '0 '
    else
        echo 'lintian is not installed: the package was not checked against the rules of Debian'
    fi
else
    echo 'dpkg-deb is not installed: no package was made'
fi

# ---- another date

SOURCE_DATE_EPOCH=86400 released "$folder/third"
count_same 'SOURCE_DATE_EPOCH is the time of all files' \
    "$(tar --utc -tvzf "$folder/third/$archive.tar.gz" | awk '{ print $4, $5 }' | sort -u)" '1970-01-02 00:00'

# ---- no release

for arguments in '' 'one two' --help; do
    # shellcheck disable=SC2086
    released $arguments
    count_same "release $arguments" "$status $(cat "$folder/output" "$folder/errors")" '64 usage: tools/release FOLDER'
done
: >"$folder/file"
released "$folder/file"
count_same 'a file where the folder should be' "$status $(tail -n 1 "$folder/errors")" "73 release: cannot write $folder/file"
: >"$copy/notes"
refuses 'no release with a file that is not committed' 65 'release: there are changes that are not committed'
rm "$copy/notes"
echo >>"$copy/LICENSE"
refuses 'no release with a change that is not committed' 65 'release: there are changes that are not committed'
git -C "$copy" checkout -q LICENSE
sed -i 's/^Proved with/Proved by/' "$copy/README.md"
commits 'Another word'
refuses 'no release of which nobody knows what was proved' 65 'release: README.md does not name the kit of the proof'
git -C "$copy" reset -q --hard HEAD^
sed -i "s/^## $version/## 0.0.1/" "$copy/CHANGELOG.md"
commits 'Another version'
refuses 'no release without its changes' 65 "release: CHANGELOG.md does not begin with version $version"
git -C "$copy" reset -q --hard HEAD^
rm "$copy/crates/ptb/out/ptb"
mkdir "$folder/bin"
printf '#!/bin/sh\nexit 1\n' >"$folder/bin/rt"
chmod +x "$folder/bin/rt"
PATH=$folder/bin:$PATH released "$folder/unbuilt"
count_same 'no release of a program that cannot be built' "$status $(find "$folder" -name unbuilt)" '70 '
count_same 'nothing of these is left' "$(ls -A "$folder/temporary")" ''

conclude
