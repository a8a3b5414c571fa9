#!/usr/bin/env bash
# release.sh <log>: makes a release of the programs that `rt ci` left, in out/release: an archive for /usr/local, a Debian package, what
# they were made from (PROVENANCE, SOURCES.sha256), and SHA256SUMS of all of these. The log is what `rt ci` printed in this clone, after its
# commit:
#   mkdir -p out; { git describe --always --abbrev=40 --exclude='*' --dirty; rt ci; } 2>&1 | tee out/gate.log
# It refuses a tree that isn't clean, a run that didn't pass or that was of other sources, a program that was changed after the run or that
# has another version, and one that needs more than the C library.
#
# It wants `rt`, git, dpkg-dev, binutils and xz. The same commit and the same programs give the same bytes.
set -euo pipefail
log=$(realpath "${1:?usage: packaging/release.sh <log of rt ci>}")
cd "$(dirname "$0")/.."
refuse() { echo "release.sh: $*" >&2; exit 1; }

commit=$(git rev-parse HEAD)
version=$(< packaging/VERSION)
gated=$(head -n 1 "$log")
verdict=$(tail -n 1 "$log")
[ -z "$(git status --porcelain)" ] || refuse 'the tree is not clean'
[[ $verdict =~ ^[1-9][0-9]*\ passed,\ 0\ failed$ ]] || refuse "rt ci did not pass: $verdict"
if ! [[ $gated =~ ^[0-9a-f]{40}$ ]] || ! git diff --quiet "$gated" "$commit" -- crates crates.txt HANDLES 2> /dev/null; then
    refuse "rt ci was run over other sources: $gated"
fi
SOURCE_DATE_EPOCH=$(git log -1 --format=%ct)
export SOURCE_DATE_EPOCH LC_ALL=C TZ=UTC0
umask 022

name=manifest-bridge
made=out/release
rm -rf "$made"
mkdir -p "$made"
work=$(mktemp -d)
trap 'rm -rf "$work"' EXIT
tree=$work/$name-$version
share=$tree/share/$name

# A program with its manual page, which gets the version and the day, its completions and its units.
add_program() {
    local program=$1 page=$2 built=crates/$1/out/$1 day
    shift 2
    [ -x "$built" ] || refuse "there is no $built"
    [ "$log" -nt "$built" ] || refuse "$built was changed after rt ci"
    [ "$(objdump -p "$built" | awk '$1 == "NEEDED" { print $2 }')" = libc.so.6 ] || refuse "$built needs more than the C library"
    case $program in
    bridge | bridge_publish) ;;
    *) [ "$("$built" --version)" = "$program $version" ] || refuse "$built is not version $version" ;;
    esac
    day=$(date -d "@$SOURCE_DATE_EPOCH" +%F)
    install -D -m 755 "$built" "$tree/bin/$program"
    install -d "$tree/share/man/man1" "$tree/lib/systemd/system"
    sed "s/^\.TH [^ ]* 1$/& \"$day\" \"$name $version\"/" "$page" | gzip -9n > "$tree/share/man/man1/$(basename "$page").gz"
    install -D -m 644 "packaging/completions/$program.bash" "$tree/share/bash-completion/completions/$program"
    install -D -m 644 "packaging/completions/_$program" "$tree/share/zsh/site-functions/_$program"
    for unit; do install -m 644 "packaging/systemd/$unit" "$tree/lib/systemd/system/"; done
}

# The newest version of the C library's symbols that the programs need.
glibc() {
    objdump -T "$tree"/bin/* | grep -o 'GLIBC_[0-9.]*' | sed 's/GLIBC_//' | sort -uV | tail -n 1
}

# An archive of a folder, with the same bytes from the same files.
archive() {
    tar --sort=name --format=ustar --mtime="@$SOURCE_DATE_EPOCH" --owner=0 --group=0 --numeric-owner -C "$1" -c "$2" | xz -9 -T 1
}

while read -r program page units; do
    # shellcheck disable=SC2086
    add_program "$program" "$page" $units
done < <(grep -v '^#' packaging/programs)
# As root, iproute2's /usr/sbin/bridge comes first on Debian's path.
ln -s bridge "$tree/bin/$name"
ln -s bridge "$tree/share/bash-completion/completions/$name"
ln -s bridge.1.gz "$tree/share/man/man1/$name.1.gz"

doc=$tree/share/doc/$name
install -d "$share" "$doc/docs" "$doc/packaging"
cp -r examples "$share/"
cp README.md "$doc/"
cp docs/*.md "$doc/docs/"
cp packaging/CONTACT "$doc/packaging/"
install -D -m 644 packaging/sysusers.conf "$tree/lib/sysusers.d/$name.conf"
install -m 644 packaging/channel.conf crates/bridge/data/vod.mpd "$share/"
git ls-files -z | xargs -0 sha256sum > "$made/SOURCES.sha256"
{
    echo "version $version"
    echo "commit $commit"
    echo "rt ci of $gated: $verdict"
    echo "kit $(rt version)"
    echo "sources $(sha256sum < "$made/SOURCES.sha256" | cut -d ' ' -f 1)"
    (cd "$tree/bin" && find . -type f -printf '%P\n' | sort | xargs sha256sum | sed 's/^/program /')
} > "$made/PROVENANCE"
cp "$made/PROVENANCE" "$doc/"

# The package: the same below /usr, but for zsh's folder.
root=$work/root
mkdir -p "$root/usr" "$root/DEBIAN"
cp -a "$tree/." "$root/usr/"
mv "$root/usr/share/zsh/site-functions" "$root/usr/share/zsh/vendor-completions"
install -m 644 packaging/copyright "$root/usr/share/doc/$name/copyright"
printf '%s (%s) stable; urgency=medium\n\n  * docs/CHANGES.md has what changed.\n\n -- %s  %s\n' \
    "$name" "$version" "$(< packaging/CONTACT)" "$(date -R -d "@$SOURCE_DATE_EPOCH")" | gzip -9n > "$root/usr/share/doc/$name/changelog.gz"
install -m 755 packaging/postinst "$root/DEBIAN/postinst"
sed -e "s/@VERSION@/$version/" -e "s/@CONTACT@/$(< packaging/CONTACT)/" -e "s/@GLIBC@/$(glibc)/" \
    -e "s/@SIZE@/$(du -k --apparent-size -s "$root/usr" | cut -f 1)/" packaging/control > "$root/DEBIAN/control"
(cd "$root" && find usr -type f -print0 | sort -z | xargs -0 md5sum) > "$root/DEBIAN/md5sums"
find "$root" -exec touch -h -d "@$SOURCE_DATE_EPOCH" {} +
dpkg-deb --root-owner-group -Zxz --threads-max=1 --build "$root" "$made/${name}_${version}_amd64.deb" > /dev/null

# The archive: units name what lies below /usr/local.
sed -i "s#/usr/share/$name#/usr/local/share/$name#; s#/usr/bin/#/usr/local/bin/#" "$tree"/lib/systemd/system/*
archive "$work" "$name-$version" > "$made/$name-$version-linux-amd64.tar.xz"
(cd "$made" && sha256sum -- *.tar.xz *.deb PROVENANCE SOURCES.sha256 > SHA256SUMS && cat SHA256SUMS)
