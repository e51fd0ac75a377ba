#!/bin/sh
# Makes the Debian package of the proved program, FOLDER/fmrcd_VERSION_amd64.deb. Its version is that of the first
# heading of CHANGELOG.md with a number.
# Use: package/build.sh [PROGRAM] [FOLDER]; by default the program that 'make build' leaves, and the folder package/out.
set -eu
. "$(dirname "$0")/../bench/common.sh"
use_program "$@"
folder=${2:-$top/package/out}
"$top/bench/packages.sh" dpkg-deb=dpkg objdump=binutils
umask 022
tree=$(mktemp -d)
trap 'rm -r "$tree"' EXIT
trap 'exit 1' HUP INT TERM
chmod 755 "$tree"

# Puts a file into the tree, with its mode.
put() {
    install -D -m "$1" "$2" "$tree/$3"
}

# Puts a file into the tree, compressed. The time isn't kept, so that the same files make the same package.
put_compressed() {
    mkdir -p "$(dirname "$tree/$2")"
    gzip -9nc "$1" > "$tree/$2"
}

put 755 "$program" usr/bin/fmrcd
for script in fmrcd-bring-back fmrcd-feed; do
    put 755 "$top/package/$script" "usr/bin/$script"
done
for unit in fmrcd@.service fmrcd-feed@.service; do
    put 644 "$top/docs/$unit" "usr/lib/systemd/system/$unit"
done
put 644 "$top/package/fmrcd.bash" usr/share/bash-completion/completions/fmrcd
for settings in nginx.conf nginx-cluster.conf haproxy.cfg rsyncd.conf; do
    put 644 "$top/docs/$settings" "usr/share/fmrcd/$settings"
done
put 644 "$top/web/index.html" usr/share/fmrcd/web/index.html
for page in "$top"/package/man/*.1; do
    put_compressed "$page" "usr/share/man/man1/$(basename "$page").gz"
done
for page in docs/OPERATING.md docs/CLUSTER.md docs/USING.md docs/CLIENTS.md; do
    put 644 "$top/$page" "usr/share/doc/fmrcd/$(basename "$page")"
done
put 644 "$top/package/copyright" usr/share/doc/fmrcd/copyright

SOURCE_DATE_EPOCH=$(git -C "$top" log -1 --format=%ct 2> /dev/null || echo 0)
export SOURCE_DATE_EPOCH
version=$(sed -n 's/^## \([0-9][0-9.]*\).*/\1/p' "$top/CHANGELOG.md" | head -n 1)
[ "$("$program" --version)" = "fmrcd $version" ] || { echo "the program says another version than $version" >&2; exit 1; }
maintainer=$(sed -n 's/^Maintainer: //p' "$top/package/control")

# The changes of this version in Debian's form.
changes() {
    echo "fmrcd ($version) unstable; urgency=medium"
    echo
    awk '/^## / { headings++ } headings == 1 && sub(/^- /, "")' "$top/CHANGELOG.md" | while read -r change; do
        echo "$change" | fold -s -w 74 | sed -e '1s/^/  * /' -e '2,$s/^/    /' -e 's/ *$//'
    done
    echo
    echo " -- $maintainer  $(date -Ru -d "@$SOURCE_DATE_EPOCH")"
}
changes > "$tree/changelog"
put_compressed "$tree/changelog" usr/share/doc/fmrcd/changelog.gz
rm "$tree/changelog"

# The program needs the C library of which it uses the newest symbol.
library=$(objdump -T "$program" | sed -n 's/.*GLIBC_\([0-9.]*\).*/\1/p' | sort -V | tail -n 1)
size=$(du -sk "$tree/usr" | cut -f 1)
mkdir "$tree/DEBIAN"
sed -e "s/@VERSION@/$version/" -e "s/@LIBRARY@/$library/" -e "s/@SIZE@/$size/" "$top/package/control" \
    > "$tree/DEBIAN/control"
(cd "$tree" && find usr -type f | LC_ALL=C sort | xargs md5sum) > "$tree/DEBIAN/md5sums"
for script in postinst prerm postrm; do
    put 755 "$top/package/$script" "DEBIAN/$script"
done

mkdir -p "$folder"
package=$folder/fmrcd_${version}_amd64.deb
dpkg-deb --root-owner-group -Zxz --build "$tree" "$package" > /dev/null
echo "The package is $package."
