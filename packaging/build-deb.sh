#!/bin/sh
# Makes the Debian package ipamd_VERSION_amd64.deb out of the built programs ipamd and poold, by dpkg-deb; one that is not built yet is built first (./build).
# IPAMD=PROGRAM and POOLD=PROGRAM pack those that are built, VERSION=V gives another version than that of the programs. The same input
# makes the same bytes. It needs dpkg-dev, binutils and python3.
# usage: packaging/build-deb.sh [FOLDER]     FOLDER: where the package is put, packaging/out by default
set -eu
top=$(cd "$(dirname "$0")/.." && pwd)
for one in "dpkg-shlibdeps dpkg-dev" "strip binutils" "python3 python3"; do
    command -v "${one% *}" > /dev/null || { echo "build-deb: ${one% *} is missing: apt-get install ${one#* }" >&2; exit 1; }
done
[ -n "${IPAMD:-}" ] || "$top/build"
[ -n "${POOLD:-}" ] || "$top/build" poold
version=${VERSION:-$(sed -n 's/^pub const VERSION: &str = "\(.*\)";$/\1/p' "$top/crates/program_entry/src/about.rt")}
mkdir -p "${1:-$top/packaging/out}"
folder=$(cd "${1:-$top/packaging/out}" && pwd)
umask 022
work=$(mktemp -d)
trap 'rm -rf "$work"' EXIT
root=$work/root
doc=$root/usr/share/doc/ipamd
SOURCE_DATE_EPOCH=$(date -u -d "$(sed -n 's/^## [0-9][0-9.]*, //p' "$top/CHANGES.md" | head -n 1)" +%s)
export SOURCE_DATE_EPOCH

install -d "$root/DEBIAN" "$root/usr/bin" "$root/usr/share/man/man1" "$root/lib/systemd/system" "$root/usr/share/bash-completion/completions" "$doc/docs"

# a program, its manual page, its unit and its completion
pack() {
    install -m 755 "$2" "$root/usr/bin/$1"
    strip --strip-all --remove-section=.comment --remove-section=.note "$root/usr/bin/$1"
    sed "s|@VERSION@|$version|" "$top/docs/$1.1" | gzip -9n > "$root/usr/share/man/man1/$1.1.gz"
    sed "s|@BIN@|/usr/bin|; s|@VERSION@|$version|" "$top/examples/$1.service" > "$root/lib/systemd/system/$1.service"
    install -m 644 "$top/packaging/$1.bash-completion" "$root/usr/share/bash-completion/completions/$1"
}
pack ipamd "${IPAMD:-$top/crates/ipamd/out/ipamd}"
pack poold "${POOLD:-$top/crates/poold/out/poold}"

# the files by which nginx makes NetBox's form, where examples/nginx-ipamd.conf has them
install -d "$root/usr/share/ipamd/netbox"
for file in "$top"/netbox/*.js; do
    case $file in *.test.js) ;; *) install -m 644 "$file" "$root/usr/share/ipamd/netbox/" ;; esac
done

# the page
install -d "$root/usr/share/ipamd/web/js"
install -m 644 "$top"/web/*.* "$root/usr/share/ipamd/web/"
install -m 644 "$top"/web/js/*.js "$root/usr/share/ipamd/web/js/"

# the pages keep their places beside one another, so that their links hold
install -m 644 "$top/README.md" "$top/CHANGES.md" "$doc/"
install -m 644 "$top"/docs/*.md "$top"/docs/*.svg "$top"/docs/*.png "$top"/docs/openapi*.json "$doc/docs/"
cp -r "$top/examples" "$doc/examples"
rm -rf "$doc/examples/__pycache__" "$doc"/examples/*.service
find "$doc/examples" -type f | while IFS= read -r file; do case $(head -c 2 "$file") in "#!") chmod 755 "$file" ;; *) chmod 644 "$file" ;; esac; done
install -m 644 "$top/packaging/copyright" "$doc/copyright"
"$top/packaging/changelog.py" "$version" < "$top/CHANGES.md" | gzip -9n > "$doc/changelog.gz"

for script in postinst prerm postrm; do install -m 755 "$top/packaging/$script" "$root/DEBIAN/$script"; done
mkdir "$work/debian"
printf 'Source: ipamd\n\nPackage: ipamd\nArchitecture: amd64\n' > "$work/debian/control"
depends=$(cd "$work" && dpkg-shlibdeps -O -e root/usr/bin/ipamd -e root/usr/bin/poold 2> /dev/null | sed -n 's/^shlibs:Depends=//p')
[ -n "$depends" ] || { echo "build-deb: the libraries of the programs are not known to dpkg" >&2; exit 1; }
size=$(du -sk --apparent-size --exclude=DEBIAN "$root" | cut -f1)
sed "s|@VERSION@|$version|; s|@SIZE@|$size|; s|@DEPENDS@|$depends|" "$top/packaging/control" > "$root/DEBIAN/control"
(cd "$root" && find . -type f ! -path './DEBIAN/*' -printf '%P\0' | LC_ALL=C sort -z | xargs -0 md5sum) > "$root/DEBIAN/md5sums"
chmod -R go-w "$root"
dpkg-deb --root-owner-group --build "$root" "$folder/ipamd_${version}_amd64.deb" > /dev/null
echo "built $folder/ipamd_${version}_amd64.deb"
