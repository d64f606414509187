#!/bin/sh
# Copies a program, its manual page and its systemd unit below a prefix: PREFIX/bin, PREFIX/share/man/man1, PREFIX/lib/systemd/system; with ipamd also the
# files by which nginx makes NetBox's form, PREFIX/share/ipamd/netbox, and those of the page, PREFIX/share/ipamd/web.
# The program is ipamd, or the one that is named. It is built first where it is not built yet (./build); IPAMD=PROGRAM, or POOLD=PROGRAM,
# installs one that is built. Nothing is started, and no user is made.
# usage: ./install.sh PREFIX [ipamd|poold], as ./install.sh /usr/local
set -eu
name=${2:-ipamd}
case "$#:$name" in
    [12]:ipamd) program=${IPAMD:-} words= ;;
    2:poold) program=${POOLD:-} words=poold ;;
    *) echo "usage: ./install.sh PREFIX [ipamd|poold]" >&2; exit 2 ;;
esac
top=$(cd "$(dirname "$0")" && pwd)
# the version is a constant of the programs
version=$(sed -n 's/^pub const VERSION: &str = "\(.*\)";$/\1/p' "$top/crates/program_entry/src/about.rt")
[ -n "$program" ] || "$top/build" $words
program=${program:-$top/crates/$name/out/$name}
mkdir -p "$1"
prefix=$(cd "$1" && pwd)
install -d "$prefix/bin" "$prefix/share/man/man1" "$prefix/lib/systemd/system"
install -m 755 "$program" "$prefix/bin/$name"
sed "s|@VERSION@|$version|" "$top/docs/$name.1" > "$prefix/share/man/man1/$name.1"
sed "s|@BIN@|$prefix/bin|; s|@VERSION@|$version|" "$top/examples/$name.service" > "$prefix/lib/systemd/system/$name.service"
chmod 644 "$prefix/share/man/man1/$name.1" "$prefix/lib/systemd/system/$name.service"
if [ "$name" = ipamd ]; then
    install -d "$prefix/share/ipamd/netbox"
    for file in "$top"/netbox/*.js; do
        case $file in *.test.js) ;; *) install -m 644 "$file" "$prefix/share/ipamd/netbox/" ;; esac
    done
    install -d "$prefix/share/ipamd/web/js"
    install -m 644 "$top"/web/*.* "$prefix/share/ipamd/web/"
    install -m 644 "$top"/web/js/*.js "$prefix/share/ipamd/web/js/"
fi
echo "installed $name $version: $prefix/bin/$name, $prefix/share/man/man1/$name.1, $prefix/lib/systemd/system/$name.service"
