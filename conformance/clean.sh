#!/usr/bin/env bash
# A program of conformance/ on a clean Debian: debootstrap makes a Debian 12 below FOLDER (once), with the packages that it needs and no others, and
# systemd-nspawn runs it there, without a network and from the last commit. By the built programs (./build, ./build poold; IPAMD=PROGRAM and
# POOLD=PROGRAM take other ones; it goes without the second one). As root, with debootstrap, systemd-container and git; 3 GB of disk.
#   conformance/clean.sh page|netbox [FOLDER] [-- WORDS..]     FOLDER: /var/tmp/ipamd-clean-NAME by default; WORDS: its arguments
set -euo pipefail
top=$(cd "$(dirname "$0")/.." && pwd)
name=${1:-}
case $name in
    page) packages="nginx-light libnginx-mod-http-js curl openssl nodejs chromium chromium-driver firefox-esr python3-selenium fonts-inter" ;;
    netbox) packages="nginx-light libnginx-mod-http-js curl openssl nodejs python3-pynetbox python3-hypothesis ansible" ;;
    *) echo "usage: conformance/clean.sh page|netbox [FOLDER] [-- WORDS..]" >&2; exit 2 ;;
esac
shift
root=/var/tmp/ipamd-clean-$name
[ "${1:---}" = -- ] || { root=$1; shift; }
[ $# = 0 ] || shift
program=${IPAMD:-$top/crates/ipamd/out/ipamd}
[ "$(id -u)" = 0 ] || { echo "clean: only root can do this" >&2; exit 1; }

if [ ! -e "$root/made" ]; then
    debootstrap --variant=minbase --include=ca-certificates bookworm "$root" > "$root.log" 2>&1 ||
        { echo "clean: debootstrap failed, $root.log says why" >&2; exit 1; }
    printf 'deb http://deb.debian.org/debian bookworm main\ndeb http://deb.debian.org/debian-security bookworm-security main\n' > "$root/etc/apt/sources.list"
    echo force-unsafe-io > "$root/etc/dpkg/dpkg.cfg.d/unsafe-io"
    printf '#!/bin/sh\nexit 101\n' > "$root/usr/sbin/policy-rc.d"
    chmod +x "$root/usr/sbin/policy-rc.d"
    install="apt-get -q update && apt-get -qy install --no-install-recommends $packages && apt-get clean"
    env -i PATH=/usr/sbin:/usr/bin:/sbin:/bin HOME=/root DEBIAN_FRONTEND=noninteractive chroot "$root" sh -c "$install" >> "$root.log" 2>&1 ||
        { echo "clean: the packages are not there, $root.log says why" >&2; exit 1; }
    touch "$root/made"
fi
rm -rf "$root/root/ipamd"
mkdir -p "$root/root/ipamd"
git -C "$top" archive HEAD | tar -x -C "$root/root/ipamd"
install -D -m 755 "$program" "$root/root/ipamd/crates/ipamd/out/ipamd"
pools=${POOLD:-$top/crates/poold/out/poold}
[ ! -x "$pools" ] || install -D -m 755 "$pools" "$root/root/ipamd/crates/poold/out/poold"
given=
for one in PAGE_PARTS PAGE_PATIENCE; do [ -z "${!one:-}" ] || given="$given --setenv=$one=${!one}"; done
echo "Debian $(cat "$root/etc/debian_version") with its packages $packages; no network" >&2
exec systemd-nspawn --quiet -D "$root" --register=no --keep-unit --private-network --as-pid2 --chdir=/root/ipamd --setenv=LANG=C.UTF-8 \
    --setenv=PYTHONDONTWRITEBYTECODE=1 $given conformance/run "$name" "$@"
