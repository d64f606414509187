#!/usr/bin/env bash
# docs/OPERATING.md under systemd: a Debian of its own is made by debootstrap below a folder (once; two minutes), started by systemd-nspawn without a network,
# and in it conformance/systemd_steps.sh goes through the steps as they are written: an installation by install.sh, nginx, copies, a migration; and the
# package, which lintian has to find no error in: installed, upgraded under running services, purged.
#     conformance/run systemd [FOLDER]
set -euo pipefail
top=$(cd "$(dirname "$0")/.." && pwd)
program=${IPAMD:-$top/crates/ipamd/out/ipamd}
pools=${POOLD:-$top/crates/poold/out/poold}
[ "$(id -u)" = 0 ] || { echo "systemd: only root can do this" >&2; exit 1; }
root=${1:-/var/tmp/ipamd-debian}
packages=systemd,systemd-sysv,dbus,curl,nginx-light,libnginx-mod-http-js,openssl,sqlite3,procps,iproute2,man-db
if [ ! -e "$root/made" ]; then
    debootstrap --variant=minbase --include="$packages" bookworm "$root" > "$root.log" 2>&1 || { echo "systemd: debootstrap failed, $root.log says why" >&2; exit 1; }
    touch "$root/made"
fi

chroot "$root" dpkg --purge ipamd > /dev/null 2>&1 || true
rm -rf "$root/root/ipamd" "$root/root/told" "$root"/var/lib/private/{ipamd,poold} "$root"/var/lib/{ipamd,poold} "$root"/etc/systemd/system/{ipamd,poold}.service.d "$root"/etc/nginx/{register.users,register.tokens,conf.d/ipamd.conf}
mkdir -p "$root/root/ipamd"
git -C "$top" archive HEAD | tar -x -C "$root/root/ipamd"
# what is tried is what stands here, also where it is not committed yet
cp "$top"/conformance/systemd_steps.sh "$root/root/ipamd/conformance/"
cp "$top"/docs/OPERATING.md "$root/root/ipamd/docs/"
cp "$top"/examples/* "$root/root/ipamd/examples/" 2>/dev/null || true
install -m 755 "$program" "$root/root/program"
install -m 755 "$pools" "$root/root/pools"
# the package, and one of a higher version
version=$(sed -n 's/^pub const VERSION: &str = "\(.*\)";$/\1/p' "$top/crates/program_entry/src/about.rt")
for one in "$version" "$version.1"; do VERSION=$one IPAMD=$program POOLD=$pools "$top/packaging/build-deb.sh" "$root/root/ipamd/packaging/out" > /dev/null; done
lintian --allow-root --fail-on error "$root/root/ipamd/packaging/out/ipamd_${version}_amd64.deb"
cat > "$root/etc/systemd/system/steps.service" <<U
[Unit]
Description=the steps of OPERATING.md
After=multi-user.target
[Service]
Type=oneshot
WorkingDirectory=/root/ipamd
Environment=HOME=/root TERM=dumb PATH=/usr/local/sbin:/usr/local/bin:/usr/sbin:/usr/bin:/sbin:/bin
ExecStart=/bin/bash conformance/systemd_steps.sh /root/told
ExecStopPost=/bin/systemctl --no-block poweroff
U
mkdir -p "$root/etc/systemd/system/graphical.target.wants"
ln -sf /etc/systemd/system/steps.service "$root/etc/systemd/system/graphical.target.wants/steps.service"
timeout 900 script -qc "systemd-nspawn -D $root --register=no --keep-unit --private-network -b" "$root/root/console" > /dev/null 2>&1 < /dev/null || true
[ -e "$root/root/told" ] || { echo "systemd: it did not start; $root/root/console" >&2; exit 1; }
cat "$root/root/told"
tail -n 1 "$root/root/told" | grep -q '^systemd: .* all as it should be$'
