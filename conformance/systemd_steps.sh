#!/usr/bin/env bash
# The steps of docs/OPERATING.md that want systemd, one after another, in the Debian that conformance/systemd.sh starts: `step` takes a line that stands in
# that page, `look` one of our own; each has a status and a pattern that its output matches.   conformance/systemd_steps.sh FILE
set -u
exec > "$1" 2>&1
steps=0 looks=0 bad=0
export IPAMD=/root/program POOLD=/root/pools

try() {
    local status=$1 pattern=$2 command=$3 told out
    out=$(bash -c "$command" 2>&1)
    told=$?
    printf '%s\n' "$out" > /root/out
    if [ "$told" = "$status" ] && grep -qE -- "$pattern" <<< "$out"; then
        return
    fi
    bad=$((bad + 1))
    printf 'BAD  %s\n     status %s, wanted %s and a line with %s\n%s\n' "$command" "$told" "$status" "$pattern" "$out"
}

step() {
    steps=$((steps + 1))
    grep -qxF -- "    $3" docs/OPERATING.md || { bad=$((bad + 1)); echo "BAD  not in OPERATING.md: $3"; }
    try "$1" "$2" "$3"
}

look() {
    looks=$((looks + 1))
    try "$1" "$2" "$3"
}

# until a program listens, the register or the one on this port, a minute at most
listens() {
    look 0 '' "for _ in \$(seq 600); do curl -s -o /dev/null http://127.0.0.1:${1:-8080}/ && exit; sleep 0.1; done; exit 1"
}

post() {
    look 0 "$2" "curl -s -w '%{http_code}' -d '{\"prefix\":\"$1\"}' http://127.0.0.1:8080/api/ipam/prefixes/"
}

# a claim of an AS number, which is the wanted one
claim() {
    look 0 "^\{\"asn\":$1," "curl -s -d '{}' http://127.0.0.1:8081/api/ipam/asn-ranges/1/available-asns/"
}

today=$(date +%F)
step 0 '^installed ipamd [0-9.]+: /usr/local/bin/ipamd, /usr/local/share/man/man1/ipamd.1, /usr/local/lib/systemd/system/ipamd.service$' './install.sh /usr/local'
step 0 '^10.0.1.0/24$' "printf '10.0.0.0/24\\n' | ipamd free 10.0.0.0/22"
look 0 'address' 'man ipamd | cat'

# a service
step 0 '' 'systemctl daemon-reload'
step 0 '' 'systemctl enable --now ipamd'
listens
step 0 'Active: active \(running\)' 'systemctl status ipamd'
step 0 '^\{"count":0,"next":null,"previous":null,"results":\[\]\}$' 'curl -s http://127.0.0.1:8080/api/ipam/prefixes/'
# by name where the machine has libnss-systemd; else by a number of those that systemd gives
user='(ipamd|6[1-5][0-9]{3})'
look 0 "^$user\$" 'ps -o user= -p "$(systemctl show -p MainPID --value ipamd)"'
look 0 "^drwx------.* $user +$user " 'ls -ld /var/lib/private/ipamd'
look 0 "^-rw-------.* $user +$user " 'ls -l /var/lib/ipamd/register.db'
look 0 'Overall exposure level for ipamd.service: 1.[0-9] OK' 'systemd-analyze security --no-pager ipamd'
post 10.0.0.0/24 '201$'

# the program of AS numbers and VLANs as a service of its own; what it answered is there behind a crash
look 0 '^installed poold [0-9.]+: /usr/local/bin/poold, /usr/local/share/man/man1/poold.1, /usr/local/lib/systemd/system/poold.service$' './install.sh /usr/local poold'
look 0 '' 'systemctl daemon-reload; systemctl enable --now poold'
listens 8081
look 0 "^-rw-------.* $user +$user " 'ls -l /var/lib/poold/pools.db'
look 0 'Overall exposure level for poold.service: 1.[0-9] OK' 'systemd-analyze security --no-pager poold'
look 0 '"id":1,' "curl -s -d '{\"name\":\"private\",\"start\":64512,\"end\":65534}' http://127.0.0.1:8081/api/ipam/asn-ranges/"
claim 64512
look 0 '' 'systemctl kill -s KILL poold; sleep 6'
listens 8081
claim 64513

# nginx before the register
look 0 '' 'openssl req -x509 -newkey ec -pkeyopt ec_paramgen_curve:prime256v1 -nodes -days 2 -subj /CN=register.example.net -addext subjectAltName=DNS:register.example.net -keyout /etc/ssl/private/register.key -out /etc/ssl/certs/register.pem'
step 0 '' "sed 's|/usr/share/ipamd|/usr/local/share/ipamd|' examples/nginx-ipamd.conf > /etc/nginx/conf.d/ipamd.conf"
users="printf 'anna:%s\\n' \"\$(openssl passwd -apr1)\" >> /etc/nginx/register.users"
steps=$((steps + 1))
grep -qxF -- "    $users" docs/OPERATING.md || { bad=$((bad + 1)); echo "BAD  not in OPERATING.md: $users"; }
# the password is typed twice, on a terminal
printf '%s\n' "$users" > /root/users.sh
look 0 '' '(sleep 1; echo secret; sleep 1; echo secret; sleep 1) | script -qec "bash /root/users.sh" /dev/null'
look 0 '^anna:\$apr1\$' 'cat /etc/nginx/register.users'
step 0 '' "printf '\"Token %s\" bert;\\n' \"\$(openssl rand -hex 20)\" >> /etc/nginx/register.tokens"
step 0 '' 'chmod 600 /etc/nginx/register.tokens'
step 0 'test is successful' 'nginx -t && systemctl reload nginx'
outside="curl -s -w '%{http_code}' --cacert /etc/ssl/certs/register.pem --resolve register.example.net:443:127.0.0.1"
look 0 '"count":1,.*200$' "sleep 1; $outside -u anna:secret https://register.example.net/api/ipam/prefixes/"
look 0 '"display":.*200$' "$outside -u anna:secret https://register.example.net/api/ipam/prefixes/"
look 0 '"count":1,.*200$' "$outside -u anna:secret https://register.example.net/register/api/ipam/prefixes/"
look 0 '401$' "$outside https://register.example.net/api/ipam/prefixes/"
look 0 '"count":1,.*200$' "$outside -H \"Authorization: \$(sed 's/\"\(.*\)\".*/\1/' /etc/nginx/register.tokens)\" https://register.example.net/api/ipam/prefixes/"
look 0 ' bert ' 'cat /var/log/nginx/register.log'

# a copy, and what is made behind it
step 0 '' 'systemctl stop ipamd'
step 0 '' 'ipamd session --db /var/lib/ipamd/register.db < /dev/null && cp /var/lib/ipamd/register.db register-$(date +%F).db'
step 0 '' 'systemctl start ipamd'
listens
post 10.0.1.0/24 '201$'
look 0 '^0$' "ipamd session --db register-$today.db < /dev/null; echo \$?"

# the copy put back
step 0 '' 'systemctl stop ipamd'
step 0 '' 'rm -f /var/lib/ipamd/register.db-wal /var/lib/ipamd/register.db-shm'
look 0 '' "cp register-$today.db /var/lib/ipamd/register.db"
step 0 '' 'systemctl start ipamd'
listens
look 0 '^\{"count":1,' 'curl -s http://127.0.0.1:8080/api/ipam/prefixes/'
post 10.0.2.0/24 '201$'

# the log, before a restart and behind it
step 0 '^Ipam-Place: 1.?$' "curl -s -o /dev/null -D - 'http://127.0.0.1:8080/api/ipam/vrfs/?limit=1' | grep Ipam-Place"
look 0 '' 'systemctl restart ipamd'
listens
step 0 '^Ipam-Place: 0.?$' "curl -s -o /dev/null -D - 'http://127.0.0.1:8080/api/ipam/vrfs/?limit=1' | grep Ipam-Place"

# other words, by an editor that writes them
printf '#!/bin/sh\nprintf "[Service]\\nExecStart=\\nExecStart=/usr/local/bin/ipamd serve --bind 127.0.0.1:8082 --workers 4 --db /var/lib/ipamd/register.db\\n" > "$1"\n' > /root/editor
chmod +x /root/editor
look 0 '' 'script -qec "SYSTEMD_EDITOR=/root/editor systemctl edit ipamd" /dev/null; systemctl restart ipamd; sleep 1'
look 0 '^\{"count":2,' 'curl -s http://127.0.0.1:8082/api/ipam/prefixes/'
look 0 '' 'systemctl revert ipamd; systemctl restart ipamd'
listens

# a crash, a file that another program has, a row that breaks a rule
look 0 '' 'systemctl kill -s KILL ipamd; sleep 6'
listens
look 0 '^NRestarts=1$' 'systemctl show -p NRestarts ipamd'
look 0 '^\{"count":2,' 'curl -s http://127.0.0.1:8080/api/ipam/prefixes/'
look 0 '' 'systemctl stop ipamd'
look 0 '^ExecMainStatus=4$' 'sleep 4 | ipamd session --db /var/lib/ipamd/register.db & sleep 1; systemctl start ipamd; sleep 1; systemctl show -p ExecMainStatus ipamd; wait'
look 0 '' 'sleep 6'
listens
look 0 '' 'systemctl stop ipamd; cp /var/lib/ipamd/register.db whole.db; sqlite3 /var/lib/ipamd/register.db "UPDATE prefixes SET prefix = '"'10.0.0.1/24'"' WHERE id = 1"'
look 0 '^ExecMainStatus=1$' 'systemctl start ipamd; sleep 8; systemctl show -p ExecMainStatus -p NRestarts ipamd'
look 0 'Active: failed' 'systemctl status ipamd; true'
look 0 'store: prefixes 1: ' 'journalctl --no-pager -u ipamd | tail -n 20'
look 0 '' 'cp whole.db /var/lib/ipamd/register.db; rm -f /var/lib/ipamd/register.db-wal /var/lib/ipamd/register.db-shm; systemctl reset-failed ipamd; systemctl start ipamd'
listens

# a new version
step 0 '' 'systemctl stop ipamd'
step 0 '' 'ipamd session --db /var/lib/ipamd/register.db < /dev/null && cp /var/lib/ipamd/register.db register-before.db'
step 0 '^installed ipamd' './install.sh /usr/local'
step 0 '' 'systemctl daemon-reload && systemctl start ipamd'
listens
look 0 '^\{"count":2,' 'curl -s http://127.0.0.1:8080/api/ipam/prefixes/'
# a file of version 1: the unit fails over it, a copy with nothing running, the migration, and it serves
look 0 '' 'systemctl stop ipamd; cp /var/lib/ipamd/register.db kept.db; rm -f first.db; sqlite3 first.db < model/tables_first.sql; cp first.db /var/lib/ipamd/register.db; rm -f /var/lib/ipamd/register.db-wal /var/lib/ipamd/register.db-shm'
look 0 '^ExecMainStatus=1$' 'systemctl start ipamd; sleep 8; systemctl show -p ExecMainStatus ipamd'
look 0 'store: version 1' 'journalctl --no-pager -u ipamd | tail -n 20'
step 0 '' 'systemctl stop ipamd'
step 0 '' 'cp /var/lib/ipamd/register.db register-before.db'
look 0 '' '[ ! -e /var/lib/ipamd/register.db-wal ] || cp /var/lib/ipamd/register.db-wal register-before.db-wal'
look 1 '^store: version 1$' 'ipamd session --db register-before.db < /dev/null'
step 0 '^migrated 3$' 'ipamd migrate --db /var/lib/ipamd/register.db --populated yes'
look 1 '^store: version 2$' 'ipamd migrate --db /var/lib/ipamd/register.db --populated yes'
look 0 '' 'systemctl reset-failed ipamd'
step 0 '' 'systemctl daemon-reload && systemctl start ipamd'
listens
look 0 '"mark_populated":true' 'curl -s http://127.0.0.1:8080/api/ipam/ip-ranges/7/'
step 0 '"mark_populated":false' "curl -s -X PATCH -d '{\"mark_populated\":false}' http://127.0.0.1:8080/api/ipam/ip-ranges/7/"
look 0 '' 'systemctl stop ipamd; cp kept.db /var/lib/ipamd/register.db; rm -f /var/lib/ipamd/register.db-wal /var/lib/ipamd/register.db-shm; systemctl start ipamd'
listens
# the package in place of what install.sh put there; the register stays
version=$(sed -n 's/^pub const VERSION: &str = "\(.*\)";$/\1/p' crates/program_entry/src/about.rt)
look 0 '' 'systemctl disable --now ipamd poold; cd /usr/local; rm {bin,share/man/man1,lib/systemd/system}/{ipamd,poold}* && systemctl daemon-reload'
step 0 'not started. To start one now and at each boot: systemctl enable --now ipamd.?$' "apt install ./packaging/out/ipamd_${version}_amd64.deb"
for one in ipamd poold; do
    look 3 '^inactive$' "systemctl is-active $one"
    look 1 '^disabled$' "systemctl is-enabled $one"
    look 0 "^${one^^}\\(1\\)" "man $one | cat"
    look 0 "^complete -F _$one $one\$" ". /usr/share/bash-completion/completions/$one; complete -p $one"
done
look 0 '^10.0.1.0/24$' "printf '10.0.0.0/24\\n' | /usr/bin/ipamd free 10.0.0.0/22"
look 0 '^README.md$' 'ls /usr/share/doc/ipamd'
step 0 '' 'systemctl enable --now ipamd'
listens
look 0 '^\{"count":2,' 'curl -s http://127.0.0.1:8080/api/ipam/prefixes/'
post 10.0.3.0/24 '201$'
look 0 '' 'systemctl enable --now poold'
listens 8081
claim 64514

# a package of a higher version: the units that run are restarted by it, and the new programs answer
for one in ipamd poold; do look 0 '' "systemctl show -p MainPID $one > /root/before.$one"; done
look 0 '' "apt install ./packaging/out/ipamd_${version}.1_amd64.deb"
listens
listens 8081
for one in ipamd poold; do
    look 0 '^active$' "systemctl is-active $one"
    look 0 "^Description=$one ${version}.1," "systemctl show -p Description $one"
    look 0 "^/usr/bin/$one\$" "readlink /proc/\$(systemctl show -p MainPID --value $one)/exe"
    look 1 '' "systemctl show -p MainPID $one | cmp -s - /root/before.$one"
done
look 0 '^\{"count":3,' 'curl -s http://127.0.0.1:8080/api/ipam/prefixes/'
claim 64515

# one that is stopped is not started by an upgrade
look 0 '' "systemctl stop poold; apt install --allow-downgrades -y ./packaging/out/ipamd_${version}_amd64.deb"
look 3 '^inactive$' 'systemctl is-active poold'
listens

# the package removed; the records are kept and said so, and the next package finds them
kept='ipamd: the register in /var/lib/ipamd is kept. To remove it: rm -r /var/lib/private/ipamd /var/lib/ipamd'
pools='ipamd: the pools in /var/lib/poold are kept. To remove them: rm -r /var/lib/private/poold /var/lib/poold'
step 0 "^$kept" 'apt purge -y ipamd'
look 0 "^$pools" 'cat /root/out'
for one in ipamd poold; do
    look 3 '^inactive$' "systemctl is-active $one"
    look 1 '' "test -L /etc/systemd/system/multi-user.target.wants/$one.service || test -e /usr/bin/$one"
done
look 0 'register.db' 'ls /var/lib/private/ipamd'
look 0 'pools.db' 'ls /var/lib/private/poold'
look 0 'not started' "apt install ./packaging/out/ipamd_${version}_amd64.deb && systemctl start ipamd poold"
listens
look 0 '^\{"count":3,' 'curl -s http://127.0.0.1:8080/api/ipam/prefixes/'
listens 8081
claim 64516

if [ "$bad" = 0 ]; then
    echo "systemd: $steps lines of OPERATING.md and $looks looks, systemd $(systemctl --version | sed -n '1s/systemd \([0-9]*\).*/\1/p'): all as it should be"
else
    echo "systemd: $bad of $((steps + looks)) not as they should be"
fi
