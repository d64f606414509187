#!/usr/bin/env bash
# docs/OPERATING.md, tried: the program is installed below a folder, its unit is looked at, and a register over a file is filled, killed, copied, restored and
# damaged; each status and line of the table "When something is wrong" is seen. A full disk is a small file system in memory, which root alone can mount.
#     conformance/run operating [PORT]
set -euo pipefail
top=$(cd "$(dirname "$0")/.." && pwd)
export IPAMD=${IPAMD:-$top/crates/ipamd/out/ipamd}
port=${1:-18495}
base=http://127.0.0.1:$port/api/ipam
folder=$(mktemp -d)
server=
mounted=
trap '[ -z "$server" ] || kill "$server" 2>/dev/null || true; [ -z "$mounted" ] || umount "$mounted" || true; rm -rf "$folder"' EXIT
count=0

fail() {
    echo "operating: $1" >&2
    exit 1
}

seen() {
    count=$((count + 1))
    echo "   $1"
}

listens() {
    grep -qi ":$(printf %04x "$port") 00000000:0000 0A" /proc/net/tcp
}

start() {
    "$program" serve --bind "127.0.0.1:$port" --workers 4 "$@" > "$folder/out" 2> "$folder/err" < /dev/null &
    server=$!
    for _ in $(seq 100); do
        listens && return
        kill -0 "$server" 2>/dev/null || fail "serve ended: $(cat "$folder/err")"
        sleep 0.1
    done
    fail "the port does not listen"
}

stop() {
    kill "$1" "$server"
    wait "$server" 2>/dev/null || true
    server=
    while listens; do sleep 0.1; done
}

# what a request is answered: the status, and a part of the answer
want() {
    local status=$1 part=$2 told
    shift 2
    told=$(curl -sS --max-time 20 -w '\n%{http_code}' "$@")
    [ "${told##*$'\n'}" = "$status" ] && [[ "$told" == *"$part"* ]] || fail "$*: $told"
}

# a command that ends by itself: its status, and the line on standard error
ends() {
    local wanted=$1 line=$2 status=0
    shift 2
    "$@" < /dev/null > "$folder/out" 2> "$folder/err" || status=$?
    [ "$status" = "$wanted" ] && [ "$(cat "$folder/err")" = "$line" ] || fail "$*: status $status, $(cat "$folder/err")"
    seen "status $wanted, '$line': ${*#"$folder"/}"
}

rows() {
    sqlite3 "$1" 'SELECT count(*) FROM prefixes'
}

# ---- install

"$top/install.sh" "$folder/here" > "$folder/told"
program=$folder/here/bin/ipamd
[ -x "$program" ] && ! grep -q '@' "$folder/here/share/man/man1/ipamd.1" && ! grep -q '@[A-Z]*@' "$folder/here/lib/systemd/system/ipamd.service" || fail "what was installed"
seen "$(sed "s|$folder/||g" "$folder/told")"
if command -v systemd-analyze > /dev/null; then
    sed "/^Documentation/d" "$folder/here/lib/systemd/system/ipamd.service" > "$folder/ipamd.service"
    systemd-analyze verify "$folder/ipamd.service" > "$folder/told" 2>&1 && [ ! -s "$folder/told" ] || fail "the unit: $(cat "$folder/told")"
    seen "systemd-analyze verify has nothing to say against the unit"
else
    echo "not run: systemd-analyze is not there"
fi

# ---- a register in a file: filled, killed, copied, restored

db=$folder/register.db
start --db "$db"
for number in $(seq 20); do want 201 '' -d "{\"prefix\":\"10.0.$number.0/24\"}" "$base/prefixes/"; done
ends 4 "store: the store could not be read" "$program" session --db "$db"
ends 3 "" "$program" serve --bind "127.0.0.1:$port" --workers 1
sqlite3 "$db" 'SELECT count(*) FROM prefixes' > "$folder/told" 2>&1 && fail "sqlite3 reads a file that is in use"
seen "sqlite3 over a file that is in use: $(cat "$folder/told")"
[ -e "$db-wal" ] || fail "no log beside the file"
stop -KILL
ends 0 "" "$program" session --db "$db"
[ "$(stat -c %s "$db-wal")" -lt 4096 ] || fail "changes are left in the log behind a session"
cp "$db" "$folder/copy.db"
[ "$(rows "$folder/copy.db")" = 20 ] || fail "the copy has $(rows "$folder/copy.db") prefixes"
seen "killed, opened and ended by a session, copied: 20 prefixes, and a log of $(stat -c %s "$db-wal") bytes, with no change in it"
start --db "$db"
want 201 '"id":21' -d '{"prefix":"10.0.21.0/24"}' "$base/prefixes/"
stop -TERM
rm -f "$db-wal" "$db-shm"
cp "$folder/copy.db" "$db"
start --db "$db"
want 200 '"count":20' "$base/prefixes/"
want 201 '"id":21' -d '{"prefix":"10.0.99.0/24"}' "$base/prefixes/"
stop -TERM
seen "restored: 20 prefixes, and the next id is that of the copy"

# ---- files that are refused, and mended

ends 2 "usage: ipamd COMMAND" "$program"
ends 2 "usage: ipamd COMMAND" "$program" serve --workers 4
"$program" session --db "$folder/twice.db" --global-unique no > /dev/null < <(for _ in 1 2; do printf 'POST /api/ipam/prefixes/ HTTP/1.1\r\nContent-Length: 24\r\n\r\n{"prefix":"10.0.0.0/24"}'; done)
ends 1 "store: prefixes 2: duplicate: coincides with 1" "$program" session --db "$folder/twice.db"
sqlite3 "$folder/twice.db" "UPDATE prefixes SET prefix = '10.0.1.0/24' WHERE id = 2"
ends 0 "" "$program" session --db "$folder/twice.db"
sqlite3 "$folder/twice.db" "UPDATE prefixes SET prefix = '10.0.1.1/24' WHERE id = 2"
ends 1 "store: prefixes 2: unreadable" "$program" session --db "$folder/twice.db"
sqlite3 "$folder/first.db" < "$top/model/tables_first.sql"
ends 1 "store: version 1" "$program" session --db "$folder/first.db"
[ "$("$program" migrate --db "$folder/first.db" --populated no)" = "migrated 3" ] || fail "a file of version 1 was not migrated"
ends 0 "" "$program" session --db "$folder/first.db"
ends 1 "store: version 2" "$program" migrate --db "$folder/first.db" --populated no
cp "$folder/copy.db" "$folder/nine.db"
sqlite3 "$folder/nine.db" "UPDATE meta SET value = 9 WHERE name = 'version'"
ends 1 "store: version 9" "$program" session --db "$folder/nine.db"
printf 'no database' > "$folder/none.db"
ends 4 "store: the store could not be read" "$program" session --db "$folder/none.db"
[ "$(cat "$folder/none.db")" = "no database" ] || fail "a file that is no database was changed"
ends 4 "store: the store could not be read" "$program" session --db "$folder/absent/register.db"

# ---- a full disk

if [ "$(id -u)" = 0 ] && mkdir "$folder/small" && mount -t tmpfs -o size=400k none "$folder/small" 2>/dev/null; then
    mounted=$folder/small
    start --db "$mounted/register.db"
    want 201 '' -d '{"prefix":"10.0.0.0/8"}' "$base/prefixes/"
    want 201 '' -d '{}' "$base/prefixes/1/available-ips/"
    dd if=/dev/zero of="$mounted/filler" bs=1k count=1000 2>/dev/null || true
    refused=
    for _ in $(seq 40); do
        told=$(curl -sS --max-time 20 -d "[$(printf '{},%.0s' $(seq 99)){}]" "$base/prefixes/1/available-ips/")
        [[ "$told" == '{"code":"keeper",'* ]] && refused=$told && break
    done
    [ -n "$refused" ] || fail "no change was refused on a full disk: ${told:0:200}"
    before=$(curl -sS --max-time 20 "$base/ip-addresses/?limit=1" | sed 's/{"count":\([0-9]*\),.*/\1/')
    rm "$mounted/filler"
    want 201 '' -d '{}' "$base/prefixes/1/available-ips/"
    want 200 "\"count\":$((before + 1))" "$base/ip-addresses/?limit=1"
    stop -TERM
    ends 0 "" "$program" session --db "$mounted/register.db"
    [ "$(sqlite3 "$mounted/register.db" 'SELECT count(*) FROM ip_addresses')" = $((before + 1)) ] || fail "the file has other rows than were answered"
    umount "$mounted"
    mounted=
    seen "a full disk: $refused; reading went on, and with room again so did changes; the file has what was answered"
else
    echo "not run: a full disk, since no file system can be mounted here"
fi
echo "operating: $count things as docs/OPERATING.md has them"
