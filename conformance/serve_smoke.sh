#!/usr/bin/env bash
# `serve` over a real port and a real file: two clients with two connections each make prefixes and read them, the count of the changes is printed, and a
# session finds them in the file.
#     conformance/run serve_smoke [PORT]
set -euo pipefail
top=$(cd "$(dirname "$0")/.." && pwd)
program=${IPAMD:-$top/crates/ipamd/out/ipamd}
port=${1:-18080}
folder=$(mktemp -d)
server=
trap '[ -z "$server" ] || kill "$server" 2>/dev/null || true; rm -rf "$folder"' EXIT
base=http://127.0.0.1:$port/api/ipam/prefixes/

fail() {
    echo "serve_smoke: $1" >&2
    exit 1
}

# a client: two prefixes are made over one connection, and the list is read over another
client() {
    curl -s --max-time 20 -d "{\"prefix\":\"10.$1.0.0/16\"}" -w '%{http_code}\n' "$base" \
        --next -s --max-time 20 -d "{\"prefix\":\"10.$1.0.0/24\"}" -w '%{http_code}\n' "$base" > "$folder/client$1"
    curl -s --max-time 20 -w '%{http_code}\n' "$base" >> "$folder/client$1"
}

# whether the port listens; a connection that is made to see it would be one of those that are served
listens() {
    grep -qi ":$(printf %04x "$port") 00000000:0000 0A" /proc/net/tcp
}

"$program" serve --bind "127.0.0.1:$port" --workers 2 --connections 2 --db "$folder/office.db" > "$folder/output" 2> "$folder/errors" < /dev/null &
server=$!
for _ in $(seq 100); do
    listens && break
    kill -0 "$server" 2>/dev/null || fail "it ended: $(cat "$folder/errors")"
    sleep 0.1
done
listens || fail "the port $port does not listen"

client 1 &
one=$!
client 2 &
two=$!
wait "$one" || fail "the first client"
wait "$two" || fail "the second client"
status=0
wait "$server" || status=$?
server=
[ "$status" = 0 ] || fail "status $status: $(cat "$folder/errors")"
[ "$(cat "$folder/output")" = "entries 4" ] || fail "the output: $(cat "$folder/output")"
[ ! -s "$folder/errors" ] || fail "the messages: $(cat "$folder/errors")"
for number in 1 2; do
    [ "$(grep -o '201$' "$folder/client$number" | wc -l)" = 2 ] || fail "client $number: $(cat "$folder/client$number")"
    [ "$(grep -o '200$' "$folder/client$number" | wc -l)" = 1 ] || fail "client $number: $(cat "$folder/client$number")"
done

printf 'GET /api/ipam/prefixes/ HTTP/1.1\r\nHost: x\r\n\r\n' | "$program" session --db "$folder/office.db" > "$folder/found"
grep -q '"count":4,' "$folder/found" || fail "the file: $(cat "$folder/found")"
for block in 10.1.0.0/16 10.1.0.0/24 10.2.0.0/16 10.2.0.0/24; do
    grep -q "\"prefix\":\"$block\"" "$folder/found" || fail "not in the file: $block"
done

# texts that name no place: status 3, and nothing is said
for place in nowhere "127.0.0.1:99999"; do
    status=0
    "$program" serve --bind "$place" --workers 1 > "$folder/output" 2> "$folder/errors" < /dev/null || status=$?
    [ "$status" = 3 ] && [ ! -s "$folder/output" ] && [ ! -s "$folder/errors" ] || fail "$place: status $status"
done
echo "serve_smoke: all as it should be"
