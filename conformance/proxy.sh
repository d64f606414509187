#!/usr/bin/env bash
# nginx in front of `serve`, with examples/nginx-ipamd.conf as it stands but for its ports and files: TLS, passwords and tokens, and the user in the log; HEAD
# and what follows it on the same connection, bodies of 4 MiB and one byte more, a body in chunks, links of pages; changes that are held; requests over kept
# connections; and a request every half second for more than twice the 30 seconds that the register gives a connection, of which none may fail. All of it of
# the plain form, and what counts of NetBox's (conformance/netbox.py has the rest of that).
#     conformance/run proxy [--short] [PORT]
set -euo pipefail
top=$(cd "$(dirname "$0")/.." && pwd)
program=${IPAMD:-$top/crates/ipamd/out/ipamd}
long=yes
[ "${1:-}" != --short ] || { long=; shift; }
port=${1:-18480}
outer=$((port + 1))
folder=$(mktemp -d)
server=
proxy=
trap 'for one in $server $proxy; do kill "$one" 2>/dev/null || true; done; rm -rf "$folder"' EXIT

fail() {
    echo "proxy: $1" >&2
    exit 1
}

listens() {
    grep -qi ":$(printf %04x "$1") 00000000:0000 0A" /proc/net/tcp
}

wait_for() {
    for _ in $(seq 600); do
        listens "$1" && return
        sleep 0.1
    done
    fail "the port $1 does not listen: $(cat "$folder/errors" 2>/dev/null)"
}

# a request through nginx, with no user; by a password
outside() {
    curl -sS -g --max-time 30 --cacert "$folder/register.pem" --resolve "register.example.net:$outer:127.0.0.1" "$@"
}

ask() {
    outside -u anna:secret "$@"
}

want() {
    local wanted=$1 told
    shift
    told=$(ask -o "$folder/answer" -w '%{http_code}' "$@")
    [ "$told" = "$wanted" ] || fail "$*: $told in place of $wanted: $(head -c 300 "$folder/answer")"
}

# a GET whose answer is this
gives() {
    local status=$1 wanted=$2
    want "$status" "$base/$3"
    [ "$(cat "$folder/answer")" = "$wanted" ] || fail "$3: $(head -c 600 "$folder/answer")"
}

"$program" serve --bind "127.0.0.1:$port" --workers 16 > /dev/null 2> "$folder/serve_errors" < /dev/null &
server=$!
wait_for "$port"
"$top/conformance/front.sh" "$folder" "$port" "$outer" 2> "$folder/start" &
proxy=$!
wait_for "$outer"
token=$(cat "$folder/token")
root=https://register.example.net:$outer
base=$root/register/api/ipam
form=$root/api/ipam

# passwords and tokens: the right ones, wrong ones, and none
refused_users() {
    local told
    for told in "$@"; do
        [ "$(outside -o /dev/null -w '%{http_code}' -H "Authorization: Token $token" "$told")" = 200 ] || fail "$told with a token"
        [ "$(outside -o /dev/null -w '%{http_code}' -u anna:secret "$told")" = 200 ] || fail "$told with a password"
        [ "$(outside -o /dev/null -w '%{http_code}' "$told")" = 401 ] || fail "$told without a user"
        [ "$(outside -o /dev/null -w '%{http_code}' -u anna:wrong "$told")" = 401 ] || fail "$told with a wrong password"
        [ "$(outside -o /dev/null -w '%{http_code}' -H "Authorization: Token ${token:1}0" "$told")" = 401 ] || fail "$told with a wrong token"
        [ "$(outside -o /dev/null -w '%{http_code}' -H "Authorization: Token " "$told")" = 401 ] || fail "$told with an empty token"
    done
}
refused_users "$base/prefixes/" "$form/ip-addresses/" "$form/ip-addresses/?address=10.0.0.1/24" "$root/api/status/"
[ "$(outside -o /dev/null -w '%{http_code}' "$form/prefixes/?tenant=1")" = 401 ] || fail "a filter that is refused, without a user"
[ "$(outside -o /dev/null -w '%{http_code}' "$root/api/other/")" = 401 ] || fail "a path that does not exist, without a user"
for method in OPTIONS POST PUT PATCH DELETE; do
    [ "$(outside -o /dev/null -w '%{http_code}' -X "$method" -d '{"prefix":"10.0.0.0/16"}' "$form/prefixes/")" = 401 ] || fail "$method without a user"
done

# a creation, HEAD and a GET behind it on one connection
want 201 -d '{"prefix":"10.0.0.0/16"}' "$base/prefixes/"
ask -I "$base/prefixes/" --next -sS --max-time 30 --cacert "$folder/register.pem" --resolve "register.example.net:$outer:127.0.0.1" -u anna:secret "$base/prefixes/1/" > "$folder/both"
grep -q '^HTTP/1.1 405' "$folder/both" && grep -q '"prefix":"10.0.0.0/16"' "$folder/both" || fail "HEAD, and a GET behind it: $(cat "$folder/both")"
want 200 -H "Authorization: Token $token" "$base/prefixes/1/"
want 200 -H "Authorization: Token $token" "$form/prefixes/1/"
sleep 0.2
for line in ' anna .*"POST /register/api/ipam/prefixes/ HTTP/1.1" 201 ' ' bert .*"GET /register/api/ipam/prefixes/1/ HTTP/1.1" 200 ' \
    ' bert .*"GET /api/ipam/prefixes/1/ HTTP/1.1" 200 '; do
    grep -q "$line" "$folder/register.log" || fail "the log: $(cat "$folder/register.log")"
done

# bodies: the largest, one byte more, and one in chunks
python3 - "$folder" <<'P'
import sys
for size, name in ((4_194_304, "largest"), (4_194_305, "larger")):
    front = b'{"prefix":"10.1.0.0/16","x":"'
    open(f"{sys.argv[1]}/{name}", "wb").write(front + b"a" * (size - len(front) - 2) + b'"}')
P
want 201 --data-binary "@$folder/largest" "$base/prefixes/"
want 413 --data-binary "@$folder/larger" "$base/prefixes/"
want 413 --data-binary "@$folder/larger" "$form/prefixes/"
want 201 -H 'Transfer-Encoding: chunked' -d '{"prefix":"10.2.0.0/16"}' "$base/prefixes/"
want 201 -H 'Transfer-Encoding: chunked' -d '{"prefix":"10.3.0.0/16"}' "$form/prefixes/"
want 400 -H 'Transfer-Encoding: chunked' --data-binary "@$folder/largest" "$form/prefixes/"

# what the clients of NetBox ask beside the register's own paths
outside -i "$root/api/" > "$folder/answer"
grep -q '^API-Version: 4.1.$' "$folder/answer" || fail "the version: $(cat "$folder/answer")"
want 200 "$root/api/status/"
[ "$(cat "$folder/answer")" = '{"netbox-version":"4.1.0"}' ] || fail "the status: $(cat "$folder/answer")"
for kind in vrfs rirs roles aggregates prefixes ip-ranges ip-addresses; do
    want 200 -X OPTIONS "$form/$kind/"
    # the choices of the kind are those of docs/openapi.json
    python3 - "$top/docs/openapi.json" "$kind" "$folder/answer" <<'P' || fail "the choices of $kind: $(cat "$folder/answer")"
import json, sys
document, kind = json.load(open(sys.argv[1])), sys.argv[2]
schemas, post = document["components"]["schemas"], document["paths"][f"/api/ipam/{kind}/"]["post"]
record = schemas[post["responses"]["201"]["content"]["application/json"]["schema"]["$ref"].split("/")[-1]]
named = {name: one.get("$ref", "").split("/")[-1] for name, one in record["properties"].items()}
wanted = {name: {"choices": [{"value": one["value"], "display_name": one["label"]} for one in schemas[schema]["enum"] if one]}
          for name, schema in named.items() if schema.endswith("Choice")}
assert json.load(open(sys.argv[3])) == {"actions": {"POST": wanted}}, wanted
P
done
want 405 -X OPTIONS "$form/prefixes/1/"

# links of pages have the scheme and the host; a text of a record that looks like one stays as it is
want 200 "$base/prefixes/?limit=1&offset=1"
links="{\"count\":4,\"next\":\"$base/prefixes/?limit=1&offset=2\",\"previous\":\"$base/prefixes/?limit=1&offset=0\","
[[ "$(cat "$folder/answer")" == "$links"* ]] || fail "the links: $(cat "$folder/answer")"
want 201 -d '{"name":"x","description":"\"next\":\"/api/ \"previous\":\"/api/ {\"address\":\""}' "$base/vrfs/"
gives 200 '{"description":"\"next\":\"/api/ \"previous\":\"/api/ {\"address\":\"","enforce_unique":true,"id":1,"name":"x","rd":null}' vrfs/1/

# changes are held, and reading goes on
touch "$folder/hold"
for method in POST PATCH DELETE; do
    want 503 -X "$method" -d '{}' -D "$folder/head" "$base/prefixes/1/"
    grep -q '^Retry-After: 2.$' "$folder/head" && grep -q '"code":"held"' "$folder/answer" ||
        fail "a change that is held: $(cat "$folder/head" "$folder/answer")"
    want 503 -X "$method" -d '{}' -D "$folder/head" "$form/prefixes/1/"
    grep -q '^Retry-After: 2.$' "$folder/head" && grep -q '^Ipam-Code: held.$' "$folder/head" || fail "a change that is held: $(cat "$folder/head")"
done
want 503 -d '{}' "$base/prefixes/1/available-ips/"
want 200 "$base/prefixes/1/"
want 200 "$form/prefixes/1/"
want 200 -X OPTIONS "$form/prefixes/"
rm "$folder/hold"
want 200 -X PATCH -d '{}' "$base/prefixes/1/"
if [ -z "$long" ]; then
    echo "proxy: short"
    exit 0
fi

# two thousand requests over four connections: few connections to the register
for number in 1 2 3 4; do
    (for _ in $(seq 500); do printf 'url = "%s/prefixes/1/"\noutput = /dev/null\n' "$base"; done | ask -K - -w '%{http_code}\n' > "$folder/many$number") &
    clients[$number]=$!
done
for number in 1 2 3 4; do wait "${clients[$number]}" || fail "a client of five hundred requests"; done
[ "$(cat "$folder"/many? | grep -c '^200$')" = 2000 ] || fail "two thousand requests: $(cat "$folder"/many? | sort | uniq -c)"
made=$(grep -ci "0100007F:$(printf %04X "$port") " <(awk '{ print $3 " " }' /proc/net/tcp) || true)
[ "$made" -le 40 ] || fail "$made connections to the register for two thousand requests"

# a claim every half second, longer than twice what the register gives a connection; and one behind a pause
for _ in $(seq 70); do
    want 201 -d '{}' "$base/prefixes/1/available-ips/"
    sleep 0.5
    want 201 -d '{}' "$form/prefixes/1/available-ips/"
    sleep 0.5
done
sleep 31
want 201 -d '{}' "$form/prefixes/1/available-ips/"
claimed=$(ask "$base/ip-addresses/?parent=10.0.0.0/16&limit=1" | sed 's/{"count":\([0-9]*\),.*/\1/')
[ "$claimed" = 141 ] || fail "$claimed addresses of 141 claims"
[ ! -s "$folder/serve_errors" ] || fail "the messages: $(cat "$folder/serve_errors")"
echo "proxy: TLS, passwords and tokens, HEAD, bodies of 4 MiB and in chunks; 2,000 requests over at most $made connections to the register; 141 claims over $((140 / 2 + 31)) seconds and more, none lost or made twice; nginx $(nginx -v 2>&1 | sed 's|.*/||')"
