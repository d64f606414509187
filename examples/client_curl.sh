#!/usr/bin/env bash
# A day with a register by curl alone: rows are made, found, changed and removed, space is claimed, and each answer is compared with what it is to
# be. It wants an empty register:   ./ipamd serve --bind 127.0.0.1:8080 --workers 4 &   examples/client_curl.sh http://127.0.0.1:8080
set -euo pipefail
[ $# -eq 1 ] || { echo "usage: examples/client_curl.sh URL" >&2; exit 2; }
api=$1/api/ipam
count=0

# status, a part of the answer, and the words of curl
want() {
    local status=$1 part=$2 told
    shift 2
    told=$(curl -sS --max-time 20 -w '\n%{http_code}' "$@")
    [ "${told##*$'\n'}" = "$status" ] && [[ "$told" == *"$part"* ]] || { echo "client_curl: $*: $told" >&2; exit 1; }
    count=$((count + 1))
}

# rows; a body makes it a POST, and no Content-Type is looked at
want 200 '{"count":0,"next":null,"previous":null,"results":[]}' "$api/prefixes/"
want 201 '"id":1,"name":"guests","rd":"65000:10"' -d '{"name":"guests","rd":"65000:10"}' "$api/vrfs/"
want 201 '"id":1,"name":"Office LAN"' -d '{"name":"Office LAN","slug":"office-lan"}' "$api/roles/"
want 201 '"depth":0' -d '{"prefix":"10.20.0.0/16","status":"container"}' "$api/prefixes/"
want 201 '"depth":1' -d '{"prefix":"10.20.0.0/24","role":1,"description":"desks"}' "$api/prefixes/"
want 201 '"vrf":1' -d '{"prefix":"10.20.0.0/24","vrf":1}' "$api/prefixes/"
want 400 '{"code":"duplicate","detail":"coincides with 2"}' -d '{"prefix":"10.20.0.0/24"}' "$api/prefixes/"
want 400 '{"code":"host_bits","detail":' -d '{"prefix":"10.20.0.1/24"}' "$api/prefixes/"

# find: the filters of NetBox, in the target; a target with & stands in quotation marks
want 200 '"count":2' "$api/prefixes/?within_include=10.20.0.0/16&vrf_id=null"
want 200 '"children":1' "$api/prefixes/1/"
want 404 '{"code":"not_found","detail":"prefixes 9 is not there"}' "$api/prefixes/9/"

# claims: the lowest that is free
want 200 '[{"family":4,"prefix":"10.20.1.0/24","vrf":null},' "$api/prefixes/1/available-prefixes/?limit=2"
want 201 '"prefix":"10.20.1.0/26"' -d '{"prefix_length":26}' "$api/prefixes/1/available-prefixes/"
want 201 '"address":"10.20.0.1/24"' -d '{"dns_name":"gw.example.net"}' "$api/prefixes/2/available-ips/"
want 201 '"address":"10.20.0.3/24"' -d '[{},{}]' "$api/prefixes/2/available-ips/"
want 409 '{"code":"no_space","detail":"no space for claim 1"}' -d '[{"prefix_length":17},{"prefix_length":17}]' "$api/prefixes/1/available-prefixes/"
want 200 '{"utilization":1}' "$api/prefixes/2/utilization/"

# change and remove
want 200 '"description":"desks, west"' -X PATCH -d '{"description":"desks, west"}' "$api/prefixes/2/"
want 409 '{"code":"in_use","detail":"named by prefixes 3"}' -X DELETE "$api/vrfs/1/"
want 204 '' -X DELETE "$api/prefixes/3/"
want 204 '' -X DELETE "$api/vrfs/1/"

# a page, and the one behind it: `next` has no host, so it stands behind that of the register
page=$(curl -sS --max-time 20 "$api/ip-addresses/?limit=2")
next=$(printf '%s' "$page" | sed -n 's/.*"next":"\([^"]*\)".*/\1/p')
want 200 '"previous":"/api/ipam/ip-addresses/?limit=2&offset=0"' "$1$next"

# how many changes there were before this answer
want 200 'Ipam-Place: 11' -D - "$api/vrfs/?limit=1"

# -f ends with 22 on a refusal, -I sends HEAD, which no path has, and --next asks over the same connection
told=0
curl -sf -o /dev/null "$api/prefixes/9/" || told=$?
[ "$told" = 22 ] || { echo "client_curl: -f: status $told" >&2; exit 1; }
told=$(curl -sI -o /dev/null -w '%{http_code}' "$api/prefixes/" --next -s -o /dev/null -w ' %{http_code} %{num_connects}' "$api/prefixes/1/")
[ "$told" = "405 200 0" ] || { echo "client_curl: -I, and a request behind it: $told" >&2; exit 1; }
echo "client_curl: $count answers, all as they should be"
