#!/usr/bin/env bash
# A register with example records and its page: starts both on loopback ports, without TLS and passwords, prints the page's address, and removes everything at
# its end (Ctrl-C). The records are those of docs/OPERATING.md (NetBox's example), with aggregates, ranges and more addresses. It needs nginx, curl, python3.
# IPAMD=PROGRAM takes a built program; else the installed one or that of ./build is taken, which is built first if it is not there.
#   examples/demo.sh [PORT]     the page is on PORT (8090 by default), the register on the next one
set -euo pipefail
top=$(cd "$(dirname "$0")/.." && pwd)
port=${1:-8090}
inner=$((port + 1))
for one in "nginx nginx-light" "curl curl" "python3 python3"; do
    command -v "${one% *}" > /dev/null || { echo "demo: ${one% *} is missing: apt-get install ${one#* }" >&2; exit 1; }
done
program=${IPAMD:-$top/crates/ipamd/out/ipamd}
if [ ! -x "$program" ] && [ -x "$top/build" ]; then
    echo "demo: the program is not built yet. Building it takes about half an hour." >&2
    "$top/build"
fi
[ -x "$program" ] || program=$(command -v ipamd) || { echo "demo: there is no program ipamd" >&2; exit 1; }
web=$top/web
[ -d "$web" ] || web=/usr/share/ipamd/web

folder=$(mktemp -d)
children=
end() {
    trap - EXIT
    for child in $children; do kill "$child" 2> /dev/null || true; done
    wait 2> /dev/null || true
    rm -rf "$folder"
}
trap end EXIT
trap 'exit 0' INT TERM

wait_for() {
    for _ in $(seq 300); do
        curl -s -o /dev/null "$1" && return
        sleep 0.1
    done
    echo "demo: $1 does not answer: $(cat "$folder/errors" 2> /dev/null)" >&2
    exit 1
}

"$program" serve --bind "127.0.0.1:$inner" --workers 12 --db "$folder/demo.db" > /dev/null < /dev/null &
children="$children $!"
base=http://127.0.0.1:$inner/api/ipam
wait_for "$base/vrfs/"

# create PATH BODY: a record, or a claim
create() {
    curl -sSf -o /dev/null -d "$2" "$base/$1"
}
python3 "$top/examples/move.py" netbox "$top/examples/netbox" --to "http://127.0.0.1:$inner" > /dev/null
create rirs/ '{"name":"RFC 1918","slug":"rfc-1918","is_private":true,"description":"private use"}'
create rirs/ '{"name":"RIPE NCC","slug":"ripe-ncc"}'
create aggregates/ '{"prefix":"10.0.0.0/8","rir":1,"description":"everything inside"}'
create aggregates/ '{"prefix":"2001:db8::/32","rir":2,"description":"our IPv6"}'
create vrfs/ '{"name":"lab","rd":"65000:20","enforce_unique":false,"description":"try things here"}'
create prefixes/ '{"prefix":"10.0.0.0/16","vrf":2,"status":"container","description":"the whole lab"}'
create prefixes/ '{"prefix":"10.20.1.192/27","status":"reserved","role":1,"description":"meeting rooms"}'
create ip-ranges/ '{"start_address":"10.20.1.100/24","end_address":"10.20.1.149/24","mark_populated":true,"description":"DHCP, desks"}'
create ip-ranges/ '{"start_address":"10.20.2.128/24","end_address":"10.20.2.159/24","role":3,"description":"virtual machines"}'
office=$(curl -sS "$base/prefixes/?prefix=10.20.1.0/24" | grep -o '"id":[0-9]*' | head -n 1)
desks=$(printf '{"description":"desk"},%.0s' $(seq 37))
create "prefixes/${office#*:}/available-ips/" "[$desks{\"dns_name\":\"printer.example.net\",\"description\":\"printer\"}]"
servers=$(curl -sS "$base/prefixes/?prefix=10.20.2.0/24" | grep -o '"id":[0-9]*' | head -n 1)
create "prefixes/${servers#*:}/available-ips/" "[$(printf '{},%.0s' $(seq 11)){}]"
create prefixes/ '{"prefix":"10.30.0.0/16","status":"container","description":"the second site"}'
site=$(curl -sS "$base/prefixes/?prefix=10.30.0.0/16" | grep -o '"id":[0-9]*' | head -n 1)
create "prefixes/${site#*:}/available-prefixes/" '[{"prefix_length":20,"status":"container","description":"ground floor"},
    {"prefix_length":20,"description":"first floor"}, {"prefix_length":22,"description":"guests"},
    {"prefix_length":19,"status":"reserved","description":"kept for the new wing"},
    {"prefix_length":24,"status":"deprecated","description":"old printers"}]'

cat > "$folder/nginx.conf" <<N
$([ "$(id -u)" != 0 ] || echo "user root;")
worker_processes 1; daemon off; pid $folder/nginx.pid; error_log $folder/errors;
events {}
http {
    access_log off;
    client_body_temp_path $folder/body; proxy_temp_path $folder/proxied; fastcgi_temp_path $folder/f; uwsgi_temp_path $folder/u; scgi_temp_path $folder/s;
    upstream ipamd { server 127.0.0.1:$inner; keepalive 8; keepalive_requests 900; keepalive_timeout 10s; }
    map "\$http_sec_fetch_site" \$is_from_elsewhere { default yes; "" ""; same-origin ""; none ""; }
    map \$request_method \$is_barred { default \$is_from_elsewhere; GET ""; }
    server {
        listen 127.0.0.1:$port;
        proxy_http_version 1.1; proxy_set_header Connection ""; proxy_next_upstream off;
        location = / { return 302 http://127.0.0.1:$port/web/; }
        location /web/ {
            alias $web/;
            types { text/html html; text/css css; text/javascript js; image/svg+xml svg; }
            add_header Content-Security-Policy "default-src 'self'; frame-ancestors 'none'; base-uri 'none'; form-action 'self'; object-src 'none'" always;
            add_header X-Content-Type-Options nosniff always;
            add_header Cache-Control no-cache always;
        }
        location = /register/user { default_type application/json; return 200 '{"user":"","may_change":true}'; }
        location /register/api/ {
            if (\$is_barred) { return 403 '{"code":"elsewhere","detail":"a change that the page of another site asks for is refused"}'; }
            proxy_pass http://ipamd/api/;
        }
    }
}
N
nginx -c "$folder/nginx.conf" -p "$folder" -e "$folder/errors" &
children="$children $!"
wait_for "http://127.0.0.1:$port/web/"
echo "The page is at http://127.0.0.1:$port/ (Ctrl-C ends it)"
wait -n
