#!/usr/bin/env bash
# nginx in front of a register on the port INNER of this machine, on the port OUTER, with examples/nginx-ipamd.conf as it stands but for its ports and files.
# All files are in FOLDER: the certificate register.pem for localhost and register.example.net, the password `secret` of anna, the token of bert in
# FOLDER/token, the log register.log, and `hold`, which holds changes. It goes on until it is ended. READ_TIMEOUT=1s waits for the register no longer than
# that; POOLS=PORT is the port of a poold.   conformance/front.sh FOLDER INNER OUTER
set -euo pipefail
module=/usr/lib/nginx/modules/ngx_http_js_module.so
[ -e "$module" ] || { echo "front: nginx has no njs: apt-get install libnginx-mod-http-js" >&2; exit 1; }
top=$(cd "$(dirname "$0")/.." && pwd)
folder=$1 inner=$2 outer=$3
openssl req -x509 -newkey ec -pkeyopt ec_paramgen_curve:prime256v1 -nodes -days 2 -subj /CN=register.example.net \
    -addext subjectAltName=DNS:register.example.net,DNS:localhost -keyout "$folder/register.key" -out "$folder/register.pem" 2>/dev/null
printf 'anna:%s\n' "$(openssl passwd -apr1 secret)" > "$folder/register.users"
openssl rand -hex 20 > "$folder/token"
printf '"Token %s" bert;\n' "$(cat "$folder/token")" > "$folder/register.tokens"
sed "s|127.0.0.1:8080|127.0.0.1:$inner|; s|listen 443|listen 127.0.0.1:$outer|; s|/etc/ssl/certs/|$folder/|; s|/etc/ssl/private/|$folder/|
    s|/etc/nginx/|$folder/|; s|/var/log/nginx/|$folder/|; s|/run/ipamd.hold|$folder/hold|g; s|/usr/share/ipamd/|$top/|
    s|proxy_read_timeout 60s|proxy_read_timeout ${READ_TIMEOUT:-60s}|; s|127.0.0.1:8081|127.0.0.1:${POOLS:-8081}|" \
    "$top/examples/nginx-ipamd.conf" > "$folder/ipamd.conf"
[ -z "${POOLS:-}" ] || sed -i "/^geo .has_pools/,/^}/ s|default false|default true|" "$folder/ipamd.conf"
cat > "$folder/nginx.conf" <<N
load_module $module;
$([ "$(id -u)" != 0 ] || echo "user root;")
worker_processes 1; daemon off; pid $folder/nginx.pid; error_log $folder/errors;
events {}
http {
    client_body_temp_path $folder/body; proxy_temp_path $folder/proxied; fastcgi_temp_path $folder/f; uwsgi_temp_path $folder/u; scgi_temp_path $folder/s;
    include $folder/ipamd.conf;
}
N
exec nginx -c "$folder/nginx.conf" -p "$folder"
