#!/usr/bin/env bash
# Reverse zones with BIND: 5,000 names of a /22 and of an IPv6 /48, some with `_`, are imported, and `ipamd reverse` prints them as PTR lines, which are
# compared with those by Python. They are cut into zones by the endings of their owners; each zone has a $TTL, an SOA and an NS record, and $INCLUDEs its
# lines. named-checkzone finds no error, named loads the zones, `dig -x` of each address gives its name, and what `dig AXFR` prints is read by `ipamd
# reverse-read`: the same pairs. They are imported into a second register, which prints the same lines. It ends with a fault at the first difference.
#     conformance/run reverse [PORT]
set -euo pipefail
top=$(cd "$(dirname "$0")/.." && pwd)
port=${1:-18553}
program=${IPAMD:-$top/crates/ipamd/out/ipamd}
folder=$(mktemp -d)
server=
trap '[ -z "$server" ] || kill "$server" 2>/dev/null || true; rm -rf "$folder"' EXIT
export PATH=$PATH:/usr/sbin

fail() {
    echo "reverse: $1" >&2
    exit 1
}

oracle() {
    python3 "$top/conformance/reverse.py" "$@"
}

same() {
    cmp -s "$1" "$2" || fail "$3: $(diff "$1" "$2" | head -4)"
}

# the lines whose owner ends with the zone, as a zone file of their own
make_zone() {
    local zone=$1
    # the owner is the first word: the name on the right may end alike
    grep -E "^[^ ]*\.${zone//./\\.}\. " "$folder/lines" > "$folder/$zone.lines" || fail "no line is in $zone"
    cat > "$folder/$zone.zone" <<Z
\$TTL 3600
$zone. IN SOA ns.example.net. hostmaster.example.net. 1 7200 3600 1209600 3600
$zone. IN NS ns.example.net.
\$INCLUDE $folder/$zone.lines
Z
    named-checkzone "$zone" "$folder/$zone.zone" > "$folder/check" 2>&1 || fail "named-checkzone $zone: $(head -3 "$folder/check")"
    echo "zone \"$zone\" { type primary; file \"$folder/$zone.zone\"; };" >> "$folder/zones.conf"
}

start_named() {
    cat > "$folder/named.conf" <<C
options {
    directory "$folder"; pid-file "$folder/named.pid"; session-keyfile "$folder/session.key";
    listen-on port $port { 127.0.0.1; }; listen-on-v6 { none; };
    recursion no; allow-transfer { 127.0.0.1; }; check-names primary ignore;
};
controls { };
include "$folder/zones.conf";
C
    named -g -c "$folder/named.conf" 2> "$folder/named.log" &
    server=$!
    for _ in $(seq 100); do
        grep -q 'all zones loaded' "$folder/named.log" && return
        kill -0 "$server" 2>/dev/null || break
        sleep 0.1
    done
    fail "named does not start: $(tail -3 "$folder/named.log")"
}

zones=(0.2.10.in-addr.arpa 1.2.10.in-addr.arpa 2.2.10.in-addr.arpa 3.2.10.in-addr.arpa 7.4.0.0.8.b.d.0.1.0.0.2.ip6.arpa)

# a register of the two prefixes and of these names
register() {
    printf 'prefix\n10.2.0.0/22\n2001:db8:47::/48\n' | "$program" import prefixes --db "$1" > /dev/null
    [ "$("$program" import ip-addresses --db "$1" < "$2")" = "created 5000 present 0" ] || fail "not 5,000 addresses in $1"
}

oracle names 5000 > "$folder/pairs"
oracle lines < "$folder/pairs" > "$folder/wanted_lines"
oracle rows < "$folder/pairs" > "$folder/rows"
register "$folder/a.db" "$folder/rows"
for prefix in 1 2; do "$program" reverse --prefix $prefix --db "$folder/a.db"; done > "$folder/lines"
same "$folder/wanted_lines" "$folder/lines" "ipamd reverse"
for zone in "${zones[@]}"; do
    make_zone "$zone"
done
[ "$(cat "$folder"/*.arpa.lines | wc -l)" = "$(wc -l < "$folder/lines")" ] || fail "a line is in no zone, or in two"

start_named
oracle digs "$port" < "$folder/pairs" > "$folder/digs"
dig -f "$folder/digs" > "$folder/answers"
sed 's/^[^,]*,//; s/$/./' "$folder/pairs" > "$folder/wanted"
same "$folder/wanted" "$folder/answers" "dig -x"

for zone in "${zones[@]}"; do
    dig @127.0.0.1 -p "$port" "$zone" AXFR
done | grep -E '[[:blank:]]PTR[[:blank:]]' > "$folder/transferred"
"$program" reverse-read < "$folder/transferred" > "$folder/read"
tail -n +2 "$folder/read" | sort > "$folder/read_pairs"
sort "$folder/pairs" > "$folder/sorted"
[ "$(head -n 1 "$folder/read")" = address,dns_name ] || fail "the header of ipamd reverse-read"
same "$folder/sorted" "$folder/read_pairs" "ipamd reverse-read of dig AXFR"
register "$folder/b.db" "$folder/read"
for prefix in 1 2; do "$program" reverse --prefix $prefix --db "$folder/b.db"; done > "$folder/again"
same "$folder/lines" "$folder/again" "the second register"
echo "reverse: $(wc -l < "$folder/pairs") names in ${#zones[@]} zones: ipamd reverse, named-checkzone, dig -x, dig AXFR and ipamd reverse-read agree"
