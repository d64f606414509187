#!/usr/bin/env bash
# The scripts of examples/ and the pictures of docs/: curl's
# day; pynetbox over poold; the moves from NetBox, phpIPAM and a spreadsheet, with what they print and the CSV files that they write; those of AS numbers and
# VLANs into pools, with what `poold export` prints of them (the CSV files were written by hand), and what the moves leave out; and that docs/layers.svg
# and docs/tree.svg are still what their scripts draw. Each has a register of its own. What runs behind nginx (pynetbox, Ansible) is in conformance/netbox.py.
#     conformance/run clients [PORT]
set -euo pipefail
top=$(cd "$(dirname "$0")/.." && pwd)
program=${IPAMD:-$top/crates/ipamd/out/ipamd}
pools=${POOLD:-$top/crates/poold/out/poold}
export PYTHONDONTWRITEBYTECODE=1
port=${1:-18490}
url=http://127.0.0.1:$port
folder=$(mktemp -d)
server=
trap 'for one in $server; do kill "$one" 2>/dev/null || true; done; rm -rf "$folder"' EXIT

fail() {
    echo "clients: $1" >&2
    exit 1
}

listens() {
    grep -qi ":$(printf %04x "${1:-$port}") 00000000:0000 0A" /proc/net/tcp
}

# serves a register, in memory or over the file that is told
start() {
    "$program" serve --bind "127.0.0.1:$port" --workers 16 "$@" > /dev/null 2> "$folder/errors" < /dev/null &
    server=$!
    for _ in $(seq 600); do
        listens && return
        kill -0 "$server" 2>/dev/null || fail "it ended: $(cat "$folder/errors")"
        sleep 0.1
    done
    fail "the port $port does not listen"
}

stop() {
    kill "$server"
    wait "$server" 2>/dev/null || true
    server=
    while listens; do sleep 0.1; done
}

# a move twice: its status, what the first says last, and what the second does; and its CSV files
move() {
    local source=$1 path=$2 csv=$3 wanted=$4 made=$5 again=$6 status=0
    python3 "$top/examples/move.py" "$source" "$top/$path" --to "$url" "${@:7}" > "$folder/out" 2> "$folder/err" || status=$?
    [ "$status" = "$wanted" ] && [ "$(tail -n 1 "$folder/out")" = "$made" ] || fail "the move from $source, status $status: $(cat "$folder/out" "$folder/err")"
    status=0
    python3 "$top/examples/move.py" "$source" "$top/$path" --csv "$folder/$source" --to "$url" "${@:7}" > "$folder/out" 2> "$folder/err" || status=$?
    [ "$status" = "$wanted" ] && [ "$(tail -n 1 "$folder/out")" = "$again" ] || fail "the second move from $source, status $status: $(cat "$folder/out" "$folder/err")"
    diff -r "$folder/$source" "$top/$csv" > "$folder/diff" || fail "the CSV files of $source: $(head -n 5 "$folder/diff")"
}

# a move of AS numbers and VLANs twice: its status, what the first says last, and what the second does; and the pools then, of which the CSV files have this
# row more, that is refused
move_numbers() {
    local source=$1 path=$2 csv=$3 wanted=$4 made=$5 again=$6 refused=$7 status kind line
    program=$pools start --db "$folder/$source-pools.db"
    for line in "$made" "$again"; do
        status=0
        python3 "$top/examples/move.py" "$source" "$path" --pools "$url" "${@:8}" > "$folder/out" 2> "$folder/err" || status=$?
        [ "$status" = "$wanted" ] && [ "$(tail -n 1 "$folder/out")" = "pools: $line" ] || fail "the numbers of $source, status $status: $(cat "$folder/out" "$folder/err")"
    done
    stop
    for kind in asn-ranges vlan-groups asns vlans; do
        "$pools" export "$kind" --db "$folder/$source-pools.db" > "$folder/out" || fail "export $kind"
        grep -vx "$refused" "$csv/$kind.csv" | cmp - "$folder/out" || fail "the $kind of $source: $(cat "$folder/out")"
    done
}

# what a move says that it leaves out
left_out() {
    local said
    said=$(python3 "$top/examples/move.py" "$1" "$2" "${@:4}" | sed -n 's/^left out: //p')
    [ "$said" = "$3" ] || fail "left out of $2: $said"
}

# a client by pynetbox: its words; its last line is said
client() {
    /usr/bin/python3 "$top/examples/$1" "${@:2}" > "$folder/out" 2>&1 || fail "$1: $(cat "$folder/out")"
    tail -n 1 "$folder/out"
}

start
"$top/examples/client_curl.sh" "$url"
stop
start --db "$folder/moved.db"
move netbox examples/netbox examples/netbox/csv 0 "made 24, present 0, refused 0" "made 0, present 24, refused 0" --group other --asn-range private
move phpipam examples/phpipam examples/phpipam/csv 1 "made 18, present 0, refused 1" "made 0, present 18, refused 1"
stop
"$program" report tree --db "$folder/moved.db" | python3 "$top/docs/tree.py" | cmp - "$top/docs/tree.svg" || fail "docs/tree.svg is not what docs/tree.py draws"
start
move spreadsheet examples/spreadsheet.csv examples/spreadsheet-csv 1 "made 23, present 1, refused 1" "made 0, present 24, refused 1"
stop
mkdir "$folder/sheet"
printf 'Network,Mask,Name,Use,Status,Remark,VLAN,Site,ASN\n10.0.1.0,24,LAN 1,,,,10,Depot,\n2001:db8:1::,64,LAN 1,,,,10,Depot,\n10.0.2.0,24,Phones,,,,20,,\n,,edge 2,,,,,,64530\n,,"edge, 1",,,,,,64520\n' > "$folder/sheet.csv"
printf 'name,start,end\nedges,64520,64530\n' > "$folder/sheet/asn-ranges.csv"
printf 'name,start,end\nDepot,1,4094\nother,1,4094\n' > "$folder/sheet/vlan-groups.csv"
printf 'range,asn,name\nedges,64530,edge 2\nedges,64520,"edge, 1"\n' > "$folder/sheet/asns.csv"
printf 'group,vid,name\nDepot,10,LAN 1\nother,20,Phones\n' > "$folder/sheet/vlans.csv"
move_numbers netbox "$top/examples/netbox" "$top/examples/netbox/csv" 0 "made 11, present 0, refused 0" "made 0, present 11, refused 0" none --group other --asn-range private
move_numbers phpipam "$top/examples/phpipam" "$top/examples/phpipam/csv" 1 "made 5, present 0, refused 1" "made 0, present 5, refused 1" "default,10,old office"
move_numbers spreadsheet "$folder/sheet.csv" "$folder/sheet" 0 "made 7, present 0, refused 0" "made 0, present 7, refused 0" none --group other --asn-range edges
# a group and a range that the pools have under the names of the options keep their bounds
printf 'vlan,name,asn\n20,phones,\n,edge,64530\n' > "$folder/named.csv"
program=$pools start --db "$folder/named-pools.db"
curl -sf -d '{"name":"office","start":10,"end":99}' "$url/api/ipam/vlan-groups/" > "$folder/out"
curl -sf -d '{"name":"edges","start":64512,"end":65534}' "$url/api/ipam/asn-ranges/" > "$folder/out"
python3 "$top/examples/move.py" spreadsheet "$folder/named.csv" --pools "$url" --group office --asn-range edges > "$folder/out" || fail "named pools: $(cat "$folder/out")"
stop
[ "$(tail -n 1 "$folder/out")" = "pools: made 2, present 2, refused 0" ] || fail "named pools: $(cat "$folder/out")"
for line in "vlan-groups office,10,99" "asn-ranges edges,64512,65534" "vlans office,20,phones" "asns edges,64530,edge"; do
    [ "$("$pools" export "${line%% *}" --db "$folder/named-pools.db" | tail -n +2)" = "${line#* }" ] || fail "named pools: not $line"
done
left_out netbox "$top/examples/netbox" "gap of vid_ranges of 1, rir of 3, status of a VLAN of 1, tags of 2, tenant of 2" --group other --asn-range private
left_out netbox "$top/examples/netbox" "AS number without a range of 2, VLAN without a group of 1, gap of vid_ranges of 1, rir of 3, status of a VLAN of 1, tags of 2, tenant of 2"
left_out phpipam "$top/examples/phpipam" "description of 2, folder of 1, mac of 2"
printf 'vlan,name,site,asn,contact,remark\n10,a,Depot,,anna,old\n20,b,,,,\n,c,Depot,64530,,\n' > "$folder/odd.csv"
left_out spreadsheet "$folder/odd.csv" "AS number without a range of 1, VLAN without a group of 1, contact of 1, remark of 1, site of 1"
mkdir "$folder/odd"
for kind in prefixes ip-addresses; do echo '{"results":[]}' > "$folder/odd/$kind.json"; done
long=$(printf 'n%.0s' $(seq 101))
echo '{"results":[{"id":1,"name":"Étage 1","slug":"etage-1","start":1,"end":9,"rir":{"id":1}},{"id":2,"name":"b","slug":"c","start":10,"end":19,"rir":null}]}' > "$folder/odd/asn-ranges.json"
echo "{\"results\":[{\"asn\":5,\"description\":\"$long\",\"comments\":\"x\"}]}" > "$folder/odd/asns.json"
echo '{"results":[{"id":7,"name":"g","slug":"g","min_vid":5,"max_vid":9,"scope":{"id":1}}]}' > "$folder/odd/vlan-groups.json"
echo '{"results":[{"vid":5,"name":"v","status":{"value":"active"},"group":{"id":7},"site":{"name":"Depot"},"role":{"id":1},"qinq_svlan":{"id":3}}]}' > "$folder/odd/vlans.json"
left_out netbox "$folder/odd" "comments of 1, end of a name of 1, qinq_svlan of 1, rir of 1, role of 1, scope of 1, site of a VLAN of 1, slug of 1" --asn-range b
python3 "$top/docs/layers.py" --check
echo "clients: three moves and three of numbers, twice each, and both pictures as they should be"
