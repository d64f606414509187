#!/usr/bin/env bash
# `import`: 10,000 prefixes and 10,000 addresses into an empty and into a full register, over a file and in memory, beside `sqlite3 .import` of the same rows
# into a table with the same columns (which checks nothing). A full register has 190,000 prefixes and 490,000 addresses besides.
#     bench/run import [PREFIXES ADDRESSES]
set -euo pipefail
top=$(cd "$(dirname "$0")/.." && pwd)
program=${IPAMD:-$top/crates/ipamd/out/ipamd}
most_prefixes=${1:-190000}
most_addresses=${2:-490000}
at=$(mktemp -d)
trap 'rm -rf "$at"' EXIT

seconds() { awk -v a="$1" -v b="$2" 'BEGIN { printf "%.2f", b - a }'; }

# rows of a kind, from a number on: prefixes of 28 bits, and addresses, each once
rows() {
    python3 - "$1" "$2" "$3" <<'PYTHON'
import ipaddress, sys
kind, first, count = sys.argv[1], int(sys.argv[2]), int(sys.argv[3])
if kind == "prefixes":
    print("prefix,vrf,status,role,is_pool,mark_utilized,description")
    base = int(ipaddress.ip_address("10.0.0.0"))
    for n in range(first, first + count):
        print(f"{ipaddress.ip_address(base + 16 * n)}/28,,active,,false,false,row {n}")
else:
    print("address,vrf,status,role,dns_name,description")
    base = int(ipaddress.ip_address("172.16.0.0"))
    for n in range(first, first + count):
        print(f"{ipaddress.ip_address(base + n)}/12,,active,,h{n}.example.org,row {n}")
PYTHON
}

# words, file, text that is wanted
timed_import() {
    local from to found
    from=$(date +%s.%N)
    found=$("$program" $1 < "$2") || { echo "$1: status $?" >&2; exit 1; }
    to=$(date +%s.%N)
    [ "$found" = "$3" ] || { echo "$1: $found" >&2; exit 1; }
    seconds "$from" "$to"
}

timed_sqlite() {
    local from to
    rm -f "$at/peer.db"
    from=$(date +%s.%N)
    sqlite3 "$at/peer.db" ".mode csv" ".import $1 rows"
    to=$(date +%s.%N)
    seconds "$from" "$to"
}

fill() {
    local kind=$1 most=$2 first=20000 some
    while [ "$first" -lt $((20000 + most)) ]; do
        some=$((20000 + most - first)); [ "$some" -gt 10000 ] && some=10000
        rows "$kind" "$first" "$some" > "$at/more.csv"
        "$program" import "$kind" --db "$at/full.db" < "$at/more.csv" > /dev/null
        first=$((first + some))
    done
}

for kind in prefixes ip-addresses; do
    rows "$kind" 0 10000 > "$at/$kind.csv"
    "$program" import "$kind" --db "$at/none.db" < <(head -1 "$at/$kind.csv") > /dev/null
done
echo "filling the register .."
from=$(date +%s.%N)
fill prefixes "$most_prefixes"
fill ip-addresses "$most_addresses"
echo "filled in $(seconds "$from" "$(date +%s.%N)") s, by 10,000 rows at a time"
# the rounds below begin with this one: of 200,000 prefixes there is room for 10,000 once
cp "$at/full.db" "$at/filled.db"

printf '%-14s %10s %12s %12s %14s %14s\n' '10,000 rows of' 'in memory' 'empty file' 'full file' 'the same again' 'sqlite .import'
for kind in prefixes ip-addresses; do
    memory=$(timed_import "import $kind" "$at/$kind.csv" 'created 10000 present 0')
    rm -f "$at/one.db"
    empty=$(timed_import "import $kind --db $at/one.db" "$at/$kind.csv" 'created 10000 present 0')
    full=$(timed_import "import $kind --db $at/full.db" "$at/$kind.csv" 'created 10000 present 0')
    again=$(timed_import "import $kind --db $at/full.db" "$at/$kind.csv" 'created 0 present 10000')
    peer=$(timed_sqlite "$at/$kind.csv")
    printf '%-14s %10s %12s %12s %14s %14s\n' "$kind" "$memory" "$empty" "$full" "$again" "$peer"
done

# the same five times, each less an import of no VRFs into the same file: what the rows alone take, beside how many records
median() { sort -n | sed -n 3p; }
echo 'name,rd,enforce_unique,description' > "$at/vrfs.csv"
for round in 1 2 3 4 5; do
    for file in empty full; do
        rm -f "$at/one.db"*
        if [ "$file" = full ]; then cp "$at/filled.db" "$at/one.db"; fi
        opened=$(timed_import "import vrfs --db $at/one.db" "$at/vrfs.csv" 'created 0 present 0')
        rm -f "$at/one.db"*
        if [ "$file" = full ]; then cp "$at/filled.db" "$at/one.db"; fi
        rows prefixes 300000 10000 > "$at/new.csv"
        all=$(timed_import "import prefixes --db $at/one.db" "$at/new.csv" 'created 10000 present 0')
        echo "$all" >> "$at/$file.all"
        seconds "$opened" "$all" >> "$at/$file.rows"; echo >> "$at/$file.rows"
    done
    timed_sqlite "$at/new.csv" >> "$at/peer.all"; echo >> "$at/peer.all"
done
echo "medians of five: into an empty file $(median < "$at/empty.all") s, sqlite3 .import $(median < "$at/peer.all") s; less the opening: empty $(median < "$at/empty.rows") s, full $(median < "$at/full.rows") s"

# what opening the full register takes by itself, and what is exported is what was imported
from=$(date +%s.%N)
"$program" import vrfs --db "$at/full.db" < <(echo name) > /dev/null
echo "opening the full register and an import of no rows: $(seconds "$from" "$(date +%s.%N)") s"
from=$(date +%s.%N)
"$program" export ip-addresses --db "$at/full.db" > "$at/out.csv"
echo "an export of all addresses: $(seconds "$from" "$(date +%s.%N)") s"
[ "$(sort "$at/out.csv" | comm -12 - <(sort "$at/ip-addresses.csv") | wc -l)" -eq 10001 ] || { echo "the export lacks rows of the import" >&2; exit 1; }
from=$(date +%s.%N)
"$program" report utilization --db "$at/full.db" > "$at/report.txt"
echo "report utilization: $(seconds "$from" "$(date +%s.%N)") s"
# a file whose last row is refused makes nothing
{ head -1 "$at/prefixes.csv"; echo '192.168.0.0/16,,active,,false,false,new'; echo '10.0.0.0/28,,reserved,,false,false,'; } > "$at/bad.csv"
sum=$("$program" export prefixes --db "$at/full.db" | sha256sum)
said=$("$program" import prefixes --db "$at/full.db" < "$at/bad.csv" 2>&1) && { echo "a bad file was taken" >&2; exit 1; }
echo "refused: $said"
[ "$sum" = "$("$program" export prefixes --db "$at/full.db" | sha256sum)" ] || { echo "a refused import made rows" >&2; exit 1; }
# beside 10,000 populated ranges an import of addresses takes at most 1.2 times what it takes beside 10,000 that are not marked
beside() {
    python3 - "$1" > "$at/ranges.csv" <<'PYTHON'
import ipaddress, sys
print("start_address,end_address,mark_populated")
base = int(ipaddress.ip_address("192.168.0.0")) - 65536 * 80
for n in range(10000):
    print(f"{ipaddress.ip_address(base + 16 * n)}/12,{ipaddress.ip_address(base + 16 * n + 7)}/12,{sys.argv[1]}")
PYTHON
    rm -f "$at/ranges.db" "$at/ranges.db-wal"
    "$program" import ip-ranges --db "$at/ranges.db" < "$at/ranges.csv" > /dev/null
    timed_import "import ip-addresses --db $at/ranges.db" "$at/ip-addresses.csv" 'created 10000 present 0'
}
unmarked=9999; marked=9999
for _ in 1 2 3; do
    some=$(beside false); unmarked=$(awk -v a="$unmarked" -v b="$some" 'BEGIN { print a < b ? a : b }')
    some=$(beside true); marked=$(awk -v a="$marked" -v b="$some" 'BEGIN { print a < b ? a : b }')
done
echo "10,000 addresses beside 10,000 ranges: $unmarked s, beside 10,000 populated ones $marked s (least of three)"
awk -v a="$unmarked" -v b="$marked" 'BEGIN { exit !(b <= 1.2 * a + 0.01) }' || { echo "populated ranges slow the import down" >&2; exit 1; }
echo "import: all as it should be"
