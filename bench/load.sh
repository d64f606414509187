#!/usr/bin/env bash
# `load`: the five lines of 1, 1,000 and 100,000 claims, whatever the number of workers, and how long each takes, the median of RUNS runs (3 where it is not
# set).
#     bench/run load
set -euo pipefail
top=$(cd "$(dirname "$0")/.." && pwd)
program=${IPAMD:-$top/crates/ipamd/out/ipamd}

# count, last address, percentage
check() {
    local wanted found workers from to all
    wanted=$(printf 'claimed %s\nfirst 10.0.0.1\nlast %s\npercent %s\nentries %s\n' "$1" "$2" "$3" $(($1 + 1)))
    for workers in 1 4 16 32; do
        all=
        for _ in $(seq "${RUNS:-3}"); do
            from=$(date +%s.%N)
            found=$("$program" load "$1" --workers "$workers" < /dev/null) || { echo "load $1 --workers $workers: status $?" >&2; exit 1; }
            to=$(date +%s.%N)
            [ "$found" = "$wanted" ] || { echo "load $1 --workers $workers: $found" >&2; exit 1; }
            all="$all $(echo "$to $from" | awk '{ print $1 - $2 }')"
        done
        echo "$all" | tr ' ' '\n' | grep . | sort -n | awk -v n="$1" -v w="$workers" '{ s[NR] = $1 } END { printf "load %6d --workers %2d: %.2f s\n", n, w, s[int((NR + 1) / 2)] }'
    done
}
check 1 10.0.0.1 50
check 1000 10.0.3.232 24
check 100000 10.1.134.160 19
echo "load: all as it should be"
