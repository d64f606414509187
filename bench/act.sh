#!/usr/bin/env bash
# Calls a second of the register, and memory of a record: 1,000 VRFs and prefixes made through `act`, then random ones read, then pages of 1,000 rows listed.
# The prefixes are /32 blocks: `rising` and `random` are in the global table in rising order or in none, `spread` are random ones over the tables of the 1,000
# VRFs, and of `nested` the first 1,000 are /18 blocks round the random ones, and its pages are those of the 1,000. Each time is the best of three runs;
# memory is the peak of the process less that of a run that opens a register and makes nothing, and so it has what the log keeps of each call. Further runs
# say how long `open` takes for the tables of as many rising prefixes, how long 500,000 addresses in no order take to be made and to be opened, how long a
# range among 10,000 and a page of few addresses among 500,000 take, and how long it takes to delete a role that as many prefixes have. It also sees that
# every prefix that is made is found, and that the 200,001st is refused. It writes a program into a scratch copy outside the repository, proves and builds it
# there, and runs it.
#     bench/run act [prefixes]; with SCRATCH=DIR the program stays there
set -euo pipefail
top=$(cd "$(dirname "$0")/.." && pwd)
prefixes=${1:-200000}
scratch=${SCRATCH:-$(mktemp -d)}
[ -n "${SCRATCH:-}" ] || trap 'rm -rf "$scratch"' EXIT
python3 -B "$top/tools/workspace.py" "$scratch" "$top/bench/act" 'act_bench: inet_num ipam_data ipam_keeper stored_tables register_core anyhow' -- none 0
program=$scratch/crates/act_bench/out/act_bench
peak() { # the peak of resident memory of a run, in kilobytes, or 0 where there is no way to tell
    if [ -x /usr/bin/time ]; then /usr/bin/time -f %M -o "$scratch/peak" "$@" > "$scratch/answer"; cat "$scratch/peak"; else "$@" > "$scratch/answer"; echo 0; fi
}
base=$(peak "$program" none 0)
echo "load: $(uptime | sed 's/.*average: //')"
echo
echo '| prefixes | how many | VRFs a second | prefixes a second | reads a second | rows of pages a second | bytes a prefix |'
echo '|---|---|---|---|---|---|---|'
for order in rising random spread nested; do
    rm -f "$scratch/answers"
    for _ in 1 2 3; do
        full=$(peak "$program" "$order" "$prefixes")
        cat "$scratch/answer" >> "$scratch/answers"
    done
    awk -v c="$prefixes" '
        $5 != 1000 || $6 != c || $7 != c || $9 != (c < 200000) { print "the answers are not those of the rules: " $0 > "/dev/stderr"; exit 1 }' "$scratch/answers"
    awk -v k="$order" -v c="$prefixes" -v m=$(((full - base) * 1024)) '
        { for (i = 1; i <= 4; i++) if (NR == 1 || $i < best[i]) best[i] = $i; vrfs = $5; made = $6; rows = $8 }
        END {
            printf "| %s | %d | %.0f | %.0f | %.0f | %.0f | %.0f |\n", k, made,
                vrfs * 1e9 / best[1], made * 1e9 / best[2], c * 1e9 / best[3], rows * 1e9 / best[4], m / made }' "$scratch/answers"
done
echo
awk -v c="$prefixes" '{ printf "`open` of the tables of %d rising prefixes: %.2f s\n", c, $2 / 1e9 }' <("$program" open "$prefixes")
full=$(peak "$program" addresses 500000)
awk -v k=$((full - base)) '{ printf "500,000 addresses, of which %d are made: %.2f s; `open` of their tables: %.2f s; at most %.2f GB\n", $3, $1 / 1e9, $2 / 1e9, k / 1e6 }' "$scratch/answer"
"$program" ranges 10000 | awk '
    $2 != 10000 { print "the ranges are not made" > "/dev/stderr"; exit 1 }
    { printf "a range is made among 10,000 in %.1f microseconds\n", $1 / 1e6 }'
"$program" filters 500000 | awk '{
    printf "a page of 50 addresses of a /20 among 500,000: %.3f ms; of a /12: %.1f ms\n", $1 / 1e8, $2 / 1e8 }'
full=$(peak "$program" role "$prefixes")
awk -v c="$prefixes" -v k=$((full - base)) '
    $2 != "true" { print "the role is not deleted" > "/dev/stderr"; exit 1 }
    { printf "a role that %d prefixes have is deleted in %.2f s; at most %.2f GB\n", c, $1 / 1e9, k / 1e6 }' "$scratch/answer"
