#!/usr/bin/env bash
# Calls a second of the book of prefixes over trees, below the register: prefixes are made one after another, each with its fault asked for, its room made,
# and its depth and children asked for when it is in; then each is asked for again as a duplicate; then depth and children of the first 1,000. The prefixes
# are /32 blocks of 10.0.0.0/8 in no order, all in the global table; of `nested` the first 1,000 are /18 blocks round them. Each time is the best of three
# runs. It writes a program into a scratch copy outside the repository, proves and builds it there, and runs it.
#     bench/run prefixes [prefixes]; with SCRATCH=DIR the program stays there
set -euo pipefail
top=$(cd "$(dirname "$0")/.." && pwd)
prefixes=${1:-200000}
scratch=${SCRATCH:-$(mktemp -d)}
[ -n "${SCRATCH:-}" ] || trap 'rm -rf "$scratch"' EXIT
python3 -B "$top/tools/workspace.py" "$scratch" "$top/bench/prefixes" \
    'prefix_bench: inet_num ipam_data block_space radix_tree placed_book prefix_rules anyhow' -- random 0
program=$scratch/crates/prefix_bench/out/prefix_bench
echo "load: $(uptime | sed 's/.*average: //')"
echo
echo '| prefixes | how many | made a second | duplicates refused a second | microseconds for depth and children of one of the first 1,000 |'
echo '|---|---|---|---|---|'
for order in random nested; do
    for _ in 1 2 3; do "$program" "$order" "$prefixes"; done | awk -v k="$order" -v c="$prefixes" '
        { for (i = 1; i <= 3; i++) if (NR == 1 || $i < best[i]) best[i] = $i }
        END { printf "| %s | %d | %.0f | %.0f | %.2f |\n", k, c, c * 1e9 / best[1], c * 1e9 / best[2], best[3] / 1e6 }'
done
