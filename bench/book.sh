#!/usr/bin/env bash
# Nanoseconds of the calls of the plain book of rows and of the one with an index: rows of 152 bytes are put in behind all, each is asked for in a mixed
# order, and rows are taken out at the front and in the middle (of five removals in a row the fastest and the slowest). A put is timed with the look-up that
# shows that its id is above all. The sums of all answers are compared. It writes a program into a scratch copy outside the repository, proves and builds it
# there, and runs it.
#     bench/run book [rows]; with SCRATCH=DIR the program stays there
set -euo pipefail
top=$(cd "$(dirname "$0")/.." && pwd)
rows=${1:-500000}
scratch=${SCRATCH:-$(mktemp -d)}
[ -n "${SCRATCH:-}" ] || trap 'rm -rf "$scratch"' EXIT
python3 -B "$top/tools/workspace.py" "$scratch" "$top/bench/book" 'book_bench: ipam_data placed_book anyhow' \
    --with NAME=RowBook --with NAME=IndexedBook -- "$rows"
grep -E '^[0-9]+( [0-9]+){6}$' "$scratch/out" > "$scratch/answers"
echo "load: $(uptime | sed 's/.*average: //')"
echo
echo '| book | rows | put ns | get ns | cut at the front ns | cut in the middle ns |'
echo '|---|---|---|---|---|---|'
for line in '1 plain' '2 index'; do
    awk -v n="${line% *}" -v k="${line#* }" -v c="$rows" 'NR == n { printf "| %s | %d | %d | %d | %d to %d | %d to %d |\n", k, c, $1 / c, $2 / c, $3, $4, $5, $6 }' "$scratch/answers"
done
[ "$(cut -d' ' -f7 "$scratch/answers" | sort -u | wc -l)" = 1 ] || { echo 'the answers differ' >&2; exit 1; }
