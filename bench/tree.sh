#!/usr/bin/env bash
# Nanoseconds of a call, and memory of a block, of the tree of blocks beside the sorted list and, where rustc is at hand, std's BTreeMap: random hosts of
# 10.0.0.0/8 and of 2001:db8::/32 from a seed, alike for all. Each is put in, asked for (`times`), the addresses covered in a block round it are counted (a
# /24, or a /48 in IPv6, of which either net has 65,536), and each is taken out; the last three in another order than they were put in. Then claims: the first
# free host of the net at a random address or from the net's first one on, which is put in, and taken out when all claims are made. The sums of all answers
# are compared. Each time is the best of three runs; memory is the peak of the process less that of a run that only makes the hosts. The counter of visits
# takes no memory, so a second copy, which is not proved, has one that can be read. It writes a program into scratch copies outside the repository, proves and
# builds it there, and runs it.
#     bench/run tree [hosts [hosts of the list [claims]]]; with SCRATCH=DIR the program stays there
set -euo pipefail
top=$(cd "$(dirname "$0")/.." && pwd)
hosts=${1:-500000}
few=${2:-20000}
claims=${3:-20000}
scratch=${SCRATCH:-$(mktemp -d)}
[ -n "${SCRATCH:-}" ] || trap 'rm -rf "$scratch"' EXIT
python3 -B "$top/tools/workspace.py" "$scratch" "$top/bench/tree" 'tree_bench: inet_num block_space block_list radix_tree anyhow' \
    --with "NAME=TreeOnes FIELD=tree" --with "NAME=ListOnes FIELD=list" -- tree 4 10 0 0
program=$scratch/crates/tree_bench/out/tree_bench
std=
if command -v rustc > /dev/null; then
    rustc -O -o "$scratch/std_tree" "$top/bench/tree/std_tree.rs"
    std=$scratch/std_tree
fi
peak() { # the peak of resident memory of a run, in kilobytes, or nothing where there is no way to tell
    if [ -x /usr/bin/time ]; then /usr/bin/time -f %M -o "$scratch/peak" "$@" > "$scratch/answer"; cat "$scratch/peak"; else "$@" > "$scratch/answer"; echo 0; fi
}
row() {
    local name=$1 what=$2 kind=$3 family=$4 count=$5 ahead=$6 base full
    base=$(peak "$what" none "$family" "$count" 0 0)
    rm -f "$scratch/answers"
    for _ in 1 2 3; do
        full=$(peak "$what" "$kind" "$family" "$count" "$ahead" 0)
        cat "$scratch/answer" >> "$scratch/answers"
    done
    awk -v k="$name" -v f="$family" -v c="$count" -v m=$(((full - base) * 1024)) -v a="$ahead" '
        { for (i = 1; i <= 4; i++) if (NR == 1 || $i < best[i]) best[i] = $i; left = $6 }
        END {
            printf "| %s | IPv%d | %d |", k, f, c
            for (i = 1; i <= 4; i++) printf " %.0f |", best[i] / c
            printf " %.0f |", m / c
            if (a > 0) printf " %.0f |\n", m / 2 / (a - left); else print " |" }' "$scratch/answers"
    cut -d' ' -f5 "$scratch/answers" >> "$scratch/sums-$family-$count"
}
claims_row() {
    local name=$1 what=$2 kind=$3 family=$4 count=$5
    rm -f "$scratch/answers"
    for _ in 1 2 3; do "$what" "$kind" "$family" "$count" 0 "$claims" >> "$scratch/answers"; done
    awk -v k="$name" -v f="$family" -v c="$count" -v n="$claims" '
        { for (i = 1; i <= 4; i++) if (NR == 1 || $i < best[i]) best[i] = $i }
        END {
            printf "| %s | IPv%d | %d |", k, f, c
            for (i = 1; i <= 4; i++) printf " %.0f |", best[i] / n
            print "" }' "$scratch/answers"
    cut -d' ' -f5 "$scratch/answers" >> "$scratch/sums-claims-$family-$count"
}
rm -f "$scratch"/sums-*
echo "load: $(uptime | sed 's/.*average: //')"
echo "The list is measured with $few hosts, since each insert into it moves half of it; the tree beside it with as many too."
echo
echo '| set | family | hosts | insert ns | times ns | covered ns | remove ns | bytes a host | bytes a node |'
echo '|---|---|---|---|---|---|---|---|---|'
for family in 4 6; do
    row 'tree' "$program" tree $family "$hosts" 0
    row 'tree, room made first' "$program" tree $family "$hosts" "$hosts"
    [ -z "$std" ] || row 'std BTreeMap' "$std" std $family "$hosts" 0
    row 'tree' "$program" tree $family "$few" 0
    row 'list' "$program" list $family "$few" 0
    [ -z "$std" ] || row 'std BTreeMap' "$std" std $family "$few" 0
done
echo
echo "$claims searches and as many claims (a search and an insert) at random addresses, given back, and claims from the first address."
echo
echo '| set | family | hosts | search ns | claim ns | given back ns | claim from the first ns |'
echo '|---|---|---|---|---|---|---|'
for family in 4 6; do
    claims_row 'tree' "$program" tree $family "$hosts"
    [ -z "$std" ] || claims_row 'std BTreeMap' "$std" std $family "$hosts"
    claims_row 'tree' "$program" tree $family "$few"
    claims_row 'list' "$program" list $family "$few"
    [ -z "$std" ] || claims_row 'std BTreeMap' "$std" std $family "$few"
done
for sums in "$scratch"/sums-*; do
    [ "$(sort -u "$sums" | wc -l)" = 1 ] || { echo "the answers differ: $(tr '\n' ' ' < "$sums")" >&2; exit 1; }
done
# the most visits: the counter takes no memory, so a copy that is not proved gets one that can be read
counted=$scratch/counted
rm -rf "$counted"
mkdir -p "$counted"
cp -r "$scratch/crates" "$scratch/crates.txt" "$scratch/HANDLES" "$counted/"
sed -i 's/share: Share<L>,/&\n    pub seen: u64,/; s/Steps { book, share }/Steps { book, share, seen: 0 }/; s/self.book.add(&mut self.share, 1);/&\n        self.seen = self.seen.wrapping_add(1);/' "$counted/crates/block_space/src/steps.rt"
sed -i 's/let seen = 0;/let seen = steps.seen;/' "$counted/crates/tree_bench/src/main.rt"
echo
for family in 4 6; do
    most=$(cd "$counted/crates/tree_bench" && rt try --seconds 3600 -- tree $family "$hosts" 0 "$claims" 2> "$scratch/log" | awk 'NF == 6 { print $6 }')
    echo "IPv$family: the most nodes that a search among $hosts hosts visited: $most"
done
