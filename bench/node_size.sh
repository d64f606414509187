#!/usr/bin/env bash
# What smaller nodes would gain: nanoseconds of a search for a host in a path-compressed binary tree of random hosts of 10.0.0.0/8, where a node takes 96
# bytes with links of 16 (an optional index of 8 bytes), as the tree of this repository has it, or 64 bytes, or 48, both with links of 4 bytes. One C program
# builds the same tree at each size, in one pool each, and asks for each host in another order; the sums of all answers are compared. Each time is the best of
# five runs.
#     bench/run node_size [hosts]; CC=COMPILER takes another compiler than cc
set -euo pipefail
top=$(cd "$(dirname "$0")/.." && pwd)
hosts=${1:-500000}
scratch=$(mktemp -d)
trap 'rm -rf "$scratch"' EXIT
${CC:-cc} -O2 -o "$scratch/nodes" "$top/bench/node_size/nodes.c"
echo "load: $(uptime | sed 's/.*average: //')"
"$scratch/nodes" "$hosts"
