#!/usr/bin/env bash
# Requests a second of the loop of a session over memory: small GETs, 1,000 on a connection, one connection after another, read in pieces of 4,096 bytes and
# of 1 byte; and a body of 4,194,304 bytes in pieces of 4,096 bytes and of 1 byte. It writes a program into a scratch copy outside the repository, proves and
# builds it there, and runs it.
#     bench/run session [connections]; with SCRATCH=DIR the program stays there
set -euo pipefail
top=$(cd "$(dirname "$0")/.." && pwd)
connections=${1:-1000}
scratch=${SCRATCH:-$(mktemp -d)}
[ -n "${SCRATCH:-}" ] || trap 'rm -rf "$scratch"' EXIT
python3 -B "$top/tools/workspace.py" "$scratch" "$top/bench/session" 'session_bench: ipam_edge http_session arrayvec http anyhow' -- 1 4095 gets
program=$scratch/crates/session_bench/out/session_bench
row() {
    "$program" "$1" "$2" "$3" | awk -v p=$(($2 + 1)) -v k="$3" '{ printf "| %s | %d | %d | %.3f | %.0f |\n", k, p, $1, $2 / 1e9, $1 / ($2 / 1e9) }'
}
echo '| requests | bytes of a read | answered | seconds | a second |'; echo '|---|---|---|---|---|'
row "$connections" 4095 gets
row "$(((connections + 9) / 10))" 0 gets
row 10 4095 body
row 1 0 body
