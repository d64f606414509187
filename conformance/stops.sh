#!/usr/bin/env bash
# Every stop of a store: an import of ten prefixes, ten creations and a deletion of a register, and then a group, a claim of ten VLANs and one that is given
# back of pools, are stored in a SQLite file in memory until a call of the log's or the database's file fails, at each call in turn; the files, with all that
# was written, with what was synced alone, or torn, are opened again, and must have the tables of before or after the change that was being made. It writes a
# program with files of store_trial into a scratch copy, proves and builds it there, runs it, and says how many stops were tried.
#     conformance/run stops [changes, at most 12]
set -euo pipefail
top=$(cd "$(dirname "$0")/.." && pwd)
changes=${1:-12}
scratch=$(mktemp -d)
trap 'rm -rf "$scratch"' EXIT
line=$(sed -n 's/^store_trial:/all_stops: anyhow/p' "$top/crates.txt")
python3 -B "$top/tools/workspace.py" "$scratch" "$top/conformance/stops" "$line" --with "CHANGES=$changes"
cd "$scratch/crates/all_stops"
for part in database files lines many pool_lines stops store_kinds stored told words; do cp "$top/crates/store_trial/src/$part.rt" src/; done
# what an earlier run on this machine proved of the crates below is taken; that the program has no output to be compared with makes no matter
(cd "$scratch" && rt ci all_stops > log 2>&1) || true
[ -s out/stdout ] || rt run < /dev/null > out/stdout 2> "$scratch/log" || { tail -n 20 "$scratch/log" >&2; exit 1; }
cat out/stdout
! grep -qv ' 0 of them left other tables$' out/stdout
