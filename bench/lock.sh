#!/usr/bin/env bash
# Calls a second from 1, 2, 4, 16 and 32 threads, under the lock of history_lock and beside it, in the same run, under std's mutex (by rustc -O): an act of
# nothing, one of 1 microsecond, one of 1 microsecond with 8 microseconds of work between two calls, and one of 1 millisecond. Each figure is the median of
# several runs, lock and mutex in turn. Beside it are the processors that a run kept busy, what a call cost them, and the longest wait of a call (of runs of
# their own, as a look at the clock takes a part of a microsecond). It writes a program into a scratch copy outside the repository, proves and builds it
# there, and runs it. HISTORY_LOCK=DIR measures another copy of the crate.
#     bench/run lock [RUNS [ACT..]], an ACT being nothing, short, work or slow; with SCRATCH=DIR the programs stay there
set -euo pipefail
top=$(cd "$(dirname "$0")/.." && pwd)
runs=${1:-5}
acts=("${@:2}")
[ ${#acts[@]} -gt 0 ] || acts=(nothing short work slow)
scratch=${SCRATCH:-$(mktemp -d)}
[ -n "${SCRATCH:-}" ] || trap 'rm -rf "$scratch"' EXIT
python3 -B "$top/tools/workspace.py" "$scratch" "$top/bench/lock" 'lock_bench: history_lock atomic_table anyhow' \
    --from "history_lock=${HISTORY_LOCK:-$top/crates/history_lock}" -- 1 10 0 0 not
program=$scratch/crates/lock_bench/out/lock_bench
rustc -O -o "$scratch/mutex" "$top/bench/lock/mutex.rs"
# the most of ten looks: another program's work only makes it less
millisecond=$(for _ in $(seq 10); do "$scratch/mutex" pauses; done | sort -n | tail -1)
microsecond=$(((millisecond + 500) / 1000))

TIMEFORMAT='%U %S'
# one run: kind, threads, calls in all, pauses of an act, pauses between, timed or not. Prints calls a second, processors busy, their microseconds a call, and the
# longest wait in microseconds
once() {
    local what=$program nanos busy calls=$(($3 / $2))
    [ "$1" = lock ] || what=$scratch/mutex
    { read -r nanos; read -r busy; } < <({ time "$what" "$2" "$calls" "${@:4}"; } 2>&1)
    awk -v t="$2" -v c="$calls" -v n="$nanos" -v b="$busy" 'BEGIN {
        split(n, l, " "); split(b, s, " "); wall = l[1] / 1e9; cpu = s[1] + s[2];
        printf "%.0f %.2f %.2f %.0f\n", t * c / wall, cpu / wall, cpu / t / c * 1e6, l[2] / 1e3 }'
}
# the median of a column of a file
median() { sort -g -k "$2,$2" "$1" | awk -v k="$2" '{ v[NR] = $k } END { print v[int((NR + 1) / 2)] }'; }
# a row for each kind: act, threads, calls in all, pauses of an act, pauses between
rows() {
    local kind turn
    rm -f "$scratch"/*.runs
    for turn in $(seq "$runs"); do
        for kind in lock mutex; do
            once $kind "${@:2}" not >> "$scratch/$kind.runs"
            once $kind "${@:2}" timed >> "$scratch/$kind.timed.runs"
        done
    done
    for kind in lock mutex; do
        echo "| $1 | $2 | $kind | $(median "$scratch/$kind.runs" 1) | $(median "$scratch/$kind.runs" 2) | $(median "$scratch/$kind.runs" 3) | $(median "$scratch/$kind.timed.runs" 4) |"
    done
}
echo "median of $runs runs; a microsecond is $microsecond pauses; load $(cut -d ' ' -f 1 /proc/loadavg) on $(nproc) processors"
echo; echo '| Act | Threads | | Calls a second | Processors busy | Processor microseconds a call | Longest wait, microseconds |'; echo '|---|---|---|---|---|---|---|'
for act in "${acts[@]}"; do
    for threads in 1 2 4 16 32; do
        case $act in
            nothing) rows "nothing" "$threads" 1000000 0 0 ;;
            short) rows "1 µs" "$threads" 400000 "$microsecond" 0 ;;
            work) rows "1 µs, 8 µs between" "$threads" 200000 "$microsecond" $((microsecond * 8)) ;;
            slow) rows "1 ms" "$threads" 1600 "$millisecond" 0 ;;
            *) echo "lock.sh: no such act: $act" >&2; exit 1 ;;
        esac
    done
done
