#!/usr/bin/env bash
# Words over the program: one that is no UTF-8 is no word of a command, as any other that is not known: status 2, the usage line on standard error, and
# nothing on standard output, with nothing read.
#     conformance/run words
set -euo pipefail
top=$(cd "$(dirname "$0")/.." && pwd)
program=${IPAMD:-$top/crates/ipamd/out/ipamd}
scratch=$(mktemp -d)
trap 'rm -rf "$scratch"' EXIT
refused() {
    local status=0
    printf 'x\n' > "$scratch/in"
    "$program" "$@" < "$scratch/in" > "$scratch/out" 2> "$scratch/err" || status=$?
    [ "$status" = 2 ] || { echo "status $status and not 2: $*" >&2; exit 1; }
    [ ! -s "$scratch/out" ] || { echo "something on standard output: $*" >&2; exit 1; }
    printf 'usage: ipamd COMMAND\n' | cmp -s - "$scratch/err" || { echo "no usage line: $*" >&2; exit 1; }
}
refused
refused $'\xff'
refused free $'10.0.0.0/16\xc3'
refused free 10.0.0.0/16 $'\xed\xa0\x80'
refused session --global-unique $'\x80'
refused sessions
echo "words: 6 lists refused, 4 of them with a word that is no UTF-8"
