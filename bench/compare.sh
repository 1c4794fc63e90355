#!/usr/bin/env bash
# Times kernels of the proved code beside the same in plain Rust: compare.sh PLAIN KERNEL COUNT [KERNEL COUNT]..
# Both programs take the words KERNEL COUNT, must print the same sum, and run seven times, one after the other by turns.
# The least processor time of each counts.
set -euo pipefail
top=$(cd "$(dirname "$0")/.." && pwd)
plain_source=$top/bench/plain/${1-}.rs
if [ $# -lt 3 ] || [ ! -f "$plain_source" ]; then
    echo "usage: bench/compare.sh series|region KERNEL COUNT [KERNEL COUNT].." >&2
    exit 2
fi
shift
if ! command -v rustc >/dev/null; then
    echo "nothing compared: rustc is not on the PATH"
    exit 0
fi
work=$(mktemp -d)
trap 'rm -rf "$work"' EXIT
proved=$top/crates/kernel_bench/out/kernel_bench
plain=$work/plain

rustc -O -o "$plain" "$plain_source"
# One run builds the program.
(cd "$top/crates/kernel_bench" && rt run -- "$1" 1) >"$work/log" 2>&1 || { cat "$work/log"; exit 1; }

TIMEFORMAT=%U
seconds() {
    { time "$@" >/dev/null; } 2>&1
}
least() {
    sort -n "$1" | head -n 1
}
compare() {
    local kernel=$1 count=$2
    [ "$("$proved" "$kernel" "$count")" = "$("$plain" "$kernel" "$count")" ] || { echo "$kernel: the sums differ"; exit 1; }
    for _ in 1 2 3 4 5 6 7; do
        seconds "$proved" "$kernel" "$count" >>"$work/$kernel.proved"
        seconds "$plain" "$kernel" "$count" >>"$work/$kernel.plain"
    done
    awk -v k="$kernel" -v n="$count" -v a="$(least "$work/$kernel.proved")" -v b="$(least "$work/$kernel.plain")" \
        'BEGIN { printf "%s, %d times: proved %.3f s, plain rustc -O %.3f s, ratio %.2f\n", k, n, a, b, a / b }'
}

while [ $# -ge 2 ]; do
    compare "$1" "$2"
    shift 2
done
