#!/usr/bin/env bash
# What `plain` takes on the standard orders: plain.sh [PROGRAM [NAME]..]
# The program is the proved one where none or `-` is given; with no names, all orders of standard_orders.py.
# Each order runs three times, and the least processor time counts. The cells that its searches judge are counted by
# `kernel_bench`, which makes the same ones, and beside them those that a search in tree order would judge. Where
# valgrind is there, the instructions of one more run are counted, the reading of the order and the writing of the table
# included, which takes some fifty times as long; they are divided by the judged cells, and by those in tree order, which no
# order of the search changes. It is given a copy without names, since it doesn't read every compiler's.
set -euo pipefail
top=$(cd "$(dirname "$0")/.." && pwd)
work=$(mktemp -d)
trap 'rm -rf "$work"' EXIT

program=${1:--}
shift || true
if [ "$program" = - ]; then
    # The script builds it where it isn't built yet.
    "$top/timetable" sun 0 0 0 0 >/dev/null
    program=$top/built/timetable
fi
kernels=$top/crates/kernel_bench/out/kernel_bench
# One run builds it.
(cd "$top/crates/kernel_bench" && rt run -- series 1) >"$work/log" 2>&1 || { cat "$work/log"; exit 1; }

TIMEFORMAT=%U
least_time() {
    for _ in 1 2 3; do
        { time "$program" plain <"$1" >"$work/table"; } 2>&1
    done | sort -n | head -n 1
}

instructions() {
    strip -o "$work/stripped" "$program"
    valgrind --tool=callgrind --callgrind-out-file=/dev/null "$work/stripped" plain <"$1" 2>&1 >/dev/null |
        awk -v judged="$2" -v in_order="$3" '/Collected/ {
            printf ", %.1f million instructions, %.0f a judged cell, %.0f a cell in tree order", $NF / 1e6, $NF / judged, $NF / in_order }'
}

measure() {
    local order=$work/$1.json
    python3 "$top/bench/standard_orders.py" "$1" >"$order"
    local seconds cells in_tree_order counted=
    seconds=$(least_time "$order")
    cells=$("$kernels" cells <"$order")
    in_tree_order=$("$kernels" cells_in_tree_order <"$order")
    if command -v valgrind >/dev/null; then
        counted=$(instructions "$order" "$cells" "$in_tree_order")
    fi
    echo "$1: $seconds s, $cells cells judged, $in_tree_order in tree order$counted; $(tail -n 1 "$work/table")"
}

if [ $# -eq 0 ]; then
    mapfile -t names < <(python3 "$top/bench/standard_orders.py")
    set -- "${names[@]}"
fi
for name in "$@"; do
    measure "$name"
done
