#!/usr/bin/env bash
# bench/pools.sh [WORKERS]: how many days one search serves best. For 1, 2, 4 to 128 days in a search and for the whole year, the
# least elapsed time of nine runs of all searches of a year by so many workers (4): Najran's year, and a city's of 300 positions.
set -euo pipefail
top=$(cd "$(dirname "$0")/.." && pwd)
workers=${1:-4}
work=$(mktemp -d)
trap 'rm -rf "$work"' EXIT
kernels=$top/crates/kernel_bench/out/kernel_bench
# One run builds it.
(cd "$top/crates/kernel_bench" && rt run -- series 1) >"$work/log" 2>&1 || { cat "$work/log"; exit 1; }

cp "$top/examples/najran.json" "$work/najran.json"
python3 "$top/bench/standard_orders.py" b300 365 >"$work/b300.json"
TIMEFORMAT=%R
for name in najran b300; do
    for days in 1 2 4 8 16 32 64 128 365; do
        least=$(for _ in 1 2 3 4 5 6 7 8 9; do
            { time "$kernels" pools "$days" "$workers" <"$work/$name.json" >"$work/sum"; } 2>&1
        done | sort -n | head -n 1)
        echo "$name, $days days in a search, $workers workers: $least s, sum $(cat "$work/sum")"
    done
done
