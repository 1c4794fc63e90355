#!/usr/bin/env bash
# bench/workers.sh [PROGRAM]: `table` by 1, 2 and 4 workers beside `plain`, in one run by turns. Orders: the year of
# examples/najran.json, the year of a city of 300 positions, and one day of a border along the meridian of a whole-minute noon.
# For each: elapsed seconds (the least of forty runs, of nine where one takes over 0.3 s), how many times as fast as `plain`
# that is, and the peak memory, which counts what this script held when it began the program. All must write the same table.
# It says how many processors there are.
set -euo pipefail
top=$(cd "$(dirname "$0")/.." && pwd)
program=${1:-$top/built/timetable}
work=$(mktemp -d)
trap 'rm -rf "$work"' EXIT

cp "$top/examples/najran.json" "$work/najran.json"
python3 "$top/bench/standard_orders.py" b300 365 >"$work/b300.json"
python3 "$top/bench/standard_orders.py" meridian >"$work/meridian.json"
python3 - "$program" "$work"/{najran,b300,meridian}.json <<'END'
import os
import subprocess
import sys
import time

WAYS = [['plain']] + [['table', '--workers', str(n)] for n in (1, 2, 4)]


def run(program, words, order):
    """Elapsed seconds, peak memory in MB, and what was written."""
    with open(order, 'rb') as given:
        begun = time.perf_counter()
        process = subprocess.Popen([program, *words], stdin=given, stdout=subprocess.PIPE)
        written = process.stdout.read()
        _, status, usage = os.wait4(process.pid, 0)
        seconds = time.perf_counter() - begun
    if os.waitstatus_to_exitcode(status) not in (0, 1):
        sys.exit(f'{" ".join(words)} ended otherwise than with a table')
    return seconds, usage.ru_maxrss / 1024, written


def main(program, orders):
    print(f'{os.cpu_count()} processors')
    for order in orders:
        name = os.path.basename(order).removesuffix('.json')
        first = run(program, WAYS[0], order)
        runs = [[run(program, words, order) for words in WAYS] for _ in range(9 if first[0] > 0.3 else 40)]
        if any(written != first[2] for turn in runs for _, _, written in turn):
            sys.exit(f'{name}: the tables differ')
        least = [min(turn[i][0] for turn in runs) for i in range(len(WAYS))]
        most = [max(turn[i][1] for turn in runs) for i in range(len(WAYS))]
        for words, seconds, memory in zip(WAYS, least, most):
            print(f'{name}, {" ".join(words)}: {seconds:.3f} s, {least[0] / seconds:.2f} times plain, {memory:.1f} MB')


main(sys.argv[1], sys.argv[2:])
END
