#!/usr/bin/env bash
# What the judge of borders takes for borders of 3,000, 38,000 and 300,000 positions with an outward simplification each:
# border.sh [PROGRAM]. A line has the positions of the border and of the district, the verdict, the time, and the memory at
# the most. The program is the proved one where none is given.
set -euo pipefail
top=$(cd "$(dirname "$0")/.." && pwd)
program=${1:-}
if [ -z "$program" ]; then
    # The script builds it where it isn't built yet.
    "$top/timetable-border" </dev/null >/dev/null 2>&1 || true
    program=$top/built/timetable-border
fi
exec python3 - "$program" <<'PYTHON'
import json
import math
import os
import random
import resource
import subprocess
import sys
import time

ORDER = {'from': '2025-03-01', 'days': 1, 'method': 'makkah', 'asr': 'standard', 'zone': 180}


def coast(count, reach, roughness, pick):
    """A closed line round a bay and a cape, so many microdegrees from the middle, rough or smooth."""
    line = []
    for i in range(count):
        turn = 2 * math.pi * i / count
        far = reach * (1 + 0.2 * math.sin(3 * turn) + 0.05 * math.sin(17 * turn)) + pick.random() * roughness
        line.append((round(45_000_000 + far * math.cos(turn)), round(24_000_000 + far * math.sin(turn))))
    return [*line, line[0]]


def geometry(line):
    return {'type': 'Polygon', 'coordinates': [[[x / 1e6, y / 1e6] for x, y in line]]}


for count, few in ((3_000, 1_000), (38_000, 3_000), (300_000, 4_000)):
    pick = random.Random(count)
    border, district = coast(count - 1, 1_500_000, 200, pick), coast(few - 1, 1_502_200, 0, pick)
    text = json.dumps({'order': {**ORDER, 'district': geometry(district)}, 'border': geometry(border)}).encode()
    began = time.monotonic()
    child = subprocess.Popen([sys.argv[1]], stdin=subprocess.PIPE, stdout=subprocess.PIPE)
    child.stdin.write(text)
    child.stdin.close()
    said = child.stdout.read().decode().strip()
    _, _, used = os.wait4(child.pid, 0)
    print(f'{count:>7} positions in {few:>5}: {said}, {time.monotonic() - began:.2f} s, {used.ru_maxrss / 1000:.0f} MB')
PYTHON
