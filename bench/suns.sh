#!/usr/bin/env bash
# bench/suns.sh [PROGRAM]: how far the tables of the two suns part. For the district of each example, over the year 2025 by its
# own method: of each column on how many days the minutes differ, and by how many minutes at most, in either direction.
set -euo pipefail
top=$(cd "$(dirname "$0")/.." && pwd)
program=${1:-$top/built/timetable}
work=$(mktemp -d)
trap 'rm -rf "$work"' EXIT

for order in "$top"/examples/*.json; do
    name=$(basename "$order" .json)
    for sun in usno meeus; do
        python3 - "$order" "$sun" >"$work/order" <<'END'
import json, sys
order = json.load(open(sys.argv[1]))
order.update({'from': '2025-01-01', 'days': 365, 'sun': sys.argv[2]})
order.pop('late_isha', None)
order.pop('night', None)
json.dump(order, sys.stdout)
END
        "$program" plain <"$work/order" >"$work/$sun" || [ $? -eq 1 ]
    done
    python3 - "$name" "$work/usno" "$work/meeus" <<'END'
import re, sys
name, *files = sys.argv[1:]
COLUMNS = ('fajr', 'f.end', 'dhuhr', 'asr', 'magh', 'm.end', 'isha')
ENTRY = re.compile(r'([ +-])(\d\d):(\d\d)')


def days(file):
    rows = [line for line in open(file) if re.match(r'\d{4}-', line)]
    return [[row[11 + 7 * i:17 + 7 * i] for i in range(7)] for row in rows]


def minute(entry):
    found = ENTRY.fullmatch(entry)
    return found and int(found[2]) * 60 + int(found[3]) + {' ': 0, '+': 1440, '-': -1440}[found[1]]


told = []
for column, pairs in zip(COLUMNS, zip(*[list(zip(a, b)) for a, b in zip(*map(days, files))])):
    moved = [minute(b) - minute(a) for a, b in pairs if minute(a) is not None and minute(b) is not None and a != b]
    marks = sum(a != b and (minute(a) is None or minute(b) is None) for a, b in pairs)
    told.append('%s %d' % (column, len(moved)) + (' (%+d to %+d)' % (min(moved), max(moved)) if moved else '')
                + (', %d with a mark' % marks if marks else ''))
print('%s, 365 days: %s' % (name, '; '.join(told)))
END
done
