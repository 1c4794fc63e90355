#!/usr/bin/env bash
# bench/check.sh [PROGRAM]: what `check` takes of coverings, beside `plain` on their orders. For each example, over the year
# 2025, in both forms: processor seconds of `plain` and of `check` (the least of five runs by turns), their ratio, the bytes of
# each form and their ratio, and the peak memory of `check`. Then a covering of 1,073,741,824 bytes, a true one padded by blanks
# within its lines, which is skipped where fewer than 9 GB of memory or 2 GB of disk are free.
set -euo pipefail
top=$(cd "$(dirname "$0")/.." && pwd)
program=${1:-$top/built/timetable}
work=$(mktemp -d)
trap 'rm -rf "$work"' EXIT
limit=1073741824
[ -x /usr/bin/time ] || { echo "skipped: GNU time is missing"; exit 0; }

# spent OUTPUT INPUT WORD..: processor seconds and peak memory in kilobytes, the status 1 (open entries) allowed
spent() {
    local output=$1 input=$2
    shift 2
    /usr/bin/time -q -o "$work/spent" -f '%U %S %M' "$program" "$@" <"$input" >"$output" || [ $? -eq 1 ]
    awk 'END { printf "%.3f %d\n", $1 + $2, $3 }' "$work/spent"
}

# least FILE: the least seconds and the greatest memory of the lines
least() { sort -n "$1" | awk 'NR == 1 { seconds = $1 } $2 > most { most = $2 } END { print seconds, most }'; }

for example in "$top"/examples/*.json; do
    name=$(basename "$example" .json)
    order=$work/order
    python3 - "$example" >"$order" <<'END'
import json, sys
order = json.load(open(sys.argv[1]))
order.update({'from': '2025-01-01', 'days': 365})
json.dump(order, sys.stdout)
END
    for form in 1 2; do
        "$program" cover --form "$form" <"$order" >"$work/covering.$form" || [ $? -eq 1 ]
    done
    : >"$work/plain"
    : >"$work/check.1"
    : >"$work/check.2"
    for _ in 1 2 3 4 5; do
        spent "$work/table" "$order" plain >>"$work/plain"
        for form in 1 2; do
            spent "$work/shown" "$work/covering.$form" check >>"$work/check.$form"
            cmp "$work/table" "$work/shown"
        done
    done
    read -r plain _ < <(least "$work/plain")
    for form in 1 2; do
        read -r check memory < <(least "$work/check.$form")
        awk -v name="$name" -v form="$form" -v plain="$plain" -v check="$check" -v memory="$memory" -v bytes="$(stat -c %s "$work/covering.$form")" \
            'BEGIN { printf "%s, form %d: plain %s s, check %s s, ratio %.2f; %d bytes, %.1f MB of memory\n", name, form, plain, check, check / (plain > 0 ? plain : 0.001), bytes, memory / 1024 }'
    done
    awk -v name="$name" -v one="$(stat -c %s "$work/covering.1")" -v two="$(stat -c %s "$work/covering.2")" \
        'BEGIN { printf "%s: bytes of form 2 to form 1: %.2f\n", name, two / one }'
done

free_memory=$(awk '/MemAvailable/ { print int($2 / 1024) }' /proc/meminfo)
free_disk=$(df -Pm "$work" | awk 'NR == 2 { print $4 }')
if [ "$free_memory" -lt 9000 ] || [ "$free_disk" -lt 2000 ]; then
    echo "skipped: a covering of $limit bytes, with $free_memory MB of memory and $free_disk MB of disk"
    exit 0
fi
# Blanks behind the first brace of the last line that has one.
"$program" cover <"$top/examples/makkah.json" >"$work/covering" || [ $? -eq 1 ]
python3 - "$work/covering" "$limit" >"$work/large" <<'END'
import sys
text, limit = open(sys.argv[1], 'rb').read(), int(sys.argv[2])
place = text.rindex(b'{') + 1
out = sys.stdout.buffer
out.write(text[:place])
left = limit - len(text)
while left:
    out.write(b' ' * min(left, 1 << 24))
    left -= min(left, 1 << 24)
out.write(text[place:])
END
read -r seconds memory < <(spent "$work/shown" "$work/large" check)
"$program" plain <"$top/examples/makkah.json" >"$work/table" || [ $? -eq 1 ]
cmp "$work/table" "$work/shown"
awk -v seconds="$seconds" -v memory="$memory" -v bytes="$(stat -c %s "$work/large")" \
    'BEGIN { printf "%d bytes, blanks within a line: check %s s, %.2f GB of memory\n", bytes, seconds, memory / 1048576 }'
