#!/usr/bin/env bash
# Reads 16 MB of ordinary JSON by the proved reader and by Python's json.loads, by turns. Both must count the same items.
# The least elapsed time of each counts: of the proved reader that of the whole program, of Python that of the call alone.
set -euo pipefail
top=$(cd "$(dirname "$0")/.." && pwd)
work=$(mktemp -d)
trap 'rm -rf "$work"' EXIT
proved=$top/crates/kernel_bench/out/kernel_bench
text=$work/text.json

# An array of objects with texts and numbers, as long as it takes.
python3 - "$text" <<'END'
import json, sys
places = []
length = 2
while length < 16 * 2**20:
    i = len(places)
    places.append(json.dumps({
        'id': i, 'name': 'Place %d' % i, 'local': 'Örtchen "%d"' % i, 'tags': ['town', 'north\n'], 'open': i % 3 == 0,
        'lon': i * 7919 % 360000000 / 1e6, 'lat': -i * 104729 % 65000000 / 1e6, 'height': None, 'scale': 1.5e-7 * i,
    }, ensure_ascii=i % 2 == 0))
    length += len(places[-1].encode()) + 2
with open(sys.argv[1], 'w', encoding='utf-8') as out:
    out.write('[' + ',\n'.join(places) + ']')
END

# One run builds the program.
(cd "$top/crates/kernel_bench" && rt run -- json <"$text") >"$work/log" 2>&1 || { cat "$work/log"; exit 1; }

cat >"$work/loads.py" <<'END'
import json, sys, time
text = open(sys.argv[1], 'rb').read()
start = time.perf_counter()
value = json.loads(text)
print('%.3f' % (time.perf_counter() - start), file=sys.stderr)
print(len(value))
END

TIMEFORMAT=%R
for _ in 1 2 3 4 5 6 7; do
    { time "$proved" json <"$text" >"$work/proved.count"; } 2>>"$work/proved"
    python3 "$work/loads.py" "$text" 2>>"$work/python" >"$work/python.count"
    cmp -s "$work/proved.count" "$work/python.count" || { echo "the counts differ"; exit 1; }
done
least() {
    sort -n "$1" | head -n 1
}
awk -v n="$(wc -c <"$text")" -v c="$(cat "$work/proved.count")" -v a="$(least "$work/proved")" -v b="$(least "$work/python")" \
    'BEGIN { printf "json, %d bytes, %d items: proved %.3f s, json.loads %.3f s, ratio %.2f\n", n, c, a, b, a / b }'
