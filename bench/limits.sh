#!/usr/bin/env bash
# bench/limits.sh [PROGRAM]: time and peak memory at the limits of inputs. Orders of 16,777,216 bytes in five shapes beside an honest
# one of that size, and one byte more; coverings of 1,073,741,824 bytes, a true one with blanks within its lines and one wrong line,
# and one byte more. Prints a line each: processor seconds (the least of three runs; of coverings one) and megabytes. Exits with 1
# if a status or a line on the error stream is wrong, an input within its limit takes more than ten times the honest one's time, or
# a covering takes more than 8 GB. Skipped where memory or disk are short.
set -euo pipefail
top=$(cd "$(dirname "$0")/.." && pwd)
program=${1:-$top/built/timetable}
work=$(mktemp -d)
trap 'rm -rf "$work"' EXIT
order_limit=16777216
covering_limit=1073741824
most_memory=8192
failed=0

# is_free MEMORY DISK WHAT: whether that many megabytes of each are free
is_free() {
    local memory disk
    memory=$(awk '/MemAvailable/ { print int($2 / 1024) }' /proc/meminfo)
    disk=$(df -Pm "$work" | awk 'NR == 2 { print $4 }')
    [ "$memory" -ge "$1" ] && [ "$disk" -ge "$2" ] && return 0
    echo "skipped: $3, with $memory MB of memory and $disk MB of disk"
    return 1
}

cat >"$work/made.py" <<'END_OF_MADE'
import sys
shape, limit, covering = sys.argv[1], int(sys.argv[2]), sys.argv[3]
out = sys.stdout.buffer
MEMBERS = b'"from":"2025-03-01","days":1,"method":"mwl","asr":"standard","zone":180'
SQUARE = b'[[39,21],[40,21],[40,22],[39,22],[39,21]]'


def order(front, ring=SQUARE):
    return b'{' + front + MEMBERS + b',"district":{"type":"Polygon","coordinates":[' + ring + b']}}'


def filled(piece, count_of_rest):
    """As many pieces as there is room for."""
    return piece * (count_of_rest // len(piece))


def padded(front_of):
    """The order with a front of so many bytes that the whole has the limit."""
    room = limit - len(order(b''))
    front = front_of(room)
    return order(b' ' * (room - len(front)) + front)


def positions(numbers, digits):
    """A ring of 4,096 positions along two rows, each with this many numbers of this many bytes."""
    places = [(39 + i % 2048 / 4096, 21 + (i // 2048) * 0.4) for i in range(4095)]
    places.append(places[0])
    return b'[' + b','.join(
        b'[' + b','.join(
            ('%.3f' % (x, y, 600)[min(c, 2)]).ljust(digits, '1').encode() for c in range(numbers)) + b']'
        for x, y in places) + b']'


def blanks_within(text, room):
    """Each line of the text with its part of the blanks behind its first byte."""
    lines = text.splitlines(True)
    for i, line in enumerate(lines):
        out.write(line[:1])
        part = room // len(lines) + (room % len(lines) if i == 0 else 0)
        while part:
            out.write(b' ' * min(part, 1 << 24))
            part -= min(part, 1 << 24)
        out.write(line[1:])


if shape == 'honest':
    feature = b'{"type":"Place","id":%d,"names":["A quarter","Ein Viertel"],"area":12.625,"at":[39.512345,21.412345]},'
    made = padded(lambda room: b'"places":[' + filled(feature % 123456, room - 20)[:-1] + b'],')
elif shape == 'blanks':
    made = padded(lambda room: b'')
elif shape == 'one long text':
    made = padded(lambda room: b'"x":"' + b'a' * (room - 7) + b'",')
elif shape == 'nested lists':
    made = padded(lambda room: b'"x":[' + filled(b'[' * 62 + b']' * 62 + b',', room - 20)[:-1] + b'],')
elif shape == 'members with one name':
    made = padded(lambda room: filled(b'"from":"2025-03-01",', room))
elif shape == 'long numbers':
    numbers = (limit // 4096 - 1) // 65 - 1
    ring = positions(numbers, 64)
    made = order(b' ' * (limit - len(order(b'', ring))), ring)
elif shape == 'one byte more':
    made = b' ' * (limit + 1)
elif shape == 'a true covering':
    text = open(covering, 'rb').read()
    blanks_within(text, limit - len(text))
    made = b''
elif shape in ('a wrong line', 'a covering of one byte more'):
    text = open(covering, 'rb').read()
    first = text.index(b'\n') + 1
    out.write(text[:first] + b'{"tree":"')
    left = limit - first - 9 + (shape != 'a wrong line')
    while left:
        out.write(b's' * min(left, 1 << 24))
        left -= min(left, 1 << 24)
    made = b''
out.write(made)
END_OF_MADE

cat >"$work/spent.py" <<'END_OF_SPENT'
import resource, subprocess, sys
output, given, status, error, *words = sys.argv[1:]
with open(output, 'wb') as out, open(given, 'rb') as text:
    ended = subprocess.run(words, stdin=text, stdout=out, stderr=subprocess.PIPE, timeout=1800)
said = ended.stderr.decode(errors='replace').rstrip('\n')
if (str(ended.returncode), said) != (status, error):
    sys.exit('status %d and %r, not %s and %r' % (ended.returncode, said[:200], status, error))
used = resource.getrusage(resource.RUSAGE_CHILDREN)
print('%.3f %.0f' % (used.ru_utime + used.ru_stime, used.ru_maxrss / 1024))
END_OF_SPENT

# measure SHAPE LIMIT COMMAND STATUS ERROR RUNS: sets `seconds` and `memory`
measure() {
    local shape=$1 limit=$2 command=$3 status=$4 error=$5 runs=$6
    python3 "$work/made.py" "$shape" "$limit" "$work/covering" >"$work/input"
    : >"$work/runs"
    for ((run = 0; run < runs; run++)); do
        if ! python3 "$work/spent.py" "$work/out" "$work/input" "$status" "$error" "$program" "$command" >>"$work/runs" 2>"$work/why"; then
            echo "wrong: $command, $shape: $(tail -n 1 "$work/why")"
            failed=1
            return 1
        fi
    done
    read -r seconds memory < <(sort -n "$work/runs" | awk 'NR == 1 { least = $1 } $2 > most { most = $2 } END { print least, most }')
    echo "$command, $shape: $(stat -c %s "$work/input") bytes, $seconds s, $memory MB"
}

# within WHAT HONEST: the last measurement takes at most ten times the honest seconds, of which a hundredth counts at least
within() {
    if awk -v seconds="$seconds" -v honest="$2" 'BEGIN { exit !(seconds > 10 * (honest > 0.01 ? honest : 0.01)) }'; then
        echo "too slow: $1 takes $seconds s, an honest one of its size $2 s"
        failed=1
    fi
}

is_free 2000 100 "orders of $order_limit bytes" || exit 0
measure honest "$order_limit" order 0 '' 3 || exit 1
honest=$seconds
while IFS='|' read -r shape status error; do
    if measure "$shape" "$order_limit" order "$status" "$error" 3; then within "$shape" "$honest"; fi
done <<'END_OF_SHAPES'
blanks|0|
one long text|0|
nested lists|0|
members with one name|3|order refused 3 twice from
long numbers|0|
one byte more|3|order refused 8 long
END_OF_SHAPES

if is_free 9000 2000 "coverings of $covering_limit bytes"; then
    "$program" cover <"$top/examples/makkah.json" >"$work/covering" || [ $? -eq 1 ]
    # A true one stands for the honest one of its size.
    if measure 'a true covering' "$covering_limit" check 0 '' 1; then
        honest=$seconds
        [ "$memory" -le "$most_memory" ] || { echo "too much memory: $memory MB" && failed=1; }
        if measure 'a wrong line' "$covering_limit" check 7 'cover refused line 2 fault 1' 1; then
            within 'a wrong line' "$honest"
            [ "$memory" -le "$most_memory" ] || { echo "too much memory: $memory MB" && failed=1; }
        fi
        measure 'a covering of one byte more' "$covering_limit" check 7 'cover refused long' 1 || true
    fi
fi
exit "$failed"
