#!/usr/bin/env bash
# bench/calendars.sh [PROGRAM..]: another reader of calendars, Debian's python3-icalendar, takes the calendar that `ical` writes
# of each example, and finds the same events as `agenda`, in the same order. Exits with 1 if one differs. It is skipped, with
# status 0, where that reader is missing or the program has no `ical`.
set -euo pipefail
top=$(cd "$(dirname "$0")/.." && pwd)
[ $# -gt 0 ] || set -- "$top/timetable"
python=
for candidate in python3 /usr/bin/python3; do
    if "$candidate" -c 'import icalendar' 2>/dev/null; then python=$candidate; break; fi
done
if [ -z "$python" ]; then echo "skipped: python3-icalendar is missing"; exit 0; fi
if ! { "$@" agenda </dev/null 2>&1 || true; } | grep -q '^ical refused'; then echo "skipped: the program has no calendars"; exit 0; fi
work=$(mktemp -d)
trap 'rm -rf "$work"' EXIT

# The events as `agenda` writes them.
cat >"$work/events.py" <<'END'
import sys
from icalendar import Calendar
calendar = Calendar.from_ical(sys.stdin.buffer.read())
events = [part for part in calendar.subcomponents if part.name == 'VEVENT']
assert len({str(event['UID']) for event in events}) == len(events), 'a UID stands twice'
for event in events:
    print(event.decoded('DTSTART').strftime('%Y-%m-%dT%H:%MZ'), event['SUMMARY'])
print('end events', len(events))
END

different=0
for order in "$top"/examples/*.json; do
    name=${order##*/}
    # 0 is done and 1 done with open entries
    "$@" ical <"$order" >"$work/calendar" || [ $? -eq 1 ]
    "$@" agenda <"$work/calendar" >"$work/agenda"
    if "$python" "$work/events.py" <"$work/calendar" | cmp - "$work/agenda"; then
        echo "same: ${name%.json}, $(tail -n 1 "$work/agenda")"
    else
        different=1
        echo "different: ${name%.json}"
    fi
done
exit "$different"
