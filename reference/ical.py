"""Calendars and their reader."""
import re

from dates import date_of, date_text, day_of
from problems import minute_of

MOST_BYTES = 16_777_216
EPOCH = 10_957  # 2000-01-01


def fold(line):
    out = [line[:75]]
    rest = line[75:]
    while rest:
        out.append(b' ' + rest[:74])
        rest = rest[74:]
    return b''.join(part + b'\r\n' for part in out)


def moment(k):
    """(year, month, day, hour, minute) in Universal Time of the minute k."""
    day, minute = divmod(k + 720, 1440)
    return date_of(day + EPOCH) + divmod(minute, 60)


def event_text(day, p, rank, from_day, west, south, method, asr, zone):
    start = p.base + minute_of(p, rank) + p.shift
    zone = zone.replace(',', '\\,').replace(';', '\\;')
    lines = [
        'BEGIN:VEVENT',
        'UID:%s-%s-%d-%d@timetable.invalid' % (date_text(day), p.column, west, south),
        'DTSTAMP:%04d%02d%02dT000000Z' % date_of(from_day),
        'DTSTART:%04d%02d%02dT%02d%02d00Z' % moment(start),
        'SUMMARY:' + p.column,
        'DESCRIPTION:Safe at every point of the district. Method %s\\, asr %s\\, zone %s' % (
            method, asr, zone),
        'END:VEVENT',
    ]
    return b''.join(fold(line.encode()) for line in lines)


HEAD = b'BEGIN:VCALENDAR\r\nVERSION:2.0\r\nPRODID:-//district timetables//ical 1//EN\r\n'
END = b'END:VCALENDAR\r\n'


class IcalFault(Exception):
    """1 NotLine, 2 Frame, 3 Event, with the line."""

    def __init__(self, number, line):
        self.number = number
        self.line = line


def joined_lines(data):
    parts = data.split(b'\r\n')
    if parts[-1] == b'':
        parts.pop()
    lines = []
    for part in parts:
        if lines and part[:1] in (b' ', b'\t'):
            lines[-1].append(part[1:])
        else:
            lines.append([part])
    return [b''.join(line) for line in lines]


def property_of(line):
    """(name, value), or None where the line is no property line. The value begins after the first
    colon outside double quotes."""
    m = re.match(rb'[A-Za-z0-9-]+', line)
    if not m or b'\r' in line or b'\n' in line:
        return None
    name, at = m.group(), m.end()
    if line[at:at + 1] == b';':
        quoted = False
        at += 1
        while at < len(line) and (quoted or line[at:at + 1] != b':'):
            quoted ^= line[at:at + 1] == b'"'
            at += 1
    if line[at:at + 1] != b':':
        return None
    return name.upper(), line[at + 1:]


def start_of(value):
    """The minute k of a moment as YYYYMMDDTHHMM00Z, or None."""
    m = re.fullmatch(rb'([0-9]{4})([0-9]{2})([0-9]{2})T([0-9]{2})([0-9]{2})00Z', value)
    if not m:
        return None
    year, month, day, hour, minute = map(int, m.groups())
    number = day_of(year, month, day) if year else None
    if number is None or not 1899 <= year <= 2101 or hour > 23 or minute > 59:
        return None
    return (number - EPOCH) * 1440 - 720 + 60 * hour + minute


def read_ical(data):
    """The events (uid, start, summary), or IcalFault."""
    events, frames = [], []  # frames: the names of the open components
    ended = False
    number = 0
    for number, line in enumerate(joined_lines(data), 1):
        found = property_of(line)
        if found is None:
            raise IcalFault(1, number)
        name, value = found
        upper = value.upper()
        if number == 1 and (name, upper) != (b'BEGIN', b'VCALENDAR'):
            raise IcalFault(2, number)
        if ended:
            raise IcalFault(2, number)
        if name == b'BEGIN':
            if len(frames) == 8:
                raise IcalFault(2, number)
            frames.append(upper)
            if len(frames) == 2 and upper == b'VEVENT':
                seen = {b'UID': [], b'DTSTART': [], b'SUMMARY': []}
        elif name == b'END':
            if frames[-1] != upper:
                raise IcalFault(2, number)
            if len(frames) == 2 and upper == b'VEVENT':
                if len(seen[b'UID']) != 1 or len(seen[b'DTSTART']) > 1 or len(seen[b'SUMMARY']) > 1:
                    raise IcalFault(3, number)
                start = start_of(seen[b'DTSTART'][0]) if seen[b'DTSTART'] else None
                if start is not None and seen[b'SUMMARY']:
                    events.append((seen[b'UID'][0], start, seen[b'SUMMARY'][0]))
            frames.pop()
            ended = not frames
        elif len(frames) == 2 and frames[1] == b'VEVENT' and name in seen:
            seen[name].append(value)
    if not ended:
        raise IcalFault(2, number + 1)
    return events


def agenda_text(events):
    out = [b'%04d-%02d-%02dT%02d:%02dZ %s\n' % (moment(start) + (summary,))
           for _, start, summary in events]
    return b''.join(out) + b'end events %d\n' % len(events)
