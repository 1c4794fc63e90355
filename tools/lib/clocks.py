"""Clock zones as orders take them: minutes east, or a POSIX rule, which counts west; and what they show at noon."""
import io
import os
import re
import struct
import zoneinfo
from datetime import datetime, timedelta

from outcome import Fault

OFFSET = re.compile(r'([+-])([0-9]{1,2})(?::?([0-9]{2}))?')
NAME = re.compile(r'[A-Za-z][A-Za-z0-9_+-]*(/[A-Za-z0-9_+-]+)*')
LETTERS = r'(?:<[A-Za-z0-9+-]{3,15}>|[A-Za-z]{3,15})'
RULE_START = re.compile(LETTERS + '[+-]?[0-9]')
RULE = re.compile(rf'{LETTERS}[+-]?[0-9:]+(?:{LETTERS}[+-]?[0-9:]*,[!-~]+)?')
WESTMOST, EASTMOST = -720, 840


def header(types):
    return struct.pack('>4sc15x6l', b'TZif', b'2', 0, 0, 0, 0, types, 4 * types)


def zone_of_rule(rule):
    """The zone of a POSIX rule: a zone file that holds nothing but the rule, read by the standard library."""
    if not RULE.fullmatch(rule):
        raise Fault(f'zone {rule}: no POSIX rule')
    utc = struct.pack('>lbB', 0, 0, 0) + b'UTC\0'
    try:
        return zoneinfo.ZoneInfo.from_file(io.BytesIO(header(1) + utc + header(1) + utc + b'\n%s\n' % rule.encode('ascii')))
    except (ValueError, UnicodeEncodeError) as error:
        raise Fault(f'zone {rule}: no POSIX rule: {error}')


def noon_offset(zone, day):
    """The minutes east at noon of a day; of a number it is that number."""
    if isinstance(zone, int):
        return zone
    seconds = datetime(day.year, day.month, day.day, 12, tzinfo=zone).utcoffset() / timedelta(seconds=1)
    if seconds % 60:
        raise Fault(f'at noon of {day} the clock is {seconds:.0f} seconds from Universal Time: no whole minutes')
    return int(seconds // 60)


def offset_text(minutes):
    return '%s%02d:%02d' % ('-' if minutes < 0 else '+', abs(minutes) // 60, abs(minutes) % 60)


def last_line(name):
    """The rule on the last line of a zone's file in the tz database, which holds for its future."""
    for folder in zoneinfo.TZPATH:
        path = os.path.join(folder, name)
        if os.path.isfile(path):
            with open(path, 'rb') as file:
                data = file.read()
            if data[:4] == b'TZif' and data.endswith(b'\n'):
                return data[:-1].rsplit(b'\n', 1)[1].decode('ascii')
    raise Fault(f'zone {name}: the tz database (Debian: tzdata) has no zone of this name')


def named_zone(name, days):
    """The rule of a named zone, if it says on every one of the days what the zone's own history says."""
    rule = last_line(name)
    own, ruled = zoneinfo.ZoneInfo(name), zone_of_rule(rule)
    for day in days:
        if noon_offset(own, day) != noon_offset(ruled, day):
            raise Fault(f'zone {name}: at noon of {day} its clock is {offset_text(noon_offset(own, day))}, and its last rule '
                        f'{rule} says {offset_text(noon_offset(ruled, day))}: order the days before and after by themselves, '
                        'each by its offset')
    return rule


def offset_of(word):
    sign, hours, minutes = OFFSET.fullmatch(word).groups()
    value = 60 * int(hours) + int(minutes or 0)
    if int(minutes or 0) > 59:
        raise Fault(f'zone {word}: {minutes} minutes')
    return -value if sign == '-' else value


def read_zone(word, days):
    """What an order's `zone` holds, and the offsets at noon of its days."""
    if OFFSET.fullmatch(word):
        zone = offset_of(word)
    elif NAME.fullmatch(word) and (RULE_START.match(word) is None or '/' in word):
        zone = named_zone(word, days)
    elif RULE_START.match(word):
        zone = word
    else:
        raise Fault(f'zone {word}: neither an offset as +03:00, nor a zone as Asia/Riyadh, nor a POSIX rule')
    return read_member(zone, days)


def read_member(zone, days):
    """The same of a `zone` that already stands in an order; a rule without a change of clock becomes its minutes."""
    if isinstance(zone, str):
        ruled = zone_of_rule(zone)
        offsets = [noon_offset(ruled, day) for day in days]
        if ',' not in zone:
            zone = offsets[0]
        elif len(zone) > 64 or not re.fullmatch(r'[!-~]+', zone) or '"' in zone or '\\' in zone:
            raise Fault(f'zone {zone}: a rule has at most 64 characters, without quotes and backslashes')
    else:
        offsets = [zone] * len(days)
    for day, offset in zip(days, offsets):
        if not WESTMOST <= offset <= EASTMOST:
            raise Fault(f'zone: on {day} the clock is {offset_text(offset)}, and zones lie from '
                        f'{offset_text(WESTMOST)} to {offset_text(EASTMOST)}')
    return zone, offsets
