"""Orders: what their members may be, and orders read from files with nothing passed over."""
import datetime
import json
from dataclasses import dataclass
from decimal import Decimal

import clocks
import geojson
from outcome import Fault

METHODS = ('mwl', 'isna', 'egypt', 'karachi', 'makkah', 'tehran', 'jafari')
ASRS = ('standard', 'hanafi')
SUNS = ('usno', 'meeus')
NIGHTS = ('half', 'seventh', 'angle')
NEEDED = ('from', 'days', 'method', 'asr', 'zone', 'district')
KNOWN = NEEDED + ('height', 'late_isha', 'sun', 'night')
FIRST_DAY, LAST_DAY = datetime.date(1900, 1, 1), datetime.date(2100, 12, 31)
EPOCH = datetime.date(2000, 1, 1)


@dataclass
class Order:
    days: list
    method: str
    asr: str
    zone: object
    offsets: dict
    height: int
    late: list
    sun: str
    night: object
    polygons: list

    def interval(self, day):
        """The minutes from Maghrib to Isha of the method makkah."""
        return 120 if any(first <= day <= last for first, last in self.late) else 90

    def noon(self, day):
        west, _, east, _ = geojson.box(self.polygons)
        return mean_noon(west, east, self.offsets[day])

    def base(self, day):
        """The minute since 2000-01-01 12:00 Universal Time at which the day's clock shows 00:00."""
        return (day - EPOCH).days * 1440 - 720 - self.offsets[day]


def mean_noon(west, east, offset):
    """The civil minute of the mean noon of the middle longitude."""
    return (720 + offset - (west + east + 250_000) // 500_000) % 1440


def date_of(text, name):
    try:
        day = datetime.datetime.strptime(text, '%Y-%m-%d').date()
    except (TypeError, ValueError):
        day = None
    if day is None or day.isoformat() != text:
        raise Fault(f'{name}: {text} is no date as 2025-03-01')
    if not FIRST_DAY <= day <= LAST_DAY:
        raise Fault(f'{name}: {text} is not from {FIRST_DAY} to {LAST_DAY}')
    return day


def is_whole(value, low, high):
    return isinstance(value, int) and not isinstance(value, bool) and low <= value <= high


def days_of(first, count):
    if not is_whole(count, 1, 366):
        raise Fault(f'days: {count} is no whole number from 1 to 366')
    if first + datetime.timedelta(count - 1) > LAST_DAY:
        raise Fault(f'days: the last day would be after {LAST_DAY}')
    return [first + datetime.timedelta(i) for i in range(count)]


def stop_on_wrong_late(pairs, method):
    if not isinstance(pairs, list) or not all(isinstance(pair, list) and len(pair) == 2 for pair in pairs):
        raise Fault('late_isha: it is a list of pairs of a first and a last date')
    if pairs and method != 'makkah':
        raise Fault(f'late_isha: only the method makkah has it, not {method}')
    if len(pairs) > 8:
        raise Fault(f'late_isha: {len(pairs)} pairs of dates, and the most are 8')
    for first, last in pairs:
        if date_of(first, 'late_isha') > date_of(last, 'late_isha'):
            raise Fault(f'late_isha: {last} is before {first}')


def stop_on_wrong_members(order):
    """What every order keeps, whether it was made of words or read."""
    for name, allowed in (('method', METHODS), ('asr', ASRS), ('sun', SUNS), ('night', NIGHTS)):
        if name in order and order[name] not in allowed:
            raise Fault(f'{name}: {json.dumps(order[name], default=str)} is none of {", ".join(allowed)}')
    if not is_whole(order.get('height', 0), 0, 9000):
        raise Fault(f'height: {order["height"]} is no whole number of metres from 0 to 9000')
    stop_on_wrong_late(order.get('late_isha', []), order['method'])


def whole(value):
    """A number spelled with a point or an exponent that is a whole one, as that."""
    if isinstance(value, Decimal) and -20 < value.adjusted() < 7 and value == int(value):
        return int(value)
    return value


def read(path):
    """An order out of a file; a member that the program would pass over is stopped."""
    order = geojson.read_json(path)
    if not isinstance(order, dict):
        raise Fault(f'{path}: no JSON object')
    order = {name: whole(value) for name, value in order.items()}
    for name in order:
        if name not in KNOWN:
            raise Fault(f'{path}: the member "{name}" is none of {", ".join(KNOWN)}: the program would pass over it')
    for name in NEEDED:
        if name not in order:
            raise Fault(f'{path}: the member "{name}" is missing')
    stop_on_wrong_members(order)
    if not isinstance(order['zone'], str) and not is_whole(order['zone'], clocks.WESTMOST, clocks.EASTMOST):
        raise Fault(f'{path}: zone: {order["zone"]} is neither whole minutes from -720 to 840 nor a rule')
    days = days_of(date_of(order['from'], 'from'), order['days'])
    _, offsets = clocks.read_member(order['zone'], days)
    polygons = geojson.polygons_of(order['district'], path)
    geojson.stop_beyond_limits(polygons, path)
    late = [tuple(date_of(text, 'late_isha') for text in pair) for pair in order.get('late_isha', [])]
    return Order(days, order['method'], order['asr'], order['zone'], dict(zip(days, offsets)), order.get('height', 0), late,
                 order.get('sun', 'usno'), order.get('night'), polygons)
