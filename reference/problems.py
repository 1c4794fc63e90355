"""Methods, reference noon, frames and problems of a day: the seven columns, and the two of a night's rule."""
from collections import namedtuple
from math import isqrt

from series import DEGREE

COLUMNS = ('fajr', 'fajr_end', 'dhuhr', 'asr', 'maghrib', 'maghrib_end', 'isha')
METHODS = ('mwl', 'isna', 'egypt', 'karachi', 'makkah', 'tehran', 'jafari')
ASRS = ('standard', 'hanafi')


def tenths(t):
    return t * DEGREE // 10


# word: Fajr angle, Isha angle (None: after Maghrib), Maghrib angle (None: the horizon's)
METHOD_ANGLES = {
    'mwl': (tenths(180), tenths(170), None),
    'isna': (tenths(150), tenths(150), None),
    'egypt': (tenths(195), tenths(175), None),
    'karachi': (tenths(180), tenths(180), None),
    'makkah': (tenths(185), None, None),
    'tehran': (tenths(177), tenths(140), tenths(45)),
    'jafari': (tenths(160), tenths(140), tenths(40)),
}

# kind: ('above', low, high), ('below', low, high), ('past',), ('shadow', factor)
Problem = namedtuple('Problem', 'column side first last base kind shift')


def noon_of(west, east, offset):
    return (720 + offset - (west + east + 250_000) // 500_000) % 1440


def horizon(height):
    """The range that holds 0.833 + 0.0347 sqrt(height) degrees."""
    product = 24_968_010_240_000_000_000 * height
    w = isqrt(product)
    low = 119_952_000_000 + w
    return (low, low if w * w == product else low + 1)


def base_of(day, offset):
    return (day - 10_957) * 1440 - 720 - offset


def problems(method, asr, day, offset, noon, height=0, interval=90):
    base = base_of(day, offset)
    fajr, isha, maghrib = METHOD_ANGLES[method]
    sunrise = horizon(height)
    sunset = sunrise if maghrib is None else (maghrib, maghrib)
    night, shift = (sunset, interval) if isha is None else ((isha, isha), 0)
    n = noon
    return (
        Problem('fajr', 'start', n - 720, n, base, ('above', fajr, fajr), 0),
        Problem('fajr_end', 'end', n - 720, n, base, ('below',) + sunrise, 0),
        Problem('dhuhr', 'start', n - 360, n + 360, base, ('past',), 0),
        Problem('asr', 'start', n, n + 720, base, ('shadow', 1 if asr == 'standard' else 2), 0),
        Problem('maghrib', 'start', n, n + 720, base, ('below',) + sunset, 0),
        Problem('maghrib_end', 'end', n, n + 720, base, ('above',) + night, shift),
        Problem('isha', 'start', n, n + 720, base, ('below',) + night, shift),
    )


def night_problems(day, offset, noon, height):
    """Rise and set. Their words in a covering are rise and set."""
    base = base_of(day, offset)
    sunrise = horizon(height)
    return (
        Problem('fajr_end', 'start', noon - 720, noon, base, ('above',) + sunrise, 0),
        Problem('maghrib', 'start', noon, noon + 720, base, ('below',) + sunrise, 0),
    )


def minute_of(p, rank):
    return p.first + rank if p.side == 'start' else p.last - rank


def minutes_of(p, first, last):
    """The minutes k of the ranks first to last, as a range."""
    a, b = p.base + minute_of(p, first), p.base + minute_of(p, last)
    return (min(a, b), max(a, b))
