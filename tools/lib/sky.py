"""The conditions of docs/formulas.md in floating point, written from that page alone: no line is shared with the program.

A minute k counts from 2000-01-01 12:00 Universal Time, longitudes and latitudes are degrees. `value` is above zero where the
sun is on that side; `holds` is a column's condition."""
from math import asin, cos, radians, sin, sqrt

ANGLES = {'mwl': (18, 17, None), 'isna': (15, 15, None), 'egypt': (19.5, 17.5, None), 'karachi': (18, 18, None),
          'makkah': (18.5, None, None), 'tehran': (17.7, 14, 4.5), 'jafari': (16, 14, 4)}


def observatory(k):
    """Of the US Naval Observatory's sun the ecliptic longitude, obliquity and mean longitude, in radians."""
    day = k / 1440
    g, q = radians(357.529 + 0.98560028 * day), 280.459 + 0.98564736 * day
    return radians(q + 1.915 * sin(g) + 0.020 * sin(2 * g)), radians(23.439 - 0.00000036 * day), radians(q)


def meeus(k):
    """The same of Meeus's sun."""
    T = k / 52_596_000
    mean = 280.46646 + 36000.76983 * T + 0.0003032 * T * T
    M = radians(357.52911 + 35999.05029 * T - 0.0001537 * T * T)
    node = radians(125.04 - 1934.136 * T)
    centre = (1.914602 - 0.004817 * T - 0.000014 * T * T) * sin(M) + (0.019993 - 0.000101 * T) * sin(2 * M) + 0.000289 * sin(3 * M)
    tilt = 23 + 26 / 60 + (21.448 - 46.8150 * T - 0.00059 * T * T + 0.001813 * T ** 3) / 3600 + 0.00256 * cos(node)
    return radians(mean + centre - 0.00569 - 0.00478 * sin(node)), radians(tilt), radians(mean - 0.0057183)


SUNS = {'usno': observatory, 'meeus': meeus}


def value(what, k, lon, lat, sun='usno'):
    """The altitude value of an angle, the meridian value, or the Asr value of ('shadow', factor)."""
    L, e, q = SUNS[sun](k)
    theta, phi = radians(0.25 * k + lon) + q, radians(lat)
    if what == 'meridian':
        return sin(theta) * cos(L) - cos(theta) * cos(e) * sin(L)
    S = sin(phi) * sin(e) * sin(L) + cos(phi) * (cos(theta) * cos(L) + sin(theta) * cos(e) * sin(L))
    if not isinstance(what, tuple):
        return S + sin(radians(what))
    d = asin(sin(e) * sin(L))
    v = what[1] * cos(phi - d) + abs(sin(phi - d))
    return (1 - S * S) * cos(phi - d) ** 2 - S * abs(S) * v * v


def problems(method, asr, height, interval, noon):
    """Of each column: first and last minute of its frame, what is judged, the side that holds, and the minutes added after."""
    fajr, isha, dusk = ANGLES[method]
    horizon = 0.833 + 0.0347 * sqrt(height)
    sunset = horizon if dusk is None else dusk
    night, shift = (sunset, interval) if isha is None else (isha, 0)
    return {'fajr': (noon - 720, noon, fajr, 1, 0), 'f.end': (noon - 720, noon, horizon, -1, 0),
            'dhuhr': (noon - 360, noon + 360, 'meridian', 1, 0),
            'asr': (noon, noon + 720, ('shadow', 1 if asr == 'standard' else 2), 1, 0),
            'magh': (noon, noon + 720, sunset, -1, 0), 'm.end': (noon, noon + 720, night, 1, shift),
            'isha': (noon, noon + 720, night, -1, shift)}
