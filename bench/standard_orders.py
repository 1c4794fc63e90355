"""Prints one of the standard orders on which speed is measured: standard_orders.py [NAME [DAYS]]

With no name it prints the names. The same name always gives the same order, over its own days or over DAYS.
"""
import json
import math
import random
import sys

LONGITUDE, LATITUDE = 46.7, 24.7
KILOMETRES_A_DEGREE = 111.2


def ring_round(count, place):
    """So many positions, the last one the first again; `place` gives longitude and latitude by the angle."""
    ring = [[round(part, 6) for part in place(2 * math.pi * i / (count - 1))] for i in range(count - 1)]
    return ring + ring[:1]


def wavy(count, across):
    """So many kilometres across; the radius swells and shrinks by a tenth eleven times."""
    def place(angle):
        reach = across / 2 / KILOMETRES_A_DEGREE * (1 + 0.1 * math.cos(11 * angle))
        return (LONGITUDE + reach * math.cos(angle) / math.cos(math.radians(LATITUDE)),
                LATITUDE + reach * math.sin(angle))
    return ring_round(count, place)


def jagged(count, east, north, depth):
    """Two half axes in degrees; each position is drawn in by a random part of them, up to `depth`."""
    draw = random.Random(1)

    def place(angle):
        reach = 1 - depth * draw.random()
        return LONGITUDE + east * reach * math.cos(angle), LATITUDE + north * reach * math.sin(angle)
    return ring_round(count, place)


def square(west, south, side):
    east, north = round(west + side, 6), south + side
    return [[west, south], [east, south], [east, north], [west, north], [west, south]]


def comb(teeth):
    """Teeth four degrees high and one microdegree wide, on a back one microdegree high."""
    ring = [[44, 22]]
    for k in range(teeth):
        west = round(44 + k * 0.00391, 6)
        east = round(west + 0.000001, 6)
        ring += [[west, 26], [east, 26], [east, 22.000001], [round(west + 0.001, 6), 22.000001]]
    return ring + [[48, 22], [44, 22]]


# name: first day, days, method, zone, ring
ORDERS = {
    'point': ('2025-01-01', 365, 'mwl', 180, lambda: [[LONGITUDE, LATITUDE]] * 4),
    'riyadh': ('2025-01-01', 30, 'mwl', 180, lambda: jagged(300, 0.198, 0.18, 0.15)),
    'b300': ('2025-03-01', 30, 'makkah', 180, lambda: wavy(300, 40)),
    'b4096': ('2025-03-01', 30, 'makkah', 180, lambda: wavy(4096, 350)),
    'd4096': ('2025-03-01', 30, 'makkah', 180, lambda: wavy(4096, 10)),
    'border-1': ('2025-01-01', 1, 'mwl', 180, lambda: jagged(4096, 0.75, 0.7, 0.05)),
    'square4': ('2025-01-01', 30, 'mwl', 180, lambda: square(44, 22, 4)),
    'north': ('2025-06-01', 30, 'mwl', 60, lambda: square(8, 60, 4)),
    'sliver': ('2025-01-01', 30, 'mwl', 180, lambda: [[44, 22], [48, 26], [48.000001, 26], [44.000001, 22], [44, 22]]),
    'comb': ('2025-01-01', 30, 'mwl', 180, lambda: comb(1022)),
    # its western border lies along the meridian where noon is a whole minute
    'meridian': ('2025-03-05', 1, 'mwl', 180, lambda: square(44.110357, 22, 4)),
}


def order(name):
    first, days, method, zone, ring = ORDERS[name]
    return {'from': first, 'days': days, 'method': method, 'asr': 'standard', 'zone': zone,
            'district': {'type': 'Polygon', 'coordinates': [ring()]}}


def main():
    if len(sys.argv) == 1:
        print('\n'.join(ORDERS))
    elif len(sys.argv) in (2, 3) and sys.argv[1] in ORDERS:
        asked = order(sys.argv[1])
        asked['days'] = int(sys.argv[2]) if len(sys.argv) == 3 else asked['days']
        print(json.dumps(asked, separators=(',', ':')))
    else:
        sys.exit(__doc__)


if __name__ == '__main__':
    main()
