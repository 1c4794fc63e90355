"""Compares what a program answers to random orders with what a reference answers, byte for byte.

    python3 compare/orders.py COUNT [PROGRAM [REFERENCE [SEED]]]

PROGRAM and REFERENCE are commands, each one argument; else they are ./timetable and reference/timetable.py. They are run
with the word `order` on COUNT orders, of which about half are wrong somewhere, and with the word `plain` on a fifth as many
right ones of few days and small districts. Some ask for the sun of Meeus, some for a rule of nights; half of the latter lie at
latitudes from 45 to 65. Compared are the output, the error stream and the status. It prints what differs, and exits with 1 if
anything did. The numbers of each status are printed last, to show what was met.
"""
import collections
import json
import math
import sys

from answers import answer, words_given

METHODS = ['mwl', 'isna', 'egypt', 'karachi', 'makkah', 'tehran', 'jafari']
NIGHTS = ['half', 'seventh', 'angle']
RULES = ['UTC0', '<+03>-3', 'AAA-14', 'AAA12', 'CET-1CEST,M3.5.0,M10.5.0/3', 'EST5EDT,M3.2.0,M11.1.0',
         'EET-2EEST,M4.5.5/0,M10.5.4/24', '<-02>2<-01>,M3.5.0/-1,M10.5.0/0', 'AEST-10AEDT,M10.1.0,M4.1.0/3',
         'IST-1GMT0,M10.5.0,M3.5.0/1', 'AAA-3BBB-4,J60/0,J300/0', 'AAA-3BBB-4,59,364/167:59:59']


# ---- JSON texts: an object is a Table of pairs, a Spelled stands as it is

class Table(list):
    pass


class Spelled(str):
    pass


def text_of(draw, value, gaps, escapes):
    """A spelling of a value, with spaces and escapes where they may stand."""
    def gap():
        return draw.choice(['', '', ' ', '\n', '\t \r']) if gaps else ''

    def text(part):
        return text_of(draw, part, gaps, escapes)

    if isinstance(value, Spelled):
        return value
    if isinstance(value, Table):
        return '{' + ','.join(gap() + text(n) + gap() + ':' + gap() + text(v) + gap() for n, v in value) + '}'
    if isinstance(value, list):
        return '[' + ','.join(gap() + text(part) + gap() for part in value) + ']'
    if isinstance(value, str) and escapes:
        return '"' + ''.join('\\u%04x' % ord(c) if draw.random() < 0.3 else json.dumps(c)[1:-1] for c in value) + '"'
    return json.dumps(value)


def decimal(draw, micro, plain=False):
    """A spelling of a number of microdegrees, and now and then of one close by."""
    sign = '-' * (micro < 0)
    whole, part = divmod(abs(micro), 1_000_000)
    kind = 0 if plain else draw.randrange(12)
    if kind == 1:
        return Spelled('%s%d.%06d%s' % (sign, whole, part, draw.choice(['0', '49999', '5', '4' * 40])))
    if kind == 2:
        return Spelled('%s%de-%d' % (sign, abs(micro) * 1000, 9))
    if kind == 3:
        return Spelled('%s0.%06d%06dE+6' % (sign, whole, part))
    return Spelled('%s%d.%06d' % (sign, whole, part) if part or kind == 4 else '%s%d' % (sign, whole))


# ---- districts

def ring(draw, west, south, size, count):
    """A star of count positions round the middle of a square, in microdegrees."""
    half = size / 2
    points = []
    for i in range(count - 1):
        angle = 2 * math.pi * i / (count - 1)
        reach = half * draw.uniform(0.4, 1)
        points.append((round(west + half + reach * math.cos(angle)), round(south + half + reach * math.sin(angle))))
    return points + points[:1]


def polygon(draw, west, south, size):
    kind = draw.randrange(6)
    if kind == 0:
        return [[(west, south)] * 4]
    if kind == 1:
        east, north = west + size, south + size
        return [[(west, south), (east, south), (east, north), (west, north), (west, south)]]
    outer = ring(draw, west, south, size, draw.choice([4, 5, 9, 40]))
    hole = ring(draw, west + size * 3 // 8, south + size * 3 // 8, size // 4, 5)
    return [outer, hole] if kind == 2 else [outer]


def shape(draw, polygons, plain=False):
    """One of the forms in which a district may stand."""
    def position(p):
        further = draw.choice([[], [], [], [12.5], [None, 'x', [0]]])
        return [decimal(draw, p[0], plain), decimal(draw, p[1], plain)] + further

    lists = [[[position(p) for p in r] for r in rings] for rings in polygons]
    if len(lists) == 1 and draw.random() < 0.7:
        table = Table([('type', 'Polygon'), ('coordinates', lists[0])])
    else:
        table = Table([('type', 'MultiPolygon'), ('coordinates', lists)])
    if draw.random() < 0.3:
        table.append(('bbox', [0, 0, 1, 1]))
    if draw.random() < 0.4:
        table = Table([('type', 'Feature'), ('properties', draw.choice([None, Table([('type', 'x')])])),
                       ('geometry', table)])
        if draw.random() < 0.5:
            table = Table([('features', [table]), ('type', 'FeatureCollection'), ('id', 7)])
    draw.shuffle(table)
    return table


def district(draw, greatest, plain=False, is_north=False):
    size = draw.choice([1, 16, 1_000, greatest // 10, greatest])
    west = draw.choice([draw.randint(-180_000_000, 180_000_000), 100_000, 360_000_000 - size, -360_000_000])
    south = draw.choice([draw.randint(-65_000_000, 65_000_000 - size), 0, -65_000_000, 65_000_000 - size])
    if plain:
        west, south = draw.randint(-180_000_000, 180_000_000), draw.randint(-65_000_000, 65_000_000 - size)
    if is_north:
        south = draw.choice([draw.randint(45_000_000, 65_000_000 - size), draw.randint(-65_000_000, -45_000_000 - size)])
    polygons = [polygon(draw, west, south, size)]
    while draw.random() < 0.3:
        polygons.append(polygon(draw, west, south, size))
    return polygons


# ---- right orders

def date(draw):
    return draw.choice(['1900-01-01', '2000-02-29', '2100-12-30', '%d-%02d-%02d' % (
        draw.randint(1900, 2099), draw.randint(1, 12), draw.randint(1, 28))])


def right_order(draw, plain):
    """The members of an order; one for a table is small."""
    night = draw.choice(NIGHTS) if draw.random() < 0.3 else None
    polygons = district(draw, 300_000 if plain else 4_194_304, plain, night is not None and draw.random() < 0.5)
    method = draw.choice(METHODS)
    members = Table([
        ('from', date(draw)), ('days', draw.choice([1, 1, 2] if plain else [1, 2, Spelled('2.0e0')])),
        ('method', method), ('asr', draw.choice(['standard', 'hanafi'])),
        ('zone', draw.choice([round(polygons[0][0][0][0] / 250_000), draw.randint(-720, 840), draw.choice(RULES)])),
        ('district', shape(draw, polygons, plain))])
    if isinstance(members[4][1], int) and not -720 <= members[4][1] <= 840:
        members[4] = ('zone', 0)
    if draw.random() < 0.3:
        members.append(('height', draw.choice([0, 1, 277, 9000, draw.randint(0, 9000)])))
    if draw.random() < 0.3:
        first = members[0][1]
        pairs = [[first, first]] if method == 'makkah' and draw.random() < 0.7 else []
        members.append(('late_isha', pairs))
    if draw.random() < 0.4:
        members.append(('sun', draw.choice(['usno', 'meeus', 'meeus'])))
    if night:
        members.append(('night', night))
    if draw.random() < 0.3:
        members.append((draw.choice(['version', 'x', 'From', 'districts']), draw.choice([7, None, [], Table()])))
    draw.shuffle(members)
    return members


# ---- wrong ones

LIMITS = {
    'from': ['2025-02-30', '1899-12-31', '2101-01-01', '2025-3-001', '1 March', '2025-03-01 ', 'é025-03-0', 20250301, None],
    'days': [0, 366, 367, Spelled('1.5'), Spelled('3660e-1'), Spelled('-0'), Spelled('1e16'), Spelled('1e999999999999'),
             Spelled('0.0000000000000001e16'), '1', True],
    'method': ['mecca', 'MWL', '', 'mwl ', 'mw\u200bl', 7, None, ['mwl']],
    'asr': ['shafii', 'Standard', '', 2, Table()],
    'zone': [841, -721, 840, -720, Spelled('59.5'), Spelled('6e1'), '180', 'UTC', 'Europe/Berlin', '', 'LMT-0:00:30',
             'AAA-15', 'AAA13', 'AAA-3BBB', 'AA-3', 'AAA-3 ', 'A"A-3', 'AAA-3BBB,M3.5.0,M10.5.7', 'AAA-3BBB,M13.5.0,M10.5.0',
             'AAA-14BBB,M3.5.0,M10.5.0', 'AAA-1:30BBB-2:00:30,0,365/167', '<' + 'a' * 62 + '>1', None, [0]],
    'height': [9000, 9001, -1, Spelled('0.5'), Spelled('1e3'), '1', None],
    'late_isha': [None, [[]], [['2025-03-01']], [['2025-03-30', '2025-03-01']], [['2025-03-01', '2025-02-30']],
                  [['2025-03-01', '2025-03-30', '2025-03-30']], [['2025-03-01', '2025-03-01']] * 9,
                  [['2025-03-01', '2025-03-01']] * 8, [['2025-03-01', 1]], ['2025-03-01']],
    'sun': ['moon', 'Meeus', '', 1], 'night': ['third', 'Half', '', None],
    'district': [None, [], 7, Table(), Table([('type', 'Point'), ('coordinates', [39, 21])]),
                 Table([('type', 'Polygon'), ('coordinates', [])]), Table([('type', 'MultiPolygon'), ('coordinates', [])]),
                 Table([('type', 'MultiPolygon'), ('coordinates', [[]])]), Table([('type', 'Polygon'), ('coordinates', [[]])]),
                 Table([('type', 'Polygon'), ('coordinates', [[[0, 0], [0]]])]), Table([('type', 'Feature'), ('geometry', None)]),
                 Table([('type', 'FeatureCollection'), ('features', [])])],
}
WHOLE = [b'', b' ', b'{', b'{}', b'[]', b'7', b'01', b'-', b'nul', b'null', b'"\\ud800"', b'"\\udc00"', b'"\\ud83d\\ude00"',
         b'[' * 65, b'[' * 64 + b']' * 64, b'1' * 65, b'1' * 64, b'\xef\xbb\xbf{}', b'\xef\xbb', b'"\xff"', b'"\xe0\x80"',
         b'"\xed\xa0\x80"', b'"\xf4\x90\x80\x80"', b'"\x1f"', b'{"from"', b'{"a":1,}', b'[1,]', b'1.', b'1e', b'{}x']


def change_positions(draw, table):
    """A list of positions in the district is changed at one place."""
    while not any(name == 'coordinates' for name, _ in table):
        name, inner = next((n, v) for n, v in table if n in ('features', 'geometry'))
        table = inner[0] if name == 'features' else inner
    lists = next(v for n, v in table if n == 'coordinates')
    while isinstance(lists[0][0], list):
        lists = draw.choice(lists)
    place = draw.randrange(len(lists))
    kind = draw.randrange(5)
    if kind == 0:
        del lists[place]
    elif kind == 1:
        lists[place] = [lists[place][0], decimal(draw, draw.choice([-65_000_001, 65_000_000, 65_000_001, 4_200_000]))]
    elif kind == 2:
        lists[place] = [decimal(draw, draw.choice([-360_000_001, 360_000_000, 360_000_001])), lists[place][1]]
    elif kind == 3:
        lists[place] = draw.choice([[], [1], [None, 1], ['1', '2'], 7, None])
    else:
        lists[place:place] = [lists[place]] * draw.choice([1, 4_090, 4_095, 4_096])


def change_form(draw, table):
    """One of the district's own members goes, stands twice or is another."""
    if draw.random() < 0.5:
        for name, value in table:
            if name == 'geometry':
                table = value
            elif name == 'features':
                table = value[0]
    place = draw.randrange(len(table))
    name, value = table[place]
    kind = draw.randrange(4)
    if kind == 0:
        del table[place]
    elif kind == 1:
        table.append((name, draw.choice([value, None])))
    elif kind == 2:
        table[place] = (name, draw.choice([None, 'Polygon', 'MultiPolygon', [value], [], [value, value]]))
    else:
        table.append((draw.choice(['type', 'coordinates', 'geometry', 'features']), None))


def change_member(draw, members):
    """A member goes, stands twice, or has a value at or past its limits."""
    kind = draw.randrange(8)
    place = draw.randrange(len(members))
    if kind == 0:
        del members[place]
    elif kind == 1:
        members.append(draw.choice([members[place], (members[place][0], None)]))
    else:
        name = draw.choice(list(LIMITS))
        members[:] = [pair for pair in members if pair[0] != name] + [(name, draw.choice(LIMITS[name]))]
    draw.shuffle(members)


def change_bytes(draw, text):
    """Bytes go, come in or are others."""
    kind = draw.randrange(6)
    place = draw.randrange(len(text))
    byte = draw.choice([bytes([draw.randrange(256)]), draw.choice([b',', b'}', b']', b'"', b'\\', b'0', b'\xe2\x82'])])
    if kind == 0:
        return text[:place]
    if kind == 1:
        return text[:place] + byte + text[place + 1:]
    if kind == 2:
        return text[:place] + byte + text[place:]
    if kind == 3:
        return text[:place] + text[place + 1:]
    if kind == 4:
        return b'\xef\xbb\xbf' + text
    return draw.choice(WHOLE)


def order(draw, plain=False):
    """The bytes of an order; one for a table is right."""
    members = right_order(draw, plain)
    kind = 0 if plain else draw.randrange(8)
    if kind in (4, 5):
        change_member(draw, members)
    elif kind == 6:
        draw.choice([change_positions, change_form])(draw, next(v for n, v in members if n == 'district'))
    text = text_of(draw, members, draw.random() < 0.3, draw.random() < 0.2).encode()
    return change_bytes(draw, text) if kind == 7 else text


def main():
    count, program, reference, draw = words_given(__doc__)
    met, different = collections.Counter(), 0
    for i in range(count + count // 5):
        word = 'order' if i < count else 'plain'
        text = order(draw, word == 'plain')
        found, wanted = answer(program, [word], text), answer(reference, [word], text)
        met[word, wanted[0]] += 1
        if found != wanted:
            different += 1
            print(word, text, found, wanted, sep='\n  ', flush=True)
    for (word, status), times in sorted(met.items()):
        print('%s: status %d, %d times' % (word, status, times))
    print('%d orders, %d different' % (sum(met.values()), different))
    sys.exit(1 if different else 0)


if __name__ == '__main__':
    main()
