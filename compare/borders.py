#!/usr/bin/python3
"""compare/borders.py [PROGRAM [COUNT]]: compares what the judge of borders says with two slower ways.

Named pairs of a district and a border, and COUNT random ones (300), of whole microdegrees. Each verdict is told apart by
exact whole-number arithmetic in another way: no two edges of both touch, one place of each ring of the border is in the
district, and none of a ring of the district is in the border. The first square is that of the tree of quarters, searched
here box by box. Exits with 1 if one differs."""
import json
import os
import random
import subprocess
import sys

UNIT = 128
ROOT = (-2**36, -2**36, 37)
ORDER = {'from': '2025-03-01', 'days': 1, 'method': 'makkah', 'asr': 'standard', 'zone': 180}


def edges_of(polygon):
    return [(UNIT * p[0], UNIT * p[1], UNIT * q[0], UNIT * q[1]) for ring in polygon for p, q in zip(ring, ring[1:])]


def turn(e, x, y):
    return (e[2] - e[0]) * (y - e[1]) - (e[3] - e[1]) * (x - e[0])


def is_on(e, x, y):
    return turn(e, x, y) == 0 and min(e[0], e[2]) <= x <= max(e[0], e[2]) and min(e[1], e[3]) <= y <= max(e[1], e[3])


def is_in(polygons, x, y):
    """By the even-odd rule, a ring's edges included."""
    for edges in polygons:
        if any(is_on(e, x, y) for e in edges):
            return True
        odd = False
        for e in edges:
            if (e[1] > y) != (e[3] > y) and (turn(e, x, y) > 0) == (e[3] > e[1]):
                odd = not odd
        if odd:
            return True
    return False


# ---- by crossings

def sign(z):
    return (z > 0) - (z < 0)


def do_touch(e, f):
    if max(e[0], e[2]) < min(f[0], f[2]) or max(f[0], f[2]) < min(e[0], e[2]):
        return False
    if max(e[1], e[3]) < min(f[1], f[3]) or max(f[1], f[3]) < min(e[1], e[3]):
        return False
    return (sign(turn(e, f[0], f[1])) * sign(turn(e, f[2], f[3])) <= 0
            and sign(turn(f, e[0], e[1])) * sign(turn(f, e[2], e[3])) <= 0)


def is_held(district, border):
    inner, outer = [edges_of(p) for p in border], [edges_of(p) for p in district]
    if any(do_touch(e, f) for edges in inner for e in edges for others in outer for f in others):
        return False
    if any(not is_in(outer, UNIT * ring[0][0], UNIT * ring[0][1]) for polygon in border for ring in polygon):
        return False
    return not any(is_in(inner, UNIT * ring[0][0], UNIT * ring[0][1]) for polygon in district for ring in polygon)


# ---- by the tree

def meets(e, box):
    x0, x1, y0, y1 = box
    if max(e[0], e[2]) < x0 or x1 < min(e[0], e[2]) or max(e[1], e[3]) < y0 or y1 < min(e[1], e[3]):
        return False
    sides = [turn(e, x, y) for x in (x0, x1) for y in (y0, y1)]
    return not (min(sides) > 0 or max(sides) < 0)


def first_open(district, border, all_inner, all_outer, x, y, size):
    side = 2**size
    box = (x, x + side, y, y + side)
    inner, outer = [e for e in border if meets(e, box)], [e for e in district if meets(e, box)]
    if not inner and not is_in(all_inner, x, y) or not outer and is_in(all_outer, x, y):
        return None
    if size == 0:
        return x, y
    half = side // 2
    for b in (y, y + half):
        for a in (x, x + half):
            found = first_open(outer, inner, all_inner, all_outer, a, b, size - 1)
            if found:
                return found
    return None


def line_of(district, border):
    inner, outer = [edges_of(p) for p in border], [edges_of(p) for p in district]
    found = first_open(sum(outer, []), sum(inner, []), inner, outer, *ROOT)
    held = is_held(district, border)
    if held != (found is None):
        sys.exit(f'the two slower ways differ: {district} {border}')
    return 'holds\n' if held else f'not shown cell {found[0]} {found[1]} size 0\n'


# ---- pairs

def ring(x0, y0, x1, y1):
    return [(x0, y0), (x1, y0), (x1, y1), (x0, y1), (x0, y0)]


def named_pairs():
    x, y = 44_000_000, 17_000_000
    whole, inside = ring(x, y, x + 100_000, y + 100_000), ring(x + 10, y + 10, x + 99_990, y + 99_990)
    hole = [whole, ring(x + 40_000, y + 40_000, x + 60_000, y + 60_000)]

    def tip(east):
        return [(x + 10, y + 10), (x + east, y + 50_000), (x + 10, y + 99_990), (x + 10, y + 10)]

    def crossed(east):
        return [(x + 10, y + 10), (x + east, y + 99_990), (x + east, y + 10), (x + 10, y + 99_990), (x + 10, y + 10)]

    return [
        ('equal borders', [[whole]], [[whole]]),
        ('ten microdegrees inside on all sides', [[whole]], [[inside]]),
        ('outside by a microdegree at a vertex', [[whole]], [[tip(100_001)]]),
        ('touching at a vertex', [[whole]], [[tip(100_000)]]),
        ('an island outside', [[whole]], [[inside], [ring(x + 200_000, y, x + 200_010, y + 10)]]),
        ('over a hole of the district', [hole], [[inside]]),
        ('with a hole round that hole', [hole], [[inside, ring(x + 39_990, y + 39_990, x + 60_010, y + 60_010)]]),
        ('crossing itself inside', [[whole]], [[crossed(99_990)]]),
        ('crossing itself outside', [[whole]], [[crossed(100_010)]]),
        ('a place', [[whole]], [[[(x + 5, y + 5)] * 4]]),
    ]


def random_ring(pick, low, high, most):
    corners = [(10 * pick.randint(low, high), 10 * pick.randint(low, high)) for _ in range(pick.randint(3, most))]
    return [*corners, corners[0]]


def random_pair(pick):
    """A district of a few large rings, and a border of small ones, on a grid of ten microdegrees."""
    district = [[random_ring(pick, -12, 12, 6)] for _ in range(pick.randint(1, 2))]
    if pick.random() < 0.7:
        district[0][0] = ring(-120, -120, 120, 120)
    if pick.random() < 0.4:
        low, size = pick.randint(-8, 4), pick.randint(1, 3)
        district[0].append(ring(10 * low, 10 * low, 10 * (low + size), 10 * (low + size)))
    reach = pick.choice((3, 6, 11, 12))
    border = [[random_ring(pick, -reach, reach, 5) for _ in range(pick.randint(1, 2))] for _ in range(pick.randint(1, 2))]
    return district, border


# ---- the program

def degrees(micro):
    return f'{"-" if micro < 0 else ""}{abs(micro) // 10**6}.{abs(micro) % 10**6:06}'


def geometry(polygons):
    rings = ','.join('[' + ','.join('[' + ','.join(f'[{degrees(a)},{degrees(b)}]' for a, b in r) + ']' for r in p) + ']' for p in polygons)
    return f'{{"type":"MultiPolygon","coordinates":[{rings}]}}'


def answer(program, district, border):
    order = json.dumps(ORDER)[:-1] + f',"district":{geometry(district)}}}'
    text = f'{{"order":{order},"border":{geometry(border)}}}'
    ended = subprocess.run([program], input=text.encode(), capture_output=True, check=False)
    said = (ended.stdout + ended.stderr).decode()
    return said if ended.returncode == (0 if said == 'holds\n' else 1) else f'status {ended.returncode}: {said}'


def main():
    top = os.path.dirname(os.path.dirname(os.path.realpath(__file__)))
    program = sys.argv[1] if len(sys.argv) > 1 else os.path.join(top, 'timetable-border')
    count = int(sys.argv[2]) if len(sys.argv) > 2 else 300
    pick = random.Random(1)
    pairs = named_pairs() + [(f'random pair {i}', *random_pair(pick)) for i in range(count)]
    different, held = 0, 0
    for name, district, border in pairs:
        wanted, said = line_of(district, border), answer(program, district, border)
        held += wanted == 'holds\n'
        if said != wanted:
            different += 1
            print(f'{name}: {said.strip()}, not {wanted.strip()}: {geometry(district)} {geometry(border)}')
    print(f'{len(pairs)} pairs, {held} held, {different} different')
    return 1 if different else 0


if __name__ == '__main__':
    sys.exit(main())
