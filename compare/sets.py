"""Compares the tables of sets of districts that a program writes with those of a reference, byte for byte.

    python3 compare/sets.py COUNT [PROGRAM [REFERENCE [SEED]]]

PROGRAM and REFERENCE are commands, each one argument; else they are ./timetable and reference/timetable.py. They are run with
the word `set` on COUNT sets of 1 to 64 small districts near each other, some of them equal, some one place, some overlapping, the
program with 1, 2 and 16 workers; one set in five is wrong somewhere. Compared are the output, the error stream and the status. It
prints what differs, and exits with 1 if anything did. The numbers of each status are printed last, to show what was met.
"""
import collections
import sys

from answers import answer, words_given
from orders import Table, change_form, change_member, change_positions, polygon, right_order, shape, text_of

WORKERS = ['1', '2', '16']


def feature(draw, polygons):
    """A Feature of a Polygon or a MultiPolygon."""
    while True:
        found = shape(draw, polygons, True)
        if dict(found)['type'] in ('Polygon', 'MultiPolygon'):
            return Table([('type', 'Feature'), ('geometry', found)])


def districts(draw):
    """Of a set the districts, which lie within a degree of each other."""
    west, south = draw.randint(-180_000_000, 179_000_000), draw.randint(-64_000_000, 63_000_000)
    found = []
    for _ in range(draw.choice([1, 2, 2, 3, 5, 9, 64])):
        size = draw.choice([1, 1_000, 100_000])
        place = west + draw.randint(0, 900_000), south + draw.randint(0, 900_000)
        found.append([polygon(draw, *place, size) for _ in range(draw.choice([1, 1, 2]))])
        if draw.random() < 0.2:
            found.append(found[-1])
    return found[:64]


def order(draw):
    """The members of a set's order."""
    members = Table(pair for pair in right_order(draw, True) if pair[0] not in ('district', 'night', 'days'))
    features = [feature(draw, polygons) for polygons in districts(draw)]
    members.append(('days', 1 if len(features) > 9 else draw.choice([1, 1, 2, 10])))
    members.append(('district', Table([('type', 'FeatureCollection'), ('features', features)])))
    if draw.random() < 0.2:
        kind = draw.randrange(4)
        if kind == 0:
            members.append(('night', draw.choice(['half', 'third', 7])))
        elif kind == 1:
            change_member(draw, members)
        else:
            [change_positions, change_form][kind - 2](draw, dict(draw.choice(features))['geometry'])
    draw.shuffle(members)
    return members


def main():
    count, program, reference, draw = words_given(__doc__)
    met, different = collections.Counter(), 0
    for _ in range(count):
        text = text_of(draw, order(draw), False, False).encode()
        wanted = answer(reference, ['set'], text)
        met[wanted[0]] += 1
        for workers in WORKERS:
            found = answer(program, ['set', '--workers', workers], text)
            if found != wanted:
                different += 1
                print('different: %s workers\n  %r\n  %r\n  %r' % (workers, text, found, wanted), flush=True)
    for status, times in sorted(met.items()):
        print('status %d, %d times' % (status, times))
    print('%d sets, %d different' % (count, different))
    sys.exit(different > 0)


if __name__ == '__main__':
    main()
