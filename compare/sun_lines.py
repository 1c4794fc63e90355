"""Compares random lines of `sun`, as a program prints them, with those of a reference, byte for byte.

    python3 compare/sun_lines.py COUNT [PROGRAM [REFERENCE [SEED]]]

PROGRAM and REFERENCE are commands, each one argument; else they are ./timetable and reference/timetable.py. They are run
with the words of `sun`, four in ten with the last word `meeus`. Compared are the output, the error stream and the status. The limits of each word are among them,
and spellings with and without a point. It prints what differs, and exits with 1 if anything did.
"""
import sys

from answers import answer, words_given

MINUTES = ['0', '-1', '53200000', '-53200000']
LONGITUDES = ['0', '-0', '360', '-360', '360.000000', '0.000001', '-0.000001', '007.5']
LATITUDES = ['0', '-0.0', '65', '-65', '65.000000', '-64.999999', '05']
CONDITIONS = ['meridian', 'asr1', 'asr2']
ANGLES = ['0', '0.0', '30', '30.000000', '29.999999', '0.000001', '18', '00.5']


def decimal(draw, low, high):
    """A decimal between two whole limits, with none to six places."""
    places = draw.randint(0, 6)
    value = draw.randint(low * 10 ** places, high * 10 ** places)
    whole, part = divmod(abs(value), 10 ** places)
    return '-' * (value < 0) + str(whole) + ('.%0*d' % (places, part) if places else '')


def words(draw):
    """The words of one line; one word in four is a limit."""
    def choose(limits, other):
        return draw.choice(limits) if draw.random() < 0.25 else other

    return [
        'sun',
        choose(MINUTES, str(draw.randint(-53_200_000, 53_200_000))),
        choose(LONGITUDES, decimal(draw, -360, 360)),
        choose(LATITUDES, decimal(draw, -65, 65)),
        draw.choice(CONDITIONS) if draw.random() < 0.5 else choose(ANGLES, decimal(draw, 0, 30)),
    ] + ['meeus'] * (draw.random() < 0.4)


def main():
    count, program, reference, draw = words_given(__doc__)
    different = 0
    for _ in range(count):
        line = words(draw)
        found, wanted = answer(program, line), answer(reference, line)
        if found != wanted:
            different += 1
            print(' '.join(line), found, wanted, sep='\n  ')
    print('%d lines, %d different' % (count, different))
    sys.exit(1 if different else 0)


if __name__ == '__main__':
    main()
