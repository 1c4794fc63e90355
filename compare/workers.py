"""Compares what a program's workers answer with what one thread and a reference answer, byte for byte.

    python3 compare/workers.py COUNT [PROGRAM [REFERENCE [SEED]]]

PROGRAM and REFERENCE are commands, each one argument; else they are ./timetable and reference/timetable.py. They are run
with the word `table`, the program with 1, 2, 3, 4 and 16 workers and with the word `plain` beside it, on COUNT right orders of few
days and small districts; and with `demo`, 1 and 4 workers, on an eighth as many numbers. Compared are the output, the error
stream and the status. It prints what differs, and exits with 1 if anything did.
"""
import sys

from answers import answer, words_given
from orders import right_order, text_of

WORKERS = ['1', '2', '3', '4', '16']


def main():
    count, program, reference, draw = words_given(__doc__)
    different = 0

    def compare(what, found, wanted):
        nonlocal different
        if found != wanted:
            different += 1
            print('different: %s\n  %r\n  %r' % (what, found, wanted))

    for _ in range(count):
        order = text_of(draw, right_order(draw, True), False, False).encode()
        wanted = answer(reference, ['plain'], order)
        compare('plain %r' % order, answer(program, ['plain'], order), wanted)
        for workers in WORKERS:
            compare('table --workers %s %r' % (workers, order), answer(program, ['table', '--workers', workers], order), wanted)
    for number in [0, 4_294_967_295][:count // 8] + [draw.randrange(2 ** 32) for _ in range(count // 8 - 2)]:
        words = ['demo', '--number', str(number)]
        wanted = answer(reference, words)
        for workers in ['1', '4']:
            compare('demo %d' % number, answer(program, words + ['--workers', workers]), wanted)
    print('%d orders, %d numbers: %d different' % (count, count // 8, different))
    sys.exit(different > 0)


if __name__ == '__main__':
    main()
