"""Compares the coverings that a program writes and checks with those of a reference, byte for byte.

    python3 compare/coverings.py COUNT [PROGRAM [REFERENCE [SEED]]]

PROGRAM and REFERENCE are commands, each one argument; else they are ./timetable and reference/timetable.py. They are run
with the word `cover`, in both forms, on COUNT right orders of few days and small districts, and with `check` on what was written:
it must show the order's table. Each covering is then changed ten times at random, in a letter, a number, a line, a run's count or
the spelling of its JSON, and checked again by both. Compared are the output, the error stream and the status. It prints what
differs, and exits with 1 if anything did. The numbers of each status are printed last, to show what was met.
"""
import collections
import json
import re
import sys

from answers import answer, words_given
from orders import right_order, text_of


def with_line(lines, place, line):
    return lines[:place] + [line] + lines[place + 1:]


def change_letters(draw, line):
    """A byte of the letters goes, stands twice or is another."""
    found = re.search(rb'"(?:tree|runs)":"([^"]*)"', line)
    if not found:
        return line + b'}'
    letters = found.group(1)
    at = draw.randrange(len(letters) + 1)
    new = draw.choice([b'', letters[at:at + 1] * 2, draw.choice([b'k', b'x', b'p', b'o', b's', b'q', b'0', b'7', b'12', b'1234567890'])])
    return line[:found.start(1)] + letters[:at] + new + letters[at + 1:] + line[found.end(1):]


def change_number(draw, line):
    numbers = list(re.finditer(rb'-?\d+', line))
    found = draw.choice(numbers)
    new = draw.choice([b'0', b'-1', b'1', b'720', b'721', b'007', b'1.0', b'9' * 30, str(int(found.group()) + draw.choice([-1, 1])).encode()])
    return line[:found.start()] + new + line[found.end():]


def respell(draw, line):
    """The same object, otherwise spelled; or nearly."""
    try:
        pairs = list(json.loads(line).items())
    except ValueError:
        return line
    draw.shuffle(pairs)
    if draw.random() < 0.5:
        pairs.append(draw.choice([('more', [1.5, None]), ('tree', 'q'), ('runs', 'p'), pairs[0]]))
    body = ','.join('%s : %s' % (json.dumps(name), json.dumps(value)) for name, value in pairs)
    return ('{ %s }' % body).encode()


def changed(draw, covering):
    lines = covering.split(b'\n')
    place = draw.randrange(1, len(lines) - 1)
    kind = draw.randrange(9)
    if kind < 3:
        lines = with_line(lines, place, change_letters(draw, lines[place]))
    elif kind == 3:
        lines = with_line(lines, place, change_number(draw, lines[place]))
    elif kind == 4:
        lines = with_line(lines, place, respell(draw, lines[place]))
    elif kind == 5:
        del lines[draw.randrange(len(lines))]
    elif kind == 6:
        lines.insert(place, draw.choice([lines[place], b'', b'{}', b'\xff']))
    elif kind == 7:
        other = draw.randrange(len(lines) - 1)
        lines[place], lines[other] = lines[other], lines[place]
    else:
        return draw.choice([b'\r\n', b'\n\n', b'', b'\n ']).join(lines) if draw.random() < 0.5 else covering[:draw.randrange(len(covering))]
    return b'\n'.join(lines)


def main():
    count, program, reference, draw = words_given(__doc__)
    statuses, different = collections.Counter(), 0

    def compare(what, found, wanted):
        nonlocal different
        statuses[wanted[0]] += 1
        if found != wanted:
            different += 1
            print('different: %s\n  %r\n  %r' % (what, found, wanted))

    for _ in range(count):
        order = text_of(draw, right_order(draw, True), False, False).encode()
        table = answer(program, ['plain'], order)
        for form in '12':
            words = ['cover', '--form', form]
            status, covering, _ = found = answer(program, words, order)
            compare('cover %s %r' % (form, order), found, answer(reference, words, order))
            compare('check %s %r' % (form, order), answer(program, ['check'], covering), table)
            for _ in range(5):
                text = changed(draw, covering)
                compare('check %r' % text, answer(program, ['check'], text), answer(reference, ['check'], text))
    print('%d orders, statuses %s: %d different' % (count, dict(sorted(statuses.items())), different))
    sys.exit(different > 0)


if __name__ == '__main__':
    main()
