"""Compares the calendars that a program writes and reads with those of a reference, byte for byte.

    python3 compare/calendars.py COUNT [PROGRAM [REFERENCE [SEED]]]

PROGRAM and REFERENCE are commands, each one argument; else they are ./timetable and reference/timetable.py. They are run
with the word `ical` on COUNT right orders of few days and small districts, and with `agenda` on what was written and on a
calendar as others write it, changed seven times at random: folds and tabs anywhere, bare CR and LF, quotes, colons, components
inside each other up to nine, lower case, lines that are missing, doubled or in another order, moments that are none. Compared
are the output, the error stream and the status. It prints what differs, and exits with 1 if anything did. The numbers of each
status are printed last, to show what was met.
"""
import collections
import sys

from answers import answer, words_given
from orders import right_order, text_of

MOMENTS = ['20250301T011300Z', '18990101T000000Z', '21011231T235900Z', '18981231T235900Z', '21020101T000000Z', '20250229T120000Z',
           '20240229T120000Z', '20250301T240000Z', '20250301T236000Z', '20250301T011301Z', '20250301T011300', '20250301',
           '20250301t011300z', ' 20250301T011300Z']
NAMES = ['VEVENT', 'VALARM', 'VTIMEZONE', 'STANDARD', 'VTODO', 'vevent', 'X-OTHER', 'VCALENDAR']
OTHERS = ['DTSTAMP:20250101T000000Z', 'X-A;B="c:d;e":f', 'ATTENDEE;CN="A: B":mailto:a@b', 'DESCRIPTION:a\\, b\\; c\\n d', 'X;A="b:c',
          'ORGANIZER;CN=A:B:C', 'Location:Mosque', 'X-:', '-:1', 'X Y:1', ':1', 'X', '', ';A:1', 'CATEGORIES:\u00fc']


def event(draw):
    """An event, or nearly: its properties in any order."""
    lines = ['UID:%d@example' % draw.randrange(1000), 'DTSTART:' + draw.choice(MOMENTS), 'SUMMARY:' + draw.choice(['fajr', 'a b', '', 'BEGIN:VEVENT'])]
    lines += draw.sample(OTHERS[:5], draw.randrange(4))
    draw.shuffle(lines)
    if draw.random() < 0.3:
        lines.insert(draw.randrange(len(lines) + 1), '\n'.join(component(draw, draw.randrange(3))))
    name = draw.choice(['VEVENT', 'VEVENT', 'VEVENT', 'vEvent'])
    return ['BEGIN:' + name] + '\n'.join(lines).split('\n') + ['END:' + name]


def component(draw, depth):
    name = draw.choice(NAMES)
    inner = component(draw, depth - 1) if depth else draw.sample(['UID:1', 'DTSTART:' + MOMENTS[0], 'SUMMARY:x'] + OTHERS[:5], 2)
    return ['BEGIN:' + name] + inner + ['END:' + name]


def calendar(draw):
    """A calendar as others write it."""
    lines = ['BEGIN:VCALENDAR', 'VERSION:2.0', 'PRODID:-//x//y//EN']
    for _ in range(draw.randrange(5)):
        lines += event(draw) if draw.random() < 0.7 else component(draw, draw.choice([0, 1, 2, 6, 7, 8]))
    return [line.encode() for line in lines + ['END:VCALENDAR']]


def folded(draw, line):
    """The line, folded at random places."""
    for _ in range(draw.choice([0, 0, 0, 1, 1, 3])):
        at = draw.randrange(len(line) + 1)
        line = line[:at] + b'\r\n' + draw.choice([b' ', b'\t']) + line[at:]
    return line


def changed(draw, lines):
    """The text of the lines with some change, or none."""
    lines = list(lines)
    for _ in range(draw.randrange(3)):
        place = draw.randrange(len(lines))
        kind = draw.randrange(9)
        if kind == 0:
            del lines[place]
        elif kind == 1:
            lines.insert(place, lines[place])
        elif kind == 2:
            other = draw.randrange(len(lines))
            lines[place], lines[other] = lines[other], lines[place]
        elif kind == 3:
            lines.insert(place, draw.choice(OTHERS).encode())
        elif kind == 4:
            at = draw.randrange(len(lines[place]) + 1)
            lines[place] = lines[place][:at] + draw.choice([b'\r', b'\n', b'"', b':', b';', b'\x00', b'\xff', b' ', b'\n\r']) + lines[place][at:]
        elif kind == 5:
            lines[place] = lines[place].lower()
        elif kind == 6:
            lines[place] = lines[place].replace(b':', b';LANGUAGE=en;X="a:b":', 1)
        elif kind == 7:
            lines[place] = draw.choice([b' ', b'\t']) + lines[place]
        lines = lines or [b'']
    text = b'\r\n'.join(folded(draw, line) for line in lines)
    end = draw.choice([b'\r\n', b'\r\n', b'\r\n', b'', b'\n', b'\r\n\r\n', b'\r\n '])
    if draw.random() < 0.03:
        return (text + end).replace(b'\r\n', b'\n')
    return text[:draw.randrange(len(text) + 1)] if draw.random() < 0.05 else text + end


def main():
    count, program, reference, draw = words_given(__doc__)
    statuses, different = collections.Counter(), 0

    def compare(what, found, wanted):
        nonlocal different
        statuses[wanted[0]] += 1
        if found != wanted:
            different += 1
            print('different: %s\n  %r\n  %r' % (what, found, wanted))

    for _ in range(count):
        order = text_of(draw, right_order(draw, True), False, False).encode()
        words = ['ical', '--workers', str(draw.randrange(1, 5))]
        status, written, _ = found = answer(program, words, order)
        compare('ical %r' % order, found, answer(reference, ['ical'], order))
        lines = calendar(draw)
        for text in [written] + [changed(draw, lines) for _ in range(6)] + [changed(draw, written.split(b'\r\n')[:-1] or [b''])]:
            compare('agenda %r' % text, answer(program, ['agenda'], text), answer(reference, ['agenda'], text))
    print('%d orders, statuses %s: %d different' % (count, dict(sorted(statuses.items())), different))
    sys.exit(different > 0)


if __name__ == '__main__':
    main()
