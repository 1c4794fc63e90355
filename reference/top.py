"""The top call: run(words, source, out, err), over sources and sinks."""
import re

import cells
import covering
import fast
import ical
import night
import orders
import sets
import texts
from dates import date_text
from demo import demo_order
from orders import OrderFault
from problems import COLUMNS, minute_of, night_problems, noon_of, problems
from region import Finder
from series import DEGREE

DONE, OPEN, USAGE, ORDER_REFUSED, READ_FAULT, WRITE_FAULT, NO_MEMORY, COVER_REFUSED, ICAL_REFUSED = range(9)

MOST_ORDER = 16_777_216
MOST_COVERING = 1_073_741_824

USAGE_LINE = ('usage: timetable table [--workers W] | cover [--workers W] [--form F] | demo [--number M]'
              ' [--workers W] | plain | check | order | sun MINUTE LON LAT WHAT [meeus] | set [--workers W]'
              ' | ical [--workers W] | agenda')


class Stop(Exception):
    """A status from 2 on, with the line on err."""

    def __init__(self, status, line):
        self.status = status
        self.line = line


def read_whole(source, limit):
    data = []
    size = 0
    while True:
        got = source.read(65_536)
        if got is None:
            raise Stop(READ_FAULT, 'read fault')
        if got == b'':
            return b''.join(data), False
        data.append(got)
        size += len(got)
        if size > limit:
            return None, True


def write_all(out, data):
    view = memoryview(data)
    while view:
        took = out.write(bytes(view))
        if took is None:
            raise Stop(WRITE_FAULT, 'write fault')
        view = view[took:]


# ---- words

def usage():
    return Stop(USAGE, USAGE_LINE)


def counting_word(word, low, high):
    """A whole number without sign or leading zero, or None."""
    if not re.fullmatch(r'0|[1-9][0-9]*', word, re.ASCII) or len(word) > 20:
        return None
    return int(word) if low <= int(word) <= high else None


def options_of(words, names):
    """clap on a simple command whose long options each take one text: the texts, or None."""
    found = {}
    words = list(words)
    while words:
        word = words.pop(0)
        if word == '--':
            return None if words else found
        if not word.startswith('--'):
            return None
        name, equals, value = word[2:].partition('=')
        if name not in names or name in found:
            return None
        if not equals:
            if not words or (words[0].startswith('-') and words[0] != '-'):
                return None
            value = words.pop(0)
        found[name] = value
    return found


# ---- sun

def micro_word(word, most, signed=True):
    m = re.fullmatch(r'(-?)([0-9]{1,3})(?:\.([0-9]{1,6}))?', word, re.ASCII)
    if not m or (m.group(1) and not signed):
        return None
    n = int(m.group(2)) * 1_000_000 + int((m.group(3) or '').ljust(6, '0'))
    if n > most:
        return None
    return -n if m.group(1) else n


def micro_text(n):
    return '%s%d.%06d' % ('-' if n < 0 else '', abs(n) // 1_000_000, abs(n) % 1_000_000)


def sun_words(words):
    choice = 'usno'
    if len(words) == 5 and words[4] == 'meeus':
        choice, words = 'meeus', words[:4]
    if len(words) != 4 or not re.fullmatch(r'0|-?[1-9][0-9]*', words[0], re.ASCII):
        return None
    if len(words[0]) > 12 or abs(int(words[0])) > 53_200_000:
        return None
    lon, lat = micro_word(words[1], 360_000_000), micro_word(words[2], 65_000_000)
    if lon is None or lat is None:
        return None
    if words[3] in ('meridian', 'asr1', 'asr2'):
        what = words[3]
    else:
        what = micro_word(words[3], 30_000_000, signed=False)
        if what is None:
            return None
    return int(words[0]), lon, lat, what, choice


def sun_line(minute, lon, lat, what, choice):
    if what == 'meridian':
        kind, text = ('past',), what
    elif what in ('asr1', 'asr2'):
        kind, text = ('shadow', int(what[3])), 'asr ' + what[3]
    else:
        angle = what * (DEGREE // 1_000_000)
        kind, text = ('above', angle, angle), 'angle ' + micro_text(what)
    x, y = 128 * lon, 128 * lat
    lo, hi = fast.grid_value((minute, minute), (x, x, y, y), kind, choice)
    verdict = 0 if lo > 0 else 1 if hi < 0 else 2
    word = (('above', 'below') if kind[0] == 'above' else ('after', 'before'))[verdict] \
        if verdict < 2 else 'open'
    line = 'minute %d lon %s lat %s %s%s %s\n' % (
        minute, micro_text(lon), micro_text(lat), text, ' meeus' if choice == 'meeus' else '', word)
    return line, OPEN if verdict == 2 else DONE


# ---- days of an order

class Day:
    """The judges of one day of an order: the seven columns, and the night's two."""

    def __init__(self, order, i, district=None, finder=None, root=None):
        self.order = order
        self.day = order.from_day + i
        self.text = date_text(self.day)
        offset = order.offsets[i]
        whole = order.district
        noon = noon_of(whole.west, whole.east, offset)
        self.problems = problems(order.method, order.asr, self.day, offset, noon, order.height,
                                 order.interval(self.day))
        district = district or whole
        self.sky = cells.Sky(district, self.problems, order.sun, root, finder)
        self.night_problems = night_problems(self.day, offset, noon, order.height)
        self.night_sky = cells.Sky(district, self.night_problems, order.sun, root, self.sky.finder)

    def lines(self):
        """The judge, problem number and word of each line of a covering."""
        out = [(self.sky, k, COLUMNS[k]) for k in range(7)]
        if self.order.night:
            out += [(self.night_sky, 0, 'rise'), (self.night_sky, 1, 'set')]
        return out

    def table(self, entries):
        """The day's text from the entries of lines()."""
        text = texts.day_text(self.day, self.problems, entries[:7])
        if self.order.night:
            minutes = night.night_minutes(self.order.night, self.order.method, self.problems, entries[:7],
                                          self.night_problems, entries[7:])
            text += night.night_line(*minutes)
        return text


def undecided(entries):
    return sum(e[0] == 'open' for e in entries)


def days_of(order):
    finder = Finder(order.district)
    for i in range(order.days):
        yield Day(order, i, finder=finder)


def entries_of(day):
    return [cells.settle(judge, k, False).entry for judge, k, _ in day.lines()]


def table(order, write):
    write(texts.table_head(order))
    count = 0
    for day in days_of(order):
        entries = entries_of(day)
        count += undecided(entries[:7])
        write(day.table(entries))
    write(texts.end_line(order.days, count))
    return OPEN if count else DONE


def cover(order, form, write):
    write(orders.order_line(order))
    count = 0
    for day in days_of(order):
        text = []
        for n, (judge, k, word) in enumerate(day.lines()):
            settled = cells.settle(judge, k)
            count += n < 7 and settled.entry[0] == 'open'
            text.append(covering.cover_line(word, day.text, settled, form))
        write(b''.join(text))
    return OPEN if count else DONE


def check(data, write):
    end = data.find(b'\n')
    first, rest = (data, None) if end < 0 else (data[:end], data[end + 1:])
    try:
        order = orders.read_order_line(first)
    except OrderFault as f:
        raise Stop(COVER_REFUSED, 'cover refused line 1 order ' + f.detail)
    at = len(data) if end < 0 else end + 1
    write(texts.table_head(order))
    count, number = 0, 1
    for day in days_of(order):
        entries = []
        for judge, k, word in day.lines():
            number += 1
            stop = data.find(b'\n', at)
            line, at = (data[at:], len(data)) if stop < 0 else (data[at:stop], stop + 1)
            try:
                entries.append(covering.check_line(judge, k, word, day.text, line))
            except covering.CoverFault as f:
                raise Stop(COVER_REFUSED, 'cover refused line %d fault %d' % (number, f.number)
                           + ('' if f.place is None else ' at %d' % f.place))
        count += undecided(entries[:7])
        write(day.table(entries))
    if at < len(data):
        raise Stop(COVER_REFUSED, 'cover refused line %d fault 1' % (number + 1))
    write(texts.end_line(order.days, count))
    return OPEN if count else DONE


def demo(number, write):
    order = demo_order(number)
    kinds = {'minute': 0, 'whole': 0, 'never': 0, 'open': 0}
    total = 0
    for day in days_of(order):
        for p, e in zip(day.problems, entries_of(day)):
            kinds[e[0]] += 1
            if e[0] == 'minute':
                total += minute_of(p, e[1]) + p.shift
    write('demo %d positions %d days %d minutes %d whole %d never %d open %d sum %d\n' % (
        number, order.district.positions, order.days, kinds['minute'], kinds['whole'], kinds['never'],
        kinds['open'], total))
    return OPEN if kinds['open'] else DONE


def district_set(order, parts, write):
    write('prayer set 1\n' + texts.head_line(order) + 'districts %d\n' % len(parts) + texts.names_line())
    count = 0
    root = cells.root_at(order.district.west, order.district.south)
    finders = [Finder(part) for part in parts]
    for i in range(order.days):
        lines, all_entries = [], []
        for n, (part, finder) in enumerate(zip(parts, finders)):
            day = Day(order, i, part, finder, root)
            entries = [cells.settle(day.sky, k, False).entry for k in range(7)]
            all_entries.append(entries)
            count += undecided(entries)
            lines.append('district %d\n' % n + texts.day_text(day.day, day.problems, entries))
        joined = [sets.join_entries(list(column)) for column in zip(*all_entries)]
        lines.append('whole\n' + texts.day_text(day.day, day.problems, joined))
        write(''.join(lines))
    write('end days %d districts %d open %d\n' % (order.days, len(parts), count))
    return OPEN if count else DONE


def calendar(order, write):
    write(ical.HEAD)
    count = 0
    zone = orders.zone_text(order)
    for day in days_of(order):
        entries = [cells.settle(day.sky, k, False).entry for k in range(7)]
        count += undecided(entries)
        write(b''.join(ical.event_text(day.day, p, e[1], order.from_day, order.district.west,
                                       order.district.south, order.method, order.asr, zone)
                       for p, e in zip(day.problems, entries) if e[0] == 'minute'))
    write(ical.END)
    return OPEN if count else DONE


# ---- the commands

def read_order(source, reader):
    data, long = read_whole(source, MOST_ORDER)
    if long:
        raise Stop(ORDER_REFUSED, 'order refused 8 long')
    try:
        return reader(data)
    except OrderFault as f:
        raise Stop(ORDER_REFUSED, 'order refused ' + f.detail)


def answer(words, source, out):
    command, rest = (words[0], words[1:]) if words else ('', [])

    def write(text):
        if text:
            write_all(out, text.encode() if isinstance(text, str) else text)

    def order():
        return read_order(source, orders.read_order)

    allowed = {'table': ['workers'], 'cover': ['workers', 'form'], 'demo': ['number', 'workers'],
               'set': ['workers'], 'ical': ['workers']}
    if command in allowed:
        options = options_of(rest, allowed[command])
        if options is None:
            raise usage()
        workers = counting_word(options.get('workers', '4'), 1, 16)
        number = counting_word(options.get('number', '1'), 0, 4_294_967_295)
        form = counting_word(options.get('form', '2'), 1, 2)
        if None in (workers, number, form):
            raise usage()
        if command == 'table':
            return table(order(), write)
        if command == 'cover':
            return cover(order(), form, write)
        if command == 'set':
            return district_set(*read_order(source, orders.read_set), write)
        if command == 'ical':
            return calendar(order(), write)
        return demo(number, write)
    if command == 'sun':
        found = sun_words(rest)
        if found is None:
            raise usage()
        line, status = sun_line(*found)
        write(line)
        return status
    if rest or command not in ['order', 'plain', 'check', 'agenda']:
        raise usage()
    if command == 'order':
        write(orders.order_line(order()))
        return DONE
    if command == 'plain':
        return table(order(), write)
    if command == 'check':
        data, long = read_whole(source, MOST_COVERING)
        if long:
            raise Stop(COVER_REFUSED, 'cover refused long')
        return check(data, write)
    data, long = read_whole(source, MOST_ORDER)
    if long:
        raise Stop(ICAL_REFUSED, 'ical refused long')
    try:
        events = ical.read_ical(data)
    except ical.IcalFault as f:
        raise Stop(ICAL_REFUSED, 'ical refused line %d fault %d' % (f.line, f.number))
    write(ical.agenda_text(events))
    return DONE


def run(words, source, out, err):
    try:
        return answer(words, source, out)
    except Stop as s:
        try:
            write_all(err, (s.line + '\n').encode())
        except Stop:
            pass
        return s.status
