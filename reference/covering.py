"""The lines of a covering (form 1: letters, form 2: runs of letters), and their checker."""
import json_exact
from cells import Cell, children, entry_of, within
from json_exact import JsonFault, Table


def runs_of(letters):
    """n where n is above 1, and the letter, for each maximal run."""
    out, i = [], 0
    while i < len(letters):
        j = i
        while j < len(letters) and letters[j] == letters[i]:
            j += 1
        out.append((str(j - i) if j - i > 1 else '') + letters[i])
        i = j
    return ''.join(out)


def cover_line(column, day, settled, form):
    point, refuted = [], []
    if settled.refuted:
        c, p = settled.refuted
        point, refuted = ['"%d"' % n for n in p], ['%d' % n for n in c]
    last = '"tree":"%s"' % settled.letters if form == 1 else '"runs":"%s"' % runs_of(settled.letters)
    return ('{"column":"%s","day":"%s","point":[%s],"r":%d,"refuted":[%s],%s}\n' % (
        column, day, ','.join(point), settled.r, ','.join(refuted), last)).encode()


class CoverFault(Exception):
    """1 NotLine, 2 Column, 3 Letter(place), 4 Short, 5 Long, 6 NotShown(place), 7 NotFailing."""

    def __init__(self, number, place=None):
        self.number = number
        self.place = place


# ---- reading a line, as serde_json reads it

class Float:
    """A number for which as_i64 gives nothing."""


class LineReader(json_exact.Reader):
    """serde_json: 127 levels, no byte order mark, numbers of any length. A number whose nearest
    double is infinite is refused. -0 and whole numbers past 64 bits are floats."""

    def __init__(self, data):
        super().__init__(data, depth=127, longest=None, mark=False)

    def make_number(self, text):
        if text.lstrip('-').isdigit() and text != '-0':
            n = _int(text)
            if n is not None and -2 ** 63 <= n < 2 ** 64:
                return n if n < 2 ** 63 else Float()
        if float(text) in (float('inf'), float('-inf')):
            self.bad()
        return Float()


def _int(text):
    return int(text) if len(text) <= 25 else None


class Line:
    pass


def is_decimal(text):
    """Decimal without a leading zero, without -0."""
    digits = text[1:] if text[:1] == b'-' else text
    return (digits.isdigit() and all(48 <= c <= 57 for c in digits)
            and (digits == text == b'0' or digits[:1] != b'0'))


def read_line(data):
    """The members of a line, or NotLine."""
    try:
        value = LineReader(data).text()
    except JsonFault:
        raise CoverFault(1)
    if not isinstance(value, Table):
        raise CoverFault(1)
    members = dict(value)  # the last value of a name stays
    line = Line()
    line.form = 2 if b'runs' in members else 1
    names = [b'column', b'day', b'point', b'r', b'refuted', b'runs' if line.form == 2 else b'tree']
    if any(n not in members for n in names):
        raise CoverFault(1)
    line.column, line.day, point, r, refuted, line.letters = (members[n] for n in names)

    def need(condition):
        if not condition:
            raise CoverFault(1)

    def is_list(v):
        return isinstance(v, list) and not isinstance(v, Table)

    def is_number(v):
        return isinstance(v, int) and not isinstance(v, bool)

    need(isinstance(line.column, bytes) and isinstance(line.day, bytes) and isinstance(line.letters, bytes))
    need(is_number(r) and -1 <= r <= 720)
    need(is_list(point) and is_list(refuted))
    line.r = r
    if r == -1:
        need(point == [] and refuted == [])
        return line
    need(len(point) == 3 and all(isinstance(t, bytes) and is_decimal(t) for t in point))
    need(all(len(t) <= 30 for t in point))
    a, b, d = map(int, point)
    need(1 <= d <= 2 ** 30 and abs(a) <= 2 ** 70 and abs(b) <= 2 ** 70)
    need(len(refuted) == 5 and all(is_number(n) for n in refuted))
    x, y, size, first, last = refuted
    need(0 <= size < 2 ** 8 and 0 <= first < 2 ** 32 and 0 <= last < 2 ** 32)
    line.point, line.cell = (a, b, d), Cell(x, y, size, first, last)
    return line


# ---- the letters

class Tree:
    """The letters of form 1: next() gives (letter, place)."""

    def __init__(self, text):
        self.text = text
        self.at = 0

    def next(self):
        if self.at == len(self.text):
            raise CoverFault(4)
        letter = chr(self.text[self.at])
        if letter not in 'kxpos':
            raise CoverFault(3, self.at)
        self.at += 1
        return letter, self.at - 1

    def left_over(self):
        return self.at < len(self.text)


class Runs(Tree):
    """The letters of form 2."""

    def __init__(self, text):
        super().__init__(text)
        self.more = 0

    def next(self):
        if self.more == 0:
            digits = b''
            while self.at < len(self.text) and 48 <= self.text[self.at] <= 57:
                if len(digits) == 9 or (not digits and self.text[self.at] == 48):
                    raise CoverFault(3, self.at)
                digits += self.text[self.at:self.at + 1]
                self.at += 1
            self.letter = super().next()
            self.more = int(digits or b'1')
        self.more -= 1
        return self.letter

    def left_over(self):
        return self.more > 0 or super().left_over()


LETTER = {'outside': 'x', 'proved': 'p', 'open': 'o', 'split': 's', 'refuted': None}


def check_line(judge, k, column, day, data):
    """The entry of an accepted line, or CoverFault."""
    line = read_line(data)
    if line.column != column.encode() or line.day != day.encode():
        raise CoverFault(2)
    letters = (Runs if line.form == 2 else Tree)(line.letters)
    opens = []
    stack = [judge.root]
    while stack:
        c = stack.pop()
        letter, place = letters.next()
        if c.last <= line.r:
            if letter != 'k':
                raise CoverFault(6, place)
            continue
        if letter == 'k' or LETTER[judge.judge(k, c)[0]] != letter:
            raise CoverFault(6, place)
        if letter == 's':
            stack.extend(reversed(children(c)))
        if letter == 'o':
            opens.append(c)
    if letters.left_over():
        raise CoverFault(5)
    if line.r >= 0:
        c = line.cell
        if not within(c, judge.root) or c.last != line.r or judge.judge(k, c) != ('refuted', line.point):
            raise CoverFault(7)
    return entry_of(line.r, opens)
