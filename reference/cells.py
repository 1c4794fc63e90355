"""Cells, the split rule, judges, the search and the entry of a tree.

A cell is (x, y, size, first, last). A verdict is ('outside',), ('proved',), ('refuted', point),
('split',) or ('open', point). An entry is ('minute', rank), ('whole',), ('never',) or
('open', safe, from, cell). A judge has count, root and judge(problem, cell)."""
from collections import namedtuple

import fast
from problems import minutes_of
from region import Finder
from values import holds_above

Cell = namedtuple('Cell', 'x y size first last')
OUTSIDE, PROVED, SPLIT = ('outside',), ('proved',), ('split',)


def root_at(west, south):
    return Cell(128 * west, 128 * south, 29, 0, 720)


def is_smallest(c):
    return c.size == 4 and c.first == c.last


def children(c):
    n = c.last - c.first + 1
    if n > 1 and n << 25 > 1 << c.size:
        middle = c.first + n // 2
        return [c._replace(first=middle), c._replace(last=middle - 1)]
    if c.size > 4:
        h = 1 << (c.size - 1)
        return [Cell(c.x + dx, c.y + dy, c.size - 1, c.first, c.last)
                for dx, dy in ((0, 0), (h, 0), (0, h), (h, h))]
    if n > 1:
        raise AssertionError('a cell of size 4 with several ranks is divided by rule 1')
    return []


def within(c, root):
    """Whether the cell is well formed in the root."""
    return (4 <= c.size <= 29 and 0 <= c.first <= c.last <= 720
            and root.x <= c.x and c.x + (1 << c.size) <= root.x + (1 << root.size)
            and root.y <= c.y and c.y + (1 << c.size) <= root.y + (1 << root.size))


class Sky:
    """A district and a list of problems.  choice: 'usno' or 'meeus'."""

    def __init__(self, district, problems, choice='usno', root=None, finder=None):
        self.district = district
        self.problems = problems
        self.choice = choice
        self.root = root or root_at(district.west, district.south)
        self.finder = finder or Finder(district)
        self.count = len(problems)
        self.evaluated = 0

    def named(self, c):
        dx, dy = c.x - self.root.x, c.y - self.root.y
        h = 1 << c.size
        above = None
        if c.size < 29 and dx % h == 0 and dy % h == 0:
            above = (self.root.x + dx // (2 * h) * (2 * h), self.root.y + dy // (2 * h) * (2 * h),
                     c.size + 1)
        return self.finder.named(c.x, c.y, c.size, above)

    def value(self, k, c):
        p = self.problems[k]
        h = 1 << c.size
        self.evaluated += 1
        return fast.grid_value(minutes_of(p, c.first, c.last), (c.x, c.x + h, c.y, c.y + h), p.kind,
                               self.choice)

    def judge(self, k, c):
        point = self.named(c)
        if point is None:
            return OUTSIDE
        lo, hi = self.value(k, c)
        if not holds_above(self.problems[k].kind):
            lo, hi = -hi, -lo
        if lo > 0:
            return PROVED
        if hi < 0:
            return ('refuted', point)
        return ('open', point) if is_smallest(c) else SPLIT


class Harvest:
    """What a search of one problem found: r, the leaves with last rank above r in tree order, and
    the first Refuted leaf with last rank r. visited: how many cells were judged."""

    def __init__(self, r, leaves, refuted, visited, known):
        self.r = r
        self.leaves = leaves
        self.refuted = refuted
        self.visited = visited
        self.known = known


def search(judge, k):
    """Depth first in tree order, leaving out cells whose last rank is at most a refuted rank."""
    r, refuted, leaves, known = -1, None, [], {}
    stack = [judge.root]
    while stack:
        c = stack.pop()
        if c.last <= r:
            continue
        verdict = known[c] = judge.judge(k, c)
        if verdict[0] == 'split':
            stack.extend(reversed(children(c)))
            continue
        leaves.append((c, verdict))
        if verdict[0] == 'refuted':
            r, refuted = c.last, (c, verdict[1])
    return Harvest(r, [leaf for leaf in leaves if leaf[0].last > r], refuted, len(known), known)


def entry_of(r, opens):
    """The entry from r and the Open cells (in tree order, with any rank)."""
    opens = [c for c in opens if c.last > r]
    if not opens:
        return ('whole',) if r == -1 else ('never',) if r == 720 else ('minute', r + 1)
    u = max(c.last for c in opens)
    return ('open', u + 1, r + 1, next(c for c in opens if c.last == u))


class Settled:
    def __init__(self, entry, r, letters, refuted):
        self.entry, self.r, self.letters, self.refuted = entry, r, letters, refuted


def letters_of(judge, k, harvest):
    """The letters of a covering: the tree in tree order, cut at each cell whose last rank is at most r."""
    out = []
    stack = [judge.root]
    names = {'outside': 'x', 'proved': 'p', 'open': 'o', 'split': 's'}
    while stack:
        c = stack.pop()
        if c.last <= harvest.r:
            out.append('k')
            continue
        verdict = harvest.known.get(c) or judge.judge(k, c)
        out.append(names[verdict[0]])
        if verdict[0] == 'split':
            stack.extend(reversed(children(c)))
    return ''.join(out)


def settle(judge, k, with_letters=True):
    h = search(judge, k)
    entry = entry_of(h.r, [c for c, v in h.leaves if v[0] == 'open'])
    letters = letters_of(judge, k, h) if with_letters else ''
    return Settled(entry, h.r, letters, h.refuted)
