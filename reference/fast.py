"""The grid arithmetic again, written for speed, with memories of what was computed.

Same answers as intervals.GRID; the formulas stand in sun.py and values.py
alone. A FastGrid is a Grid, so all formulas take it."""
import series
import sun as sun_module
import values
from intervals import BITS, Grid
from series import HALF_TURN, pieces

PI_LOW, PI_HIGH = series.pi(Grid())
ONE = 1 << BITS
SINE_DIVISORS = [(2 * j + 2) * (2 * j + 3) for j in range(12)]
COSINE_DIVISORS = [(2 * j + 1) * (2 * j + 2) for j in range(12)]


def mul(a, b):
    a0, a1 = a
    b0, b1 = b
    if a0 >= 0:
        if b0 >= 0:
            return ((a0 * b0) >> 56, -((-a1 * b1) >> 56))
        if b1 <= 0:
            return ((a1 * b0) >> 56, -((-a0 * b1) >> 56))
        return ((a1 * b0) >> 56, -((-a1 * b1) >> 56))
    if a1 <= 0:
        if b0 >= 0:
            return ((a0 * b1) >> 56, -((-a1 * b0) >> 56))
        if b1 <= 0:
            return ((a1 * b1) >> 56, -((-a0 * b0) >> 56))
        return ((a0 * b1) >> 56, -((-a0 * b0) >> 56))
    if b0 >= 0:
        return ((a0 * b1) >> 56, -((-a1 * b1) >> 56))
    if b1 <= 0:
        return ((a1 * b0) >> 56, -((-a0 * b0) >> 56))
    return (min(a0 * b1, a1 * b0) >> 56, -((-max(a0 * b0, a1 * b1)) >> 56))


def both_series(x, y):
    """The sine series and the cosine series of a piece."""
    t = x
    lo = hi = 0
    for d in SINE_DIVISORS:
        lo += t[0]
        hi += t[1]
        p = mul(t, y)
        t = (p[1] and -(p[1]) // d, -(p[0] // d))
    more = 2 * max(-t[0], t[1])
    sine = (lo - more, hi + more)
    t = (ONE, ONE)
    lo = hi = 0
    for d in COSINE_DIVISORS:
        lo += t[0]
        hi += t[1]
        p = mul(t, y)
        t = (-p[1] // d, -(p[0] // d))
    more = 2 * max(-t[0], t[1])
    return sine, (lo - more, hi + more)


def piece_radians(lo, hi):
    return ((PI_LOW if lo >= 0 else PI_HIGH) * lo // HALF_TURN,
            -(-(PI_HIGH if hi >= 0 else PI_LOW) * hi // HALF_TURN))


def sine_and_cosine(angle):
    sine = cosine = None
    for c, piece in pieces(*angle):
        x = piece_radians(*piece)
        s, k = both_series(x, mul(x, x))
        if c == 1:
            s, k = k, (-s[1], -s[0])
        elif c == 2:
            s, k = (-s[1], -s[0]), (-k[1], -k[0])
        elif c == 3:
            s, k = (-k[1], -k[0]), s
        if sine is None:
            sine, cosine = s, k
        else:
            sine = (min(sine[0], s[0]), max(sine[1], s[1]))
            cosine = (min(cosine[0], k[0]), max(cosine[1], k[1]))
    return sine, cosine


class FastGrid(Grid):
    LIMIT = 400_000

    def __init__(self):
        super().__init__()
        self.angles = {}
        self.suns = {}

    def mul(self, a, b):
        return mul(a, b)

    def sine_and_cosine(self, angle):
        found = self.angles.get(angle)
        if found is None:
            if len(self.angles) > self.LIMIT:
                self.angles.clear()
            found = self.angles[angle] = sine_and_cosine(angle)
        return found

    def sun(self, minutes, choice):
        key = (minutes, choice)
        found = self.suns.get(key)
        if found is None:
            if len(self.suns) > self.LIMIT:
                self.suns.clear()
            found = self.suns[key] = sun_module.sun(self, minutes, choice)
        return found


FAST = FastGrid()


def grid_value(minutes, box, kind, choice='usno'):
    """The value's grid enclosure over the box and the minutes, with the sun of choice."""
    return values.value(FAST, FAST.sun(minutes, choice), minutes, box, kind)
