"""Intervals and their operations, in three arithmetics.

An interval is a pair (lo, hi).

  Grid()       the grid form: ends are whole numbers that count 2^-56; depth 12
  Exact(n)     the exact form at depth n: ends are Fractions
  High(n, b)   the exact form with every end rounded outward to multiples of 2^-b
               (an outer enclosure of Exact(n); for sanity checks only)

An angle range is a pair in angle units: whole numbers on the grid, Fractions otherwise.
"""
from fractions import Fraction
from math import isqrt

BITS = 56
ONE = 1 << BITS


def ceil_div(a, b):
    return -((-a) // b)


def ceil_sqrt(n):
    return 0 if n <= 0 else isqrt(n - 1) + 1


class Fixed:
    """Ends are whole numbers that count 2^-bits, rounded outward."""

    def __init__(self, bits, depth):
        self.bits = bits
        self.depth = depth
        self.one = 1 << bits

    def number(self, k):
        return (k << self.bits, k << self.bits)

    def add(self, a, b):
        return (a[0] + b[0], a[1] + b[1])

    def sub(self, a, b):
        return (a[0] - b[1], a[1] - b[0])

    def neg(self, a):
        return (-a[1], -a[0])

    def mul(self, a, b):
        p = (a[0] * b[0], a[0] * b[1], a[1] * b[0], a[1] * b[1])
        return (min(p) >> self.bits, -((-max(p)) >> self.bits))

    def div(self, a, n):
        return (a[0] // n, ceil_div(a[1], n))

    def hull(self, a, b):
        return (min(a[0], b[0]), max(a[1], b[1]))

    def mag(self, a):
        if a[0] >= 0:
            return a
        if a[1] <= 0:
            return (-a[1], -a[0])
        return (0, max(-a[0], a[1]))

    def greatest(self, a):
        return max(abs(a[0]), abs(a[1]))

    def signed_square(self, a):
        return ((a[0] * abs(a[0])) >> self.bits, -((-(a[1] * abs(a[1]))) >> self.bits))

    def root(self, a):
        """To multiples of 2^(-8 depth); the grid's own root rounds to the grid."""
        lo, hi = max(a[0], 0), max(a[1], 0)
        down = 8 * self.depth
        # lo / 2^bits, root scaled by 2^down
        l = isqrt((lo << (2 * down)) >> self.bits)
        h = ceil_sqrt(-((-(hi << (2 * down))) >> self.bits))
        shift = self.bits - down
        assert shift >= 0
        return (l << shift, h << shift)

    def scale(self, a, units):
        """An interval times a whole number of angle units: an angle range."""
        return (Fraction(a[0] * units, self.one), Fraction(a[1] * units, self.one))

    def ratio(self, a, low, high, n):
        """times_ratio: the interval times the range low..high, over n."""
        p = (a[0] * low, a[0] * high, a[1] * low, a[1] * high)
        lo, hi = Fraction(min(p)) / n, Fraction(max(p)) / n
        return (lo.numerator // lo.denominator, ceil_div(hi.numerator, hi.denominator))

    def from_fractions(self, lo, hi):
        l, h = lo * self.one, hi * self.one
        return (l.numerator // l.denominator, ceil_div(h.numerator, h.denominator))

    def round_angle(self, lo, hi):
        """How the ends of a Meeus coefficient are kept (outward to whole units on the grid)."""
        return (lo, hi)

    def fractions(self, a):
        return (Fraction(a[0], self.one), Fraction(a[1], self.one))


class High(Fixed):
    def __init__(self, depth, bits=700):
        super().__init__(bits, depth)


class Grid(Fixed):
    def __init__(self):
        super().__init__(BITS, 12)

    def root(self, a):
        return (isqrt(max(a[0], 0) << BITS), ceil_sqrt(max(a[1], 0) << BITS))

    def scale(self, a, units):
        return ((a[0] * units) >> BITS, -((-(a[1] * units)) >> BITS))

    def ratio(self, a, low, high, n):
        p = (a[0] * low, a[0] * high, a[1] * low, a[1] * high)
        return (min(p) // n, ceil_div(max(p), n))

    def round_angle(self, lo, hi):
        return (lo.numerator // lo.denominator, ceil_div(hi.numerator, hi.denominator))


class Exact:
    def __init__(self, depth):
        self.depth = depth

    def number(self, k):
        return (Fraction(k), Fraction(k))

    def add(self, a, b):
        return (a[0] + b[0], a[1] + b[1])

    def sub(self, a, b):
        return (a[0] - b[1], a[1] - b[0])

    def neg(self, a):
        return (-a[1], -a[0])

    def mul(self, a, b):
        p = (a[0] * b[0], a[0] * b[1], a[1] * b[0], a[1] * b[1])
        return (min(p), max(p))

    def div(self, a, n):
        return (a[0] / n, a[1] / n)

    def hull(self, a, b):
        return (min(a[0], b[0]), max(a[1], b[1]))

    def mag(self, a):
        if a[0] >= 0:
            return a
        if a[1] <= 0:
            return (-a[1], -a[0])
        return (Fraction(0), max(-a[0], a[1]))

    def greatest(self, a):
        return max(abs(a[0]), abs(a[1]))

    def signed_square(self, a):
        return (a[0] * abs(a[0]), a[1] * abs(a[1]))

    def root(self, a):
        lo, hi = max(a[0], Fraction(0)), max(a[1], Fraction(0))
        down = 8 * self.depth
        l = isqrt((lo.numerator << (2 * down)) // lo.denominator)
        h = ceil_sqrt(ceil_div(hi.numerator << (2 * down), hi.denominator))
        return (Fraction(l, 1 << down), Fraction(h, 1 << down))

    def scale(self, a, units):
        return (a[0] * units, a[1] * units)

    def ratio(self, a, low, high, n):
        p = (a[0] * low, a[0] * high, a[1] * low, a[1] * high)
        return (min(p) / n, max(p) / n)

    def from_fractions(self, lo, hi):
        return (lo, hi)

    def round_angle(self, lo, hi):
        return (lo, hi)

    def fractions(self, a):
        return a


GRID = Grid()
