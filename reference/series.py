"""Pi, and sine and cosine of an angle range, over any arithmetic of intervals.py."""
from fractions import Fraction
from functools import lru_cache

DEGREE = 144_000_000_000
SEAM = 45 * DEGREE
QUARTER = 90 * DEGREE
HALF_TURN = 180 * DEGREE  # 25,920,000,000,000


def arctan_sum(x, terms):
    total = Fraction(0)
    for j in range(terms):
        total += Fraction((-1) ** j, 2 * j + 1) * x ** (2 * j + 1)
    return total


@lru_cache(None)
def pi_fractions(n):
    fifth, small = Fraction(1, 5), Fraction(1, 239)
    low = 16 * arctan_sum(fifth, 2 * n) - 4 * arctan_sum(small, 2 * n + 1)
    high = 16 * arctan_sum(fifth, 2 * n + 1) - 4 * arctan_sum(small, 2 * n)
    return low, high


def pi(ops):
    """The grid's pi is the exact one at depth 12, rounded outward once."""
    return ops.from_fractions(*pi_fractions(ops.depth))


def sine_series(ops, x, y):
    t = x
    total = None
    for j in range(ops.depth):
        total = t if total is None else ops.add(total, t)
        t = ops.neg(ops.div(ops.mul(t, y), (2 * j + 2) * (2 * j + 3)))
    more = 2 * ops.greatest(t)
    return (total[0] - more, total[1] + more)


def cosine_series(ops, y):
    t = ops.number(1)
    total = None
    for j in range(ops.depth):
        total = t if total is None else ops.add(total, t)
        t = ops.neg(ops.div(ops.mul(t, y), (2 * j + 1) * (2 * j + 2)))
    more = 2 * ops.greatest(t)
    return (total[0] - more, total[1] + more)


def pieces(lo, hi):
    """The pairs (c modulo 4, piece): the parts of the range, turned by whole quarters."""
    first = -((SEAM - lo) // QUARTER)  # ceil((lo - 45) / 90)
    last = (hi + SEAM) // QUARTER
    for c in range(first, last + 1):
        middle = c * QUARTER
        yield c % 4, (max(lo, middle - SEAM) - middle, min(hi, middle + SEAM) - middle)


def sine_and_cosine(ops, angle):
    """Both; each is the hull over all pieces."""
    if hasattr(ops, 'sine_and_cosine'):  # fast.FastGrid: the same answers, remembered
        return ops.sine_and_cosine(angle)
    sine = cosine = None
    for c, piece in pieces(*angle):
        x = ops.ratio(pi(ops), piece[0], piece[1], HALF_TURN)
        y = ops.mul(x, x)
        s, k = sine_series(ops, x, y), cosine_series(ops, y)
        s, k = ((s, k), (k, ops.neg(s)), (ops.neg(s), ops.neg(k)), (ops.neg(k), s))[c]
        sine = s if sine is None else ops.hull(sine, s)
        cosine = k if cosine is None else ops.hull(cosine, k)
    return sine, cosine


def sine(ops, angle):
    return sine_and_cosine(ops, angle)[0]


def cosine(ops, angle):
    return sine_and_cosine(ops, angle)[1]
