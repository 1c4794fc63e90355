"""The observatory's sun and that of Meeus over a range of minutes (first, last).

The answer is (sin L, cos L, sin e, cos e, q)."""
from fractions import Fraction

from series import sine, sine_and_cosine


def plus(a, b):
    return (a[0] + b[0], a[1] + b[1])


def usno_angles(ops, minutes):
    """L, e and q as angle ranges."""
    first, last = minutes
    g = (51_484_176_000_000 + 98_560_028 * first, 51_484_176_000_000 + 98_560_028 * last)
    q = (40_386_096_000_000 + 98_564_736 * first, 40_386_096_000_000 + 98_564_736 * last)
    e = (3_375_216_000_000 - 36 * last, 3_375_216_000_000 - 36 * first)
    one = ops.scale(sine(ops, g), 275_760_000_000)
    two = ops.scale(sine(ops, (2 * g[0], 2 * g[1])), 2_880_000_000)
    return plus(plus(q, one), two), e, q


def meeus_lines(k):
    """Meeus's first six lines at one minute, as fractions."""
    T = Fraction(k, 52_596_000)
    return {
        'L0': 40_387_170_240_000 + 5_184_110_855_520_000 * T + 43_660_800 * T ** 2,
        'M': 51_484_191_840_000 + 5_183_863_241_760_000 * T - 22_132_800 * T ** 2,
        'node': 18_005_760_000_000 - 278_515_584_000_000 * T,
        'c1': 275_702_688_000 - 693_648_000 * T - 2_016_000 * T ** 2,
        'c2': 2_878_992_000 - 14_544_000 * T,
        'e0': 3_375_257_920_000 - 1_872_600_000 * T - 23_600 * T ** 2 + 72_520 * T ** 3,
    }


def meeus_coefficients(ops, minutes):
    """The ranges between the values at the ends: L0 and M rise, the others fall."""
    a, b = meeus_lines(minutes[0]), meeus_lines(minutes[1])
    out = {}
    for name in a:
        lo, hi = (a[name], b[name]) if name in ('L0', 'M') else (b[name], a[name])
        out[name] = ops.round_angle(lo, hi)
    return out


def range_times(ops, coefficient, interval):
    """A coefficient range times an interval: the hull of scale at the range's two ends."""
    return ops.hull(ops.scale(interval, coefficient[0]), ops.scale(interval, coefficient[1]))


def meeus_angles(ops, minutes):
    v = meeus_coefficients(ops, minutes)
    m = v['M']
    sin_node, cos_node = sine_and_cosine(ops, v['node'])
    L = plus(v['L0'], range_times(ops, v['c1'], sine(ops, m)))
    L = plus(L, range_times(ops, v['c2'], sine(ops, (2 * m[0], 2 * m[1]))))
    L = plus(L, ops.scale(sine(ops, (3 * m[0], 3 * m[1])), 41_616_000))
    L = (L[0] - 819_360_000, L[1] - 819_360_000)
    n = ops.scale(sin_node, 688_320_000)
    L = (L[0] - n[1], L[1] - n[0])
    e = plus(v['e0'], ops.scale(cos_node, 368_640_000))
    q = (v['L0'][0] - 823_435_200, v['L0'][1] - 823_435_200)
    return L, e, q


def sun(ops, minutes, choice='usno'):
    L, e, q = (meeus_angles if choice == 'meeus' else usno_angles)(ops, minutes)
    sin_l, cos_l = sine_and_cosine(ops, L)
    sin_e, cos_e = sine_and_cosine(ops, e)
    return sin_l, cos_l, sin_e, cos_e, q
