"""The three values over a range of minutes and a box of places.

A box is (x0, x1, y0, y1) in place units. Products are taken from left to right, sums as written."""
from series import sine, sine_and_cosine

PLACE = 1125  # angle units of one place unit


class Terms:
    """What the values share: sines and cosines of the latitude and of theta."""

    def __init__(self, ops, sun, minutes, box):
        self.ops = ops
        self.sin_l, self.cos_l, self.sin_e, self.cos_e, q = sun
        x0, x1, y0, y1 = box
        theta = (36_000_000_000 * minutes[0] + PLACE * x0 + q[0],
                 36_000_000_000 * minutes[1] + PLACE * x1 + q[1])
        self.theta = theta
        self.sin_t, self.cos_t = sine_and_cosine(ops, theta)
        self.sin_p, self.cos_p = sine_and_cosine(ops, (PLACE * y0, PLACE * y1))


def altitude_sine(t):
    o = t.ops
    up = o.mul(o.mul(t.sin_p, t.sin_e), t.sin_l)
    along = o.add(o.mul(t.cos_t, t.cos_l), o.mul(o.mul(t.sin_t, t.cos_e), t.sin_l))
    return o.add(up, o.mul(t.cos_p, along))


def altitude_value(t, angle):
    return t.ops.add(altitude_sine(t), sine(t.ops, angle))


def meridian_value(t):
    o = t.ops
    return o.sub(o.mul(t.sin_t, t.cos_l), o.mul(o.mul(t.cos_t, t.cos_e), t.sin_l))


def asr_value(t, factor):
    o = t.ops
    one = o.number(1)
    s = altitude_sine(t)
    w = o.mul(t.sin_e, t.sin_l)
    cd = o.root(o.sub(one, o.mul(w, w)))
    cz = o.add(o.mul(t.cos_p, cd), o.mul(t.sin_p, w))
    sz = o.sub(o.mul(t.sin_p, cd), o.mul(t.cos_p, w))
    v = o.add(cz if factor == 1 else o.add(cz, cz), o.mag(sz))
    left = o.mul(o.sub(one, o.mul(s, s)), o.mul(cz, cz))
    right = o.mul(o.signed_square(s), o.mul(v, v))
    return o.sub(left, right)


def value(ops, sun, minutes, box, kind):
    """kind: ('above', low, high), ('below', low, high), ('past',) or ('shadow', factor)."""
    t = Terms(ops, sun, minutes, box)
    if kind[0] in ('above', 'below'):
        return altitude_value(t, (kind[1], kind[2]))
    if kind[0] == 'past':
        return meridian_value(t)
    return asr_value(t, kind[1])


def holds_above(kind):
    """The sign that holds: above zero, but for Below."""
    return kind[0] != 'below'
