"""Exact questions about polygons in the plane, by whole numbers alone.

A polygon is a list of closed rings of whole positions. A place is in it by the even-odd rule of docs/formulas.md, and a
place on an edge is in it. A place is (a, b, d): the longitude a/d and the latitude b/d, d above 0."""
from collections import defaultdict


def edges_of(polygon):
    return [(*a, *b) for ring in polygon for a, b in zip(ring, ring[1:])]


def turn(ax, ay, bx, by, cx, cy):
    """Above 0 where c lies left of the line from a to b, 0 where on it."""
    return (bx - ax) * (cy - ay) - (by - ay) * (cx - ax)


def is_between(ax, ay, bx, by, cx, cy):
    return min(ax, bx) <= cx <= max(ax, bx) and min(ay, by) <= cy <= max(ay, by)


def edges_meet(first, second):
    """Whether two closed edges have a place in common."""
    ax, ay, bx, by = first
    cx, cy, dx, dy = second
    c, d = turn(ax, ay, bx, by, cx, cy), turn(ax, ay, bx, by, dx, dy)
    a, b = turn(cx, cy, dx, dy, ax, ay), turn(cx, cy, dx, dy, bx, by)
    if ((c > 0 > d) or (d > 0 > c)) and ((a > 0 > b) or (b > 0 > a)):
        return True
    return ((c == 0 and is_between(ax, ay, bx, by, cx, cy)) or (d == 0 and is_between(ax, ay, bx, by, dx, dy))
            or (a == 0 and is_between(cx, cy, dx, dy, ax, ay)) or (b == 0 and is_between(cx, cy, dx, dy, bx, by)))


class Strips:
    """Edges by the strips of latitude that they touch, so that few are asked."""

    def __init__(self, edges, height):
        self.height = height
        self.strips = defaultdict(list)
        for edge in edges:
            for strip in self.of(edge[1], edge[3]):
                self.strips[strip].append(edge)

    def of(self, one, other):
        return range(min(one, other) // self.height, max(one, other) // self.height + 1)

    def near(self, edge):
        """The edges whose strips an edge touches and whose longitudes reach its own."""
        west, east = min(edge[0], edge[2]), max(edge[0], edge[2])
        for strip in self.of(edge[1], edge[3]):
            for other in self.strips.get(strip, ()):
                if min(other[0], other[2]) <= east and max(other[0], other[2]) >= west:
                    yield other

    def meet(self, edge):
        """An edge that meets the given one, or None."""
        return next((other for other in self.near(edge) if edges_meet(edge, other)), None)

    def hold(self, place):
        """Whether a place is in the polygon of these edges."""
        a, b, d = place
        odd = False
        for ax, ay, bx, by in self.strips.get(b // d // self.height, ()):
            side = turn(ax * d, ay * d, bx * d, by * d, a, b)
            if side == 0 and is_between(ax * d, ay * d, bx * d, by * d, a, b):
                return True
            if (ay * d > b) != (by * d > b) and (side > 0) == (by > ay):
                odd = not odd
        return odd


class Region:
    """The places of some polygons: those that are in any of them."""

    def __init__(self, polygons):
        self.polygons = polygons
        self.edges = [edge for polygon in polygons for edge in edges_of(polygon)]
        latitudes = [y for edge in self.edges for y in (edge[1], edge[3])]
        height = max(1, (max(latitudes) - min(latitudes)) // max(1, len(self.edges) // 2))
        self.all = Strips(self.edges, height)
        self.each = [Strips(edges_of(polygon), height) for polygon in polygons]

    def holds(self, place):
        return any(strips.hold(place) for strips in self.each)


def crossing(edge, box):
    """A place of an edge in a box, or None: an end of it, or where it passes a side."""
    ax, ay, bx, by = edge
    west, south, east, north = box
    for x, y in ((ax, ay), (bx, by)):
        if west <= x <= east and south <= y <= north:
            return (x, y, 1)
    for side in (west, east):
        if min(ax, bx) < side < max(ax, bx):
            d = abs(bx - ax)
            b = ay * d + (by - ay) * abs(side - ax)
            if south * d <= b <= north * d:
                return (side * d, b, d)
    for side in (south, north):
        if min(ay, by) < side < max(ay, by):
            d = abs(by - ay)
            a = ax * d + (bx - ax) * abs(side - ay)
            if west * d <= a <= east * d:
                return (a, side * d, d)
    return None


def lost_place(real, new, box):
    """None where every place of the region `real` in a box lies in the region `new`; else a place near which that is not shown.

    Three things are asked. No edge of `new` that reaches into the box meets an edge of `real`, nor begins in `real`: so the
    border of `new` has no place of `real` in the box, and each connected part of `real` in the box lies wholly in `new` or
    wholly outside it. Every edge of `real` that reaches into the box has a place there that is in `new`, and so has every
    corner of the box that is in `real`: so each of those parts has a place in `new`."""
    for edge in new.edges:
        if crossing(edge, box) is not None and (real.all.meet(edge) or real.holds((edge[0], edge[1], 1))):
            return edge[:2]
    for edge in real.edges:
        place = crossing(edge, box)
        if place is not None and not new.holds(place):
            return (place[0] // place[2], place[1] // place[2])
    west, south, east, north = box
    for x, y in ((west, south), (east, south), (east, north), (west, north)):
        if real.holds((x, y, 1)) and not new.holds((x, y, 1)):
            return (x, y)
    return None
