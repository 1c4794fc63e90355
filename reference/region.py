"""Districts of polygons; contains; the point that meets names. Exact, in whole numbers.

A district is a list of polygons, each a list of rings, each a list of (longitude, latitude) in whole
microdegrees. A point is (a, b, d): the place a/d, b/d in place units (128 to a microdegree). A box is
(x0, x1, y0, y1), closed, in place units."""

MOST_POSITIONS = 4096
EXTENT = 4_194_304


class RegionFault(Exception):
    """1 Short(ring), 2 Open(ring), 3 TooMany, 4 TooWide, 5 TooFar, 6 NoPolygon."""

    def __init__(self, number, ring=None):
        self.number = number
        self.ring = ring


def refuse_region(polygons):
    """Raises the first refusal of District::new, if there is one."""
    if not polygons or any(not polygon for polygon in polygons):
        raise RegionFault(6)
    rings = [ring for polygon in polygons for ring in polygon]
    if sum(map(len, rings)) > MOST_POSITIONS:
        raise RegionFault(3)
    for i, ring in enumerate(rings):
        if len(ring) < 4:
            raise RegionFault(1, i)
        if ring[0] != ring[-1]:
            raise RegionFault(2, i)
    xs = [x for ring in rings for x, _ in ring]
    ys = [y for ring in rings for _, y in ring]
    if max(map(abs, ys)) > 65_000_000 or max(map(abs, xs)) > 360_000_000:
        raise RegionFault(5)
    if max(xs) - min(xs) > EXTENT or max(ys) - min(ys) > EXTENT:
        raise RegionFault(4)


class District:
    def __init__(self, polygons):
        refuse_region(polygons)
        self.polygons = [[[tuple(p) for p in ring] for ring in polygon] for polygon in polygons]
        rings = [ring for polygon in self.polygons for ring in polygon]
        self.positions = sum(map(len, rings))
        self.west = min(x for ring in rings for x, _ in ring)
        self.east = max(x for ring in rings for x, _ in ring)
        self.south = min(y for ring in rings for _, y in ring)
        # (xa, ya, xb, yb, polygon) in place units, in the order of polygons, rings and positions
        self.edges = []
        for n, polygon in enumerate(self.polygons):
            for ring in polygon:
                for (xa, ya), (xb, yb) in zip(ring, ring[1:]):
                    self.edges.append((128 * xa, 128 * ya, 128 * xb, 128 * yb, n))

    def contains(self, point):
        a, b, d = point
        odd = set()
        for xa, ya, xb, yb, n in self.edges:
            # all compared times d
            cross = (xb - xa) * (b - ya * d) - (yb - ya) * (a - xa * d)
            if (cross == 0 and min(xa, xb) * d <= a <= max(xa, xb) * d
                    and min(ya, yb) * d <= b <= max(ya, yb) * d):
                return True
            if (ya * d > b) != (yb * d > b):
                # the crossing lies to the east of the point: cross has the sign of (yb - ya)
                if (cross > 0) == (yb > ya) and cross != 0:
                    odd ^= {n}
        return bool(odd)

    def meets(self, box):
        return self.named(box, self.edges)[0]

    def named(self, box, edges):
        """The named point of the box, or None, and the edges among those given
        whose own boxes meet the box. The edges given must include all of those."""
        x0, x1, y0, y1 = box
        near = [e for e in edges
                if min(e[0], e[2]) <= x1 and max(e[0], e[2]) >= x0
                and min(e[1], e[3]) <= y1 and max(e[1], e[3]) >= y0]
        for e in near:
            point = edge_point(e, box)
            if point is not None:
                return point, near
        corner = (x0, y0, 1)
        return (corner if self.contains(corner) else None), near


def edge_point(edge, box):
    """The point that one edge names: its first end, or where it passes a side."""
    xa, ya, xb, yb, _ = edge
    x0, x1, y0, y1 = box
    if x0 <= xa <= x1 and y0 <= ya <= y1:
        return (xa, ya, 1)
    if xa != xb:
        d, s = abs(xb - xa), (1 if xb > xa else -1)
        for X in (x0, x1):
            if min(xa, xb) <= X <= max(xa, xb):
                b = ya * d + s * (X - xa) * (yb - ya)
                if y0 * d <= b <= y1 * d:
                    return (X * d, b, d)
    if ya != yb:
        d, s = abs(yb - ya), (1 if yb > ya else -1)
        for Y in (y0, y1):
            if min(ya, yb) <= Y <= max(ya, yb):
                a = xa * d + s * (Y - ya) * (xb - xa)
                if x0 * d <= a <= x1 * d:
                    return (a, Y * d, d)
    return None


class Finder:
    """named(box) for cells of one root, remembered, with the edges handed down from cell to cell."""

    LIMIT = 1_000_000

    def __init__(self, district):
        self.district = district
        self.found = {}

    def named(self, x, y, size, above=None):
        """above: the cell (x, y, size) that this one was quartered from, if it is known."""
        key = (x, y, size)
        known = self.found.get(key)
        if known is None:
            h = 1 << size
            box = (x, x + h, y, y + h)
            upper = self.found.get(above)
            if len(self.found) > self.LIMIT:
                self.found.clear()
            if upper is None:
                known = self.district.named(box, self.district.edges)
            elif not upper[1]:
                # no edge near the greater box: it lies wholly inside or outside
                known = ((x, y, 1) if upper[0] else None), []
            else:
                known = self.district.named(box, upper[1])
            self.found[key] = known
        return known[0]
