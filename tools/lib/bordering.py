"""Places along a border, and the one that decides a minute. At one latitude a condition's minute moves with the longitude, so
the deciding place lies on the border."""
from dataclasses import dataclass
from math import ceil

import geojson
import sky

SPACING = 50_000


@dataclass
class Problem:
    """One column of one day."""
    first: int
    last: int
    what: object
    side: int
    shift: int
    base: int
    is_end: bool
    sun: str

    def holds(self, minute, place):
        """The condition at a minute of the day's clock, without the shift, at a place in microdegrees."""
        return self.side * sky.value(self.what, self.base + minute, place[0] / 1e6, place[1] / 1e6, self.sun) > 0

    def crossing(self, place):
        """The moment at which the condition changes at a place, or None where it doesn't within the frame."""
        low, high = float(self.first), float(self.last)
        begins = self.holds(high, place)
        if self.holds(low, place) == begins:
            return None
        for _ in range(40):
            middle = (low + high) / 2
            low, high = (low, middle) if self.holds(middle, place) == begins else (middle, high)
        return (low + high) / 2


def problems(order, day):
    """The problems of a day, by column."""
    rows = sky.problems(order.method, order.asr, order.height, order.interval(day), order.noon(day))
    return {column: Problem(*row, order.base(day), column in ('f.end', 'm.end'), order.sun) for column, row in rows.items()}


def places(polygons):
    """All positions, and places on the edges between them, each at most SPACING microdegrees from the next."""
    found = []
    for ring in (ring for polygon in polygons for ring in polygon):
        for (ax, ay), (bx, by) in zip(ring, ring[1:]):
            count = max(1, ceil(max(abs(bx - ax), abs(by - ay)) / SPACING))
            found += [(ax + (bx - ax) * i / count, ay + (by - ay) * i / count) for i in range(count)]
    return list(dict.fromkeys(found))


def deciding(problem, minute, tried):
    """Of the places tried at which the condition fails one minute before a beginning, or after an end: the last to change.

    None where it fails at none of them."""
    beyond = minute + 1 if problem.is_end else minute - 1
    failing = [place for place in tried if not problem.holds(beyond, place)]
    changes = [(problem.crossing(place), place) for place in failing]
    known = [pair for pair in changes if pair[0] is not None]
    if not known:
        return None
    return (min if problem.is_end else max)(known)[1]


def text(place):
    return f'longitude {geojson.degrees(round(place[0]))} latitude {geojson.degrees(round(place[1]))}'
