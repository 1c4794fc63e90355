"""Tables whose minutes are moved for safety against the sky itself: each beginning later, each end earlier."""
import re
from dataclasses import replace

import bordering
import tables
from outcome import Fault

SAFE = re.compile(rf'(?<= safe ){tables.ENTRY}')
SPANS = (('fajr', 'f.end'), ('magh', 'm.end'))


def bound(problems):
    """The last minute that a beginning may take in the frames of all its problems; of an end, the first."""
    if problems[0].is_end:
        return max(problem.first + problem.shift for problem in problems)
    return min(problem.last + problem.shift for problem in problems)


def bounds(orders, date):
    """The bound of each column on a day."""
    parts = [bordering.problems(order, date) for order in orders]
    return {column: bound([part[column] for part in parts]) for column in tables.COLUMNS}


def moved_entry(entry, column, margin, limits):
    """A minute that would pass its bound becomes none, as nothing is known there; what is no minute stays."""
    minute = tables.minute_of(entry)
    if minute is None:
        return entry
    if column in tables.ENDS:
        return tables.entry_of(minute - margin) if minute - margin >= limits[column] else tables.NEVER
    return tables.entry_of(minute + margin) if minute + margin <= limits[column] else tables.NEVER


def moved_line(date, line, margin, limits):
    """The line of an undecided entry, with its safe minute moved."""
    if not line.startswith('open '):
        raise Fault(f'{date}: --margin moves no such line below a day: {line[:40]}')
    column = tables.SPELLED[line.split()[1]]
    return SAFE.sub(lambda found: moved_entry(found[0], column, margin, limits), line)


def moved_day(day, margin, limits):
    entries = [moved_entry(entry, column, margin, limits) for column, entry in zip(tables.COLUMNS, day.entries)]
    return tables.Day(day.date, tuple(entries), [moved_line(day.date, line, margin, limits) for line in day.below])


def moved(table, orders, margin):
    """The table with its minutes moved, within the frames that all its orders have in common."""
    return replace(table, days=[moved_day(day, margin, bounds(orders, day.date)) for day in table.days], margin=margin)


def is_crossed(day, begin, end):
    minutes = day.minute(begin), day.minute(end)
    return None not in minutes and minutes[0] > minutes[1]


def warnings(table, moved_table):
    """What the margin took away: minutes, and spans of prayers."""
    lost = [f'{day.date} {column}' for day, other in zip(table.days, moved_table.days) for column in tables.COLUMNS
            if day.minute(column) is not None and other.minute(column) is None]
    if lost:
        yield f'{len(lost)} minute(s) would leave the twelve hours of their column and became --:--, the first {lost[0]}'
    for begin, end in SPANS:
        crossed = [day.date for day in moved_table.days if is_crossed(day, begin, end)]
        if crossed:
            yield f'{end} is before {begin} on {len(crossed)} day(s), the first {crossed[0]}'
