"""The lines of a table, as text with LF."""
from dates import date_text
from problems import minute_of

NAMES = ('fajr', 'f.end', 'dhuhr', 'asr', 'magh', 'm.end', 'isha')


def minute_text(m):
    mark = '-' if m < 0 else ' ' if m < 1440 else '+'
    return '%s%02d:%02d' % (mark, m % 1440 // 60, m % 60)


def rank_text(p, rank):
    return ' --:--' if rank == 721 else minute_text(minute_of(p, rank) + p.shift)


def entry_text(p, e):
    if e[0] == 'minute':
        return rank_text(p, e[1])
    return {'whole': ' **:**', 'never': ' --:--', 'open': ' ??:??'}[e[0]]


def head_line(order):
    zone = order.zone if isinstance(order.zone, int) else 'rule'
    line = 'from %s days %d method %s asr %s zone %s positions %d' % (
        date_text(order.from_day), order.days, order.method, order.asr, zone, order.district.positions)
    if order.height:
        line += ' height %d' % order.height
    if order.sun == 'meeus':
        line += ' sun meeus'
    return line + '\n'


def names_line():
    return 'date'.ljust(10) + ''.join(n.rjust(7) for n in NAMES) + '\n'


def table_head(order):
    return 'prayer timetable 1\n' + head_line(order) + names_line()


def day_line(day, problems, entries):
    return date_text(day) + ''.join(' ' + entry_text(p, e) for p, e in zip(problems, entries)) + '\n'


def open_line(p, e):
    _, safe, start, c = e
    return 'open %s safe %s from %s cell %d %d rank %d\n' % (
        p.column, rank_text(p, safe), rank_text(p, start), c.x, c.y, c.first)


def day_text(day, problems, entries):
    return day_line(day, problems, entries) + ''.join(
        open_line(p, e) for p, e in zip(problems, entries) if e[0] == 'open')


def end_line(days, undecided):
    return 'end days %d open %d\n' % (days, undecided)
