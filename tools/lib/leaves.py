"""A table as HTML: a year on one sheet, or a month a page."""
import os
from html import escape
from itertools import groupby

import tables

TITLES = ('Fajr', 'ends', 'Dhuhr', 'Asr', 'Maghrib', 'ends', 'Isha')
MONTHS = ('January', 'February', 'March', 'April', 'May', 'June', 'July', 'August', 'September', 'October', 'November',
          'December')
WEEKDAYS = ('Mo', 'Tu', 'We', 'Th', 'Fr', 'Sa', 'Su')
FRIDAY = 4
LEAST_IN_A_ROW = 4
LEAST = ('Each minute is safe at every place of the district: a beginning is the first minute from which it is, an end (in '
         'italics) the last until which it is. ')
FORMULAS = ('This is meant by the formulas of the program, from which the sky itself may lie seconds apart, and in far latitudes '
            'minutes.')
MOVED = ('For safety against the sky itself the minutes of this sheet are moved by {0}: each beginning is printed {0} later, '
         'each end (in italics) {0} earlier. So they are not the first minutes (for an end the last) that are safe. A beginning '
         'that is later within its column\'s twelve hours, and an end that is earlier within them, is still safe at every place '
         'of the district; **:** is not moved. ')
MARKS = ('+HH:MM is on the day after, -HH:MM on the day before. **:** every minute of the column\'s twelve hours is safe. '
         '--:-- even the last of them is not (for an end: the first){}. ??:?? undecided: what is safe is said below.')
OUTSIDE = ', or the moved minute would lie outside them'


def cell(column, entry):
    kind = 'open' if entry == tables.UNDECIDED else 'end' if column in tables.ENDS else ''
    return f'<td class="{kind}">{escape(entry.strip())}</td>' if kind else f'<td>{escape(entry.strip())}</td>'


def row(day, with_weekday):
    weekday = day.date.weekday()
    label = f'{WEEKDAYS[weekday]} {day.date.day}' if with_weekday else str(day.date.day)
    cells = ''.join(cell(column, entry) for column, entry in zip(tables.COLUMNS, day.entries))
    friday = ' class="friday"' if weekday == FRIDAY else ''
    return f'<tr{friday}><td class="day">{label}</td>{cells}</tr>'


def month_table(days, names, with_weekday):
    first = days[0].date
    heads = ''.join(f'<th dir="auto">{escape(name)}</th>' for name in names)
    rows = '\n'.join(row(day, with_weekday) for day in days)
    return (f'<table><caption>{MONTHS[first.month - 1]} {first.year}</caption>\n'
            f'<thead><tr><th class="day"></th>{heads}</tr></thead>\n<tbody>\n{rows}\n</tbody></table>')


def open_text(date, line, margin):
    """A line below a day in a reader's words."""
    word = line.split()
    if word[0] != 'open':
        return f'{date}: {line}'
    column, safe = tables.SPELLED[word[1]], line[line.index(' safe ') + 6:][:6].strip()
    if safe == '--:--':
        return f'{date} {column}: no minute is shown safe'
    rest = 'this minute is moved as all are' if margin else 'the minute next to it is undecided'
    return f'{date} {column}: safe {"until" if column in tables.ENDS else "from"} {safe}; {rest}'


def meanings(margin):
    """What minutes and marks mean on a sheet whose minutes are moved by a margin, or by none."""
    if not margin:
        return [LEAST + FORMULAS, MARKS.format('')]
    return [MOVED.format(f'{margin} minute{"s" if margin > 1 else ""}') + FORMULAS, MARKS.format(OUTSIDE)]


def footer(table, days, hashes):
    """What the marks mean, what is undecided, and what the sheet was made of."""
    lines = [escape(text) for text in meanings(table.margin)]
    lines += [escape(open_text(day.date, line, table.margin)) for day in days for line in day.below]
    lines.append(f'Order: <code>{escape(table.head_line)}</code>')
    lines += [f'{escape(label)}, SHA-256: <code>{value}</code>' for label, value in hashes]
    return '<footer>%s</footer>' % ''.join(f'<p>{line}</p>' for line in lines)


def months_of(table):
    return [list(days) for _, days in groupby(table.days, key=lambda day: (day.date.year, day.date.month))]


def page(title, body):
    with open(os.path.join(os.path.dirname(os.path.abspath(__file__)), 'sheet.css'), encoding='utf-8') as file:
        style = file.read()
    return ('<!DOCTYPE html>\n<html lang="en"><head><meta charset="utf-8"><meta name="viewport" content="width=device-width">'
            f'<title>{escape(title)}</title>\n<style>\n{style}</style></head>\n<body>\n{body}\n</body></html>\n')


def year_sheet(table, title, under, names, hashes):
    blocks = [f'<div class="month">{month_table(days, names, False)}</div>' for days in months_of(table)]
    wide = max(LEAST_IN_A_ROW, -(-len(blocks) // 2))
    blocks += ['<div class="month"></div>'] * (-len(blocks) % wide)
    kind = 'row narrow' if wide > 6 else 'row'
    rows = '\n'.join(f'<div class="{kind}">\n%s\n</div>' % '\n'.join(blocks[i:i + wide]) for i in range(0, len(blocks), wide))
    body = (f'<section class="year"><h1 dir="auto">{escape(title)}</h1><p class="under">{escape(under)}</p>\n'
            f'{rows}\n{footer(table, table.days, hashes)}</section>')
    return page(title, body)


def month_sheets(table, title, under, names, hashes):
    sections = [f'<section class="months"><h1 dir="auto">{escape(title)}</h1><p class="under">{escape(under)}</p>\n'
                f'{month_table(days, names, True)}\n{footer(table, days, hashes)}</section>' for days in months_of(table)]
    return page(title, '\n'.join(sections))
