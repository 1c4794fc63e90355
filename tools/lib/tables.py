"""Tables as the program writes them, read whole or not at all, and written again."""
import datetime
import re
from dataclasses import dataclass, field

from outcome import Fault, read_text

COLUMNS = ('fajr', 'f.end', 'dhuhr', 'asr', 'magh', 'm.end', 'isha')
ENDS = ('f.end', 'm.end')
SPELLED = dict(zip(('fajr', 'fajr_end', 'dhuhr', 'asr', 'maghrib', 'maghrib_end', 'isha'), COLUMNS))
TITLE = 'prayer timetable 1'
NAMES = 'date      ' + ''.join(name.rjust(7) for name in COLUMNS)
HEAD = re.compile(r'from (?P<from>[0-9]{4}-[0-9]{2}-[0-9]{2}) days (?P<days>[0-9]+) method (?P<method>[a-z]+) '
                  r'asr (?P<asr>[a-z]+) zone (?P<zone>-?[0-9]+|rule) positions (?P<positions>[0-9]+)'
                  r'(?: height (?P<height>[0-9]+))?(?: sun (?P<sun>[a-z]+))?(?: joined (?P<joined>[0-9]+))?')
ENTRY = r'(?:[ +-][0-9]{2}:[0-9]{2}| \*\*:\*\*| --:--| \?\?:\?\?)'
DAY = re.compile(r'([0-9]{4}-[0-9]{2}-[0-9]{2})' + f' ({ENTRY})' * 7)
OPEN = re.compile(rf'open [a-z_]+ safe {ENTRY} from {ENTRY} cell -?[0-9]+ -?[0-9]+ rank [0-9]+')
NIGHT = re.compile(rf'night fajr {ENTRY} isha {ENTRY}')
END = re.compile(r'end days ([0-9]+) open ([0-9]+)')
WHOLE, NEVER, UNDECIDED = ' **:**', ' --:--', ' ??:??'


@dataclass
class Day:
    date: datetime.date
    entries: tuple
    below: list = field(default_factory=list)

    def minute(self, column):
        """The minute of the day's clock of a column's entry, or None where it is none."""
        return minute_of(self.entries[COLUMNS.index(column)])


@dataclass
class Table:
    head: dict
    head_line: str
    days: list
    margin: int = 0


def minute_of(entry):
    if not entry[1].isdigit():
        return None
    return 60 * int(entry[1:3]) + int(entry[4:]) + {' ': 0, '+': 1440, '-': -1440}[entry[0]]


def entry_of(minute):
    mark = '-' if minute < 0 else ' ' if minute < 1440 else '+'
    return '%s%02d:%02d' % (mark, minute % 1440 // 60, minute % 60)


def read(path):
    """A table, refused where a line of it is missing or is none of a table."""
    text = read_text(path)
    lines = text.split('\n')
    if lines[0] != TITLE:
        raise Fault(f'{path}: line 1 is not "{TITLE}": no table')
    if lines.pop() != '' or len(lines) < 4 or not END.fullmatch(lines[-1]):
        raise Fault(f'{path}: its end line is missing: the table was cut off')
    head = HEAD.fullmatch(lines[1])
    if head is None or lines[2] != NAMES:
        raise Fault(f'{path}: lines 2 and 3 are not those of a table')
    table = Table(head.groupdict(), lines[1], days_of(lines[3:-1], path))
    stop_on_wrong_end(table, END.fullmatch(lines[-1]), path)
    return table


def days_of(lines, path):
    days = []
    for number, line in enumerate(lines, 4):
        found = DAY.fullmatch(line)
        if found:
            days.append(Day(date_of(found[1], path, number), found.groups()[1:]))
        elif days and (OPEN.fullmatch(line) or NIGHT.fullmatch(line)):
            days[-1].below.append(line)
        else:
            raise Fault(f'{path}: line {number} is no line of a table: {line[:60]}')
    return days


def date_of(text, path, number):
    try:
        return datetime.date.fromisoformat(text)
    except ValueError:
        raise Fault(f'{path}: line {number}: {text} is no date')


def stop_on_wrong_end(table, end, path):
    """The end line counts the days and the undecided entries, and the head says which days they are."""
    first = date_of(table.head['from'], path, 2)
    if not int(table.head['days']) == int(end[1]) == len(table.days):
        raise Fault(f'{path}: {len(table.days)} days, and its head says {table.head["days"]}, its end line {end[1]}')
    if any(day.date != first + datetime.timedelta(i) for i, day in enumerate(table.days)):
        raise Fault(f'{path}: its days do not follow one another from {first}')
    undecided = sum(entry == UNDECIDED for day in table.days for entry in day.entries)
    if undecided != int(end[2]):
        raise Fault(f'{path}: {undecided} undecided entries, and its end line says {end[2]}')


def text_of(head_line, days):
    """The text of a table that has no undecided entry."""
    lines = [TITLE, head_line, NAMES]
    for day in days:
        lines.append(day.date.isoformat() + ''.join(f' {entry}' for entry in day.entries))
        lines += day.below
    return '\n'.join(lines + [f'end days {len(days)} open 0', ''])


def stop_on_other_order(table, order, name):
    """An order, by its members as they are spelled, asks for what the table's head says, positions aside."""
    said = {'from': order['from'], 'days': str(order['days']), 'method': order['method'], 'asr': order['asr'],
            'zone': 'rule' if isinstance(order['zone'], str) else str(order['zone']),
            'height': str(order['height']) if order.get('height') else None}
    for key, value in said.items():
        if table.head[key] != value:
            raise Fault(f'{name} has {key} {value}, and the table {table.head[key]}: it is no table of this order')
