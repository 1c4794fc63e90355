"""Zones: a fixed offset (an int, minutes) or a POSIX rule text (bytes). Written by hand.

The grammar is that of the crate jiff (POSIX TZ with the times -167 to 167 of RFC 9636): a zone without
DST rule or with both rule days; an abbreviation of 3 to 15 letters, or quoted <...> with letters,
digits, + and -; offsets up to 24:59:59; a bare DST name without ,start,end is refused."""
from dates import first_of_year, is_leap, month_length, day_of, date_of, weekday

# What 'the offset in force, with the compatible choice' is in a gap at noon: 'before' takes the offset
# before the transition (the compatible choice itself); 'instant' takes the one in force at the instant
# that the choice gives.
GAP = 'before'

LETTERS = frozenset(b'abcdefghijklmnopqrstuvwxyzABCDEFGHIJKLMNOPQRSTUVWXYZ')
QUOTED = LETTERS | frozenset(b'0123456789+-')
LONGEST_NAME = 15


class NotRule(Exception):
    pass


class Text:
    def __init__(self, text):
        self.text = text
        self.at = 0

    def peek(self):
        return self.text[self.at] if self.at < len(self.text) else None

    def take(self, byte):
        if self.peek() != byte:
            raise NotRule
        self.at += 1

    def taken(self, byte):
        if self.peek() == byte:
            self.at += 1
            return True
        return False

    def digits(self, least, most):
        start = self.at
        while self.at - start < most and self.peek() is not None and 48 <= self.peek() <= 57:
            self.at += 1
        if self.at - start < least:
            raise NotRule
        return int(self.text[start:self.at])

    def number(self, least, most, low, high):
        n = self.digits(least, most)
        if not low <= n <= high:
            raise NotRule
        return n

    def sign(self):
        if self.taken(ord('-')):
            return -1
        self.taken(ord('+'))
        return 1

    def minutes_and_seconds(self):
        total = 0
        if self.taken(ord(':')):
            total += 60 * self.number(2, 2, 0, 59)
            if self.taken(ord(':')):
                total += self.number(2, 2, 0, 59)
        return total

    def name(self):
        quoted = self.taken(ord('<'))
        start = self.at
        while self.peek() is not None and self.peek() in (QUOTED if quoted else LETTERS):
            self.at += 1
        if not 3 <= self.at - start <= LONGEST_NAME:
            raise NotRule
        if quoted:
            self.take(ord('>'))

    def offset(self):
        """Seconds east."""
        sign = self.sign()
        return -sign * (3600 * self.number(1, 2, 0, 24) + self.minutes_and_seconds())

    def day_time(self):
        if self.taken(ord('J')):
            day = ('J', self.number(1, 3, 1, 365))
        elif self.taken(ord('M')):
            month = self.number(1, 2, 1, 12)
            self.take(ord('.'))
            week = self.number(1, 1, 1, 5)
            self.take(ord('.'))
            day = ('M', month, week, self.number(1, 1, 0, 6))
        else:
            day = ('0', self.number(1, 3, 0, 365))
        time = 7200
        if self.taken(ord('/')):
            sign = self.sign()
            time = sign * (3600 * self.number(1, 3, 0, 167) + self.minutes_and_seconds())
        return day, time


def read_rule(text):
    """(standard offset, None or (DST offset, start, end)) in seconds, or NotRule."""
    if not 1 <= len(text) <= 64 or any(not 33 <= c <= 126 or c in b'"\\' for c in text):
        raise NotRule
    t = Text(text)
    t.name()
    std = t.offset()
    if t.peek() is None:
        return (std, None)
    if t.peek() != ord('<') and t.peek() not in LETTERS:
        raise NotRule
    t.name()
    dst = std + 3600 if t.peek() == ord(',') else t.offset()
    t.take(ord(','))
    start = t.day_time()
    t.take(ord(','))
    end = t.day_time()
    if t.peek() is not None:
        raise NotRule
    return (std, (dst, start, end))


def rule_day(year, day):
    """The day number in the year, or None for day 365 of a year with no such day."""
    if day[0] == 'J':
        return first_of_year(year) + day[1] - 1 + (1 if is_leap(year) and day[1] >= 60 else 0)
    if day[0] == '0':
        length = 366 if is_leap(year) else 365
        return first_of_year(year) + day[1] if day[1] < length else None
    _, month, week, wanted = day
    if week == 5:
        last = day_of(year, month, month_length(year, month))
        return last - (weekday(last) - wanted) % 7
    first = day_of(year, month, 1)
    return first + (wanted - weekday(first)) % 7 + 7 * (week - 1)


def rule_seconds(year, day_time, offset):
    """The moment in seconds, held within the year. A day that isn't there is the year's end.

    jiff counts nanoseconds; the last one of the year is written here as the half second before the
    next year begins, which orders alike, since all other moments are whole seconds."""
    first = first_of_year(year) * 86400
    last = first_of_year(year + 1) * 86400 - 0.5
    day = rule_day(year, day_time[0])
    if day is None:
        return last
    return min(max(day * 86400 + day_time[1] - offset, first), last)


def in_window(start, end, at):
    if start <= end:
        return start <= at < end
    return not end <= at < start


def civil_choice(rule, year, at):
    """The compatible choice of the offset at a civil moment (seconds)."""
    std, dst = rule
    if dst is None:
        return std
    dst, start, end = dst
    start, end = rule_seconds(year, start, 0), rule_seconds(year, end, 0)
    shift = dst - std
    inside = in_window(start, end, at)
    if shift == 0:
        return std
    if shift > 0:
        if not inside:
            return std
        if start <= at < start + shift:
            return std                     # gap: before
        return dst                         # plain, or a fold: before
    if inside:
        return dst
    if start + shift <= at < start:
        return std                         # fold: before
    if end <= at < end - shift:
        return dst                         # gap: before
    return std


def offset_at_instant(rule, instant):
    """The offset in force at an instant (seconds of UTC), by jiff's window of the UTC year."""
    std, dst = rule
    if dst is None:
        return std
    dst, start, end = dst
    year = date_of(instant // 86400)[0]
    s, e = rule_seconds(year, start, std), rule_seconds(year, end, dst)
    first = first_of_year(year) * 86400
    last = first_of_year(year + 1) * 86400 - 0.5
    if s == first and not first <= e + std <= last:
        e = last
    return dst if in_window(s, e, instant) else std


def day_offset(zone, day):
    """The offset in minutes at civil 12:00:00 of the day, or None."""
    if isinstance(zone, int):
        return zone
    rule = read_rule(zone)
    at = day * 86400 + 43200
    seconds = civil_choice(rule, date_of(day)[0], at)
    if GAP == 'instant':
        seconds = offset_at_instant(rule, at - seconds)
    if seconds % 60 or not -720 <= seconds // 60 <= 840:
        return None
    return seconds // 60
