"""Nights of high latitude: a rule for Fajr and Isha by portions of the night."""
from problems import METHOD_ANGLES, minute_of
from texts import minute_text


def portion(rule, angle):
    return {'half': (1, 2), 'seventh': (1, 7), 'angle': (angle, 8_640_000_000_000)}[rule]


def fajr_bound(rise, set_, a, b):
    return -(-((b - a) * rise + a * (set_ - 1440)) // b)


def isha_bound(rise, set_, a, b):
    return -(-((b - a) * set_ + a * (rise + 1440)) // b)


def safe_rank(e):
    return {'whole': 0, 'never': 721}.get(e[0], e[1] if len(e) > 1 else None)


def night_line(fajr, isha):
    def text(m):
        return ' --:--' if m is None else minute_text(m)
    return 'night fajr %s isha %s\n' % (text(fajr), text(isha))


def night_minutes(rule, method, problems, entries, night_problems, night_entries):
    """The day's two minutes."""
    fajr_angle, isha_angle, _ = METHOD_ANGLES[method]
    F, I = safe_rank(entries[0]), safe_rank(entries[6])
    R, S = map(safe_rank, night_entries)
    f, i = minute_of(problems[0], F), minute_of(problems[6], I)
    r, s = minute_of(night_problems[0], R), minute_of(night_problems[1], S)
    sun = R <= 720 and S <= 720
    fajr = isha = None
    if F <= 720 and sun:
        fajr = max(f, fajr_bound(r, s, *portion(rule, fajr_angle)))
    if method == 'makkah':
        if I <= 720:
            isha = i + problems[6].shift
    else:
        bound = isha_bound(r, s, *portion(rule, isha_angle)) if sun else None
        known = [m for m in (i if I <= 720 else None, bound) if m is not None]
        isha = min(known) if known else None
    return fajr, isha
