"""Pictures of why a minute is as it is: a district with bands of slack, and a column's course over the year."""
import datetime
import os
import sys
from math import ceil, cos, radians

import bordering
import geojson
import tables
from outcome import Fault, note

try:
    import matplotlib
    matplotlib.use('Agg')
    from matplotlib import dates, pyplot
    from matplotlib.patches import Patch, PathPatch
    from matplotlib.path import Path
except ImportError as error:
    sys.exit(f'{os.path.basename(sys.argv[0])}: {error}: install python3-matplotlib (this is Debian\'s own python3)')

SLIVER, INK, EDGE = '#d1495b', '#22303c', '#5b6b78'
BANDS = ('#dbe9f1', '#bcd7e6', '#98c1d9', '#74a9c8', '#5290b3', '#38769b', '#255d80', '#174663')
PLACES = ('#d1495b', '#2e86ab', '#edae49', '#3b7a57', '#7b5ea7', '#00798c', '#8d5524', '#555b6e')
TITLES = {'fajr': 'Fajr begins', 'f.end': 'Fajr ends', 'dhuhr': 'Dhuhr begins', 'asr': 'Asr begins', 'magh': 'Maghrib begins',
          'm.end': 'Maghrib ends', 'isha': 'Isha begins'}
COLUMNS, ROWS = 84, 60
MILLION = geojson.MILLION
NOT_SHOWN = float('nan')

pyplot.rcParams.update({'svg.hashsalt': 'timetable', 'font.family': 'DejaVu Sans', 'font.size': 10,
                        'axes.edgecolor': EDGE, 'axes.labelcolor': INK, 'text.color': INK, 'xtick.color': EDGE,
                        'ytick.color': EDGE})


def save(figure, path):
    """The same bytes whenever it is drawn."""
    kind = os.path.splitext(path)[1].lower()
    if kind not in ('.svg', '.png'):
        raise Fault(f'{path}: a picture ends in .svg or .png')
    metadata = {'Date': None, 'Creator': None} if kind == '.svg' else {'Software': None}
    try:
        figure.savefig(path, dpi=96, facecolor='white', metadata=metadata)
    except OSError as error:
        raise Fault(f'{path}: {error.strerror}')
    pyplot.close(figure)
    note(f'written {path}')


def path_of(polygons):
    """The rings of polygons, in degrees, as one path."""
    rings = [Path([(x / MILLION, y / MILLION) for x, y in ring], closed=True) for polygon in polygons for ring in polygon]
    return Path.make_compound_path(*rings)


def slack(problem, minute, place):
    """How many minutes before the printed one the condition changes at a place; of an end, after it."""
    moment = problem.crossing(place)
    if moment is None:
        return float('nan')
    return moment - minute if problem.is_end else minute - moment


def slack_rows(problem, minute, box):
    """The slack over a net of places a little wider than the box."""
    west, south, east, north = box
    wide, high = (east - west) / COLUMNS, (north - south) / ROWS
    xs = [west + wide * i for i in range(-1, COLUMNS + 2)]
    ys = [south + high * i for i in range(-1, ROWS + 2)]
    rows = [[slack(problem, minute, (x, y)) for x in xs] for y in ys]
    return [x / MILLION for x in xs], [y / MILLION for y in ys], rows


def bands(problem, minute, polygons):
    """The ends of the bands, in whole minutes; the first one is the sliver. The most slack lies on the border, too."""
    known = (slack(problem, minute, place) for place in bordering.places(polygons))
    most = max((value for value in known if value == value), default=1)
    step = max(1, ceil((most - 1) / len(BANDS)))
    ends = [1 + step * i for i in range(ceil(max(most - 1, step) / step) + 1)]
    return [0] + ends


def map_axes(axes, polygons, box):
    west, south, east, north = (value / MILLION for value in box)
    edge_x, edge_y = 0.03 * (east - west) + 0.01, 0.05 * (north - south) + 0.01
    axes.set_xlim(west - edge_x, east + edge_x)
    axes.set_ylim(south - edge_y, north + edge_y)
    axes.set_aspect(1 / cos(radians((south + north) / 2)))
    axes.add_patch(PathPatch(path_of(polygons), facecolor='none', edgecolor=INK, linewidth=1.1, zorder=3))


def place_label(place):
    x, y = place[0] / MILLION, place[1] / MILLION
    return f'{abs(x):.3f}° {"E" if x >= 0 else "W"}, {abs(y):.3f}° {"N" if y >= 0 else "S"}'


def district(path, name, column, order, day, problem, minute, place):
    """The district on one day: bands of slack, the sliver that is unsafe a minute earlier, the deciding place."""
    box = geojson.box(order.polygons)
    xs, ys, rows = slack_rows(problem, minute, box)
    ends = bands(problem, minute, order.polygons)
    colors = (SLIVER,) + BANDS[:len(ends) - 2]
    figure, axes = pyplot.subplots(figsize=(8.4, 6.2), layout='constrained')
    filled = axes.contourf(xs, ys, rows, levels=ends, colors=colors)
    clip = PathPatch(path_of(order.polygons), transform=axes.transData, facecolor='none', edgecolor='none')
    axes.add_patch(clip)
    for part in filled.collections:
        part.set_clip_path(clip)
    map_axes(axes, order.polygons, box)
    axes.plot(place[0] / MILLION, place[1] / MILLION, 'o', markersize=7, color=INK, markeredgecolor='white', zorder=4)
    printed, beyond = minute + problem.shift, minute + problem.shift + (1 if problem.is_end else -1)
    said, other = tables.entry_of(printed).strip(), tables.entry_of(beyond).strip()
    axes.set_title(f'{name}, {day.date}: {TITLES[column]} at {said}', fontsize=13, loc='left')
    axes.set_xlabel('longitude (degrees)')
    axes.set_ylabel('latitude (degrees)')
    last = len(ends) - 2
    labels = [f'at {other} not yet safe' if not problem.is_end else f'at {other} no longer safe']
    labels += [f'{low} to {high} minutes to spare' for low, high in zip(ends[1:], ends[2:])]
    keys = [Patch(facecolor=colors[i], edgecolor=EDGE, linewidth=0.5, label=labels[i]) for i in range(last + 1)]
    keys.append(pyplot.Line2D([], [], marker='o', linestyle='', color=INK, label=f'decides: {place_label(place)}'))
    axes.legend(handles=keys, loc='upper center', bbox_to_anchor=(0.5, -0.11), ncol=2, frameon=False, fontsize=9)
    save(figure, path)


def grouped(found):
    """The deciding places, the most frequent first; past the colours they are one group."""
    count = {}
    for _, place in found:
        count[place] = count.get(place, 0) + 1
    return sorted(count, key=lambda place: (-count[place], place))


def color_of(place, known):
    number = known.index(place)
    return PLACES[number] if number < len(PLACES) - 1 else PLACES[-1]


def moment_of(minute):
    return datetime.datetime(2000, 1, 1) + datetime.timedelta(minutes=minute)


def strokes(days, column):
    """A short line a day, at its minute, and a gap after it: one path for all."""
    noons = [dates.date2num(day.date) + 0.5 for day in days]
    minutes = [dates.date2num(moment_of(day.minute(column))) for day in days]
    return ([x for noon in noons for x in (noon - 0.5, noon + 0.5, noon)],
            [y for minute in minutes for y in (minute, minute, NOT_SHOWN)])


def year(path, name, column, order, found):
    """A column's printed minutes over the days of a table, coloured by the deciding place, beside the district."""
    if not found:
        raise Fault(f'{column}: no day has a minute')
    known = grouped(found)
    figure, (course, plan) = pyplot.subplots(1, 2, figsize=(10.5, 4.6), layout='constrained', width_ratios=(1.55, 1))
    shown = known[:len(PLACES) - 1]
    for place in known:
        days = [day for day, decides in found if decides == place]
        course.plot(*strokes(days, column), linewidth=2.6, color=color_of(place, known))
        plan.plot(place[0] / MILLION, place[1] / MILLION, 'o', markersize=8, color=color_of(place, known),
                  markeredgecolor='white', zorder=4)
    course.xaxis_date()
    course.yaxis_date()
    course.yaxis.set_major_formatter(dates.DateFormatter('%H:%M'))
    course.xaxis.set_major_locator(dates.AutoDateLocator(maxticks=7))
    course.xaxis.set_major_formatter(dates.DateFormatter('%b' if len(found) > 60 else '%d %b'))
    course.grid(color='#e3e8ec', linewidth=0.7)
    first, last = found[0][0].date, found[-1][0].date
    when = str(first.year) if len(found) > 360 and first.year == last.year else f'{first} to {last}'
    course.set_title(f'{name}, {when}: {TITLES[column]}', fontsize=12, loc='left')
    box = geojson.box(order.polygons)
    map_axes(plan, order.polygons, box)
    plan.set_title('decided at', fontsize=11, loc='left')
    plan.tick_params(labelsize=8)
    counts = {place: sum(decides == place for _, decides in found) for place in shown}
    keys = [pyplot.Line2D([], [], marker='o', linestyle='', color=color_of(p, known), label=f'{place_label(p)}: {counts[p]} days')
            for p in shown]
    if len(known) > len(shown):
        rest = len(found) - sum(counts.values())
        keys.append(pyplot.Line2D([], [], marker='o', linestyle='', color=PLACES[-1],
                                  label=f'{len(known) - len(shown)} others: {rest} days'))
    plan.legend(handles=keys, loc='upper center', bbox_to_anchor=(0.5, -0.12), frameon=False, fontsize=8)
    save(figure, path)
