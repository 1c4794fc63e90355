"""Borders as lists of polygons, each a list of rings of positions in whole microdegrees; read from and written as GeoJSON."""
import json
from decimal import MAX_EMAX, MIN_EMIN, ROUND_HALF_UP, Context, Decimal

from outcome import Fault, read_text

MOST_POSITIONS = 4_096
WIDEST = 4_194_304
FARTHEST_NORTH = 65_000_000
FARTHEST_EAST = 360_000_000
MILLION = 1_000_000
WGS_84 = ('crs84', '4326')
EXACT = Context(prec=2000, Emin=MIN_EMIN, Emax=MAX_EMAX)


def pairs_once(pairs):
    """An object's members; one that stands twice is stopped, since readers differ in which they take."""
    members = {}
    for name, value in pairs:
        if name in members:
            raise Fault(f'the member "{name}" stands twice in one object')
        members[name] = value
    return members


def read_json(path):
    """A file's JSON value, its numbers exact."""
    text = read_text(path)
    try:
        return json.loads(text, parse_float=Decimal, object_pairs_hook=pairs_once)
    except json.JSONDecodeError as error:
        raise Fault(f'{path}: no JSON at line {error.lineno}, column {error.colno}: {error.msg}. '
                    'A shapefile, GeoPackage or KML is made into a border by tools/border')
    except (RecursionError, ValueError):
        raise Fault(f'{path}: lists stand too deep inside each other, or a number is too long')
    except Fault as fault:
        raise Fault(f'{path}: {fault}')


def rounded(value):
    """A decimal of degrees in whole microdegrees; one of a billion degrees and more counts as very far."""
    if value and value.adjusted() > 9:
        return 10 ** 15
    return int(EXACT.multiply(value, MILLION).quantize(Decimal(1), ROUND_HALF_UP, EXACT))


def micro(value):
    """A number of degrees as whole microdegrees, a half away from zero, as the program rounds."""
    if isinstance(value, bool) or not isinstance(value, (int, Decimal)):
        raise Fault(f'a position holds {json.dumps(value, default=str)[:40]} where a number stands')
    return rounded(Decimal(value))


def ring_of(value):
    if not isinstance(value, list) or not all(isinstance(p, list) and len(p) >= 2 for p in value):
        raise Fault('a ring is no list of positions')
    return [(micro(p[0]), micro(p[1])) for p in value]


def polygon_of(value):
    if not isinstance(value, list) or not value:
        raise Fault('a polygon has no ring')
    return [ring_of(ring) for ring in value]


def stop_on_crs(value, path):
    """GeoJSON is in WGS 84; an older file that names another system is stopped."""
    if 'crs' not in value or value['crs'] is None:
        return
    name = json.dumps(value['crs'], default=str)
    tail = name.lower().rstrip('"} ').replace('/', ':').rsplit(':', 1)[-1]
    if tail not in WGS_84:
        raise Fault(f'{path}: its "crs" is {name[:120]}, not WGS 84: reproject it with tools/border')


def polygons_of(value, path):
    """The polygons of any of the four forms that an order takes."""
    if not isinstance(value, dict):
        raise Fault(f'{path}: no GeoJSON object')
    stop_on_crs(value, path)
    kind = value.get('type')
    if kind == 'FeatureCollection':
        features = value.get('features')
        if not isinstance(features, list) or len(features) != 1:
            count = len(features) if isinstance(features, list) else 'no'
            raise Fault(f'{path}: {count} features where an order takes one: tools/border unites them')
        return polygons_of(features[0], path)
    if kind == 'Feature':
        return polygons_of(value.get('geometry'), path)
    if kind not in ('Polygon', 'MultiPolygon'):
        raise Fault(f'{path}: its type is {json.dumps(kind)}, not Polygon or MultiPolygon')
    lists = value.get('coordinates')
    if not isinstance(lists, list) or not lists:
        raise Fault(f'{path}: it has no coordinates')
    try:
        return [polygon_of(lists)] if kind == 'Polygon' else [polygon_of(part) for part in lists]
    except Fault as fault:
        raise Fault(f'{path}: {fault}')


def positions(polygons):
    return [p for polygon in polygons for ring in polygon for p in ring]


def box(polygons):
    """West, south, east and north."""
    places = positions(polygons)
    return (min(x for x, _ in places), min(y for _, y in places), max(x for x, _ in places), max(y for _, y in places))


def stop_beyond_limits(polygons, path):
    """The program's limits of a district, by name."""
    for number, ring in enumerate(r for polygon in polygons for r in polygon):
        if len(ring) < 4:
            raise Fault(f'{path}: ring {number} has {len(ring)} positions, and a ring has at least four')
        if ring[0] != ring[-1]:
            raise Fault(f'{path}: ring {number} is open: its last position is not its first')
    west, south, east, north = box(polygons)
    if max(abs(west), abs(east)) > FARTHEST_EAST or max(abs(south), abs(north)) > 90 * MILLION:
        raise Fault(f'{path}: its numbers are no degrees: a projected border is reprojected by tools/border')
    if max(abs(south), abs(north)) > FARTHEST_NORTH:
        raise Fault(f'{path}: a latitude is {degrees(max((south, north), key=abs))}, and the farthest is 65 degrees '
                    'north or south; are longitude and latitude exchanged?')
    count = len(positions(polygons))
    if count > MOST_POSITIONS:
        raise Fault(f'{path}: {count} positions, and the most are {MOST_POSITIONS}: tools/border simplifies outwards')
    if max(east - west, north - south) > WIDEST:
        raise Fault(f'{path}: {degrees(east - west)} by {degrees(north - south)} degrees, and the widest is '
                    f'{degrees(WIDEST)}: tools/border --parts cuts it')


def degrees(value):
    """Whole microdegrees as a decimal of degrees."""
    whole, part = divmod(abs(value), MILLION)
    text = f'{whole}.{part:06d}'.rstrip('0').rstrip('.')
    return '-' + text if value < 0 else text


def geometry_text(polygons):
    """The GeoJSON geometry of polygons, on one line."""
    lists = ['[%s]' % ','.join('[%s]' % ','.join(f'[{degrees(x)},{degrees(y)}]' for x, y in ring) for ring in polygon)
             for polygon in polygons]
    if len(lists) == 1:
        return '{"type":"Polygon","coordinates":%s}' % lists[0]
    return '{"type":"MultiPolygon","coordinates":[%s]}' % ','.join(lists)
