"""Orders, order lines and sets, with their exact first refusal; the canonical line."""
import dates
import json_exact
import zone as zones
from json_exact import Decimal, JsonFault, Table
from problems import ASRS, METHODS
from region import District, RegionFault

MOST_BYTES = 16_777_216
NIGHTS = ('half', 'seventh', 'angle')
NAMED = (b'type', b'coordinates', b'geometry', b'features')


class OrderFault(Exception):
    """detail: the words after 'order refused '."""

    def __init__(self, detail):
        self.detail = detail


def fault(number, word, member=None):
    return OrderFault('%d %s' % (number, word) + (' ' + member if member else ''))


class Order:
    def __init__(self):
        self.height, self.late, self.sun, self.night = 0, [], 'usno', None

    def interval(self, day):
        """Minutes from Maghrib to Isha for makkah."""
        return 120 if any(a <= day <= b for a, b in self.late) else 90


MEMBERS = ('from', 'days', 'method', 'asr', 'zone', 'height', 'late_isha', 'sun', 'night', 'district')
VERSIONS = (1, 2, 3, 4)


def members_of_version(version):
    return (['from', 'days', 'method', 'asr', 'zone'] + ['height', 'late_isha'] * (version >= 2)
            + ['sun'] * (version >= 3) + ['night'] * (version >= 4) + ['district'])


def read_json(data):
    try:
        return json_exact.read(data)
    except JsonFault as f:
        raise OrderFault('1 json %d at %d' % (f.number, f.place))


def one(table, name, optional):
    """The value of a member: (present, value), by Missing and Twice."""
    values = table.all(name.encode())
    if not values:
        if optional:
            return False, None
        raise fault(2, 'missing', name)
    if len(values) > 1:
        raise fault(3, 'twice', name)
    return True, values[0]


def is_text(v):
    return isinstance(v, bytes)


def is_list(v):
    return isinstance(v, list) and not isinstance(v, Table)


def whole_in(v, low, high):
    n = v.whole()
    return n is not None and low <= n <= high


def read_from(v, order):
    if not is_text(v) or not dates.is_date_form(v):
        raise fault(4, 'kind', 'from')
    order.from_day = dates.read_date(v)
    if order.from_day is None:
        raise fault(5, 'range', 'from')


def read_days(v, order):
    if not isinstance(v, Decimal):
        raise fault(4, 'kind', 'days')
    if not whole_in(v, 1, 366) or order.from_day + v.whole() - 1 > dates.LAST_DAY:
        raise fault(5, 'range', 'days')
    order.days = v.whole()


def word_reader(member, words):
    def read(v, order):
        if not is_text(v):
            raise fault(4, 'kind', member)
        if v.decode() not in words:
            raise fault(5, 'range', member)
        setattr(order, member, v.decode())
    return read


def read_zone(v, order):
    if isinstance(v, Decimal):
        if not whole_in(v, -720, 840):
            raise fault(5, 'range', 'zone')
        order.zone = v.whole()
    elif is_text(v):
        try:
            zones.read_rule(v)
        except zones.NotRule:
            raise fault(4, 'kind', 'zone')
        order.zone = v
    else:
        raise fault(4, 'kind', 'zone')
    order.offsets = [zones.day_offset(order.zone, order.from_day + i) for i in range(order.days)]
    if None in order.offsets:
        raise fault(5, 'range', 'zone')


def read_height(v, order):
    if not isinstance(v, Decimal):
        raise fault(4, 'kind', 'height')
    if not whole_in(v, 0, 9000):
        raise fault(5, 'range', 'height')
    order.height = v.whole()


def read_late(v, order):
    if not is_list(v) or not all(is_list(pair) and len(pair) == 2 and all(
            is_text(t) and dates.is_date_form(t) for t in pair) for pair in v):
        raise fault(4, 'kind', 'late_isha')
    pairs = [tuple(map(dates.read_date, pair)) for pair in v]
    if (len(pairs) > 8 or any(None in pair or pair[1] < pair[0] for pair in pairs)
            or (pairs and order.method != 'makkah')):
        raise fault(5, 'range', 'late_isha')
    order.late = pairs


READERS = {'from': read_from, 'days': read_days, 'method': word_reader('method', METHODS),
           'asr': word_reader('asr', ASRS), 'zone': read_zone, 'height': read_height,
           'late_isha': read_late, 'sun': word_reader('sun', ('usno', 'meeus')),
           'night': word_reader('night', NIGHTS)}
OPTIONAL = ('height', 'late_isha', 'sun', 'night')


# ---- the district

class NotForm(Exception):
    pass


def get(table, name):
    """A member of an object that plays a part in the geometry. Any of the four names that stands twice
    in it is Geometry, used by its form or not."""
    if any(len(table.all(n)) > 1 for n in NAMED):
        raise NotForm
    values = table.all(name)
    if not values:
        raise NotForm
    return values[0]


def need(condition):
    if not condition:
        raise NotForm


def position_of(v):
    need(is_list(v) and len(v) >= 2 and isinstance(v[0], Decimal) and isinstance(v[1], Decimal))
    return (v[0].micro(), v[1].micro())


def ring_of(v):
    need(is_list(v))
    return [position_of(p) for p in v]


def polygon_of(v):
    need(is_list(v))
    return [ring_of(r) for r in v]


def geometry_of(v):
    need(isinstance(v, Table))
    kind = get(v, b'type')
    need(kind in (b'Polygon', b'MultiPolygon') and is_text(kind))
    shape = get(v, b'coordinates')
    if kind == b'Polygon':
        return [polygon_of(shape)]
    need(is_list(shape))
    return [polygon_of(p) for p in shape]


def feature_of(v):
    need(isinstance(v, Table))
    need(get(v, b'type') == b'Feature')
    return geometry_of(get(v, b'geometry'))


def features_of(v, low, high):
    need(get(v, b'type') == b'FeatureCollection')
    features = get(v, b'features')
    need(is_list(features) and low <= len(features) <= high)
    return [feature_of(f) for f in features]


def forms_of(v):
    kind = get(v, b'type')
    if kind == b'FeatureCollection':
        return features_of(v, 1, 1)[0]
    if kind == b'Feature':
        return feature_of(v)
    return geometry_of(v)


def region_of(polygons):
    try:
        return District(polygons)
    except RegionFault as f:
        raise OrderFault('7 region %d' % f.number + ('' if f.ring is None else ' ring %d' % f.ring))


def read_members(table, order, names, optional, readers):
    for name in names:
        present, value = one(table, name, name in optional)
        if present:
            readers[name](value, order)


def read_order(data):
    value = read_json(data)
    if not isinstance(value, Table):
        raise fault(4, 'kind', 'order')
    order = Order()

    def read_district(v, order):
        if not isinstance(v, Table):
            raise fault(4, 'kind', 'district')
        try:
            polygons = forms_of(v)
        except NotForm:
            raise OrderFault('6 geometry')
        order.district = region_of(polygons)

    read_members(value, order, MEMBERS, OPTIONAL, dict(READERS, district=read_district))
    return order


def read_set(data):
    """(The whole order, the districts of its parts)."""
    value = read_json(data)
    if not isinstance(value, Table):
        raise fault(4, 'kind', 'order')
    order, parts = Order(), []

    def refuse_night(v, order):
        raise fault(5, 'range', 'night') if is_text(v) else fault(4, 'kind', 'night')

    def read_district(v, order):
        if not isinstance(v, Table):
            raise fault(4, 'kind', 'district')
        try:
            features = features_of(v, 1, 64)
        except NotForm:
            raise OrderFault('6 geometry')
        parts.extend(region_of(polygons) for polygons in features)
        order.district = region_of([p for polygons in features for p in polygons])

    read_members(value, order, MEMBERS, OPTIONAL,
                 dict(READERS, district=read_district, night=refuse_night))
    return order, parts


# ---- the canonical line

def version_of(order):
    if order.night is not None:
        return 4
    if order.sun == 'meeus':
        return 3
    return 2 if order.height or order.late else 1


def zone_text(order):
    return str(order.zone) if isinstance(order.zone, int) else order.zone.decode()


def order_line(order):
    version = version_of(order)
    out = ['{"version":%d,"from":"%s","days":%d,"method":"%s","asr":"%s","zone":%s' % (
        version, dates.date_text(order.from_day), order.days, order.method, order.asr,
        order.zone if isinstance(order.zone, int) else '"%s"' % zone_text(order))]
    if version >= 2:
        out.append(',"height":%d,"late_isha":[%s]' % (order.height, ','.join(
            '["%s","%s"]' % tuple(map(dates.date_text, pair)) for pair in order.late)))
    if version >= 3:
        out.append(',"sun":"%s"' % order.sun)
    if version >= 4:
        out.append(',"night":"%s"' % order.night)
    out.append(',"district":[%s]}\n' % ','.join('[%s]' % ','.join('[%s]' % ','.join(
        '[%d,%d]' % p for p in ring) for ring in polygon) for polygon in order.district.polygons))
    return ''.join(out).encode()


def whole_pair(v):
    need(is_list(v) and len(v) == 2 and all(isinstance(n, Decimal) and n.whole() is not None for n in v))
    return (v[0].whole(), v[1].whole())


def whole_lists(v):
    out = []
    for polygon in v:
        need(is_list(polygon))
        rings = []
        for ring in polygon:
            need(is_list(ring))
            rings.append([whole_pair(p) for p in ring])
        out.append(rings)
    return out


def read_order_line(data):
    """A canonical line without its LF, its members in any order and spelling."""
    value = read_json(data)
    if not isinstance(value, Table):
        raise fault(4, 'kind', 'order')
    _, version = one(value, 'version', False)
    if not isinstance(version, Decimal):
        raise fault(4, 'kind', 'version')
    if version.whole() not in VERSIONS:
        raise fault(5, 'range', 'version')
    order = Order()

    def read_district(v, order):
        if not is_list(v):
            raise fault(4, 'kind', 'district')
        try:
            polygons = whole_lists(v)
        except NotForm:
            raise OrderFault('6 geometry')
        order.district = region_of(polygons)

    read_members(value, order, members_of_version(version.whole()), (),
                 dict(READERS, district=read_district))
    return order
