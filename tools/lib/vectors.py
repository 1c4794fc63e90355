"""Borders out of any vector file that GDAL reads, as polygons in whole microdegrees of WGS 84."""
import os
import re
from decimal import Decimal

from geojson import FARTHEST_NORTH, MILLION, degrees, rounded
from outcome import Fault

os.environ['PROJ_NETWORK'] = 'OFF'
from osgeo import gdal, ogr, osr  # noqa: E402 (the line above is read when these load)

gdal.UseExceptions()
ogr.UseExceptions()
osr.UseExceptions()
# Formats that are read from the file alone: none follows addresses within it.
FORMATS = ['ESRI Shapefile', 'GPKG', 'GeoJSON', 'GeoJSONSeq', 'TopoJSON', 'KML', 'LIBKML', 'FlatGeobuf', 'MapInfo File', 'OSM',
           'CSV', 'SQLite']
STEP_METRES = 1_000
TURN = 360 * MILLION


def open_file(path):
    """A local file, or one within a .zip or .gz; never an address."""
    if not os.path.exists(path):
        raise Fault(f'{path}: no such file')
    full = os.path.abspath(path)
    prefix = {'.zip': '/vsizip/', '.gz': '/vsigzip/'}.get(os.path.splitext(path)[1].lower(), '')
    try:
        return gdal.OpenEx(prefix + full, gdal.OF_VECTOR, allowed_drivers=FORMATS)
    except RuntimeError as error:
        raise Fault(f'{path}: GDAL reads no borders in it, as {", ".join(FORMATS)}: {error}')


def may_hold_polygons(layer):
    """2 where a layer is of polygons, 1 where it may hold some, else 0."""
    kind = ogr.GT_Flatten(layer.GetGeomType())
    if kind in (ogr.wkbPolygon, ogr.wkbMultiPolygon, ogr.wkbCurvePolygon, ogr.wkbMultiSurface):
        return 2
    return 1 if kind in (ogr.wkbUnknown, ogr.wkbGeometryCollection) else 0


def layer_of(source, path, name):
    """The layer named, or the only one of polygons, or the only one that may hold some."""
    layers = [source.GetLayer(i) for i in range(source.GetLayerCount())]
    names = ', '.join(layer.GetName() for layer in layers)
    if name is not None:
        layers = [layer for layer in layers if layer.GetName() == name]
        if not layers:
            raise Fault(f'{path}: no layer {name}; there are {names}')
        return layers[0]
    best = max(map(may_hold_polygons, layers), default=0)
    fit = [layer for layer in layers if best and may_hold_polygons(layer) == best]
    if len(fit) != 1:
        raise Fault(f'{path}: {len(fit)} layers may hold polygons: name one by --layer: {names}')
    return fit[0]


def lonlat(system):
    system.SetAxisMappingStrategy(osr.OAMS_TRADITIONAL_GIS_ORDER)
    return system


def wgs_84():
    system = osr.SpatialReference()
    system.ImportFromEPSG(4326)
    return lonlat(system)


def system_of(layer, path, name):
    """The coordinate system: the layer's own, or the one named where it has none."""
    own = layer.GetSpatialRef()
    if own is None and name is None:
        raise Fault(f'{path}: it names no coordinate system: name it by --crs, as EPSG:4326')
    if own is not None and name is not None:
        raise Fault(f'{path}: it names its coordinate system itself ({own.GetName()}): leave --crs out')
    if own is not None:
        return lonlat(own.Clone())
    if not re.fullmatch(r'EPSG:[0-9]{4,6}', name):
        raise Fault(f'--crs {name}: it is no EPSG:N')
    system = osr.SpatialReference()
    try:
        system.ImportFromEPSG(int(name[5:]))
    except RuntimeError as error:
        raise Fault(f'--crs {name}: {error}')
    return lonlat(system)


def polygons_in(shape, label):
    """The polygons of a geometry; one that is a line or a point is stopped, not dropped."""
    shape = shape.GetLinearGeometry()
    kind = ogr.GT_Flatten(shape.GetGeometryType())
    if kind == ogr.wkbPolygon:
        return [] if shape.IsEmpty() else [shape]
    if kind in (ogr.wkbMultiPolygon, ogr.wkbGeometryCollection):
        return [p for i in range(shape.GetGeometryCount()) for p in polygons_in(shape.GetGeometryRef(i), label)]
    raise Fault(f'{label} is a {shape.GetGeometryName()}, and a border is made of polygons')


def to_degrees(polygon, system, target, label):
    """A polygon in WGS 84. A straight line of a projection is none in degrees, so it is cut into short ones before."""
    if system.IsProjected():
        polygon.Segmentize(STEP_METRES / system.GetLinearUnits())
    if not system.IsSame(target):
        try:
            polygon.Transform(osr.CoordinateTransformation(system, target))
        except RuntimeError as error:
            raise Fault(f'{label} is not reprojected: {error}')
    return polygon


def micro(value, label):
    if not abs(value) <= 1_000:
        raise Fault(f'{label} has a coordinate {value}, which is no degree: is the coordinate system right?')
    return rounded(Decimal(value))


def ring_of(shape, label):
    """A closed ring of at least four positions. A step of more than half a turn goes over the 180th meridian."""
    ring = []
    for i in range(shape.GetPointCount()):
        x, y = micro(shape.GetX(i), label), micro(shape.GetY(i), label)
        if ring:
            x += TURN * round((ring[-1][0] - x) / TURN)
        ring.append((x, y))
    while ring[0] != ring[-1] or len(ring) < 4:
        ring.append(ring[0])
    return ring


def polygon_of(shape, label):
    """All rings of a polygon, on the same side of the 180th meridian as its first."""
    rings = [ring_of(shape.GetGeometryRef(i), label) for i in range(shape.GetGeometryCount())]
    shifts = [TURN * round((rings[0][0][0] - ring[0][0]) / TURN) for ring in rings]
    return [[(x + shift, y) for x, y in ring] for ring, shift in zip(rings, shifts)]


def middle(polygon):
    return (min(x for x, _ in polygon[0]) + max(x for x, _ in polygon[0])) // 2


def beside(polygons):
    """Where polygons lie on both sides of the 180th meridian, the western ones get longitudes past 180."""
    middles = [middle(polygon) for polygon in polygons]
    if max(middles) - min(middles) <= TURN // 2:
        return polygons
    return [[[(x + TURN, y) for x, y in ring] for ring in polygon] if place < 0 else polygon
            for polygon, place in zip(polygons, middles)]


def features_of(layer, path):
    """All features; one that can't be read is stopped, not left out."""
    try:
        yield from layer
    except RuntimeError as error:
        raise Fault(f'{path}: a feature is not read: {str(error) or "the file is damaged"}')


def read(path, layer_name=None, where=None, system_name=None):
    """All polygons of the chosen features, and how many features there were."""
    source = open_file(path)
    layer = layer_of(source, path, layer_name)
    try:
        layer.SetAttributeFilter(where)
    except RuntimeError as error:
        raise Fault(f'--where {where}: {error}')
    system, target = system_of(layer, path, system_name), wgs_84()
    polygons, count = [], 0
    for feature in features_of(layer, path):
        label = f'{path}: feature {feature.GetFID()}'
        shape = feature.GetGeometryRef()
        count += 1
        if shape is not None:
            polygons += [polygon_of(to_degrees(p.Clone(), system, target, label), label) for p in polygons_in(shape, label)]
    if not polygons:
        raise Fault(f'{path}: no polygon among {count} features of the layer {layer.GetName()}')
    polygons = beside(polygons)
    farthest = max((y for polygon in polygons for ring in polygon for _, y in ring), key=abs)
    if abs(farthest) > FARTHEST_NORTH:
        raise Fault(f'{path}: it reaches the latitude {degrees(farthest)}, and the farthest is 65 degrees north or south')
    return polygons, count, system.GetName()
