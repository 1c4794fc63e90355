"""Borders out of real files, and the check by whole numbers."""
import collections
import glob
import gzip
import json
import os
import random
import subprocess
import zipfile
from decimal import Decimal

import geojson
import orders
import plane
from common import ToolTest, data, example, needs_command, needs_module, read

GDAL = needs_module('osgeo', 'python3-gdal')
SHAPELY = needs_module('shapely', 'python3-shapely')


def polygons_of(path):
    return geojson.polygons_of(geojson.read_json(path), path)


def square(west, south, east, north):
    return [(west, south), (east, south), (east, north), (west, north), (west, south)]


class CheckTest(ToolTest):
    """The check of tools/lib/plane.py, by itself."""

    def lost(self, real, new, box=None):
        whole = box or geojson.box(real)
        return plane.lost_place(plane.Region(real), plane.Region(new), whole)

    def test_it_tells_what_holds_all_and_what_does_not(self):
        real = [[square(0, 0, 100, 100), square(40, 40, 60, 60)], [square(200, 0, 230, 30)]]
        both = [[square(-1, -1, 101, 101)], [square(199, -1, 231, 31)]]
        cut = [(-1, -1), (101, -1), (101, 99), (99, 101), (-1, 101), (-1, -1)]
        for what, new, holds in (
                ('a hole left out', both, True), ('a hole in the hole', [[both[0][0], square(45, 45, 55, 55)], both[1]], True),
                ('one around both', [[square(-9, -9, 300, 300)]], True), ('an island left out', both[:1], False),
                ('a hole that is too large', [[both[0][0], square(39, 39, 61, 61)], both[1]], False),
                ('a hole where there is none', [[both[0][0], square(10, 10, 20, 20)], both[1]], False),
                ('the same border', real, False), ('a corner cut off', [[cut], both[1]], False)):
            with self.subTest(what):
                self.assertEqual(self.lost(real, new) is None, holds)

    def test_a_hole_where_two_polygons_overlap_is_found(self):
        real = [[square(0, 0, 60, 60)], [square(40, 0, 100, 60)]]
        self.assertIsNone(self.lost(real, [[square(-1, -1, 101, 61)]]))
        self.assertIsNotNone(self.lost(real, [[square(-1, -1, 101, 61), square(45, 10, 55, 20)]]))

    def test_parts_are_asked_for_their_box_alone(self):
        real = [[square(0, 0, 100, 10)]]
        self.assertIsNone(self.lost(real, [[square(-1, -1, 60, 11)]], (0, 0, 50, 10)))
        self.assertIsNotNone(self.lost(real, [[square(-1, -1, 60, 11)]], (0, 0, 61, 10)))
        self.assertIsNone(self.lost([[square(-90, -90, 90, 90)]], [[square(-5, -5, 5, 5)]], (-4, -4, 4, 4)))
        for new in ([square(20, 20, 30, 30)], [square(-5, -5, 5, 5), square(-2, -2, 2, 2)]):
            self.assertIsNotNone(self.lost([[square(-90, -90, 90, 90)]], [new], (-4, -4, 4, 4)))

    def test_random_borders_that_are_accepted_lose_no_place(self):
        draw = random.Random(1)
        accepted = collections.Counter()
        for _ in range(12_000):
            real = [[self.ring(draw, draw.choice([3, 4]), 4)] for _ in range(draw.choice([1, 1, 2]))]
            new = [[self.dented(draw)] + [self.ring(draw, 3, 6)] * draw.choice([0, 0, 1])]
            if draw.random() < 0.2:
                new = [[self.dented(draw)], [self.dented(draw)]]
            west, south = draw.randint(-4, 2), draw.randint(-4, 2)
            box = draw.choice([geojson.box(real), (west, south, west + draw.randint(1, 3), south + draw.randint(1, 3))])
            if self.lost(real, new, box) is None:
                accepted[len(real), len(new), len(new[0])] += 1
                inner, outer = plane.Region(real), plane.Region(new)
                for place in self.places(draw, real, box):
                    self.assertTrue(outer.holds(place) or not inner.holds(place), (real, new, box, place))
        self.assertGreater(min(accepted[key] for key in ((1, 1, 1), (1, 1, 2), (2, 1, 1), (1, 2, 1))), 20, accepted)

    def ring(self, draw, count, size):
        points = [(draw.randint(-size, size), draw.randint(-size, size)) for _ in range(count)]
        return points + points[:1]

    def dented(self, draw):
        """A ring round the middle with one corner that lies anywhere."""
        corners = [(-6, -6), (0, -6), (6, -6), (6, 0), (6, 6), (0, 6), (-6, 6), (-6, 0)]
        corners[draw.randrange(8)] = (draw.randint(-6, 6), draw.randint(-6, 6))
        if draw.random() < 0.5:
            corners.reverse()
        return corners + corners[:1]

    def places(self, draw, polygons, box):
        """Places in a box: on the edges of polygons, and anywhere."""
        west, south, east, north = (8 * side for side in box)
        found = [(ax * (8 - i) + bx * i, ay * (8 - i) + by * i, 8) for polygon in polygons
                 for ax, ay, bx, by in plane.edges_of(polygon) for i in range(9)]
        found += [(draw.randint(west, east), draw.randint(south, north), 8) for _ in range(40)]
        return [(a, b, d) for a, b, d in found if west <= a <= east and south <= b <= north]


@GDAL
@SHAPELY
class BorderTest(ToolTest):
    def test_an_island_of_8399_positions_is_simplified_outwards(self):
        _, told = self.done('border', data('hainan.geojson.gz'), '--out', 'hainan.geojson')
        self.assertIn('8399 positions, in WGS 84', told)
        self.assertIn('every place of the real border lies in the new one', told)
        new = polygons_of(self.path('hainan.geojson'))
        self.assertLessEqual(len(geojson.positions(new)), 4096)
        with gzip.open(data('hainan.geojson.gz'), 'rt', encoding='utf-8') as file:
            real = polygons_of(self.write('real.geojson', file.read()))
        region = plane.Region(new)
        self.assertTrue(all(region.holds((x, y, 1)) for x, y in geojson.positions(real)))
        naive = [[ring[::4] + ring[-1:] for ring in polygon] for polygon in real]
        self.assertIsNotNone(plane.lost_place(plane.Region(real), plane.Region(naive), geojson.box(real)))

    def test_a_province_in_another_system_comes_out_at_its_degrees(self):
        self.done('border', data('najran_utm38.zip'), '--out', 'najran.geojson')
        new = polygons_of(self.path('najran.geojson'))
        self.assertGreater(len(geojson.positions(new)), 1000)
        corners = orders.read(example('najran.json')).polygons[0][0]
        for x, y in corners:
            self.assertTrue(any(abs(x - a) <= 2 and abs(y - b) <= 2 for a, b in new[0][0]), (x, y))

    def test_a_country_of_81_provinces_wider_than_the_limit_is_cut_into_parts(self):
        self.stopped('19.14373 by 6.27655 degrees', 'border', data('turkey.geojson.gz'))
        _, told = self.done('border', data('turkey.geojson.gz'), '--parts', self.path('turkey'))
        parts = [plane.Region(polygons_of(path)) for path in glob.glob(self.path('turkey-*.geojson'))]
        self.assertEqual((len(parts), told.count('every place of the real border')), (10, 10))
        with gzip.open(data('turkey.geojson.gz'), 'rt', encoding='utf-8') as file:
            features = json.load(file, parse_float=Decimal)['features']
        for feature in features:
            for x, y in geojson.positions(geojson.polygons_of(feature, feature['properties']['name'])):
                self.assertTrue(any(part.holds((x, y, 1)) for part in parts), (feature['properties'], x, y))

    def test_islands_on_both_sides_of_the_180th_meridian_lie_side_by_side(self):
        _, told = self.done('border', data('fiji.geojson'), '--parts', self.path('fiji'))
        self.assertIn('to 181.7839 -12.4753', told)

    def test_one_feature_of_many_and_other_formats(self):
        self.done('border', data('turkey.geojson.gz'), '--where', "name='Ankara'", '--out', 'ankara.geojson')
        self.assertEqual(geojson.box(polygons_of(self.path('ankara.geojson')))[0], 30863570)
        self.write('bahrain.geojson', json.dumps(json.loads(read(example('bahrain.json')))['district']))
        self.done('border', self.path('bahrain.geojson'), '--out', 'one.geojson')
        self.assertEqual(len(geojson.positions(polygons_of(self.path('one.geojson')))), 58)

    @needs_command('ogr2ogr', 'gdal-bin')
    def test_kml_and_geopackage(self):
        source = self.write('bahrain.geojson', json.dumps(json.loads(read(example('bahrain.json')))['district']))
        for name, driver in (('b.kml', 'KML'), ('b.gpkg', 'GPKG')):
            with self.subTest(driver):
                subprocess.run(['ogr2ogr', '-f', driver, self.path(name), source], check=True, capture_output=True)
                self.done('border', self.path(name), '--out', name + '.geojson')
                self.assertEqual(sorted(geojson.positions(polygons_of(self.path(name + '.geojson')))),
                                 sorted(geojson.positions(polygons_of(source))))

    def test_openstreetmap(self):
        places = [(39, 21), (40, 21), (40, 22), (39, 22)]
        nodes = ''.join(f'<node id="{i}" lon="{x}" lat="{y}"/>' for i, (x, y) in enumerate(places, 1))
        way = ''.join(f'<nd ref="{i}"/>' for i in (1, 2, 3, 4, 1))
        self.write('a.osm', f'<osm version="0.6">{nodes}<way id="9">{way}<tag k="boundary" v="administrative"/></way></osm>')
        self.done('border', 'a.osm', '--out', 'a.geojson')
        self.assertEqual(geojson.box(polygons_of(self.path('a.geojson'))), (39000000, 21000000, 40000000, 22000000))

    def cut_off(self, name):
        """A shapefile of the data without the last bytes of its positions."""
        with zipfile.ZipFile(data(name + '.zip')) as whole:
            whole.extractall(self.folder)
        os.truncate(self.path(name + '.shp'), os.path.getsize(self.path(name + '.shp')) - 100)
        return self.path(name + '.shp')

    def test_wrong_files_are_stopped(self):
        line = self.write('line.geojson', '{"type":"LineString","coordinates":[[39,21],[40,21]]}')
        north = self.write('north.geojson', '{"type":"Polygon","coordinates":[[[20,66],[21,66],[21,67],[20,66]]]}')
        far = self.write('far.vrt', '<OGRVRTDataSource><OGRVRTLayer name="a"><SrcDataSource>/vsicurl/http://127.0.0.1:1/a'
                         '</SrcDataSource></OGRVRTLayer></OGRVRTDataSource>')
        bare = self.write('bare.csv', 'WKT,name\n"POLYGON((39 21,40 21,40 22,39 21))",a\n')
        turkey, cut = data('turkey.geojson.gz'), self.cut_off('najran_utm38')
        for words, said in (((line,), 'may hold polygons'), ((north,), 'latitude 67'), ((bare,), 'no coordinate system'),
                            (('none.shp',), 'no such file'), ((far,), 'reads no borders'),
                            ((example('bahrain.txt'),), 'reads no borders'),
                            ((turkey, '--where', "name='Nowhere'"), 'no polygon among 0 features'),
                            ((turkey, '--where', "nmae='Van'"), '--where nmae'), ((cut,), 'is not read'), ((turkey, '--layer', 'x'), 'no layer x'),
                            ((turkey, '--crs', 'EPSG:4326'), 'leave --crs out'), ((bare, '--crs', 'EPSG:x'), '--crs EPSG:x')):
            with self.subTest(said):
                run = self.run_tool('border', *words)
                self.assertEqual(run.returncode, 1, run.stderr)
                self.assertIn(said, run.stderr)
                self.assertNotIn('Traceback', run.stderr)
        self.done('border', bare, '--crs', 'EPSG:4326')
