"""Orders from words, and orders that stand."""
import collections
import gzip
import importlib.util
import json
import os
import random
import re
import shlex
import subprocess
import sys
import unittest

import orders
from common import PROGRAM, REFERENCE, SECONDS, TOP, ToolTest, data, example, needs_zones, read
from outcome import Fault

sys.path.append(os.path.join(TOP, 'compare'))
SPEC = importlib.util.spec_from_file_location('drawn', os.path.join(TOP, 'compare/orders.py'))
drawn = importlib.util.module_from_spec(SPEC)
SPEC.loader.exec_module(drawn)

WORDS = ('--year', '2025', '--method', 'makkah', '--asr', 'standard')


class OrderTest(ToolTest):
    def border(self, **changes):
        district = json.loads(read(example('najran.json')))['district']
        return self.write('border.geojson', json.dumps({**district, **changes}))

    def order(self, *words):
        return self.done('order', '--border', self.border(), *words)

    def test_words_become_the_order_of_the_example(self):
        text, told = self.order(*WORDS, '--zone', '+03:00')
        made = self.write('made.json', text)
        self.assertEqual(self.program('order', made), self.program('order', example('najran.json')))
        for line in ('positions 47 of', '4.106932 by 2.583821 degrees', 'mean noon 11:57 by', 'longitude 45.691661 latitude'):
            self.assertIn(line, told)
        self.assertNotIn('warning', told)

    @needs_zones()
    def test_zones(self):
        for zone, member in (('+03:00', 180), ('Asia/Riyadh', 180), ('<+03>-3', 180), ('-0330', -210), ('+14', 840),
                             ('Africa/Cairo', 'EET-2EEST,M4.5.5/0,M10.5.4/24'), ('Europe/Berlin', 'CET-1CEST,M3.5.0,M10.5.0/3'),
                             ('CET-1CEST,M3.5.0,M10.5.0/3', 'CET-1CEST,M3.5.0,M10.5.0/3')):
            with self.subTest(zone):
                self.assertEqual(json.loads(self.order(*WORDS, '--zone', zone)[0])['zone'], member)

    @needs_zones()
    def test_wrong_zones_are_stopped(self):
        for zone, said in (('Africa/Casablanca', 'order the days before and after'), ('Asia/Nowhere', 'no zone of this name'),
                           ('EST5EDT', 'no POSIX rule'), ('3', 'neither an offset'), ('+15:00', 'zones lie from'),
                           ('+03:75', '75 minutes'), ('AAA-3BBB,M13.1.0,M10.5.0', 'no POSIX rule')):
            with self.subTest(zone):
                self.stopped(said, 'order', '--border', self.border(), *WORDS, '--zone', zone)

    def test_a_zone_that_counts_west_and_exchanged_coordinates_are_warned_of(self):
        self.assertIn('mean noon 05:57', self.order(*WORDS, '--zone', 'UTC+3')[1])
        self.assertIn('is the zone right', self.order(*WORDS, '--zone', 'UTC+3')[1])
        district = json.loads(read(example('najran.json')))['district']
        rings = [[[y, x] for x, y in ring] for ring in district['coordinates']]
        told = self.done('order', '--border', self.border(coordinates=rings), *WORDS, '--zone', '+03:00')[1]
        self.assertIn('coordinates exchanged', told)

    def test_wrong_borders_are_stopped(self):
        ring = [[39, 21], [40, 21], [40, 22], [39, 22], [39, 21]]
        utm = [[[x * 1000, y * 1000] for x, y in ring]]
        for changes, said in (
                ({'crs': {'type': 'name', 'properties': {'name': 'urn:ogc:def:crs:EPSG::32638'}}}, 'not WGS 84'),
                ({'coordinates': utm}, 'no degrees'), ({'coordinates': [ring[:-1]]}, 'is open'),
                ({'coordinates': [ring[:3]]}, '3 positions'), ({'coordinates': [ring * 900]}, 'simplifies outwards'),
                ({'coordinates': [[[0, 0], [5, 0], [5, 1], [0, 0]]]}, '5 by 1 degrees'),
                ({'coordinates': [[[y, x + 30] for x, y in ring]]}, 'longitude and latitude exchanged'),
                ({'coordinates': []}, 'no coordinates'), ({'coordinates': [[[39, 'x']] * 4]}, 'where a number'),
                ({'type': 'LineString'}, 'not Polygon')):
            with self.subTest(said):
                self.stopped(said, 'order', '--border', self.border(**changes), *WORDS, '--zone', '+03:00')
        for name in ('wgs84', 'urn:ogc:def:crs:OGC:1.3:CRS84', 'EPSG:4326'):
            border = self.border(crs={'type': 'name', 'properties': {'name': name}})
            run = self.run_tool('order', '--border', border, *WORDS, '--zone', '+03:00')
            self.assertEqual(run.returncode, 1 if name == 'wgs84' else 0, run.stderr)
        self.stopped('no text in UTF-8', 'order', '--border', data('najran_utm38.zip'), *WORDS, '--zone', '+03:00')
        self.stopped('81 features', 'order', '--border', self.unpacked('turkey.geojson.gz'), *WORDS, '--zone', '+03:00')

    def unpacked(self, name):
        with gzip.open(data(name), 'rt', encoding='utf-8') as file:
            return self.write(name[:-3], file.read())

    def test_wrong_words_are_stopped(self):
        for words, said in ((('--from', '2025-02-30', '--days', '1'), 'no date'), (('--from', '2025-03-01'), 'either --year'),
                            (('--from', '2100-12-31', '--days', '2'), 'the last day'), (('--year', '1899'), 'not from 1900'),
                            (('--from', '2025-03-01', '--days', '367'), 'from 1 to 366'),
                            (('--year', '2025', '--height', '9001'), 'height: 9001'),
                            (('--year', '2025', '--late-isha', '2025-03-01..2025-03-29'), 'only the method makkah')):
            with self.subTest(said):
                self.stopped(said, 'order', '--border', self.border(), '--method', 'mwl', '--asr', 'standard', '--zone', '+03:00',
                             *words)
        self.assertEqual(self.run_tool('order', '--border', 'x', '--method', 'mecca').returncode, 2)
        self.assertEqual(self.run_tool('order', '--look', example('najran.json'), '--year', '2025').returncode, 2)
        self.stopped('--zone is missing', 'order', '--border', self.border(), *WORDS)

    def test_a_year_has_all_its_days_and_ramadan_its_isha(self):
        words = ('--method', 'makkah', '--asr', 'hanafi', '--zone', '+03:00', '--late-isha', '2024-03-11..2024-04-09',
                 '--height', '1293')
        order = json.loads(self.order('--year', '2024', *words)[0])
        self.assertEqual((order['from'], order['days'], order['late_isha'], order['height']),
                         ('2024-01-01', 366, [['2024-03-11', '2024-04-09']], 1293))

    def test_orders_that_stand_are_looked_at(self):
        for name in ('makkah.json', 'bahrain.json', 'najran.json', 'najran-city.json', 'qina-hole.json'):
            self.assertIn('mean noon 1', self.done('order', '--look', example(name))[1])

    def test_a_sun_and_a_rule_for_nights_are_written_and_taken(self):
        for sun in orders.SUNS:
            for night in (None, *orders.NIGHTS):
                with self.subTest(sun=sun, night=night):
                    text, told = self.order(*WORDS, '--zone', '+03:00', '--sun', sun, *(('--night', night) if night else ()))
                    self.assertEqual((json.loads(text)['sun'], json.loads(text).get('night')), (sun, night))
                    self.assertNotIn('warning', told)
                    made = self.write('made.json', text)
                    self.assertIsNotNone(self.canonical(made))
                    self.done('order', '--look', made)

    def test_members_that_the_program_passes_over_are_stopped(self):
        text = read(example('najran.json'))
        for more, said in (('"hieght":1293', '"hieght" is none'), ('"late_Isha":[]', '"late_Isha" is none'),
                           ('"days":30', '"days" stands twice'), ('"sun":"moon"', '"moon" is none')):
            with self.subTest(said):
                self.stopped(said, 'order', '--look', self.write('o.json', '{%s,%s' % (more, text[1:])))
        for wrong, said in (('20250101', 'no date'), ('2025-W01-1', 'no date'), ('2025-1-01', 'no date')):
            self.stopped(said, 'order', '--look', self.write('o.json', text.replace('2025-01-01', wrong)))
        for wrong in ('[' * 100_000, '9' * 5_000, '{"from":NaN}', '[]', '"\\ud800"', ''):
            run = self.run_tool('order', '--look', self.write('o.json', wrong))
            self.assertEqual((run.returncode, 'Traceback' in run.stderr), (1, False), run.stderr[-300:])
        self.stopped('"zone" is missing', 'order', '--look', self.write('o.json', text.replace('"zone":180,', '')))
        told = self.done('order', '--look', self.write('o.json', text.replace('"zone":180,', '"zone":3,')))[1]
        self.assertIn('mean noon 09:00', told)
        told = self.done('order', '--look', self.write('o.json', text.replace('"zone":180,', '"zone":"UTC+3",')))[1]
        self.assertIn('is the zone right', told)

    def test_random_orders_are_read_as_the_program_reads_them(self):
        draw, met = random.Random(1), collections.Counter()
        for _ in range(80):
            with open(self.path('o.json'), 'wb') as file:
                file.write(drawn.order(draw))
            line = self.canonical(self.path('o.json'))
            try:
                read_here = orders.read(self.path('o.json'))
            except Fault as fault:
                met['stopped'] += 1
                # Hours of three digits in a rule are read by the program, and not by each release of zoneinfo.
                self.assertTrue(line is None or re.search('is none of|stands twice|/167.*: no POSIX rule', str(fault)), fault)
                continue
            met['read'] += 1
            self.assertIsNotNone(line)
            district = [[[tuple(p) for p in ring] for ring in polygon] for polygon in json.loads(line)['district']]
            self.assertEqual(read_here.polygons, district)
        self.assertGreater(min(met.values()), 15)

    def canonical(self, path):
        """What the program makes of an order, or None where it refuses it."""
        with open(path, 'rb') as file:
            run = subprocess.run(shlex.split(PROGRAM) + ['order'], stdin=file, capture_output=True, timeout=SECONDS)
        return run.stdout if run.returncode == 0 else None
