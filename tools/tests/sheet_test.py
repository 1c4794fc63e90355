"""Sheets: what they hold, what they refuse, and that they fit their pages."""
import csv
import hashlib
import re
import subprocess

from common import ToolTest, example, needs_command, needs_module, read

UNDECIDED = '''prayer timetable 1
from 2000-01-01 days 1 method mwl asr standard zone 0 positions 4
date         fajr  f.end  dhuhr    asr   magh  m.end   isha
2000-01-01  04:44  **:**  ??:??  15:28  18:06  --:-- +00:17
open dhuhr safe  12:03 from  12:02 cell 41722624 0 rank 363
end days 1 open 1
'''
ORDER = ('{"from":"2000-01-01","days":1,"method":"mwl","asr":"standard","zone":0,'
         '"district":{"type":"Polygon","coordinates":[[[0,0],[0,0],[0,0],[0,0]]]}}')
AT_BOUNDS = '''prayer timetable 1
from 2000-01-01 days 2 method makkah asr standard zone 0 positions 4
date         fajr  f.end  dhuhr    asr   magh  m.end   isha
2000-01-01  **:**  00:01  ??:??  15:28  18:06  --:-- +01:30
open dhuhr safe  12:03 from  12:02 cell 41722624 0 rank 363
2000-01-02  04:44  00:00  12:03  15:28  23:59 +00:00 +01:29
end days 2 open 1
'''
JOINED = '''prayer timetable 1
from 2000-01-01 days 1 method mwl asr standard zone 0 positions 8 joined 2
date         fajr  f.end  dhuhr    asr   magh  m.end   isha
2000-01-01  04:44  05:58  12:03  15:28  18:06  19:16  23:44
end days 1 open 0
'''


class SheetTest(ToolTest):
    def html(self, table, *orders, **more):
        words = [word for order in orders for word in ('--order', order)]
        self.done('sheet', table, *words, '--out', 's.html', '--title', 'A & B', *more.get('words', ()))
        return read(self.path('s.html'))

    def test_all_minutes_stand_on_the_sheet_and_where_they_come_from(self):
        for layout, months in (('year', 12), ('months', 12)):
            text = self.html(example('najran.txt'), example('najran.json'), words=('--layout', layout))
            cells = re.findall(r'<td(?: class="end")?>([^<]*)</td>', text)
            minutes = [e for line in read(example('najran.txt')).split('\n')[3:-2] for e in line.split()[1:]]
            self.assertEqual((cells, text.count('<caption>')), (minutes, months))
            line = self.program('order', example('najran.json'))
            for said in (hashlib.sha256(line.encode()).hexdigest(), 'A &amp; B', 'clock UTC+03:00',
                         hashlib.sha256(read(example('najran.txt')).encode()).hexdigest(),
                         'from 2025-01-01 days 365 method makkah asr standard zone 180 positions 47'):
                self.assertIn(said, text)

    def test_marks_and_undecided_entries_are_explained(self):
        text = self.html(self.write('t.txt', UNDECIDED), self.write('o.json', ORDER))
        for said in ('<td class="open">??:??</td>', '2000-01-01 dhuhr: safe from 12:03;', '+00:17', '**:** every minute',
                     '--:-- even the last'):
            self.assertIn(said, text)

    def test_a_joined_table_names_the_orders_of_its_parts(self):
        self.done('join', example('najran.txt'), example('najran-city.txt'), '--out', 'j.txt')
        text = self.html(self.path('j.txt'), example('najran.json'), example('najran-city.json'))
        self.assertEqual(text.count('Canonical line of'), 2)
        self.stopped('of 2 order(s)', 'sheet', 'j.txt', '--order', example('najran.json'), '--out', 's.html')

    def test_what_does_not_belong_together_is_refused(self):
        for name, said in (('bahrain.json', 'no table of this order'), ('najran-city.json', 'with 4 were named')):
            self.stopped(said, 'sheet', example('najran.txt'), '--order', example(name), '--out', 's.html')
        self.stopped('give --order', 'sheet', example('najran.txt'), '--out', 's.html')
        self.stopped('order refused 2 missing from', 'sheet', example('najran.txt'), '--order', self.write('o.json', '{}'),
                     '--out', 's.html')
        self.assertEqual(self.run_tool('sheet', example('najran.txt'), '--out', 's.doc').returncode, 2)

    def test_csv_has_a_row_a_day(self):
        self.done('sheet', example('bahrain.txt'), '--out', 's.csv')
        with open(self.path('s.csv'), encoding='utf-8') as file:
            rows = list(csv.DictReader(file))
        self.assertEqual((len(rows), rows[0]['date'], rows[0]['fajr'], rows[-1]['isha']), (30, '2025-03-01', '04:44', '19:25'))

    def moved(self, table, margin, *orders):
        """The rows of a CSV with a margin, without their dates, and what was told."""
        words = [word for order in orders for word in ('--order', order)]
        told = self.done('sheet', table, *words, '--margin', str(margin), '--out', 's.csv')[1]
        return [line.split(',')[1:] for line in read(self.path('s.csv')).split('\n')[1:-1]], told

    def test_a_margin_makes_each_beginning_later_and_each_end_earlier(self):
        minute, steps = (lambda text: 60 * int(text[:2]) + int(text[3:])), [3, -3, 3, 3, 3, -3, 3]
        rows, told = self.moved(example('najran.txt'), 3, example('najran.json'))
        for line, row in zip(read(example('najran.txt')).split('\n')[3:-2], rows):
            self.assertEqual([minute(b) - minute(a) for a, b in zip(line.split()[1:], row)], steps, line)
        self.assertEqual((len(rows), told), (365, ''))
        text = self.html(example('najran.txt'), example('najran.json'), words=('--margin', '3'))
        self.assertEqual(re.findall(r'<td(?: class="end")?>([^<]*)</td>', text), [entry for row in rows for entry in row])
        for said in ('moved by 3 minutes: each', 'not the first minutes', 'later within its column'):
            self.assertIn(said, text)
        self.assertNotIn('a beginning is the first minute', text)

    def test_a_margin_moves_no_mark_and_no_minute_out_of_its_frame(self):
        table = self.write('t.txt', AT_BOUNDS)
        order = self.write('o.json', ORDER.replace('"days":1', '"days":2').replace('mwl', 'makkah'))
        rows, told = self.moved(table, 1, order)
        self.assertEqual(rows, [['**:**', '00:00', '??:??', '15:29', '18:07', '--:--', '--:--'],
                                ['04:45', '--:--', '12:04', '15:29', '+00:00', '23:59', '+01:30']])
        for said in ('2 minute(s) would leave the twelve hours of their column and became --:--, the first 2000-01-01 isha',
                     'm.end is before magh on 1 day(s), the first 2000-01-02'):
            self.assertIn(said, told)
        text = self.html(table, order, words=('--margin', '1'))
        for said in ('2000-01-01 dhuhr: safe from 12:04; this minute is moved', 'moved by 1 minute: each', 'lie outside them'):
            self.assertIn(said, text)

    def test_a_joined_table_is_moved_within_the_frames_of_all_its_parts(self):
        table = self.write('t.txt', JOINED)
        orders = self.write('a.json', ORDER), self.write('b.json', ORDER.replace('[0,0]', '[4,0]'))
        self.assertEqual(self.moved(table, 1, *orders)[0], [['04:45', '05:57', '12:04', '15:29', '18:07', '19:15', '--:--']])

    def test_a_margin_asks_for_the_orders_and_stops_at_what_it_does_not_move(self):
        self.stopped('give --order', 'sheet', example('najran.txt'), '--margin', '1', '--out', 's.csv')
        night = self.write('t.txt', UNDECIDED.replace('end days', 'night fajr  03:10 isha  22:40\nend days'))
        self.stopped('--margin moves no such line', 'sheet', night, '--order', self.write('o.json', ORDER), '--margin', '1',
                     '--out', 's.html')
        for margin in ('16', '-1', '1.5'):
            run = self.run_tool('sheet', example('najran.txt'), '--margin', margin, '--out', 's.csv')
            self.assertEqual(run.returncode, 2, run.stderr)

    @needs_module('weasyprint', 'weasyprint')
    @needs_command('pdfinfo', 'poppler-utils')
    def test_a_year_is_one_sheet_and_a_month_one_page(self):
        for layout, pages, size in (('year', 1, 'A3'), ('months', 12, 'A4')):
            self.done('sheet', example('najran.txt'), '--order', example('najran.json'), '--layout', layout, '--out', 's.pdf')
            told = subprocess.run(['pdfinfo', self.path('s.pdf')], capture_output=True, text=True, check=True).stdout
            self.assertRegex(told, rf'Pages: +{pages}\n')
            self.assertIn(f'({size})', told)
