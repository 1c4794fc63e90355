"""The place that decides a minute, and the pictures."""
import re

from common import ToolTest, example, needs_module, read

NAJRAN = (example('najran.json'), example('najran.txt'))


class WhyTest(ToolTest):
    def test_both_sides_are_shown_in_every_column(self):
        for column, safe, other in (('fajr', 'above', 'below'), ('f.end', 'below', 'above'), ('dhuhr', 'after', 'before'),
                                    ('asr', 'after', 'before'), ('magh', 'below', 'above'), ('m.end', 'above', 'below'),
                                    ('isha', 'below', 'above')):
            with self.subTest(column):
                text, _ = self.done('why', *NAJRAN, '--date', '2025-07-12', '--column', column)
                lines = text.split('\n')
                self.assertTrue(lines[1].endswith(' ' + safe) and lines[2].endswith(' ' + other), text)
                first, second = (int(re.search(r'minute (\d+)', line)[1]) for line in lines[1:3])
                self.assertEqual(second - first, 1 if column in ('f.end', 'm.end') else -1)

    def test_the_sun_is_still_up_in_the_west_and_already_up_in_the_north_east(self):
        text, _ = self.done('why', *NAJRAN, '--date', '2025-07-12', '--column', 'f.end')
        self.assertIn('05:17, is decided at longitude 47.745127 latitude 19.531263\n', text)
        text, _ = self.done('why', *NAJRAN, '--date', '2025-07-12', '--column', 'magh')
        self.assertIn('18:46, is decided at longitude 43.648013 latitude 18.222092\n', text)

    def test_wrong_words_are_stopped(self):
        self.stopped('no day 2026-01-01', 'why', *NAJRAN, '--date', '2026-01-01', '--column', 'magh')
        self.stopped('other days', 'why', NAJRAN[0], example('bahrain.txt'), '--date', '2025-03-01', '--column', 'magh')
        self.assertEqual(self.run_tool('why', *NAJRAN, '--column', 'magh').returncode, 2)

    @needs_module('matplotlib', 'python3-matplotlib')
    def test_the_pictures_are_drawn_again_alike(self):
        words = ('--column', 'magh', '--name', 'Najran')
        self.done('why', *NAJRAN, *words, '--date', '2025-07-12', '--picture', self.path('d.svg'))
        self.done('why', *NAJRAN, *words, '--year', self.path('y.svg'))
        district, year = read(self.path('d.svg')), read(self.path('y.svg'))
        for said in ('Najran, 2025-07-12: Maghrib begins at 18:46', 'at 18:45 not yet safe', '16 to 19 minutes to spare',
                     'decides: 43.648'):
            self.assertIn(said, district)
        for said in ('Najran, 2025: Maghrib begins', '43.638° E, 17.439° N: 178 days', '43.648° E, 18.222° N: 138 days'):
            self.assertIn(said, year)
        self.stopped('ends in .svg or .png', 'why', *NAJRAN, *words, '--year', self.path('y.gif'))
