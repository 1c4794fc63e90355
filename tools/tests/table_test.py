"""What reads tables: join, apart, twice; and tables that are cut off."""
import re

from common import ToolTest, example, read

HEAD = 'from 2025-01-01 days 365 method makkah asr standard zone 180 positions 47'


class JoinTest(ToolTest):
    def changed(self, name, old, new, source='najran.txt'):
        text = read(example(source))
        self.assertIn(old, text)
        return self.write(name, text.replace(old, new, 1))

    def test_a_table_joined_with_one_that_is_less_safe_has_its_own_minutes(self):
        text, _ = self.done('join', example('najran-city.txt'), example('najran.txt'))
        self.assertEqual(text, read(example('najran.txt')).replace(HEAD, HEAD.replace('47', '51') + ' joined 2'))
        again, _ = self.done('join', self.write('joined.txt', text), example('najran-city.txt'))
        self.assertIn('positions 55 joined 3\n', again)

    def test_beginnings_are_the_latest_and_ends_the_earliest(self):
        other = self.changed('other.txt', '05:18  06:19  12:10  15:20  17:43  18:52  19:13',
                             '05:17  06:18  12:11  15:19  17:44 +18:52 -19:13')
        text, _ = self.done('join', example('najran.txt'), other)
        self.assertIn('2025-01-01  05:18  06:18  12:11  15:20  17:44  18:52  19:13\n', text)

    def test_what_is_no_minute_or_of_another_head_is_refused(self):
        for old, new, said in (('  05:18', '  ??:??', '1 undecided'), ('  05:18', '  --:--', 'never'),
                               ('  05:18', '  **:**', 'the whole frame'), ('zone 180', 'zone 181', 'zone 181'),
                               ('standard', 'hanafi', 'asr hanafi'), ('47', '47 height 5', 'height 5'),
                               ('days 365', 'days 364', '365 days'), ('2025-01-02', '2025-01-03', 'follow one another'),
                               ('prayer timetable 1', 'prayer set 1', 'no table'), ('  05:18', ' 05:18', 'line 4')):
            with self.subTest(said):
                self.stopped(said, 'join', example('najran.txt'), self.changed('other.txt', old, new))
        undecided = self.changed('u.txt', '  05:18', '  ??:??')
        undecided = self.write('u.txt', read(undecided).replace(
            '\n2025-01-02', '\nopen fajr safe  05:18 from  05:17 cell 1 2 rank 3\n2025-01-02').replace('open 0', 'open 1'))
        self.stopped('below the day', 'join', example('najran.txt'), undecided)

    def test_a_table_that_is_cut_off_is_refused_by_every_tool(self):
        cut = self.write('cut.txt', read(example('bahrain.txt'))[:900])
        whole, order = example('bahrain.txt'), example('bahrain.json')
        for words in (('join', whole, cut), ('apart', whole, cut), ('twice', order, cut), ('sheet', cut, '--out', 's.csv'),
                      ('sheet', cut, '--order', order, '--out', 's.html'),
                      ('why', order, cut, '--date', '2025-03-01', '--column', 'magh')):
            with self.subTest(words[0]):
                self.stopped('cut off', *words)


class ApartTest(ToolTest):
    def test_the_city_s_table_is_unsafe_in_the_province_in_every_column(self):
        text, told = self.done('apart', example('najran.txt'), example('najran-city.txt'))
        self.assertEqual(re.findall(r'^(\S+) +(\S+) to (\S+) minutes', text, re.M), [
            ('fajr', '2', '3'), ('f.end', '13', '19'), ('dhuhr', '1', '2'), ('asr', '1', '4'), ('magh', '2', '4'),
            ('m.end', '13', '19'), ('isha', '2', '4')])
        self.assertEqual(told, '365 days in common, by date\n')

    def test_two_years_are_joined_by_month_and_day(self):
        later = self.write('later.txt', read(example('bahrain.txt')).replace('2025-', '2026-'))
        text, told = self.done('apart', example('bahrain.txt'), later)
        self.assertEqual((told, text.count('0 to 0 minutes')), ('30 days in common, by month and day\n', 7))

    def test_nothing_in_common_is_an_error(self):
        self.stopped('no day in common', 'apart', example('bahrain.txt'), example('qina-hole.txt'))


class TwiceTest(ToolTest):
    def test_the_examples_are_found_right(self):
        for name in ('bahrain', 'najran-city', 'qina-hole'):
            text, _ = self.done('twice', example(name + '.json'), example(name + '.txt'))
            self.assertIn(' 0 different\n', text)

    def test_a_rule_that_is_an_offset_reads_rule_in_the_head(self):
        order = self.write('o.json', read(example('bahrain.json')).replace('"zone":180', '"zone":"<+03>-3"'))
        table = self.write('t.txt', read(example('bahrain.txt')).replace('zone 180', 'zone rule'))
        self.assertIn(' 0 different', self.done('twice', order, table)[0])

    def test_every_minute_moved_by_one_is_found(self):
        line = '2025-07-01  04:26  05:59  12:57  16:22  19:49  21:09  21:16'
        text = read(example('qina-hole.txt'))
        for column, at in zip(('fajr', 'f.end', 'dhuhr', 'asr', 'magh', 'm.end', 'isha'), range(12, 60, 7)):
            minute = 60 * int(line[at:at + 2]) + int(line[at + 3:at + 5])
            for other in (minute - 1, minute + 1):
                wrong = line[:at] + '%02d:%02d' % divmod(other, 60) + line[at + 5:]
                run = self.run_tool('twice', example('qina-hole.json'), self.write('t.txt', text.replace(line, wrong)))
                self.assertEqual(run.returncode, 1)
                self.assertIn(f'2025-07-01 {column}', run.stdout)
                self.assertIn(' 1 different\n', run.stdout)

    def test_a_table_of_another_order_is_stopped(self):
        self.stopped('no table of this order', 'twice', example('najran.json'), example('najran-city.txt'))
