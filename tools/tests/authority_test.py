"""docs/authority.md and docs/many.md, followed from their first lines: each command in order, each output as the page has it."""
import os
import re
import subprocess
import unittest

from common import PROGRAM, REFERENCE, SECONDS, TOP, ToolTest, needs_command, needs_module, needs_zones, read

PAGE = os.path.join(TOP, 'docs', 'authority.md')
WRITTEN_WITH = '3.6.'
MANY = os.path.join(TOP, 'docs', 'many.md')


def seen(output):
    """An output as it is, with the libraries that the pages were written with; with others, without its numbers."""
    from osgeo import gdal
    return output if gdal.__version__.startswith(WRITTEN_WITH) else re.sub('[0-9]+', '0', output)


def commands(page):
    """The commands of a page's blocks, with the lines below them. A block that names a language is not followed."""
    found = []
    for language, block in re.findall(r'^```([a-z]*)\n(.*?)^```\n', page, re.M | re.S):
        if language:
            continue
        for part in re.split(r'^\$ ', block, flags=re.M)[1:]:
            command, _, output = part.partition('\n')
            found.append((command, output))
    return found


@unittest.skipIf(PROGRAM == REFERENCE, 'the program is not built: docs/authority.md is not followed')
@needs_module('osgeo', 'python3-gdal')
@needs_module('shapely', 'python3-shapely')
@needs_module('weasyprint', 'weasyprint')
@needs_command('parallel', 'parallel')
@needs_zones()
class AuthorityTest(ToolTest):
    def clone(self):
        """What the commands name, seen from a folder of their own."""
        for name in ('tools', 'examples', 'docs'):
            os.symlink(os.path.join(TOP, name), self.path(name))
        self.write('timetable', f'#!/bin/sh\nexec {PROGRAM} "$@"\n')
        os.chmod(self.path('timetable'), 0o755)

    def answer(self, command):
        run = subprocess.run(['sh', '-c', command], stdin=subprocess.DEVNULL, stdout=subprocess.PIPE, stderr=subprocess.STDOUT,
                             cwd=self.folder, timeout=SECONDS, text=True)
        return run.stdout.replace(self.folder, '.')

    def follow(self, page, least):
        self.clone()
        known = commands(read(page))
        self.assertGreaterEqual(len(known), least)
        for command, output in known:
            with self.subTest(command):
                self.assertEqual(seen(self.answer(command)), seen(output))

    def test_each_command_of_the_page_on_many_orders(self):
        self.follow(MANY, 5)

    def test_each_command_of_the_page_prints_what_it_says(self):
        self.follow(PAGE, 15)
        for name in ('najran.html', 'najran-wall.pdf', 'najran-months.pdf'):
            self.assertGreater(os.path.getsize(self.path(name)), 10_000)

    def test_every_refusal_of_the_formats_is_in_the_table(self):
        page = read(PAGE)
        for detail in re.findall(r'^\| `([1-8] [a-z]+(?: [1-6])?)', read(os.path.join(TOP, 'docs/formats.md')), re.M):
            self.assertIn(detail, page)
