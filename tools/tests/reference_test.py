"""The reference program: the example tables, a covering and its check, and the comparisons of compare/ in small."""
import os
import shlex
import subprocess
import sys
import unittest

from common import PROGRAM, REFERENCE, SECONDS, TOP, ToolTest, example, read


class ReferenceTest(ToolTest):
    def answer(self, word, data):
        run = subprocess.run(shlex.split(REFERENCE) + [word], input=data.encode(), capture_output=True, timeout=SECONDS)
        self.assertEqual((run.returncode, run.stderr), (0, b''))
        return run.stdout.decode()

    def test_it_writes_the_tables_of_the_examples(self):
        for name in ('bahrain', 'qina-hole'):
            self.assertEqual(self.answer('plain', read(example(name + '.json'))), read(example(name + '.txt')))

    def test_its_covering_is_checked_to_the_same_table(self):
        covering = self.answer('cover', read(example('qina-hole.json')))
        self.assertEqual(self.answer('check', covering), read(example('qina-hole.txt')))

    @unittest.skipIf(PROGRAM == REFERENCE, 'the program is not built: it is not compared with the reference')
    def test_the_program_answers_alike(self):
        for script, count in (('orders.py', '25'), ('sun_lines.py', '25')):
            run = subprocess.run([sys.executable, os.path.join(TOP, 'compare', script), count, PROGRAM], capture_output=True,
                                 text=True, timeout=SECONDS)
            self.assertEqual(run.returncode, 0, run.stdout[-2000:] + run.stderr[-2000:])
            self.assertIn(' 0 different\n', run.stdout)
