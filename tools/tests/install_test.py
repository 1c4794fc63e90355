"""What `make install` copies: the tools that stand there find the program that was installed with them."""
import os
import subprocess
import unittest

from common import TOP, ToolTest, example, needs_command, read

BUILT = os.path.join(TOP, 'built/timetable')


class InstallTest(ToolTest):
    def installed(self, name, *words):
        environment = {name: value for name, value in os.environ.items() if name != 'TIMETABLE'}
        return subprocess.run([self.path(f'there/share/timetable/tools/{name}'), *words], capture_output=True, text=True,
                              cwd=self.folder, env=environment)

    @unittest.skipUnless(os.access(BUILT, os.X_OK), 'the program is not built: nothing is installed')
    @needs_command('make', 'make')
    @needs_command('parallel', 'parallel')
    def test_installed_tools_find_the_program(self):
        subprocess.run(['make', '-s', '-C', TOP, 'install', f'PREFIX={self.path("there")}'], check=True, capture_output=True)
        self.assertTrue(os.path.isfile(self.path('there/share/man/man1/timetable.1')))
        run = self.installed('why', example('najran.json'), example('najran.txt'), '--date', '2025-07-12', '--column', 'magh')
        self.assertEqual((run.returncode, run.stderr), (0, ''))
        os.mkdir(self.path('orders'))
        self.write('orders/q.json', read(example('qina-hole.json')))
        run = self.installed('many', 'orders', 'tables')
        self.assertEqual(run.returncode, 0, run.stderr)
        self.assertEqual(read(self.path('tables/q.txt')), read(example('qina-hole.txt')))
