"""What the tests of the tools share: the tools as commands, the program, a folder of a test's own."""
import importlib.util
import os
import shlex
import shutil
import subprocess
import tempfile
import unittest
import zoneinfo

TESTS = os.path.dirname(os.path.abspath(__file__))
TOOLS = os.path.dirname(TESTS)
TOP = os.path.dirname(TOOLS)
DATA = os.path.join(TESTS, 'data')
BUILT = [os.path.join(TOP, name) for name in ('built/timetable', 'crates/timetable_cli/out/timetable_cli')]
REFERENCE = 'python3 ' + shlex.quote(os.path.join(TOP, 'reference/timetable.py'))
PROGRAM = os.environ.get('TIMETABLE') or next((shlex.quote(path) for path in BUILT if os.access(path, os.X_OK)), REFERENCE)
os.environ['TIMETABLE'] = PROGRAM
# What the tools print is compared, also where the judge of borders is built.
os.environ.setdefault('TIMETABLE_BORDER', '')
SECONDS = 300


def example(name):
    return os.path.join(TOP, 'examples', name)


def data(name):
    return os.path.join(DATA, name)


def read(path):
    with open(path, encoding='utf-8') as file:
        return file.read()


def needs_module(module, package):
    return unittest.skipUnless(importlib.util.find_spec(module), f'{package} is missing')


def needs_command(command, package):
    return unittest.skipUnless(shutil.which(command) or shutil.which(command, path='/usr/sbin:/sbin'), f'{package} is missing')


def needs_zones():
    known = any(os.path.isfile(os.path.join(folder, 'Asia/Riyadh')) for folder in zoneinfo.TZPATH)
    return unittest.skipUnless(known, 'tzdata is missing')


class ToolTest(unittest.TestCase):
    """A test with a folder of its own, in which the tools run."""

    def setUp(self):
        self.folder = tempfile.mkdtemp(prefix='timetable-test-')
        self.addCleanup(shutil.rmtree, self.folder, ignore_errors=True)

    def path(self, name):
        return os.path.join(self.folder, name)

    def write(self, name, text):
        with open(self.path(name), 'w', encoding='utf-8') as file:
            file.write(text)
        return self.path(name)

    def run_tool(self, name, *words, text='', env=None):
        return subprocess.run([os.path.join(TOOLS, name), *words], input=text, capture_output=True, text=True, cwd=self.folder,
                              env={**os.environ, **(env or {})}, timeout=SECONDS)

    def done(self, name, *words, **more):
        """A tool that ends well: its output and what it told."""
        run = self.run_tool(name, *words, **more)
        self.assertEqual(run.returncode, 0, run.stderr + run.stdout)
        return run.stdout, run.stderr

    def stopped(self, said, name, *words, **more):
        """A tool that stops, with a word of its one line."""
        run = self.run_tool(name, *words, **more)
        self.assertEqual(run.returncode, 1, run.stderr + run.stdout)
        self.assertIn(said, run.stderr)
        self.assertTrue(run.stderr.strip().split('\n')[-1].startswith(f'{name}: '), run.stderr)
        return run.stdout

    def program(self, word, path):
        with open(path, 'rb') as file:
            run = subprocess.run(shlex.split(PROGRAM) + [word], stdin=file, capture_output=True, timeout=SECONDS)
        self.assertIn(run.returncode, (0, 1), run.stderr)
        return run.stdout.decode()
