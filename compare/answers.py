"""What the comparisons of a program with a reference share: their words, and what a command answers."""
import os
import random
import shlex
import subprocess
import sys

TOP = os.path.dirname(os.path.dirname(os.path.abspath(__file__)))
OWN = [shlex.quote(os.path.join(TOP, 'timetable')), 'python3 ' + shlex.quote(os.path.join(TOP, 'reference/timetable.py')), '1']


def words_given(usage):
    """COUNT, and PROGRAM, REFERENCE and a draw that begins at SEED, or what stands for them."""
    given = sys.argv[1:]
    if not 1 <= len(given) <= 4 or not given[0].isdigit():
        sys.exit(usage)
    program, reference, seed = given[1:] + OWN[len(given) - 1:]
    return int(given[0]), program, reference, random.Random(int(seed))


def answer(command, words, text=b''):
    """The status, the output and the error stream of a command with more words, on an input."""
    run = subprocess.run(shlex.split(command) + words, input=text, capture_output=True)
    return run.returncode, run.stdout, run.stderr
