"""The program `timetable`, as a command of the user's choice."""
import os
import shlex
import subprocess

from outcome import TOP, Fault

# The script of the repository, or the program that was installed with the tools: PREFIX/bin beside PREFIX/share/timetable.
NEAR = [os.path.join(TOP, 'timetable'), os.path.normpath(os.path.join(TOP, '../../bin/timetable'))]
OWN = next((shlex.quote(path) for path in NEAR if os.access(path, os.X_OK) and os.path.isfile(path)), 'timetable')


def add_option(parser):
    parser.add_argument('--program', default=os.environ.get('TIMETABLE', OWN), metavar='COMMAND',
                        help='the program; else $TIMETABLE, else the one of this repository, else the one installed')


def answer(command, words, text=b''):
    """The output of the program; its status is 0 or 1 (something undecided), and any other stops with its own line."""
    try:
        run = subprocess.run(shlex.split(command) + words, input=text, capture_output=True)
    except OSError as error:
        raise Fault(f'{command}: {error.strerror}')
    if run.returncode not in (0, 1):
        said = run.stderr.decode(errors='replace').strip().split('\n')[-1]
        raise Fault(f'{command} {words[0]}: {said or "no answer"} (status {run.returncode})')
    return run.stdout.decode()
