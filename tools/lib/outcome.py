"""What all tools share: how one stops, and what each says of itself."""
import argparse
import os
import sys

NO_PROOF = 'No proof trusts this tool: it is tested, not proved. Statuses: 0 done, 1 stopped or different, 2 wrong words.'
TOP = os.path.dirname(os.path.dirname(os.path.dirname(os.path.abspath(__file__))))


class Fault(Exception):
    """What stops a tool, as a line for its user."""


def words(text):
    """A parser whose help is a tool's own text."""
    return argparse.ArgumentParser(description=text, epilog=NO_PROOF,
                                   formatter_class=argparse.RawDescriptionHelpFormatter)


def run(main):
    """Runs a tool; its faults become one line and the status 1."""
    name = os.path.basename(sys.argv[0])
    try:
        status = main() or 0
        sys.stdout.flush()
    except Fault as fault:
        print(f'{name}: {fault}', file=sys.stderr)
        status = 1
    except BrokenPipeError:
        os.dup2(os.open(os.devnull, os.O_WRONLY), sys.stdout.fileno())
        status = 1
    except KeyboardInterrupt:
        status = 130
    sys.exit(status)


def note(text):
    """A line for the user beside the output."""
    print(text, file=sys.stderr)


def read_text(path):
    """A file's text, `-` being the standard input."""
    try:
        if path == '-':
            return sys.stdin.read()
        with open(path, encoding='utf-8-sig') as file:
            return file.read()
    except OSError as error:
        raise Fault(f'{path}: {error.strerror}')
    except UnicodeDecodeError:
        raise Fault(f'{path}: no text in UTF-8')


def write_text(path, text):
    """A file is written whole or not at all; `-` is the standard output."""
    if path == '-':
        sys.stdout.write(text)
        return
    write_bytes(path, text.encode())


def write_bytes(path, data):
    part = f'{path}.part'
    try:
        with open(part, 'wb') as file:
            file.write(data)
        os.replace(part, path)
    except OSError as error:
        raise Fault(f'{path}: {error.strerror}')
