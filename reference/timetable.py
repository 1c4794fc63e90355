#!/usr/bin/env python3
"""The reference program: python3 reference/timetable.py WORDS, with the words, streams and statuses of docs/formats.md."""
import os
import sys

sys.path.insert(0, os.path.dirname(os.path.abspath(__file__)))

import top


class StdSource:
    def read(self, size):
        try:
            return os.read(0, size)
        except OSError:
            return None


class StdSink:
    def __init__(self, number):
        self.number = number

    def write(self, data):
        try:
            return os.write(self.number, data) or None
        except OSError:
            return None


def main():
    sys.exit(top.run(sys.argv[1:], StdSource(), StdSink(1), StdSink(2)))


main()
