"""The proved judge of borders: whether an order's district holds a border."""
import json
import os
import shlex
import subprocess

import geojson
from outcome import TOP, Fault

NEAR = [os.path.join(TOP, 'built/timetable-border'), os.path.normpath(os.path.join(TOP, '../../bin/timetable-border'))]
OWN = next((shlex.quote(path) for path in NEAR if os.access(path, os.X_OK)), '')
MOST_POSITIONS = 1_000_000

# What an order needs beside its district; the verdict doesn't depend on it.
ORDER = {'from': '2025-03-01', 'days': 1, 'method': 'makkah', 'asr': 'standard', 'zone': 180}


def program():
    return os.environ.get('TIMETABLE_BORDER', OWN)


def is_built():
    return bool(program())


def stop_unless_held(district, border):
    """Stops unless the judge says that the district holds the border; a border of too many positions is passed over."""
    if len(geojson.positions(border)) > MOST_POSITIONS:
        return
    order = json.dumps(ORDER)[:-1] + f', "district": {geojson.geometry_text(district)}}}'
    text = f'{{"order": {order}, "border": {geojson.geometry_text(border)}}}'
    ended = subprocess.run(shlex.split(program()), input=text.encode(), capture_output=True)
    said = (ended.stdout + ended.stderr).decode(errors='replace').strip()
    if ended.returncode != 0 or said != 'holds':
        raise Fault(f'the judge of borders: {said or "no answer"} (status {ended.returncode})')
