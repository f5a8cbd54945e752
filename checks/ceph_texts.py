"""The stored logs of real monitors, and how checks change and read them."""
from __future__ import annotations

import functools
import glob
import gzip
import os
import subprocess
import sys
import tempfile
from typing import Iterator

from checking import TOP

LOGS = os.path.join(TOP, 'checks', 'ceph_logs')
TOOL = os.path.join(TOP, 'microscope', 'ceph')
WORDS = ('story', 'diagnose', 'judge', 'compare')


def prepare():
    """Makes the modules of the microscope importable."""
    sys.path.insert(0, os.path.join(TOP, 'microscope'))


def scenarios() -> list[str]:
    return sorted(os.path.basename(path) for path in glob.glob(os.path.join(LOGS, '*')) if os.path.isdir(path))


def paths(scenario: str) -> list[str]:
    return sorted(glob.glob(os.path.join(LOGS, scenario, 'mon.?.log.gz')))


def texts(scenario: str) -> dict[str, str]:
    """The logs of a scenario by the monitors' names."""
    found = {}
    for path in paths(scenario):
        with gzip.open(path, 'rt', encoding='utf-8', errors='replace') as file:
            found[os.path.basename(path)[4]] = file.read()
    return found


def put(folder: str, files: dict[str, str | bytes]) -> list[str]:
    """Writes files into a folder of their own below a folder; one whose name ends with .gz is zipped."""
    top, found = tempfile.mkdtemp(dir=folder), []
    for name, text in files.items():
        octets = text.encode() if isinstance(text, str) else text
        path = os.path.join(top, name)
        os.makedirs(os.path.dirname(path), exist_ok=True)
        with open(path, 'wb') as file:
            file.write(gzip.compress(octets, 1) if name.endswith('.gz') else octets)
        found.append(path)
    return found


def logs(found: dict[str, str]) -> dict[str, str]:
    return {f'mon.{name}.log': text for name, text in found.items()}


@functools.lru_cache(maxsize=1)
def quorum(scenario: str):
    """The stored logs of a scenario, read once for all that is said of them."""
    from ceph_log.quorum import Quorum
    return Quorum(paths(scenario))


def said(scenario: str, word: str) -> bytes:
    """What is said of a scenario's logs: the status, what was read, and the lines."""
    from ceph_log.answers import ANSWERS, Asked
    from ceph_log.levels import head
    q = quorum(scenario)
    status, lines = ANSWERS[word](q, Asked())
    return '\n'.join([f'status {status}', *head(q), *lines, '']).encode()


def told(word: str, files: list[str], *more: str) -> tuple[int, str, str]:
    """What the command says."""
    done = subprocess.run([TOOL, word, *more, *files], stdout=subprocess.PIPE, stderr=subprocess.PIPE, timeout=600)
    return done.returncode, done.stdout.decode(), done.stderr.decode()


def leaders(files: list[str]) -> list[tuple[int, str]]:
    """The epochs and names of those that won."""
    from ceph_log.quorum import Quorum
    q = Quorum(files)
    return [(event.after.epoch, q.names[event.rank]) for event in q.events if event.has('win')]


def lines(scenario: str) -> Iterator[str]:
    for text in texts(scenario).values():
        yield from text.splitlines()
