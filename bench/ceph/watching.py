"""The logs of monitors, read while they are written; how late this process wakes up; and what the store of a stopped monitor has."""
from __future__ import annotations

import datetime
import os
import re
import struct
import subprocess
import threading
import time
from typing import NamedTuple

from monitors import Late, Monitors

VERSIONS = re.compile(rb'paxos\(paxos \S+ c (\d+)\.\.(\d+)\)')
# The bytes at a log's end in which the last versions are looked for.
TAIL = 60_000
NUMBERS = 'first_committed', 'last_committed', 'last_pn', 'accepted_pn', 'pending_v', 'pending_pn'


class Line(NamedTuple):
    """A line of a log, and the place after it."""
    text: str
    end: int

    def time(self) -> float:
        return datetime.datetime.strptime(self.text.split(' ', 1)[0], '%Y-%m-%dT%H:%M:%S.%f%z').timestamp()


class Logs:
    """The logs of a quorum. A *place* is a number of bytes from a log's beginning."""

    def __init__(self, q: Monitors):
        self.q = q

    def path(self, name: str) -> str:
        return self.q.path(f'mon.{name}.log')

    def place(self, name: str) -> int:
        """The place at which the log now ends."""
        return os.path.getsize(self.path(name)) if os.path.exists(self.path(name)) else 0

    def read(self, name: str, since: int) -> bytes:
        if not os.path.exists(self.path(name)):
            return b''
        with open(self.path(name), 'rb') as file:
            file.seek(max(0, since))
            return file.read()

    def until(self, name: str, *texts: str, since: int = 0, seconds: float = 30, unless: str = '') -> Line:
        """Waits for a line that was written after a place and has all the texts. Raises Late if none comes, or if one with `unless` comes before it."""
        end, place, rest = time.monotonic() + seconds, since, b''
        while time.monotonic() < end:
            new = self.read(name, place)
            place += len(new)
            *rows, rest = (rest + new).split(b'\n')
            after = place - len(rest) - sum(len(row) + 1 for row in rows)
            for row in rows:
                after += len(row) + 1
                line = row.decode('utf-8', 'replace')
                if all(text in line for text in texts):
                    self.q.note(f'log of {name}: {line[11:200]}')
                    return Line(line, after)
                if unless and unless in line:
                    raise Late(f'the log of {name} has {line[:200]!r}')
            if not new:
                time.sleep(0.0005)
        raise Late(f'the log of {name} has no line with {" and ".join(texts)} in {seconds} s')

    def versions(self, name: str) -> tuple[int, int]:
        """The first and the last version that a monitor's last lines show."""
        found = VERSIONS.findall(self.read(name, self.place(name) - TAIL))
        return (int(found[-1][0]), int(found[-1][1])) if found else (0, 0)

    def lines(self, name: str, since: int) -> list[str]:
        return self.read(name, since).decode('utf-8', 'replace').splitlines()


class Delays(threading.Thread):
    """Measures how much later than asked this process wakes up, which says how busy the machine is."""

    def __init__(self):
        super().__init__(daemon=True)
        self.worst, self.is_on = 0.0, True

    def run(self):
        while self.is_on:
            begun = time.monotonic()
            time.sleep(0.02)
            self.worst = max(self.worst, time.monotonic() - begun - 0.02)

    def end(self) -> float:
        """The longest delay, in seconds."""
        self.is_on = False
        self.join(5)
        return self.worst


def value(q: Monitors, name: str, key: str) -> bytes | None:
    """What a stopped monitor's store has at a key of the prefix paxos."""
    out = q.path(f'out.{name}')
    if os.path.exists(out):
        os.remove(out)
    subprocess.run([*q.program('ceph-kvstore-tool'), 'rocksdb', q.path(f'mon.{name}', 'store.db'), 'get', 'paxos', key, 'out', out],
                   stdout=subprocess.DEVNULL, stderr=subprocess.DEVNULL, timeout=120)
    if not os.path.exists(out):
        return None
    with open(out, 'rb') as file:
        return file.read()


def numbers(q: Monitors, names: str) -> dict[str, dict[str, int]]:
    """The numbers in the stores of stopped monitors, by name. A number that isn't there is 0."""
    found = {}
    for name in names:
        octets = {key: value(q, name, key) or bytes(8) for key in NUMBERS}
        found[name] = {key: struct.unpack('<Q', it)[0] for key, it in octets.items()}
        q.note(f'store of {name}: {found[name]}')
    return found
