"""Which files are of which monitor, and what can't be read together: a file of another daemon, two monitors of one name, two clusters."""
from __future__ import annotations

import os
import re
from collections import defaultdict
from typing import Iterator

from .lines import LINE, Line, PREFIXED, Reading, WHOLE, Window, in_place, lines_in, rows_of, time_of
from .monitor import Monitor

# How many rows of a file are read to find whose log it is.
READ = 50_000
OF_MONITOR = re.compile(rb'mon\.(\S+?)@-?\d+\(|starting mon\.(\S+) |log_channel\(cluster\) log \[INF\] : mon\.(\S+) calling monitor election')
OF_DAEMON = re.compile(rb'(?:starting )?((?:osd|mgr|mds|client)\.\S+?)[ ,@]')
# Two files of one monitor overlap by less than this, in microseconds.
OVERLAP = 1_000_000


class Refused(Exception):
    """The files can't be read, or not together, for this reason."""


def label(paths: list[str]) -> dict[str, str]:
    """A short name of each path: its last parts, as many as tell it from the others."""
    found = {}
    for path in paths:
        parts = os.path.abspath(path).split(os.sep)
        count = 1
        while any(other != path and os.path.abspath(other).split(os.sep)[-count:] == parts[-count:] for other in paths) and count < len(parts):
            count += 1
        found[path] = '/'.join(parts[-count:])
    return found


class File:
    """A file: the monitor whose log it is, or why it is none, and the time of its first line."""

    def __init__(self, path: str, name: str):
        self.path, self.name = path, name
        self.monitor: str | None = None
        self.daemon: str | None = None
        self.first: int | None = None
        self.look()

    def look(self):
        for number, row in enumerate(rows_of(self.path)):
            found = LINE.match(row) or PREFIXED.match(row)
            if found is not None:
                self.first = time_of(*found.groups()[:3]) if self.first is None else self.first
                if self.is_settled_by(found[6]):
                    return
            if number > READ:
                break
        if self.first is not None and self.daemon is None:
            # Nothing in the lines names a monitor: perhaps the file's name does, as with a rotated part that is short.
            of = re.search(r'mon\.([^/]+?)\.log', os.path.basename(self.path))
            self.monitor = of[1] if of else None

    def is_settled_by(self, text: bytes) -> bool:
        of = OF_MONITOR.match(text)
        if of:
            self.monitor = next(name for name in of.groups() if name).decode('utf-8', 'replace')
        elif self.daemon is None and (other := OF_DAEMON.match(text)):
            self.daemon = other[1].decode('utf-8', 'replace')
        return self.monitor is not None

    def why(self) -> str:
        """Why it is no log of a monitor."""
        if os.path.getsize(self.path) == 0:
            return f'{self.name} is empty'
        if self.first is None:
            return f'{self.name} is no log of Ceph'
        return f'{self.name} is the log of {self.daemon}, not of a monitor' if self.daemon else f'{self.name} names no monitor'


class Logs:
    """The logs of a quorum: the monitors, what was read of each file, and what was passed over."""

    def __init__(self, paths: list[str], window: Window = WHOLE):
        if not paths:
            raise Refused('no log is named')
        names = label(list(dict.fromkeys(paths)))
        files = [File(path, name) for path, name in names.items()]
        self.refused = [file.why() for file in files if file.monitor is None]
        self.readings: list[Reading] = []
        groups: dict[str, list[File]] = defaultdict(list)
        for file in files:
            if file.monitor is not None:
                groups[file.monitor].append(file)
        if not groups:
            raise Refused('; '.join(self.refused))
        self.monitors = [self.monitor(name, sorted(group, key=lambda file: file.first or 0), window) for name, group in sorted(groups.items())]
        self.one_cluster()

    def monitor(self, name: str, files: list[File], window: Window) -> Monitor:
        return Monitor(in_place(self.lines(name, files, window)), name)

    def lines(self, name: str, files: list[File], window: Window) -> Iterator[Line]:
        before: Reading | None = None
        for file in files:
            if before is not None and before.last is not None and file.first is not None and before.last > file.first + OVERLAP:
                raise Refused(f'{before.name} and {file.name} are both of mon.{name}, and their times overlap: they are copies of one log, or of two monitors '
                              f'of one name')
            reading = Reading(file.name)
            self.readings.append(reading)
            yield from lines_in(file.path, file.name, reading, window)
            before = reading if reading.last is not None else before

    def one_cluster(self):
        seen: dict[str, str] = {}
        for monitor in self.monitors:
            for fsid, where in monitor.fsids.items():
                seen.setdefault(fsid, where)
        if len(seen) > 1:
            raise Refused('the logs are of two clusters: ' + ', '.join(f'fsid {fsid} ({where})' for fsid, where in seen.items()))
