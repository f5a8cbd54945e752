"""The lines of a log of ceph-mon: plain or gzip, from a file of Ceph or from the journal, cut anywhere. What isn't a line of a log is counted and passed over."""
from __future__ import annotations

import collections
import datetime
import gzip
import os
import re
import sys
import time
import zlib
from dataclasses import dataclass, field
from typing import BinaryIO, Iterable, Iterator, NamedTuple

SECOND = 1_000_000
BLOCK = 1 << 20
# The most bytes of a line that are read; the rest is passed over.
LONGEST = 1 << 16
# How many lines wait until they are read, so that the lines of a dump, which are older, find their place.
WAITING = 12_000

# 2026-11-30T17:47:17.463493+0000 7fd3640 10 text. Before Octopus there were no T and no zone.
TIME = rb'(\d{4}-\d\d-\d\d[T ]\d\d:\d\d:\d\d)[.,](\d{1,9})(Z|[+-]\d\d:?\d\d)?'
LINE = re.compile(TIME + rb' ([0-9a-f]{6,16}) +(-?\d+) (.*)', re.DOTALL)
# In the dump that a crash leaves, "   -12> " is before a line; in the journal, a time, a host and a process; in a container, "debug ".
BEFORE = rb'(?:\s*-\d+> |(?:[A-Z][a-z]{2} [ \d]\d [\d:.]{8,15}|\d{4}-\d\d-\d\dT[\d:.,+Z-]+) \S+ \S+: )?(?:debug +)?'
PREFIXED = re.compile(BEFORE + TIME + rb' ([0-9a-f]{6,16}) +(-?\d+) (.*)', re.DOTALL)
DUMPED = re.compile(rb'\s*-\d+> ')
# The beginnings of texts that some pattern may know.
BEGINS = (b'mon.', b'paxos.', b'-- ', b'ceph version', b'received ', b'log_channel(cluster)', b'starting ', b'*** ')


class Line(NamedTuple):
    """A line: its file, its number there, its time in microseconds since 1970 by its host's clock, and what was written."""
    file: str
    number: int
    at: int
    thread: str
    level: int
    text: str

    @property
    def where(self) -> str:
        return f'{self.file}:{self.number}'


class Window(NamedTuple):
    """The times that are read, in microseconds since 1970."""
    begin: int
    end: int

    def has(self, moment: int) -> bool:
        return self.begin <= moment <= self.end


WHOLE = Window(0, 1 << 62)


@dataclass
class Reading:
    """What was read of a file: its lines, those that aren't lines of a log, those of a log that no pattern begins, and where its clock went back."""
    name: str
    lines: int = 0
    foreign: int = 0
    skipped: int = 0
    is_cut: bool = False
    first: int | None = None
    last: int | None = None
    jumps: list[tuple[str, float]] = field(default_factory=list)


SECONDS: dict[tuple[bytes, bytes], int] = {}


def time_of(clock: bytes, part: bytes, zone: bytes | None) -> int:
    """A time of a log in microseconds since 1970. A time without a zone counts as one of UTC."""
    key = clock, zone or b''
    found = SECONDS.get(key)
    if found is None:
        if len(SECONDS) > 10_000:
            SECONDS.clear()
        shift = 0
        if zone and zone != b'Z':
            digits = zone[1:].replace(b':', b'')
            shift = (int(digits[:2]) * 60 + int(digits[2:])) * (60 if zone[:1] == b'+' else -60)
        moment = datetime.datetime.fromisoformat(clock.decode().replace('T', ' ')).replace(tzinfo=datetime.timezone.utc)
        found = SECONDS[key] = (int(moment.timestamp()) - shift) * SECOND
    return found + int((part + b'00000')[:6])


def opened(path: str) -> BinaryIO:
    file = open(path, 'rb')
    is_zipped = file.read(2) == b'\x1f\x8b'
    file.seek(0)
    return gzip.GzipFile(fileobj=file) if is_zipped else file  # type: ignore[return-value]


def rows_of(path: str, reading: Reading | None = None) -> Iterator[bytes]:
    """The rows of a file without their ends, in memory that doesn't depend on the file's size or on its longest row."""
    rest, is_long = b'', False
    progress = Progress(path)
    with opened(path) as file:
        while True:
            try:
                block = file.read1(BLOCK)  # of a zipped file that is cut, this has all that can be read
            except (EOFError, OSError, zlib.error):
                block = b''
                if reading is not None:
                    reading.is_cut = True
            if not block:
                break
            progress.show(file)
            rows = block.split(b'\n')
            rows[0], rest = rest + rows[0], b''
            if len(rows) == 1:
                rest = rows[0][:LONGEST]
                continue
            rest = rows.pop()[:LONGEST]
            yield from rows
    progress.end()
    if rest:
        yield rest


class Progress:
    """How much of a file was read, on standard error if that is a terminal."""

    def __init__(self, path: str):
        self.name, self.size, self.said = os.path.basename(path), os.path.getsize(path), time.monotonic()
        self.is_shown = False

    def show(self, file: BinaryIO):
        if sys.stderr.isatty() and time.monotonic() > self.said + 0.5:
            self.said, self.is_shown = time.monotonic(), True
            raw = getattr(file, 'fileobj', file)
            print(f'\r{self.name}: {100 * raw.tell() // max(1, self.size)} %', end='', file=sys.stderr, flush=True)

    def end(self):
        if self.is_shown:
            print('\r' + ' ' * (len(self.name) + 8) + '\r', end='', file=sys.stderr, flush=True)


def lines_in(path: str, name: str, reading: Reading, window: Window = WHOLE) -> Iterator[Line]:
    """The lines of a file within a window that some pattern may know."""
    match, prefixed, newest, begins = LINE.match, PREFIXED.match, 0, BEGINS
    number = foreign = skipped = 0
    for number, row in enumerate(rows_of(path, reading), 1):
        found = match(row) or prefixed(row)
        if found is None:
            foreign += 1
            continue
        clock, part, zone, thread, level, text = found.groups()
        if not text.startswith(begins):
            skipped += 1
            continue
        at = time_of(clock, part, zone)
        if reading.first is None:
            reading.first = at
        is_dumped = row[:1] == b' ' and DUMPED.match(row) is not None
        if at < newest - SECOND and not is_dumped:
            reading.jumps.append((f'{name}:{number}', (newest - at) / SECOND))
            newest = at
        newest = reading.last = max(newest, at)
        if window.begin <= at <= window.end:
            yield Line(name, -number if is_dumped else number, at, thread.decode(), int(level), text[:LONGEST].decode('utf-8', 'replace').rstrip('\r'))
    reading.lines, reading.foreign, reading.skipped = number, foreign, skipped


def in_place(lines: Iterable[Line]) -> Iterator[Line]:
    """Lines with those of dumps at their places. A line that a dump repeats counts once."""
    waiting: collections.deque[Line] = collections.deque()
    dump: list[Line] = []

    def merged():
        known = {(line.at, line.thread, line.text) for line in waiting}
        new = [line._replace(number=-line.number) for line in dump if (line.at, line.thread, line.text) not in known]
        dump.clear()
        if new:
            ordered = sorted([*waiting, *new], key=lambda line: line.at)
            waiting.clear()
            waiting.extend(ordered)

    for line in lines:
        if line.number < 0:
            dump.append(line)
            continue
        if dump:
            merged()
        waiting.append(line)
        if len(waiting) > WAITING:
            yield waiting.popleft()
    merged()
    yield from waiting
