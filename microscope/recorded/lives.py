"""The lives of monitors: what each iteration was given, and what it sent."""
from __future__ import annotations

import struct
from typing import Iterable, Iterator, NamedTuple

from recorded.entries import ASKED, CAME, END, GAP, PARTIES, READ, RECEIVED, Beginning, Disk, Entry, Segment

PIECE_MARK, PIECE_HEADER = 2, struct.Struct('<BxxxQQII')
REQUEST = 24
# What may follow the reading of an iteration in which a timer fired. After any other end of the record it may have asked the link.
AFTER_A_TIMER = frozenset((READ, END)) | ASKED
# The form of a message, its kind, and its sender's rank and number of monitors.
FRONT = struct.Struct('<BBBB')


class Message(NamedTuple):
    """A whole message to or from a peer: `monitor` or `client`, its rank or number, and the bytes."""
    party: str
    who: int
    octets: bytes


class Step(NamedTuple):
    """An input of a monitor, the time of its clock, and what it sent then. `came` is None for a start and a timer."""
    kind: str
    time: int
    came: Message | None
    sent: list[Message]
    # The offset of its first entry, and whether the record ends within it, so that it may not have been taken.
    at: int
    is_last: bool


class Life(NamedTuple):
    """A life of a monitor, as far as it is recorded."""
    begin: Beginning
    disks: dict[int, Disk]
    steps: list[Step]
    # The status with which it ended, or None if it was killed or the record is cut.
    status: int | None
    # Why steps are missing at its end, or None; and whether the record ends within an entry.
    lack: str | None
    is_cut: bool
    # The messages to monitors that are recorded, by receiver and bytes, wherever the record begins.
    sent: frozenset[tuple[int, bytes]]

    def time(self, step: Step) -> int:
        """The time of day of a step."""
        return self.begin.time + step.time - self.steps[0].time


class Pieces:
    """Joins the pieces of long messages."""

    def __init__(self) -> None:
        self.parts: dict[tuple, dict[int, bytes]] = {}

    def take(self, party: str, who: int, datagram: bytes) -> Message | None:
        """The message that is whole with this datagram, if one is."""
        if datagram[:1] != bytes([PIECE_MARK]) or len(datagram) < PIECE_HEADER.size:
            return Message(party, who, datagram)
        _mark, boot, seq, total, place = PIECE_HEADER.unpack_from(datagram)
        key = party, who, boot, seq, total
        parts = self.parts.setdefault(key, {})
        parts[place] = datagram[PIECE_HEADER.size:]
        if sum(map(len, parts.values())) < total:
            return None
        del self.parts[key]
        return Message(party, who, b''.join(parts[place] for place in sorted(parts)))


def is_input(message: Message, monitors: int) -> bool:
    """Whether a monitor of a quorum of this size takes a message."""
    if len(message.octets) < FRONT.size:
        return False
    form, kind, sender, count = FRONT.unpack_from(message.octets)
    if form != 1 or count != monitors:
        return False
    return kind == REQUEST if message.party == 'client' else sender == message.who and kind < REQUEST


class Iterations:
    """Reads the iterations of a life from its entries. Each begins with a reading of the clock."""

    def __init__(self, entries: list[Entry], monitors: int):
        self.entries, self.monitors, self.place = entries, monitors, 0
        self.arrivals, self.sendings = Pieces(), Pieces()
        self.lack: str | None = None
        self.status: int | None = None

    def is_here(self, kinds: Iterable[int]) -> bool:
        """Whether the next entry is of one of these kinds."""
        return self.place < len(self.entries) and self.entries[self.place].kind in kinds

    def here(self, kinds: Iterable[int]) -> Entry | None:
        """The next entry, if it is of one of these kinds. It is passed."""
        if not self.is_here(kinds):
            return None
        self.place += 1
        return self.entries[self.place - 1]

    def sent(self) -> list[Message]:
        """The whole messages that are sent next."""
        found = []
        while entry := self.here(ASKED):
            if message := self.sendings.take(PARTIES[entry.party], entry.who, entry.octets):
                found.append(message)
        return found

    def is_done(self) -> bool:
        """Whether nothing follows, or nothing that can be read."""
        if gap := self.here((GAP,)):
            self.lack = f'{gap.number} entries are missing at {gap.at}'
        elif end := self.here((END,)):
            self.status = end.number
        return self.place >= len(self.entries) or self.lack is not None

    def step(self, kind: str, time: int, came: Message | None, at: int) -> Step:
        sent = self.sent()
        return Step(kind, time, came, sent, at, self.is_done())

    def steps(self) -> Iterator[Step]:
        """The inputs. An iteration in which nothing came that is one is left out."""
        first, kind = True, 'start'
        while not self.is_done():
            began = self.here((READ,))
            if began is None:
                self.lack = f'an entry of kind {self.entries[self.place].kind} at {self.entries[self.place].at} belongs to no iteration'
                return
            if first:
                first = False
                yield self.step(kind, began.number, None, began.at)
            elif received := self.here(RECEIVED):
                if received.kind == CAME:
                    yield from self.arrival(began, received)
            elif self.is_here(AFTER_A_TIMER):
                yield self.step('timer', began.number, None, began.at)

    def arrival(self, began: Entry, received: Entry) -> Iterator[Step]:
        later = self.here((READ,))
        message = self.arrivals.take(PARTIES[received.party], received.who, received.octets)
        if message and is_input(message, self.monitors):
            yield self.step('came', (later or began).number, message, began.at)


def sent_in(entries: list[Entry]) -> Iterator[tuple[int, bytes]]:
    """The whole messages to monitors in some entries."""
    pieces = Pieces()
    for entry in entries:
        if entry.kind in ASKED and PARTIES[entry.party] == 'monitor':
            if message := pieces.take('monitor', entry.who, entry.octets):
                yield message.who, message.octets


def life_of(parts: list[Segment]) -> Life:
    """The life whose segments these are, in order."""
    begin = parts[0].begin
    entries: list[Entry] = []
    lack = None if begin.part == 0 else f'it begins with file {begin.part} of the life: what was remembered by then isn\'t recorded'
    for number, part in enumerate(parts):
        if part.begin.part != begin.part + number:
            lack = lack or f'file {begin.part + number} of the life is missing'
            break
        entries += part.entries
    reading = Iterations(entries, begin.monitors)
    steps = [] if begin.part else list(reading.steps())
    sent = frozenset(message for part in parts for message in sent_in(part.entries))
    return Life(begin, parts[0].disks, steps, reading.status, lack or reading.lack, any(part.is_cut for part in parts), sent)


def follows(part: Segment, other: Segment) -> bool:
    """Whether a segment is the one after another, in the next file of the same life."""
    return part.begin.life == other.begin.life and part.begin.part == other.begin.part + 1


def in_order(files: list[list[Segment]]) -> list[Segment]:
    """The segments of one monitor's files. Those of a file are in its order. A file goes before the one that its last life goes on in; otherwise the times of
    day decide."""
    left, found = sorted(files, key=lambda it: it[0].begin.time), []
    while left:
        at = next((at for at, file in enumerate(left) if not any(follows(file[0], other[-1]) for other in left)), 0)
        found += left.pop(at)
        while (at := next((at for at, file in enumerate(left) if follows(file[0], found[-1])), None)) is not None:
            found += left.pop(at)
    return found


def lives(files: list[list[Segment]]) -> list[Life]:
    """The lives of the monitor whose files these are, oldest first."""
    by_life: dict[int, list[Segment]] = {}
    for segment in in_order(files):
        by_life.setdefault(segment.begin.life, []).append(segment)
    return [life_of(parts) for parts in by_life.values()]
