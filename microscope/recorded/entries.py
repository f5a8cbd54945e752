"""Reads the files of a record: what a monitor was given and what it sent, as docs/FORMATS.md specifies them."""
from __future__ import annotations

import struct
from typing import Iterator, NamedTuple

FAMILY, VERSION = b'CEPHREC', b'1'
MAGIC = FAMILY + VERSION
HEAD = struct.Struct('<BBIQI')
BEGINNING = struct.Struct('<8sBBBHQQQQ')
READ, CAME, IDLE, CLOSED, DEAF, FULL, SENT, LOST, UNSENT, GAP, END, BEGIN, DISK = range(1, 14)
RECEIVED = frozenset((CAME, IDLE, CLOSED, DEAF, FULL))
ASKED = frozenset((SENT, LOST, UNSENT))
PARTIES = {1: 'monitor', 2: 'client'}


class Faulty(Exception):
    """The records can't be merged, for this reason."""


class Entry(NamedTuple):
    """An entry: its kind, a peer, a number, the bytes that it counts, and its offset in the file."""
    kind: int
    party: int
    who: int
    number: int
    octets: bytes
    at: int


class Disk(NamedTuple):
    """What a disk's file held: its length, and its bytes without the zeros at its end; None if they weren't recorded."""
    length: int
    octets: bytes | None


class Beginning(NamedTuple):
    """The monitor of a file, its quorum, and which file of which life it is."""
    rank: int
    monitors: int
    rule: str
    part: int
    life: int
    tag: int
    time: int


class Segment(NamedTuple):
    """The entries of one life in one file, in order."""
    path: str
    begin: Beginning
    disks: dict[int, Disk]
    entries: list[Entry]
    # Whether bytes follow that are no entry, or an entry that is cut.
    is_cut: bool


def rule_of(kind: int, ranks: int) -> str:
    name = ('classic', 'disallow', 'connectivity')[kind]
    members = ','.join(str(rank) for rank in range(15) if ranks >> rank & 1)
    return f'{name}={members}' if members else name


def beginning_of(octets: bytes) -> Beginning | None:
    """The beginning that these bytes say, or None if they have another form."""
    if len(octets) != BEGINNING.size:
        return None
    magic, rank, monitors, rule, ranks, part, life, tag, time = BEGINNING.unpack(octets)
    if magic != MAGIC or not 1 <= monitors <= 15 or rank >= monitors or rule > 2:
        return None
    return Beginning(rank, monitors, rule_of(rule, ranks), part, life, tag, time)


def next_beginning(octets: bytes, at: int) -> int:
    """The offset of the next beginning's entry from an offset on, or the length of the file."""
    place = octets.find(MAGIC, at + HEAD.size)
    while place >= 0:
        kind, _party, _who, _number, length = HEAD.unpack_from(octets, place - HEAD.size)
        if kind == BEGIN and beginning_of(octets[place:place + length]):
            return place - HEAD.size
        place = octets.find(MAGIC, place + 1)
    return len(octets)


def other_version(octets: bytes) -> str | None:
    """The version of a record that this module doesn't read, or None if the bytes don't begin like one."""
    family = octets[HEAD.size:HEAD.size + len(FAMILY)]
    version = octets[HEAD.size + len(FAMILY):HEAD.size + len(MAGIC)]
    return version.decode('latin-1') if octets[:1] == bytes([BEGIN]) and family == FAMILY and version != VERSION else None


def entry_at(octets: bytes, at: int, end: int) -> Entry | None:
    """The entry at an offset, or None if it isn't whole before the end, or has no such form."""
    if at + HEAD.size > end:
        return None
    kind, party, who, number, length = HEAD.unpack_from(octets, at)
    has_peer = kind == CAME or kind in ASKED
    if not READ <= kind <= DISK or (party not in PARTIES if has_peer else party > 2) or at + HEAD.size + length > end:
        return None
    return Entry(kind, party, who, number, octets[at + HEAD.size:at + HEAD.size + length], at)


def disk_of(entry: Entry) -> Disk:
    return Disk(entry.number, None if entry.number and not entry.octets else entry.octets)


def segments(path: str, octets: bytes) -> Iterator[Segment]:
    """The segments of a file. What comes before the first beginning, or after a cut entry, isn't read."""
    at = next_beginning(octets, 0)
    while at < len(octets):
        begin, end = entry_at(octets, at, len(octets)), next_beginning(octets, at + 1)
        disks, entries = {}, []
        at += HEAD.size + len(begin.octets)
        while (entry := entry_at(octets, at, end)) and entry.kind != BEGIN:
            if entry.kind == DISK:
                disks[entry.party] = disk_of(entry)
            else:
                entries.append(entry)
            at += HEAD.size + len(entry.octets)
        yield Segment(path, beginning_of(begin.octets), disks, entries, at < end)
        at = end
