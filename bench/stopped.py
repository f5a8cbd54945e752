"""Computes what the commands on a stopped store write and read: reports and their comparison, exports, and the two dumps, as docs/FORMATS.md specifies
them. A map is a dictionary from pairs of a prefix and a key to values, all of them bytes, as store.py reads it."""
from __future__ import annotations

import hashlib
import re
import struct

from fields import MOST_NUMBER, At, Fields, changes_of
from store import OWN, number_at, size_of

MOST_SIZE, MOST_EXPORT, MOST_REPORTS = 268_435_456, 268_435_471, 4_096
PARTS = b'kv', b'logm', b'paxos'


class Full(Exception):
    """The map of an export is too large: it would have this size."""

    def __init__(self, would_be: int):
        super().__init__(would_be)
        self.would_be = would_be


# ---- exports

def entry(place: tuple[bytes, bytes], value: bytes) -> bytes:
    prefix, key = place
    return bytes([len(prefix)]) + prefix + bytes([len(key)]) + key + struct.pack('<I', len(value)) + value


def export_of(rank: int, monitors: int, kv: dict) -> bytes:
    entries = b''.join(entry(place, kv[place]) for place in sorted(kv))
    return b'CEPHEXP1' + bytes([rank, monitors, 0x80]) + struct.pack('<I', len(kv)) + entries


def read_export(octets: bytes) -> tuple[int, int, dict]:
    """The rank, the number of monitors and the map of an export. Raises At or Full if it is refused."""
    if len(octets) > MOST_EXPORT:
        raise At(MOST_EXPORT)
    fields = Fields(octets)
    fields.take(8, lambda field: field == b'CEPHEXP1')
    rank, monitors = fields.unsigned(1), fields.unsigned(1)
    if rank >= monitors:
        raise At(8)
    if monitors > 15:
        raise At(9)
    fields.take(1, lambda field: field == b'\x80')
    kv, before = {}, (b'', b'')
    for _ in range(fields.unsigned(4)):
        at = fields.at
        prefix = fields.word(32)
        if prefix < before[0]:
            raise At(at + 1)
        place = prefix, fields.word(255)
        if place <= before:
            raise At(at + 2 + len(prefix))
        kv[place], before = fields.counted(), place
    fields.end()
    if (size := size_of(kv)) > MOST_SIZE:
        raise Full(size)
    return rank, monitors, kv


# ---- reports

def report_of(rank: int, monitors: int, kv: dict) -> bytes:
    last = number_at(kv, b'paxos', b'last_committed')
    own = {(b'paxos', key) for key in (*OWN, b'last_committed', b'%d' % (last + 1))}
    lines = [b'scrub rank=%d monitors=%d last=%d marked=%d\n' % (rank, monitors, last, (b'mon_sync', b'in_sync') in kv)]
    for part in PARTS:
        texts = [entry(place, kv[place]) for place in sorted(kv) if place[0] == part and place not in own]
        lines.append(b'%s keys=%d sha256=%s\n' % (part, len(texts), hashlib.sha256(b''.join(texts)).hexdigest().encode()))
    return b''.join(lines)


DECIMAL = rb'(0|[1-9][0-9]*)'
FIRST = re.compile(rb'scrub rank=' + DECIMAL + rb' monitors=' + DECIMAL + rb' last=' + DECIMAL + rb' marked=([01])')
PART = {part: re.compile(part + rb' keys=' + DECIMAL + rb' sha256=([0-9a-f]{64})') for part in PARTS}


def line_of(number: int, line: bytes):
    """The fields of a report's line, or None if the line is faulty. Lines 0 and 4 begin the two reports."""
    if number % 4 == 0:
        found = FIRST.fullmatch(line)
        fields = found and [int(field) for field in found.groups()]
        return fields if fields and fields[0] < fields[1] <= 15 and fields[2] <= MOST_NUMBER else None
    found = PART[PARTS[number % 4 - 1]].fullmatch(line)
    return found.groups() if found and int(found[1]) < 2**32 else None


def compared(octets: bytes) -> tuple[int | None, bytes]:
    """The line at which the bytes are refused as two reports, or None; and the text of their comparison."""
    if len(octets) > MOST_REPORTS:
        return 0, b''
    *lines, rest = octets.split(b'\n')
    fields = []
    for number in range(8):
        fields.append(line_of(number, lines[number]) if number < len(lines) else None)
        if fields[-1] is None:
            return number + 1, b''
    if lines[8:] or rest:
        return 9, b''
    (_, monitors, last, marked), (_, others, other_last, other_marked) = fields[0], fields[4]
    if monitors != others:
        return None, b'monitors differ %d %d\n' % (monitors, others)
    if marked or other_marked:
        return None, b'marked %d %d\n' % (marked, other_marked)
    if last != other_last:
        return None, b'last differ %d %d\n' % (last, other_last)
    differing = [b'mismatch %s keys=%s,%s sha256=%s,%s\n' % (part, a[0], b[0], a[1], b[1])
                 for part, a, b in zip(PARTS, fields[1:4], fields[5:8]) if a != b]
    return None, b''.join(differing) + b'end mismatches=%d\n' % len(differing)


# ---- dumps

def keys_of(kv: dict) -> bytes:
    return b''.join(b'%s / %s\n' % place for place in sorted(kv))


def lines_of(version: int, value: bytes) -> bytes:
    """A version, and one line per change of its value, or `none` if the value isn't a transaction."""
    try:
        changes = changes_of(value)
    except At:
        return b'%d none\n' % version
    return b'%d %d\n' % (version, len(changes)) + b''.join(line_of_change(*change) for change in changes)


def line_of_change(kind: str, prefix: bytes, *more) -> bytes:
    if kind == 'Put':
        return b'  put %s %s %d\n' % (prefix, more[0], len(more[1]))
    if kind == 'Erase':
        return b'  erase %s %s\n' % (prefix, more[0])
    if kind == 'ErasePrefix':
        return b'  erase-prefix %s\n' % prefix
    return b'  erase-range %s %d %d\n' % (prefix, *more)


def versions_of(kv: dict, first: int, end: int) -> bytes:
    """The versions from `first` to `end`, and the changes of each."""
    last = min(end, number_at(kv, b'paxos', b'last_committed'))
    kept = sorted(int(key) for prefix, key in kv if prefix == b'paxos' and re.fullmatch(DECIMAL, key) and first <= int(key) <= last)
    return b''.join(lines_of(version, kv[b'paxos', b'%d' % version]) for version in kept)
