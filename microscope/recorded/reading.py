"""Reads the records of a quorum's monitors, and says what became of them."""
from __future__ import annotations

import os
from typing import Iterator

from fields import At
from recorded.disks import Map
from recorded.entries import VERSION, Faulty, Segment, other_version, segments
from recorded.lives import Life, lives
from recorded.merging import Merge
from stopped import Full, read_export


def segments_in(path: str) -> list[Segment]:
    """The segments of a file. Raises Faulty if it is no record."""
    with open(path, 'rb') as file:
        octets = file.read()
    if version := other_version(octets):
        raise Faulty(f'{path} is a record of version {version!r}, and this microscope reads version {VERSION.decode()}')
    found = list(segments(path, octets))
    if not found:
        raise Faulty(f'{path} is no record')
    return found


def of_rank(file: list[Segment], rank: int) -> list[Segment]:
    return [part for part in file if part.begin.rank == rank]


def lives_in(paths: list[str]) -> dict[int, list[Life]]:
    """The lives of each monitor, by rank. Raises Faulty if the files aren't records of one quorum."""
    files = [segments_in(path) for path in dict.fromkeys(map(os.path.realpath, paths))]
    found = [part for file in files for part in file]
    if len({(part.begin.tag, part.begin.monitors, part.begin.rule) for part in found}) > 1:
        tags = sorted({f'{part.path} of {part.begin.tag:016x}' for part in found})
        raise Faulty(f'the records are of different quorums: {", ".join(tags)}')
    ranks = sorted({part.begin.rank for part in found})
    return {rank: lives([of_rank(file, rank) for file in files if of_rank(file, rank)]) for rank in ranks}


def exports_in(words: list[str], lives: dict[int, list[Life]]) -> dict[int, Map]:
    """The stores of the exports that RANK=EXPORT name, by rank. Raises Faulty if one is none, or is another monitor's."""
    found, count = {}, next(iter(lives.values()))[0].begin.monitors
    for word in words:
        rank, _, path = word.partition('=')
        with open(path, 'rb') as file:
            octets = file.read()
        try:
            member, monitors, entries = read_export(octets)
        except (At, Full):
            raise Faulty(f'{path} is no export') from None
        if (rank, monitors) != (str(member), count):
            raise Faulty(f'{path} is the export of monitor {member} of {monitors}, and not of {rank} of {count}')
        found[member] = entries
    return found


def said_of(merge: Merge) -> Iterator[str]:
    """What was checked, what isn't known and what differs."""
    yield f'{merge.play.events} events; {merge.compared} sends and {merge.stores} stores are those of the records'
    if merge.before:
        yield f'{merge.before} events lead from new stores to those with which the records begin'
    for rank, count in merge.supposed.items():
        yield f'not known: monitor {rank} has no record' + f'; {count} events of it are supposed, after which it sends what came from it' * bool(count)
    yield from (f'not known: {note}' for note in merge.unknown)
    yield from (f'differs: {note}' for note in merge.differences)
