"""What lines of ceph-mon say: the table of `patterns.tsv`, and the prefixes of a line that show who writes it and in which state it is."""
from __future__ import annotations

import functools
import os
import re
from typing import NamedTuple

FILE = os.path.join(os.path.dirname(os.path.abspath(__file__)), 'patterns.tsv')
PARTS = ('daemon', 'mon', 'elector', 'logic', 'paxos')

MON = re.compile(r'mon\.(\S+?)@(-?\d+)\((\?\?\?|[a-z]+)\)(?:\.([a-z_]+)(?:\(([^)]*)\))?| e(\d+)) ?(.*)', re.DOTALL)
LOGIC = re.compile(r'paxos\.(-?\d+)\)\.electionLogic\((\d+)\) (.*)', re.DOTALL)
PAXOS_STATE = re.compile(r'paxos ([a-z-]+) c (\d+)\.\.(\d+)')
ADDRESS = r'(\[[^\]]*\]|\S+)'
CAME = re.compile(rf'-- {ADDRESS} <== (mon|client|mgr|osd|mds|\S+?)\.(\S+) {ADDRESS} (\d+) ==== (.*) ==== '
                  r'(\d+)\+(\d+)\+(\d+) \((?:unknown|crc|secure)? ?(\d+) (\d+) (\d+)\) ')
WENT = re.compile(rf'-- {ADDRESS} --> {ADDRESS} -- (.*) -- (?:\?\+\d+ )?0x[0-9a-f]+ con 0x[0-9a-f]+')
MEMBERS = re.compile(r'(?:monmap|monmap is) e(\d+): \d+ mons at \{(.*?)\}')
MEMBER = re.compile(r'(\S+?)=(\[[^\]]*\]|[^,]+)')
STARTING = re.compile(r'starting mon\.(\S+) rank (-?\d+) at (?:public addrs? |bind addrs? )?(\S+).* fsid ([0-9a-f-]{36})')
FSID = re.compile(r'(?:preinit fsid |election\(|mon_probe\(\w+ )([0-9a-f]{8}(?:-[0-9a-f]{4}){3}-[0-9a-f]{12})')


class Pattern(NamedTuple):
    """A row of the table. `seen` are the major releases in whose logs the line was seen."""
    name: str
    part: str
    level: int
    seen: tuple[int, ...]
    text: re.Pattern[str]
    meaning: str


def patterns_of(text: str) -> list[Pattern]:
    """The patterns of a table. Raises ValueError at a row that is none."""
    found = []
    for number, row in enumerate(text.splitlines(), 1):
        if not row or row.startswith('#'):
            continue
        fields = row.split('\t')
        if len(fields) != 6 or fields[1] not in PARTS:
            raise ValueError(f'row {number} of the patterns has other columns than name, part, level, releases, pattern and meaning')
        name, part, level, releases, pattern, meaning = fields
        seen = () if releases == '-' else tuple(map(int, releases.split()))
        found.append(Pattern(name, part, int(level), seen, re.compile(pattern), meaning))
    return found


@functools.lru_cache(maxsize=None)
def patterns() -> tuple[Pattern, ...]:
    with open(FILE, encoding='utf-8') as file:
        return tuple(patterns_of(file.read()))


# How many of a text's first characters choose the patterns that are tried on it.
INDEXED = 4
LITERAL = re.compile(r'(?:[A-Za-z0-9_ :,\'=-]|\\[.()*\[\]])*(?![?*+])')


def literal_of(pattern: re.Pattern[str]) -> str:
    """The characters that each text that a pattern matches begins with, or some of them."""
    found = LITERAL.match(pattern.pattern)
    text = found[0] if found and '|' not in re.sub(r'\(.*?\)', '', pattern.pattern) else ''
    return text.replace('\\', '')


@functools.lru_cache(maxsize=4096)
def tried(part: str, begin: str) -> tuple[tuple[str, re.Pattern[str]], ...]:
    """The patterns of a part that may match a text with this beginning, in the order of the table."""
    return tuple((row.name, row.text) for row in patterns()
                 if row.part == part and (begin.startswith(literal := literal_of(row.text)[:INDEXED]) or literal.startswith(begin)))


def name_of(part: str, text: str) -> tuple[str, tuple] | None:
    """The name of the first pattern that a text of a part matches, and what its groups have."""
    for name, pattern in tried(part, text[:INDEXED]):
        found = pattern.match(text)
        if found:
            return name, found.groups()
    return None
