"""Cuts a log to the lines that the tools of this folder use, without paths of its machine."""
from __future__ import annotations

import re
from typing import Iterator

from .lines import LINE, PREFIXED, rows_of
from .messages import MATCHED, message_of
from .monitor import ANSWER
from .patterns import CAME, LOGIC, MON, WENT, name_of

PATH = re.compile(r'(?<![\w.:/])/(?:[\w.+-]+/)+[\w.+-]*')
# Numbers of a message's line that say nothing: checksums and places in memory.
CHECKSUMS, PLACES = re.compile(r'\((unknown|crc|secure)? ?\d+ \d+ \d+\) (?=0x)'), re.compile(r'\b0x[0-9a-f]+')
BEGINS = ('starting mon.', 'ceph version')


class Cutter:
    """Chooses the lines of one log. Of lines that only show a state, the first one after a change is kept."""

    def __init__(self):
        self.shown: dict[str, tuple] = {}
        self.readable: set[str] = set()

    def keeps(self, thread: str, text: str) -> bool:
        if text.startswith('-- '):
            self.readable.discard(thread)
            came = CAME.match(text)
            if came is not None:
                return True
            went = WENT.match(text)
            return went is not None and (message_of(went[3]).kind in MATCHED or went[3].startswith(ANSWER))
        found, logic = MON.match(text), LOGIC.match(text)
        if found is None and logic is None:
            return text.startswith(BEGINS) or name_of('daemon', text) is not None
        if logic is not None:
            return name_of('logic', logic[3]) is not None
        _, rank, state, part, inner, _, rest = found.groups()
        part = {None: 'mon', 'paxos': 'paxos', 'elector': 'elector'}.get(part, 'service')
        fact = name_of(part, rest)
        if fact is not None and fact[0] == 'readable':
            if thread in self.readable:
                return False
            self.readable.add(thread)
        elif fact is not None:
            self.readable.discard(thread)
        shows = (rank, state, inner if part in ('paxos', 'elector') else '')
        is_new = self.shown.get(part) != shows and (part != 'service' or self.shown.get('mon', ('', '', ''))[:2] != shows[:2])
        self.shown[part] = shows
        return fact is not None or is_new


def cut(path: str) -> Iterator[bytes]:
    """The rows of a log that are used."""
    cutter = Cutter()
    for row in rows_of(path):
        found = LINE.match(row) or PREFIXED.match(row)
        if found is None:
            continue
        thread, text = found[4].decode(), found[6].decode('utf-8', 'replace')
        if cutter.keeps(thread, text):
            yield plain(row.decode('utf-8', 'replace')).encode()


def plain(row: str) -> str:
    """A row without paths of its machine and without the numbers that say nothing."""
    row = PATH.sub('/var/lib/ceph/mon', row)
    return PLACES.sub('0x0', CHECKSUMS.sub(lambda found: f'({found[1] or "unknown"} 0 0 0) ', row)) if '1 -- ' in row else row
