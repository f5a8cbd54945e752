"""Reads and makes the stores of stopped monitors by the program's own commands. Reads what an export of a store holds, as docs/FORMATS.md specifies it.

An export is a *backup* if a quorum can be restored from it: it holds at least one version, its maps are complete, and no full synchronization was in
progress.
"""
from __future__ import annotations

import hashlib
import os
import re
import subprocess
from typing import NamedTuple

from cephmon.wire import MOST_MONITORS, Malformed, Reader, change_of, map_of

MARK = b'CEPHEXP1'
# A checkpoint begins with this byte.
CHECKPOINT = b'\x80'
# The services by their names, and the prefixes of their keys.
PREFIXES = {'kv': b'kv', 'log': b'logm'}
MOST_TEXTS, MOST_LOG = 500, 12_288
# The program's status if an import would write over a file.
NOT_EMPTY = 15
AGREE = b'end mismatches=0\n'
# The bytes of the epoch's entry before its value and that value's length.
EPOCH = b'\x07monitor\x0eelection_epoch'


class Unfit(Exception):
    """A store or an export isn't what is needed, for this reason. `status` is that of the program if it failed, and 0 otherwise."""

    def __init__(self, text: str, status: int = 0):
        super().__init__(text)
        self.status = status


class Export(NamedTuple):
    """An export: its bytes, the rank and the number of monitors of its store, and the store's entries, from pairs of a prefix and a key to values."""
    octets: bytes
    rank: int
    monitors: int
    entries: dict

    def number(self, prefix: bytes, key: bytes) -> int:
        """The number at a key, or 0 if there is none."""
        value = self.entries.get((prefix, key), b'')
        return int.from_bytes(value, 'little') if len(value) == 8 else 0

    def last(self) -> int:
        """The last committed version."""
        return self.number(b'paxos', b'last_committed')

    def has_pending(self) -> bool:
        """Whether the store has a pending value: accepted and not committed. A quorum with this store may commit it."""
        return self.number(b'paxos', b'pending_v') == self.last() + 1 and (b'paxos', b'%d' % (self.last() + 1)) in self.entries

    def is_marked(self) -> bool:
        return (b'mon_sync', b'in_sync') in self.entries

    def of(self, rank: int, monitors: int) -> bytes:
        """The bytes of the same export for another rank and number of monitors."""
        at = len(MARK)
        return self.octets[:at] + bytes([rank, monitors]) + self.octets[at + 2:]

    def service(self, service: str) -> tuple[int, dict | list]:
        """The version of a service and its map, as a monitor reads them from its store. Raises Unfit if an incremental is missing."""
        prefix = PREFIXES[service]
        version, full = self.number(prefix, b'last_committed'), self.number(prefix, b'full_latest')
        try:
            found = map_of(service, self.entries[prefix, b'full_%d' % full]) if full else {} if service == 'kv' else []
            for at in range(full + 1, version + 1):
                change = change_of(service, self.entries[prefix, b'%d' % at])
                if service == 'log':
                    found = surplus_dropped([*found, change])
                elif 'set' in change:
                    found[change['set']] = change['value']
                else:
                    found.pop(change['remove'], None)
        except (KeyError, Malformed) as why:
            raise Unfit(f'the map of {service} at its version {version} is not whole: {why}') from None
        return version, dict(sorted(found.items())) if service == 'kv' else found

    def maps(self) -> dict:
        """Both maps and whose they are, as JSON takes them."""
        found = {'rank': self.rank, 'monitors': self.monitors, 'last': self.last(), 'pending': self.has_pending()}
        for service in PREFIXES:
            version, entries = self.service(service)
            found[service] = {'version': version, 'map': entries}
        return found

    def said(self) -> str:
        """A summary in one line."""
        text = f'of monitor {self.rank} of {self.monitors}, last version {self.last()}'
        try:
            (keys_at, keys), (texts_at, texts) = self.service('kv'), self.service('log')
        except Unfit:
            return f'{text}, its maps incomplete'
        return f'{text}, {counted(len(keys), "key")} at version {keys_at}, {counted(len(texts), "text")} at version {texts_at}'

    def with_epoch(self, epoch: int) -> Export:
        """The same export with this epoch in place of its own. Raises Unfit if it has none."""
        place = EPOCH + (8).to_bytes(4, 'little')
        if self.octets.count(place) != 1:
            raise Unfit('it has no epoch of an election')
        before, _, after = self.octets.partition(place)
        return read_export(before + place + epoch.to_bytes(8, 'little') + after[8:])


def counted(count: int, name: str, names: str | None = None) -> str:
    return f'{count} {name}' if count == 1 else f'{count} {names or name + "s"}'


def surplus_dropped(texts: list) -> list:
    """The cluster log without its oldest entries, as far as it is above its limits."""
    size = 4 + sum(5 + len(text.encode()) for _, text in texts)
    while len(texts) > MOST_TEXTS or size > MOST_LOG:
        size -= 5 + len(texts[0][1].encode())
        texts = texts[1:]
    return texts


def read_export(octets: bytes) -> Export:
    """Raises Unfit if the bytes are no export."""
    reader, entries = Reader(octets), {}
    try:
        if reader.take(len(MARK)) != MARK:
            raise Malformed('its first bytes are not those of an export')
        rank, monitors = reader.unsigned(1), reader.unsigned(1)
        if not rank < monitors <= MOST_MONITORS or reader.take(1) != CHECKPOINT:
            raise Malformed(f'monitor {rank} of {monitors}')
        for _ in range(reader.unsigned(4)):
            place = reader.take(reader.unsigned(1)), reader.take(reader.unsigned(1))
            entries[place] = reader.counted()
        reader.end()
    except Malformed as why:
        raise Unfit(f'it is no whole export: {why}') from None
    return Export(octets, rank, monitors, entries)


def read_backup(octets: bytes) -> Export:
    """An export that a quorum can be restored from. Raises Unfit, with the first reason against it."""
    found = read_export(octets)
    if not found.last():
        raise Unfit('it is of an empty store: nothing was committed there, or a file name was mistyped')
    if found.is_marked():
        raise Unfit('its monitor was fetching a copy of everything, so it is not whole; use another monitor\'s')
    for service in PREFIXES:
        found.service(service)
    return found


class Store:
    """The two files of a stopped monitor, in its folder."""

    def __init__(self, program: str, rank: int, monitors: int, folder: str):
        self.program, self.rank, self.monitors, self.folder = program, rank, monitors, folder
        self.files = [os.path.join(folder, side) for side in 'ab']

    def run(self, command: str, given: bytes = b'') -> bytes:
        """The standard output of a command of the program on this store. Raises Unfit if the status isn't 0."""
        words = [self.program, command, str(self.rank), str(self.monitors), *self.files]
        try:
            done = subprocess.run(words, input=given, stdout=subprocess.PIPE, stderr=subprocess.PIPE)
        except OSError as why:
            raise Unfit(f"'{self.program}' can't be executed: {why.strerror}", 126) from None
        if done.returncode:
            text = ': '.join(done.stderr.decode('utf-8', 'replace').split('\n')).rstrip(': ')
            raise Unfit(f"monitor {self.rank}, '{self.folder}': {command} ended with {done.returncode}: {text}", done.returncode)
        return done.stdout

    def export(self) -> Export:
        """The export of an existing store. The program alone would create missing files, and export an empty store."""
        for file in self.files:
            if not os.path.isfile(file):
                raise Unfit(f"monitor {self.rank}: '{file}' is no file", 6)
        return read_export(self.run('store-export'))

    def fault(self) -> str | None:
        """Why a store can't be made here, or None: the folder is missing or can't be written, or a file isn't empty."""
        if not os.path.isdir(self.folder):
            return f"monitor {self.rank}: '{self.folder}' is no folder; make it first, for the user that runs the monitor"
        if not os.access(self.folder, os.W_OK | os.X_OK):
            return f"monitor {self.rank}: '{self.folder}' can't be written by this user"
        for file in self.files:
            if os.path.lexists(file) and not (os.path.isfile(file) and os.path.getsize(file) == 0):
                return f"monitor {self.rank}: '{file}' is there, and nothing is written over it; move the files away first"
        return None

    def make(self, export: Export, made: list[str]):
        """Makes the store of an export here, for this rank, and reads it again. The files get the owner of the folder. Files that weren't there before are
        added to `made`, unless another process has taken them since."""
        wanted = export.of(self.rank, self.monitors)
        new = [file for file in self.files if not os.path.lexists(file)]
        try:
            self.run('store-import', wanted)
        except Unfit as why:
            # Files that are locked or no longer empty belong to another process now.
            made += [] if why.status == NOT_EMPTY or 'locked' in str(why) else [file for file in new if os.path.exists(file)]
            raise
        made += new
        for file in self.files:
            give(file, self.folder)
        if self.run('store-export') != wanted:
            raise Unfit(f"monitor {self.rank}: the store that was made in '{self.folder}' is not the backup's")

    def report(self) -> bytes:
        return self.run('scrub')


def give(file: str, folder: str):
    """Gives a file to its folder's owner, if this user is root: the monitor's user must be able to open it."""
    owner = os.stat(folder)
    if os.geteuid() == 0:
        os.chown(file, owner.st_uid, owner.st_gid)


def digest_of(report: bytes) -> str:
    """16 digits of the SHA-256 of a report without its rank. Reports of monitors that agree have the same."""
    return hashlib.sha256(re.sub(rb' rank=\d+', b'', report)).hexdigest()[:16]


def compared(program: str, one: bytes, other: bytes) -> bytes:
    """The program's comparison of two reports."""
    return subprocess.run([program, 'scrub-compare'], input=one + other, stdout=subprocess.PIPE, check=True).stdout
