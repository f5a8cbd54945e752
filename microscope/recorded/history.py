"""The commands by which the versions of a log came about, as far as stores show them. Those of versions that no store has any more are supposed, so that all
that is kept comes about as well."""
from __future__ import annotations

from typing import Iterator, NamedTuple, Optional, Tuple

from fields import At, Fields, changes_of
from recorded.disks import Map
from recorded.held import Held, Unreachable
from recorded.requests import Unwritable, command_in

SERVICES = b'kv', b'logm'
# After each such number of versions a service keeps its full map.
PERIOD = 25
# The longest text of a command, after which a log is at its limit of bytes if it drops entries of any length.
LONGEST_TEXT = 1_024
# A key, a value and a text that are supposed.
KEY, VALUE, TEXT = b'supposed', b'', 'supposed'
# A key, and the value that it gets; None if it is removed.
Change = Tuple[bytes, Optional[bytes]]


class Command(NamedTuple):
    """The words of a command, and the monitor that has to be asked; None if any may be."""
    words: str
    asked: int | None = None


class Proposed(NamedTuple):
    """A value: its service's prefix, the version there, and the incremental."""
    prefix: bytes
    version: int
    incremental: bytes

    def command(self) -> Command:
        """The command of which the value was made. Raises Unwritable if no line of a schedule has it."""
        if self.prefix == b'kv':
            return Command(command_in(Fields(self.incremental)))
        return Command(command_in(Fields(b'\3' + self.incremental[1:])), self.incremental[0])


def proposed_in(value: bytes) -> Proposed:
    """The command's part of a value. Raises Unreachable if no command makes such a value."""
    try:
        for prefix, key, octets in puts_in(value):
            if prefix in SERVICES and key.isdigit():
                return Proposed(prefix, int(key), octets)
    except At:
        pass
    raise Unreachable('a version is the value of no command')


def puts_in(value: bytes) -> Iterator[tuple[bytes, bytes, bytes]]:
    """What a value puts: prefixes, keys and values."""
    for kind, prefix, *more in changes_of(value):
        if kind == 'Put':
            yield prefix, more[0], more[1]


class Shared:
    """What stores of one quorum hold of the log and of the services. Stores of different last versions are known by their rank."""

    def __init__(self, stores: list[Held]):
        self.stores = sorted(stores, key=lambda it: it.last)
        self.last = self.stores[-1].last
        self.records = dict(self.agreed((version, it.record(version)) for it in stores for version in range(1, it.last + 1)))
        self.puts = {(prefix, key): value for octets in self.records.values() for prefix, key, value in puts_in(octets)}

    def agreed(self, found: Iterator[tuple[int, bytes | None]]) -> Iterator[tuple[int, bytes]]:
        """The records that are kept, by version. Raises Unreachable if two stores have different ones."""
        seen: dict[int, bytes] = {}
        for version, octets in found:
            if octets is not None and seen.setdefault(version, octets) != octets:
                raise Unreachable(f'two stores have different records of version {version}, so they are of different quorums or one was changed')
        yield from seen.items()

    def at(self, prefix: bytes, key: bytes) -> bytes | None:
        """The value of a service's key in any store, or the one that a record puts."""
        return next((it.map[prefix, key] for it in self.stores if (prefix, key) in it.map), self.puts.get((prefix, key)))

    def incremental(self, prefix: bytes, version: int) -> bytes | None:
        return self.at(prefix, b'%d' % version)

    def reached(self, version: int) -> dict[bytes, int]:
        """The versions of the services after a version of the log, as a store or the next record of each service shows them."""
        for it in self.stores:
            if it.last == version:
                return {prefix: it.version(prefix) for prefix in SERVICES}
        found: dict[bytes, int] = {}
        for later in range(version + 1, self.last + 1):
            if later in self.records:
                value = proposed_in(self.records[later])
                found.setdefault(value.prefix, value.version - 1)
        return {prefix: found.get(prefix, self.stores[-1].version(prefix)) for prefix in SERVICES}

    def commands(self) -> list[Command]:
        """The commands of all versions, in order."""
        found: list[Command] = []
        while len(found) < self.last:
            version = len(found) + 1
            if version in self.records:
                found.append(proposed_in(self.records[version]).command())
            else:
                found += self.supposed(version, found)
        return found

    def supposed(self, version: int, before: list[Command]) -> list[Command]:
        """The commands of the versions from one on whose records no store has: first those of the log, then those of the map."""
        ends = {*self.records, *(it.last + 1 for it in self.stores)}
        end = next((later for later in range(version + 1, self.last + 1) if later in ends), self.last + 1)
        logged = sum(it.words.startswith('log ') for it in before)
        after = self.reached(end - 1)
        found = self.logged(logged + 1, after[b'logm']) + self.changed(len(before) - logged + 1, after[b'kv'], left_by(before))
        if len(found) != end - version:
            raise Unreachable(f'the services have {len(found)} versions in those from {version} to {end - 1} of the log')
        return found

    def known(self, prefix: bytes, first: int, last: int) -> int:
        """From which version on, of some, each incremental is kept."""
        while last >= first and self.incremental(prefix, last) is not None:
            last -= 1
        return last + 1

    def full(self, prefix: bytes, version: int) -> tuple[int, bytes] | None:
        """The first full map that is kept of a version or a later one, with its version."""
        top = self.stores[-1].version(prefix)
        numbers = range(-(-version // PERIOD) * PERIOD, top + 1, PERIOD)
        return next(((number, octets) for number in numbers if (octets := self.at(prefix, b'full_%d' % number))), None)

    def between(self, prefix: bytes, first: int, last: int) -> list[bytes]:
        found = [self.incremental(prefix, number) for number in range(first, last + 1)]
        if None in found:
            raise Unreachable(f'{prefix.decode()}/{first + found.index(None)} is in no store, and a full map after it is')
        return [octets for octets in found if octets is not None]

    # ---- the log

    def logged(self, first: int, last: int) -> list[Command]:
        """The commands of these versions of the log."""
        known = self.known(b'logm', first, last)
        found = [Proposed(b'logm', number, octets).command() for number, octets in enumerate(self.between(b'logm', known, last), known)]
        full = self.full(b'logm', known - 1) if known > first else None
        entries = entries_of(full[1]) if full else []
        kept = entries[:len(entries) - (full[0] - known + 1)][-(known - first):] if full else []
        dropped = known - first - len(kept)
        pads = [Command(f'log {TEXT}')] * (dropped - 1) + [Command('log ' + TEXT[0] * LONGEST_TEXT)] * min(dropped, 1)
        return pads + [Proposed(b'logm', 0, octets).command() for octets in kept] + found

    # ---- the map

    def changed(self, first: int, last: int, current: dict[bytes, bytes]) -> list[Command]:
        """The commands of these versions of the key-value map, from a map on."""
        known = self.known(b'kv', first, last)
        found = [Proposed(b'kv', number, octets).command() for number, octets in enumerate(self.between(b'kv', known, last), known)]
        return self.leading(first, known - 1, current) + found

    def leading(self, first: int, last: int, current: dict[bytes, bytes]) -> list[Command]:
        """Commands of these versions, from a map on, that lead to one from which all that follows comes about."""
        if last < first:
            return []
        full = self.full(b'kv', last)
        wanted, free = self.undone(full, last) if full else ({}, {*current})
        steps: list[Change] = [(key, None) for key in current if key not in wanted and key not in free]
        steps += [(key, value or VALUE) for key, value in wanted.items() if key not in current or value is not None and current[key] != value]
        left = last - first + 1 - len(steps)
        same: list[Change] = [(key, current.get(key, value or VALUE)) for key, value in wanted.items()] or [(key, VALUE) for key in free]
        if left < 0 or left == 1 and not same:
            raise Unreachable(f'kv/{first} to kv/{last} are in no store, and are too few for the map after them')
        pad: list[Change] = same[:1] * left if same else [(KEY, VALUE)] * (left - 1) + [(KEY, None)] * min(left, 1)
        return [changing(*step) for step in pad + steps]

    def undone(self, full: tuple[int, bytes], last: int) -> tuple[dict[bytes, bytes | None], set[bytes]]:
        """What a map has to hold for the incrementals after it to lead to a full map, None for a key that may have any value; and the keys that may be there
        or not."""
        wanted: dict[bytes, bytes | None] = dict(map_of(full[1]))
        free: set[bytes] = set()
        for key, value in reversed([change_of(octets) for octets in self.between(b'kv', last + 1, full[0])]):
            free.discard(key)
            wanted.pop(key, None)
            if value is None:
                wanted[key] = None
            else:
                free.add(key)
        return wanted, free


def left_by(commands: list[Command]) -> dict[bytes, bytes]:
    """The key-value map after these commands."""
    found: dict[bytes, bytes] = {}
    for it in commands:
        kind, key, *value = it.words.encode().split(b' ', 2)
        if kind == b'set':
            found[key] = value[0]
        elif kind == b'remove':
            found.pop(key, None)
    return found


def changing(key: bytes, value: bytes | None) -> Command:
    octets = key if value is None else key + value
    if any(not 0x20 <= octet <= 0x7e for octet in octets):
        raise Unwritable(f'the value of the key {key.decode()} isn\'t printable ASCII')
    return Command(f'remove {key.decode()}' if value is None else f'set {key.decode()} {value.decode()}')


def change_of(incremental: bytes) -> Change:
    """The key of an incremental of the map, and its value, if it gets one."""
    fields = Fields(incremental)
    is_set = fields.unsigned(1) == 1
    return fields.word(255), fields.counted() if is_set else None


def map_of(full: bytes) -> Iterator[tuple[bytes, bytes]]:
    fields = Fields(full)
    yield from ((fields.word(255), fields.counted()) for _ in range(fields.unsigned(4)))


def entries_of(full: bytes) -> list[bytes]:
    """The entries of a log's full map, each as the incremental that appended it."""
    fields, found = Fields(full), []
    for _ in range(fields.unsigned(4)):
        at = fields.at
        fields.unsigned(1)
        fields.counted()
        found.append(full[at:fields.at])
    return found
