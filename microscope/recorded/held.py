"""What a store holds, as far as a schedule has to lead to it."""
from __future__ import annotations

from typing import NamedTuple

from recorded.disks import Map
from recorded.entries import Faulty
from store import number_at


# Proposal numbers of one rank are the same in their last two digits.
HUNDRED = 100


class Unreachable(Faulty):
    """No events are found that lead to these stores, for this reason."""


# More than any number of a store.
MORE = 2**63 + 1


class Held(NamedTuple):
    """The numbers of a monitor's store: its starts and epoch, the proposal numbers that it made and promised, its last version, and the number and version of
    the value that it accepted last, both 0 if it keeps none."""
    rank: int
    starts: int
    epoch: int
    made: int
    promised: int
    last: int
    accepted_pn: int
    accepted: int
    map: Map

    def is_known(self) -> bool:
        """Whether this is what a store holds. If it isn't known, anything may lead to it."""
        return bool(self.map)

    def pending(self) -> bytes | None:
        """The accepted value of the version after the last one, if there is one."""
        return self.map.get((b'paxos', b'%d' % (self.last + 1))) if self.accepted == self.last + 1 else None

    def version(self, prefix: bytes) -> int:
        """The last version of a service."""
        return number_at(self.map, prefix, b'last_committed')

    def record(self, version: int) -> bytes | None:
        """The record of a version, if it is kept."""
        return self.map.get((b'paxos', b'%d' % version)) if version <= self.last else None

    def latest(self) -> int:
        """The number of the last quorum whose epoch the monitor has had. The one of epoch 2 has the number 1."""
        return self.epoch // 2


def unknown(rank: int, stores: list[Held]) -> Held:
    """A monitor whose store isn't known. It made the greatest of its numbers that the other stores have."""
    numbers = [pn for it in stores for pn in (it.promised, it.accepted_pn) if pn % HUNDRED == rank]
    return Held(rank, 1, MORE, max(numbers, default=0), MORE, MORE, MORE, MORE, {})


def held(rank: int, entries: Map) -> Held:
    """What a monitor's store holds. Raises Unreachable if a full synchronization isn't finished."""
    if number_at(entries, b'mon_sync', b'in_sync') == 1:
        raise Unreachable(f'the store of monitor {rank} is marked: mon_sync/in_sync says that it was being copied from another monitor, in chunks of that run')

    def paxos(key: bytes) -> int:
        return number_at(entries, b'paxos', key)
    own = number_at(entries, b'monitor', b'boot_count'), number_at(entries, b'monitor', b'election_epoch')
    return Held(rank, *own, *map(paxos, (b'last_pn', b'accepted_pn', b'last_committed', b'pending_pn', b'pending_v')), entries)
