"""Carries the messages of a simulation with copies: each monitor has a link, executed by its definitions, that sends again what is lost."""
from __future__ import annotations

from typing import Any, NamedTuple

import again
from antt import octets
from loaded import fn

HEADERS, PIECES = 'mon_decode.specs.Headers', 'mon_frag.specs.Pieces'
# By kind, the lengths in bytes of the two numbers with which its body begins, if they aren't 8 each.
SHORT = {'Victory': (2, 8), 'Commit': (8, 2)}


class Carried(NamedTuple):
    """A datagram on its way: its sender and receiver, the number of its message in the run, and its bytes."""
    sender: int
    to: int
    number: int
    datagram: bytes


def encoded(message: Any, same: int) -> bytes:
    """Bytes with the header, the first numbers and the length of a message. `same` is a number that equal messages share. The link depends on no other part
    of a body."""
    heading = fn(HEADERS, 'heading')(message)
    kind, first, second = heading.kind, heading.first, heading.second
    if kind.name == 'Commit':
        second += 1 - first
    head = bytes([1, fn(HEADERS, 'kind_byte')(kind), heading.from_, heading.monitors]) + heading.epoch.to_bytes(8, 'little')
    numbers = b''.join(number.to_bytes(size, 'little') for number, size in zip((first, second), SHORT.get(kind.name, (8, 8))))
    length = fn('mon_wire.specs.Message.Length', 'message_length')(heading.monitors, message.body)
    return (head + numbers + same.to_bytes(8, 'little')).ljust(length, b'\0')[:length]


class Copying:
    """The links of all monitors. Each call returns the datagrams that go on the wire at its time."""

    def __init__(self, monitors: int):
        self.links, self.lives, self.long = [again.Link() for _ in range(monitors)], [0] * monitors, 0
        # By monitor, the time of the last datagram; by message, a number that equal messages share; by datagram, the number of its message; and the pieces of
        # each message that have arrived.
        self.last, self.equal, self.numbers, self.arrived_of = [0] * monitors, {}, {}, {}

    def starts(self, rank: int):
        """A monitor starts, with a new link."""
        self.links[rank], self.lives[rank] = again.Link(), self.lives[rank] + 1

    def sends(self, now: int, number: int, message: Any, to: int) -> list[Carried]:
        """A monitor sends a message, which has this number in the run."""
        sender, same = message.from_, self.equal.setdefault(message, len(self.equal))
        whole = encoded(message, same)
        self.long += len(whole) > 60_000
        found = []
        for datagram in map(octets, fn(PIECES, 'pieces_of')(whole, self.lives[sender], self.long)):
            self.numbers[sender, to, datagram] = number
            if self.links[sender].sent(now, to, datagram):
                found.append(Carried(sender, to, number, datagram))
        return found

    def named(self, sender: int, going: list[tuple[int, bytes]]) -> list[Carried]:
        return [Carried(sender, to, self.numbers[sender, to, datagram], datagram) for to, datagram in going]

    def arrives(self, now: int, carried: Carried) -> tuple[bool, list[Carried]]:
        """A datagram arrives. Returns whether its message is now complete and handed up, and what is sent then."""
        _, rank, number, datagram = carried
        if now > self.last[rank]:
            self.links[rank].run, self.last[rank] = 0, now
        is_up, going = self.links[rank].arrived(now, carried.sender, datagram)
        return is_up and self.is_whole(carried), self.named(rank, going)

    def is_whole(self, carried: Carried) -> bool:
        """Whether this datagram completes its message. If it does, the pieces are collected anew from then on."""
        sender, to, number, datagram = carried
        if datagram[0] != 2:
            return True
        total = int.from_bytes(datagram[20:24], 'little')
        arrived = self.arrived_of.setdefault((to, self.lives[to], number), set())
        arrived.add(datagram)
        if len(arrived) < fn(PIECES, 'piece_count')(total):
            return False
        arrived.clear()
        return True

    def rests(self, now: int, rank: int) -> list[Carried]:
        """Nothing arrives at a monitor: returns the copies that are due."""
        return self.named(rank, self.links[rank].rested(now))

    def due(self, rank: int) -> int | None:
        """The time of a monitor's next copy, or None."""
        return self.links[rank].due()
