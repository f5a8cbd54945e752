"""Which monitor leads, by what the monitors answer to a status request."""
from __future__ import annotations

import asyncio
import socket
import statistics
import time
from typing import Any, NamedTuple, Optional

from cephmon.closed import Address
from cephmon.watching import status_request, watched_of
from cephmon.wire import MOST_DATAGRAM, Malformed, new_number

# Seconds for which answers are waited for.
PATIENCE = 0.5


class Leading(NamedTuple):
    """The rank of the leader, if most monitors of a majority name one, and their epoch, or 0."""
    rank: Optional[int]
    epoch: int


def answers(addresses: list[Address]) -> dict[int, dict[str, Any]]:
    """What each monitor of a quorum answers, by its rank."""
    found: dict[int, dict[str, Any]] = {}
    number, end = new_number(), time.monotonic() + PATIENCE
    with socket.socket(socket.AF_INET, socket.SOCK_DGRAM) as link:
        for address in addresses:
            link.sendto(status_request(number), address)
        while len(found) < len(addresses) and time.monotonic() < end:
            link.settimeout(max(0.001, end - time.monotonic()))
            try:
                datagram, peer = link.recvfrom(MOST_DATAGRAM)
                answer = watched_of(datagram)
            except (OSError, Malformed):
                continue
            if peer in addresses and answer.number == number and answer.is_in_quorum():
                found[addresses.index(peer)] = answer.of
    return found


def leading_of(found: dict[int, dict[str, Any]], monitors: int) -> Leading:
    """Who leads by these answers, of which one is the leader's, if those of one epoch are of more than half of all monitors."""
    epochs = [of['epoch'] for of in found.values()]
    epoch = max((epoch for epoch in epochs if 2 * epochs.count(epoch) > monitors), default=None)
    named = [of['leader'] for of in found.values() if of['epoch'] == epoch and of['leader'] in found]
    return Leading(statistics.mode(named) if named else None, epoch or 0)


async def leading(addresses: list[Address]) -> Leading:
    """Who leads now."""
    found = await asyncio.get_running_loop().run_in_executor(None, answers, addresses)
    return leading_of(found, len(addresses))
