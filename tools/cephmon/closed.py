"""Which datagrams found nobody who listens. Linux keeps such answers of other machines as errors of a socket, in a queue of its own."""
from __future__ import annotations

import socket
from typing import NamedTuple

Address = tuple[str, int]
# Linux' option of a socket that keeps the errors, which Python's module doesn't name.
IP_RECVERR = 11
# Room for the beginning of such a datagram, and for what the system says of it.
ROOM = 512


class Closed(NamedTuple):
    """Nobody listened at this address when this datagram came. Its end may be missing, and all of it."""
    address: Address
    datagram: bytes


def keep_errors(link: socket.socket) -> None:
    """Has the system keep the errors. A system that can't has none to keep."""
    try:
        link.setsockopt(socket.IPPROTO_IP, IP_RECVERR, 1)
    except OSError:
        pass


def closed(link: socket.socket) -> list[Closed]:
    """The datagrams of this socket that found nobody who listens, since the last call."""
    found: list[Closed] = []
    timeout = link.gettimeout()
    link.settimeout(0)
    try:
        while True:
            datagram, *_, address = link.recvmsg(ROOM, ROOM, getattr(socket, 'MSG_ERRQUEUE', 0))
            found.append(Closed((str(address[0]), int(address[1])), datagram))
    except OSError:
        return found
    finally:
        link.settimeout(timeout)
