"""How a client asks: which monitor, how often, for how long, and which datagrams are its reply. Nothing here sends, receives or waits.

A request is a generator of steps, `Steps`. Whoever runs it does each step: `Send` is done at once, `Wait` ends with the next `Reply` or `Hello` that
the client's `Inbox` finds in a datagram, with `Closed` if nobody listens at an address, or with None at its time, and `Rest` ends at its time.
`cephmon.client` runs the steps with a blocking socket, and `cephmon.aio` with asyncio. Times are those of `time.monotonic`.
"""
from __future__ import annotations

import time
from dataclasses import dataclass
from typing import Any, Generator, NamedTuple, Optional, TypeVar, Union

from cephmon.closed import Address, Closed
from cephmon.errors import CLOSED, NO_ANSWER, REFUSALS, not_served, refused
from cephmon.wire import CHANGES, Assembly, Hello, Malformed, Reply, datagrams, greeting, hello_of, is_hello, new_number, reply_of, request_message

# Seconds between two tries.
PAUSE = 0.1
# Seconds of a try, unless others are given. While one monitor is started again, a client is then without a reply for about two of these.
PATIENCE = 0.5
# Seconds after which a request ends if at no monitor anybody listened meanwhile. A monitor that was started just now has that long to open its socket.
GRACE = 5.0
# Seconds after which a try that had no answer hardly makes its change any more: a quorum that lost its leader has elected another one meanwhile.
SETTLED = 20.0
# The bytes of a datagram that has the ID of its try, which no other try has.
TOLD_APART = 20
# The kinds of replies that serve a request.
SERVED = 'Done', 'Shown', 'Since'

Heard = Union[Reply, Hello, Closed]


class Send(NamedTuple):
    """Send these datagrams to this address. A datagram that can't be sent counts as lost."""
    datagrams: list[bytes]
    address: Address


class Wait(NamedTuple):
    """Wait for what the inbox finds, until this time."""
    until: float


class Rest(NamedTuple):
    """Wait until this time."""
    until: float


T = TypeVar('T')
Steps = Generator[Union[Send, Wait, Rest], Optional[Heard], T]


@dataclass
class Settings:
    """What a client was made with: the numeric addresses of all monitors by rank, the name of the quorum (None: any), the only monitor that is asked
    (None: any), the seconds of a try, whether a request is sent once, and whether maps may not go back."""
    addresses: list[Address]
    name: str | None = None
    monitor: int | None = None
    patience: float = PATIENCE
    once: bool = False
    onward: bool = True


class Inbox:
    """Finds replies and hellos in datagrams, and keeps what each monitor said of itself, by its rank."""

    def __init__(self, addresses: list[Address]):
        self.addresses, self.assembly = addresses, Assembly()
        self.hellos: dict[int, Hello] = {}

    def take(self, datagram: bytes, peer: Address) -> Heard | None:
        """What this datagram completes, if it is of a monitor and completes anything."""
        if peer not in self.addresses:
            return None
        try:
            if is_hello(datagram):
                hello = self.hellos[self.addresses.index(peer)] = hello_of(datagram)
                return hello
            message = self.assembly.take(peer, datagram)
            return None if message is None else reply_of(message, len(self.addresses))
        except Malformed:
            return None


class Asker:
    """What the requests of a client share: its inbox, the monitor that is asked next, and `seen`, the greatest version that a reply had."""

    def __init__(self, settings: Settings, first: int = 0):
        self.settings, self.inbox = settings, Inbox(settings.addresses)
        self.asked = first if settings.monitor is None else settings.monitor
        self.seen, self.boot = 0, new_number()
        # The last request.
        self.last = Request(self, b'\0', 0, 0)

    def request(self, request: bytes, end: float, at_least: int = 0) -> Request:
        """A request of these bytes, which is now the last one. A map below version `at_least` doesn't serve it."""
        self.last = Request(self, request, end, max(at_least, self.seen if self.settings.onward else 0))
        return self.last

    def ask(self, request: bytes, end: float, at_least: int = 0) -> Steps[dict[str, Any]]:
        """Sends an encoded request until a monitor serves it, and returns the fields of its reply. A map below version `at_least` doesn't serve it."""
        return self.request(request, end, at_least).steps()

    def ranks(self) -> range:
        """The monitors that may be asked."""
        monitor = self.settings.monitor
        return range(len(self.settings.addresses)) if monitor is None else range(monitor, monitor + 1)

    def stranger(self, rank: int) -> str | None:
        """Why a monitor can't serve this client, if its hello shows that."""
        hello, count, name = self.inbox.hellos.get(rank), len(self.settings.addresses), self.settings.name
        if hello and hello.monitors != count:
            return f'it is one of {hello.monitors} monitors, and drops requests to one of {count}; give the addresses of all {hello.monitors}'
        if hello and name is not None and hello.name != name:
            return f"it is of the quorum '{hello.name}', and not of '{name}'"
        return None

    def is_unknown(self, rank: int) -> bool:
        """Whether a monitor hasn't yet said of which quorum it is, although the client asks one quorum alone."""
        return self.settings.name is not None and rank not in self.inbox.hellos


class Request:
    """One request: how often it was sent, how many tries had no answer, the last reply, and the IDs of its tries."""

    def __init__(self, asker: Asker, request: bytes, end: float, least: int):
        self.asker, self.request, self.end, self.least = asker, request, end, least
        self.tries, self.silent = 0, 0
        # by monitor, the datagram of its last try that found nobody who listens; and the time until which not all monitors have one
        self.closed: dict[int, bytes] = {}
        self.heard_of = time.monotonic()
        self.reply: Reply | None = None
        self.numbers: list[int] = []
        # the tries that had no answer yet, each of which may make a change
        self.open: set[int] = set()
        self.outcomes: dict[int, str] = {}

    def is_known(self) -> bool:
        """Whether it is known that no try of it is made or will be, if none was served."""
        return self.request[0] not in CHANGES or not self.silent

    def steps(self) -> Steps[dict[str, Any]]:
        began, settings = time.monotonic(), self.asker.settings
        while time.monotonic() < self.end and not (settings.once and self.tries) and not all(map(self.asker.stranger, self.asker.ranks())):
            if not self.all_closed():
                self.heard_of = time.monotonic()
            elif time.monotonic() - self.heard_of > GRACE:
                break
            rank = self.asker.asked
            reply = None
            if self.asker.is_unknown(rank):
                yield from self.greeted(rank, settings.patience)
            if not self.asker.is_unknown(rank) and not self.asker.stranger(rank):
                reply = yield from self.tried(rank)
                if reply and (found := self.served(reply)) is not None:
                    return found
            self.outcomes[rank] = self.outcome(rank, reply)
            if settings.monitor is None:
                self.asker.asked = (rank + 1) % len(settings.addresses)
            if (reply or self.all_closed()) and not settings.once:
                yield Rest(min(self.end, time.monotonic() + PAUSE))
        is_early = time.monotonic() < self.end and not settings.once
        seconds = round(time.monotonic() - began, 1) if is_early else round(self.end - began, 3)
        raise not_served(seconds, self.outcomes, self.is_known())

    def settled(self, end: float) -> Steps[bool]:
        """Waits until each try was answered, so that none of them makes the change later. Returns whether all were in time."""
        while self.open and time.monotonic() < end:
            heard = yield Wait(end)
            if isinstance(heard, Reply):
                self.open.discard(heard.number)
        return not self.open

    def all_closed(self) -> bool:
        return all(rank in self.closed for rank in self.asker.ranks())

    def served(self, reply: Reply) -> dict[str, Any] | None:
        """The fields of a reply that serves the request. Raises Refused if it refuses it for good."""
        if reply.kind in SERVED and not self.is_old(reply):
            self.asker.seen = max(self.asker.seen, reply.version() or 0)
            return reply.fields
        if reply.kind in REFUSALS:
            raise refused(reply.kind, REFUSALS[reply.kind].format(**reply.fields), self.is_known())
        return None

    def is_old(self, reply: Reply) -> bool:
        return reply.kind == 'Shown' and (reply.version() or 0) < self.least

    def outcome(self, rank: int, reply: Reply | None) -> str:
        """What is said of a monitor that didn't serve the request."""
        if reply:
            return f'a map of version {reply.version()}, below {self.least}' if self.is_old(reply) else reply.kind
        # If the end cut the last try short, an earlier outcome of this monitor is kept.
        earlier = self.outcomes.get(rank) if time.monotonic() >= self.end else None
        return earlier or self.asker.stranger(rank) or (CLOSED if rank in self.closed else NO_ANSWER)

    def greeted(self, rank: int, seconds: float) -> Steps[Reply | None]:
        """Asks a monitor for its hello, and waits a little for that or for a late reply, which is returned."""
        addresses = self.asker.settings.addresses
        yield Send([greeting(addresses)], addresses[rank])
        return (yield from self.answer(rank, min(self.end, time.monotonic() + seconds), is_hello_enough=self.asker.is_unknown(rank)))

    def tried(self, rank: int) -> Steps[Reply | None]:
        """Sends a try, under an ID of its own, and returns its reply, or None if there is none in time."""
        addresses, patience = self.asker.settings.addresses, self.asker.settings.patience
        self.tries += 1
        self.silent += 1
        self.numbers.append(new_number())
        self.open.add(self.numbers[-1])
        message = request_message(len(addresses), self.numbers[-1], self.request)
        pieces = datagrams(message, self.asker.boot, self.numbers[-1])
        yield Send(pieces, addresses[rank])
        reply = yield from self.answer(rank, min(self.end, time.monotonic() + patience))
        if reply is None and rank not in self.closed:
            reply = yield from self.greeted(rank, PAUSE)
        if self.is_refused(rank, pieces):
            self.open.discard(self.numbers[-1])
        self.silent -= bool(reply) or self.is_refused(rank, pieces)
        self.reply = reply or self.reply
        return reply

    def is_refused(self, rank: int, pieces: list[bytes]) -> bool:
        """Whether it is known that a piece of this try found nobody who listens, so that no monitor has the whole request."""
        refused = self.closed.get(rank, b'')
        return len(refused) >= TOLD_APART and any(piece.startswith(refused) or refused.startswith(piece) for piece in pieces)

    def answer(self, rank: int, end: float, is_hello_enough: bool = False) -> Steps[Reply | None]:
        """The reply to the last try, or a late one that serves an earlier try of the same request, if one comes in time. It isn't waited for if nobody
        listens at the monitor's address."""
        self.closed.pop(rank, None)
        while time.monotonic() < end:
            heard = yield Wait(end)
            if isinstance(heard, Closed) and heard.address == self.asker.settings.addresses[rank]:
                self.closed[rank] = heard.datagram
                return None
            if isinstance(heard, Reply):
                self.open.discard(heard.number)
            if isinstance(heard, Reply) and self.numbers and (
                    heard.number == self.numbers[-1] or heard.number in self.numbers and heard.kind in SERVED):
                return heard
            if isinstance(heard, Hello) and is_hello_enough:
                return None
        return None
