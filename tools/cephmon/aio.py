"""A client for asyncio. Its requests may run at the same time: each takes the replies to its own IDs."""
from __future__ import annotations

import asyncio
import socket
import time
from typing import Any, AsyncIterator, Optional, Sequence, TypeVar, Union, overload

from cephmon import operations
from cephmon.asking import PATIENCE, Asker, Heard, Rest, Send, Steps
from cephmon.changes import Change
from cephmon.client import LOOK, TIMEOUT, ended_at, settings_of
from cephmon.closed import Address, closed, keep_errors
from cephmon.errors import Refused
from cephmon.operations import Watch
from cephmon.wire import MOST_MESSAGE

T = TypeVar('T')
D = TypeVar('D')


class Link(asyncio.DatagramProtocol):
    """The client's socket: what a datagram completes goes to all requests that wait."""

    def __init__(self, asker: Asker, socket: socket.socket):
        self.asker, self.socket = asker, socket
        self.queues: set[asyncio.Queue[Heard]] = set()

    def datagram_received(self, data: bytes, addr: Any) -> None:
        if found := self.asker.inbox.take(data, addr):
            self.put(found)

    def error_received(self, exc: Exception) -> None:
        """Takes a datagram that couldn't be sent as a lost one, and passes on at which addresses nobody listens."""
        for found in closed(self.socket):
            self.put(found)

    def put(self, found: Heard) -> None:
        for queue in self.queues:
            queue.put_nowait(found)


class AsyncClient:
    """As `cephmon.Client`, in an event loop: `async with AsyncClient() as client: await client.set('color', 'green')`.

    A request may be cancelled. A change is then not known: it may have been made, and may still be made."""

    def __init__(self, addresses: Sequence[Address] | None = None, monitor: int | None = None, first: int = 0, timeout: float = TIMEOUT,
                 patience: float = PATIENCE, once: bool = False, onward: bool = True, *, config: str | None = None, name: str | None = None):
        """The arguments are those of `cephmon.Client`. Names of hosts are resolved at once, before the loop is needed."""
        settings = settings_of(addresses, config, name, monitor, patience, once, onward)
        self.asker, self.timeout = Asker(settings, first), timeout
        ended_at(None, timeout)
        self.link: Link | None = None
        self.transport: asyncio.DatagramTransport | None = None

    async def __aenter__(self) -> AsyncClient:
        await self.open()
        return self

    async def __aexit__(self, *_: object) -> None:
        self.close()

    async def open(self) -> None:
        """Opens the socket. `async with` does it."""
        link = socket.socket(socket.AF_INET, socket.SOCK_DGRAM)
        link.setsockopt(socket.SOL_SOCKET, socket.SO_RCVBUF, 4 * MOST_MESSAGE)
        keep_errors(link)
        link.setblocking(False)
        link.bind(('', 0))
        loop = asyncio.get_running_loop()
        self.transport, self.link = await loop.create_datagram_endpoint(lambda: Link(self.asker, link), sock=link)

    def close(self) -> None:
        """Closes the socket."""
        if self.transport:
            self.transport.close()

    @property
    def seen(self) -> int:
        """The greatest version of the log of all changes that the client saw."""
        return self.asker.seen

    async def set(self, key: str | bytes, value: str | bytes, *, timeout: float | None = None) -> int:
        """Sets a key, and returns the log's version of this change."""
        return await self.run(operations.set_key(self.asker, key, value, self.end(timeout)))

    async def remove(self, key: str | bytes, *, timeout: float | None = None) -> int:
        """Removes a key, and returns the log's version of this change."""
        return await self.run(operations.remove_key(self.asker, key, self.end(timeout)))

    async def log(self, text: str | bytes, *, timeout: float | None = None) -> int:
        """Adds a text to the cluster log, and returns the version of this change."""
        return await self.run(operations.log_text(self.asker, text, self.end(timeout)))

    async def fresh(self, *, timeout: float | None = None) -> int:
        """Returns a version of the log with every change that was acknowledged before this call."""
        return await self.run(operations.mark(self.asker, self.end(timeout)))

    @overload
    async def get(self, key: str | bytes, *, fresh: bool = ..., at_least: int = ..., timeout: float | None = ...) -> str: ...

    @overload
    async def get(self, key: str | bytes, default: D, /, *, fresh: bool = ..., at_least: int = ..., timeout: float | None = ...) -> Union[str, D]: ...

    async def get(self, key: str | bytes, *default: Any, fresh: bool = False, at_least: int = 0, timeout: float | None = None) -> Any:
        """The value of a key. If there is no such key it is `default`, and without a default Refused is raised."""
        try:
            return await self.run(operations.get(self.asker, key, at_least, fresh, self.end(timeout)))
        except Refused as why:
            if not default or why.kind != 'NoSuch':
                raise
            return default[0]

    async def keys(self, prefix: str = '', *, fresh: bool = False, at_least: int = 0, timeout: float | None = None) -> list[str]:
        """The names of the keys with this prefix, in ascending order."""
        return await self.run(operations.keys(self.asker, prefix, at_least, fresh, self.end(timeout)))

    async def show(self, service: str, at_least: int = 0, *, fresh: bool = False, timeout: float | None = None) -> dict[str, Any]:
        """The `map` of a service at its `version`, as of version `paxos` of the log of all changes."""
        return await self.run(operations.show(self.asker, service, at_least, fresh, self.end(timeout)))

    async def since(self, service: str, version: int, *, timeout: float | None = None) -> dict[str, Any]:
        """The `changes` of a service's map after a version, or the whole map."""
        return await self.run(operations.since(self.asker, service, version, self.end(timeout)))

    async def watch(self, service: str = 'kv', version: int | None = None, *, pause: float = LOOK, timeout: float | None = None) -> AsyncIterator[Change]:
        """Yields each change of a service's map after this version of it, without end and without a gap, as `Client.watch`."""
        self.end(timeout)
        watch = Watch(self.asker, service, version, pause, self.timeout if timeout is None else timeout)
        while True:
            for change in await self.run(watch.changes()):
                yield change

    def end(self, timeout: float | None) -> float:
        return ended_at(timeout, self.timeout)

    async def run(self, steps: Steps[T]) -> T:
        """Does each step, and returns what the steps return."""
        if self.link is None or self.transport is None or self.transport.is_closing():
            raise RuntimeError('the client is not open: use `async with`')
        queue: asyncio.Queue[Heard] = asyncio.Queue()
        self.link.queues.add(queue)
        try:
            return await self.through(steps, self.transport, queue)
        finally:
            self.link.queues.discard(queue)

    async def through(self, steps: Steps[T], transport: asyncio.DatagramTransport, queue: asyncio.Queue[Heard]) -> T:
        heard: Optional[Heard] = None
        while True:
            try:
                step = steps.send(heard)
            except StopIteration as ended:
                found: T = ended.value
                return found
            heard = None
            if isinstance(step, Send):
                for datagram in step.datagrams:
                    transport.sendto(datagram, step.address)
            elif isinstance(step, Rest):
                await asyncio.sleep(max(0.0, step.until - time.monotonic()))
            else:
                heard = await next_of(queue, step.until)


async def next_of(queue: asyncio.Queue[Heard], until: float) -> Heard | None:
    """What a queue has next, if it has anything in time. Before Python 3.12 `asyncio.wait_for` loses a cancellation that comes together with a result, and the
    request would go on."""
    if not queue.empty():
        return queue.get_nowait()
    getting = asyncio.ensure_future(queue.get())
    try:
        done, _ = await asyncio.wait({getting}, timeout=max(0.0, until - time.monotonic()))
        return getting.result() if done else None
    finally:
        getting.cancel()
