"""Changes of keys, some at the same time, and those of one key one after the other.

A change is asked for again if a monitor doesn't answer in time. So it may be made twice, and the second time after its answer. It must not undo a later change
of its key. So the next change of a key begins only when each try of the one before was answered, or some seconds after it. Meanwhile a quorum that lost its
leader has elected another one, and a try that no monitor answered is lost.
"""
from __future__ import annotations

import asyncio
import contextlib
import time
from typing import AsyncIterator
from weakref import WeakValueDictionary

from cephmon import AsyncClient, Error
from cephmon.asking import SETTLED, Request, Steps
from cephmon.operations import version_of
from etcd.refusals import Refusal

# The changes that are asked for at the same time. A leader has room for 64 that wait, of all clients.
TOGETHER = 32
# Changes, each of which runs as long as a try may make it.
Running = list['asyncio.Task[None]']


def steps_of(request: Request, made: asyncio.Future[int]) -> Steps[None]:
    """The steps of a change, whose version or error is that of `made`, and then of the wait until no try makes it any more."""
    try:
        version = version_of((yield from request.steps()))
        made.set_result(version)
    except Error as why:
        made.set_exception(why)
    yield from request.settled(time.monotonic() + SETTLED)


class Changes:
    """Has changes made by a client."""

    def __init__(self, client: AsyncClient):
        self.client = client
        self.room = asyncio.Semaphore(TOGETHER)
        self.locks: WeakValueDictionary[bytes, asyncio.Lock] = WeakValueDictionary()

    async def made(self, message: bytes, end: float, running: Running) -> int:
        """Has an encoded change made, and returns its version of the log of all changes. Raises Refusal if there was no time for it, or an Error. The change is
        added to those that run."""
        async with self.room:
            if time.monotonic() >= end:
                raise Refusal('UNAVAILABLE', 'nothing was changed: too many calls wait, or a try of an earlier change of this key had no answer yet')
            request = self.client.asker.request(message, end)
            made: asyncio.Future[int] = asyncio.get_running_loop().create_future()
            made.add_done_callback(lambda each: each.cancelled() or each.exception())
            change = asyncio.ensure_future(self.client.run(steps_of(request, made)))
            # If the change ends without an outcome, as when the gateway ends, nobody waits for one.
            change.add_done_callback(lambda _: made.cancel())
            running.append(change)
            try:
                return await asyncio.shield(made)
            except asyncio.CancelledError:
                # Nobody waits for it any more, so there is no further try.
                request.end = time.monotonic()
                raise

    @contextlib.asynccontextmanager
    async def alone(self, key: bytes) -> AsyncIterator[Running]:
        """Waits until no earlier change of a key runs. Later ones wait as long as those of this context run."""
        lock = self.locks.get(key)
        if lock is None:
            lock = self.locks[key] = asyncio.Lock()
        running: Running = []
        await lock.acquire()
        try:
            yield running
        finally:
            asyncio.ensure_future(released(lock, running))


async def released(lock: asyncio.Lock, running: Running) -> None:
    """Releases the lock of a key after its changes."""
    try:
        await asyncio.gather(*running, return_exceptions=True)
    finally:
        lock.release()
