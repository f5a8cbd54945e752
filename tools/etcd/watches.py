"""The watches of one stream. They share a cursor into the history and have no queue, so a client that doesn't read costs no room.

The cursor stays until what came before it was sent. If the events after it are forgotten meanwhile, each watch is canceled as compacted.
"""
from __future__ import annotations

import asyncio
import time
from typing import Any, Awaitable, Callable, Iterator, NamedTuple

from etcd.messages import new
from etcd.refusals import COMPACTED
from etcd.service import Gateway, key_value
from etcd.store import HIDDEN, Event, Span, Store, span_of

# The most events of one answer and its bytes, and the most pairs of an event and a watch that are made at a time.
EVENTS, BYTES, PAIRS = 1_000, 1 << 20, 100_000
# Seconds between two reports of progress to an idle watch that asks for them.
PROGRESS = 60.0
NO_PUTS, NO_DELETES = 0, 1
Write = Callable[[Any], Awaitable[None]]


class Watching(NamedTuple):
    """A watch: its number, its range, the first revision that it is sent, and what it asks for."""
    number: int
    span: Span
    start: int
    request: Any

    def wants(self, event: Event) -> bool:
        filters = self.request.filters
        return event.revision >= self.start and self.span.has(event.key) and (NO_PUTS if event.after else NO_DELETES) not in filters


def event_of(event: Event, is_with_previous: bool) -> Any:
    """An event as a message. Of a key that was removed it has the key and the revision."""
    found = new('Event', type=0 if event.after else 1)
    found.kv.CopyFrom(key_value(event.key, event.after) if event.after else new('KeyValue', key=event.key, mod_revision=event.revision))
    if is_with_previous and event.before:
        found.prev_kv.CopyFrom(key_value(event.key, event.before))
    return found


def batches(events: list[Event], is_with_previous: bool) -> Iterator[list[Any]]:
    """The messages of events, in parts that are within the bounds of an answer."""
    part: list[Any] = []
    size = 0
    for event in events:
        if part and (len(part) == EVENTS or size + event.size() > BYTES):
            yield part
            part, size = [], 0
        part.append(event_of(event, is_with_previous))
        size += event.size()
    if part:
        yield part


class Stream:
    """The watches of a stream, whose answers `write` sends. It returns when there is room for the next one."""

    def __init__(self, gateway: Gateway, write: Write):
        self.gateway, self.store, self.write = gateway, gateway.store, write
        self.watches: dict[int, Watching] = {}
        # The watches of one key each by that key, and the others.
        self.by_key: dict[bytes, dict[int, Watching]] = {}
        self.wide: dict[int, Watching] = {}
        self.cursor, self.gaps, self.number = self.store.revision, self.store.gaps, 0
        self.turn = asyncio.Lock()

    async def take(self, request: Any) -> None:
        """Does what a request asks for."""
        kind = request.WhichOneof('request_union')
        async with self.turn:
            if kind == 'create_request':
                await self.create(request.create_request)
            elif kind == 'cancel_request' and request.cancel_request.watch_id in self.watches:
                self.drop(request.cancel_request.watch_id)
                await self.answer(request.cancel_request.watch_id, canceled=True)
            elif kind == 'progress_request':
                await self.catch_up()
                await self.answer(-1)

    async def create(self, request: Any) -> None:
        await self.catch_up()
        number = request.watch_id or self.free()
        if number in self.watches:
            await self.answer(-1, created=True, canceled=True, cancel_reason='etcdserver: mvcc: duplicate watch ID provided on the WatchStream')
            return
        start = max(0, request.start_revision) or self.cursor + 1
        # An empty key is the least one, as in etcd.
        watch = Watching(number, span_of(request.key or b'\0', request.range_end), start, request)
        await self.answer(number, created=True)
        if not self.store.is_kept(start):
            await self.cancel_compacted(number)
            return
        earlier = [event for event in self.store.after(start - 1) if event.revision <= self.cursor and is_shown(event) and watch.wants(event)]
        await self.send(watch, earlier)
        self.add(watch)

    def free(self) -> int:
        """The next number that no watch has."""
        while self.number in self.watches:
            self.number += 1
        self.number += 1
        return self.number - 1

    def add(self, watch: Watching) -> None:
        self.watches[watch.number] = watch
        (self.by_key.setdefault(watch.span.start, {}) if watch.span.is_one() else self.wide)[watch.number] = watch

    def drop(self, number: int) -> None:
        watch = self.watches.pop(number)
        self.wide.pop(number, None)
        if watch.span.is_one():
            of_key = self.by_key[watch.span.start]
            del of_key[number]
            if not of_key:
                del self.by_key[watch.span.start]

    async def catch_up(self) -> None:
        """Sends each event up to the newest one to the watches of its key, some at a time, and moves the cursor after them."""
        while True:
            if self.gaps != self.store.gaps or not self.store.is_kept(self.cursor + 1):
                await self.lose()
            many = max(1, min(EVENTS, PAIRS // max(1, len(self.wide))))
            events = self.store.after(self.cursor, many)
            if not events:
                return
            self.cursor = events[-1].revision
            found: dict[int, list[Event]] = {}
            for event in filter(is_shown, events):
                for group in (self.by_key.get(event.key, {}), self.wide):
                    for number, watch in group.items():
                        if watch.wants(event):
                            found.setdefault(number, []).append(event)
            for number, of_watch in found.items():
                await self.send(self.watches[number], of_watch)

    async def lose(self) -> None:
        """The events after the cursor are no longer kept: cancels each watch that wants some of them."""
        base, is_back = self.store.base, self.store.base < self.cursor
        for number, watch in list(self.watches.items()):
            if is_back or max(watch.start, self.cursor + 1) <= base:
                self.drop(number)
                await self.cancel_compacted(number)
        self.cursor, self.gaps = base, self.store.gaps

    async def cancel_compacted(self, number: int) -> None:
        await self.answer(number, canceled=True, compact_revision=self.store.base + 1, cancel_reason=COMPACTED)

    async def send(self, watch: Watching, events: list[Event]) -> None:
        for part in batches(events, watch.request.prev_kv):
            await self.answer(watch.number, events=part)

    async def answer(self, number: int, **fields: Any) -> None:
        await self.write(new('WatchResponse', header=self.gateway.header(self.cursor), watch_id=number, **fields))

    async def run(self) -> None:
        """Sends events as they come, and the progress of watches that ask for it, without end."""
        progress = time.monotonic() + PROGRESS
        while True:
            changed = self.store.changed
            async with self.turn:
                await self.catch_up()
                if time.monotonic() >= progress:
                    progress = time.monotonic() + PROGRESS
                    for number in [number for number, watch in self.watches.items() if watch.request.progress_notify]:
                        await self.answer(number)
            try:
                await asyncio.wait_for(changed.wait(), PROGRESS)
            except asyncio.TimeoutError:
                pass


def is_shown(event: Event) -> bool:
    return not event.key.startswith(HIDDEN)
