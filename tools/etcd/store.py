"""A replica of the keys of a quorum with the newest events, from which ranges of this and of earlier revisions and watches are read.

A revision is a version of the map of keys. The replica begins with a whole map, and knows nothing of what was before it: the keys that are in it count as
made and changed at its version. The same is so after a gap, when the monitors no longer keep the changes in between.
"""
from __future__ import annotations

import asyncio
from typing import Any, Iterator, NamedTuple, Optional

from cephmon import AsyncClient, Error, Removed, Set, Whole
from cephmon.operations import MARK, Watch
from etcd.refusals import COMPACTED, FUTURE, Refusal

# The events that are kept, and the bytes of their keys and values. They are forgotten some at a time.
KEPT, KEPT_BYTES, AT_A_TIME = 10_000, 32 << 20, 500
# Seconds between two looks at the monitors, from the first to the last while a call waits for its own change, and otherwise.
SOON, LATER, LOOK = 0.002, 0.03, 0.1
# Seconds for one look.
PATIENCE = 5.0
HIDDEN = MARK.encode()


class Entry(NamedTuple):
    """The value of a key, the revisions at which the key was made and last set, and how often it was set since it was made."""
    value: bytes
    created: int
    modified: int
    times: int


class Event(NamedTuple):
    """The change of a key at a revision, with its entry before and after. None: there was none, or there is none."""
    revision: int
    key: bytes
    after: Optional[Entry]
    before: Optional[Entry]

    def size(self) -> int:
        return len(self.key) + sum(len(entry.value) for entry in (self.after, self.before) if entry)


class Span(NamedTuple):
    """The keys of a range: from `start`, before `end`. There is no last one if `end` is None."""
    start: bytes
    end: Optional[bytes]

    def has(self, key: bytes) -> bool:
        return self.start <= key and (self.end is None or key < self.end)

    def is_one(self) -> bool:
        return self.end == self.start + b'\0'


def span_of(key: bytes, range_end: bytes) -> Span:
    """The range that a request names as etcd does: one key without an end, and all from the key on if the end is a zero byte."""
    if not range_end:
        return Span(key, key + b'\0')
    return Span(key, None if range_end == b'\0' else range_end)


def strangers(client: AsyncClient) -> list[str]:
    """Why no monitor can serve the client, if none can. They are greeted again at the next request, since they may be replaced meanwhile."""
    found = [client.asker.stranger(rank) for rank in client.asker.ranks()]
    if not all(found):
        return []
    client.asker.inbox.hellos.clear()
    return sorted({text for text in found if text})


class Store:
    """The replica. `base` is the version of the map from which on all events are kept, `revision` that of the newest one."""

    def __init__(self, client: AsyncClient):
        self.client = client
        self.keys: dict[bytes, Entry] = {}
        self.events: list[Event] = []
        self.base, self.bytes, self.gaps, self.paxos, self.epoch, self.waiting = 0, 0, 0, 0, 0, 0
        self.trouble = 'the monitors have not been heard yet'
        self.changed, self.poked, self.begun = asyncio.Event(), asyncio.Event(), asyncio.Event()

    @property
    def revision(self) -> int:
        return self.base + len(self.events)

    # ---- the stream

    async def follow(self) -> None:
        """Takes the changes of the monitors, without end."""
        watch, pause = Watch(self.client.asker, 'kv', None, 0.0, PATIENCE), SOON
        while True:
            try:
                changes = await self.client.run(watch.changes())
            except Error as why:
                self.trouble = '; '.join(strangers(self.client)) or str(why)
                await asyncio.sleep(LOOK)
                continue
            self.trouble = ''
            if reply := self.client.asker.last.reply:
                self.epoch = reply.epoch
            if changes:
                self.take(changes)
                pause = SOON
            if watch.next == 0.0:
                continue
            if self.waiting:
                await asyncio.sleep(pause)
                pause = min(2 * pause, LATER)
            else:
                self.poked.clear()
                await self.poke_or(LOOK)
                pause = SOON

    async def poke_or(self, seconds: float) -> None:
        try:
            await asyncio.wait_for(self.poked.wait(), seconds)
        except asyncio.TimeoutError:
            pass

    def take(self, changes: list[Any]) -> None:
        for change in changes:
            if isinstance(change, Whole):
                self.begin(change)
            elif isinstance(change, (Set, Removed)):
                self.add(change)
        if len(self.events) > KEPT + AT_A_TIME or self.bytes > KEPT_BYTES:
            self.forget()
        self.changed.set()
        self.changed = asyncio.Event()

    def begin(self, whole: Whole) -> None:
        """Begins with a whole map. Nothing is known of the changes before it."""
        self.keys = {key.encode(): Entry(value.encode(), whole.version, whole.version, 1) for key, value in whole.map.items()}
        self.events, self.bytes, self.base, self.paxos = [], 0, whole.version, whole.paxos
        self.gaps += 1
        self.begun.set()

    def add(self, change: Set | Removed) -> None:
        key, revision, before = change.key.encode(), change.version, self.keys.get(change.key.encode())
        after = None
        if isinstance(change, Set):
            after = Entry(change.value.encode(), before.created if before else revision, revision, before.times + 1 if before else 1)
            self.keys[key] = after
        else:
            self.keys.pop(key, None)
        event = Event(revision, key, after, before)
        self.events.append(event)
        self.bytes += event.size()

    def forget(self) -> None:
        """Forgets the oldest events, down to the bounds."""
        count = max(0, len(self.events) - KEPT)
        left = self.bytes - sum(event.size() for event in self.events[:count])
        while left > KEPT_BYTES:
            left -= self.events[count].size()
            count += 1
        del self.events[:count]
        self.base, self.bytes = self.base + count, left

    # ---- waiting

    async def news(self) -> None:
        """Waits for the next changes."""
        await self.changed.wait()

    async def found(self, after: int, key: bytes, value: bytes | None, paxos: int) -> Event | None:
        """Waits for the event after a revision that sets a key to this value, or removes it if that is None. The result is None if a whole map came that has
        version `paxos` of the log of all changes, and so the change, but not as an event."""
        self.waiting += 1
        self.poked.set()
        try:
            gaps = self.gaps
            while True:
                if self.gaps != gaps:
                    gaps, after = self.gaps, self.base
                    if self.paxos >= paxos:
                        return None
                for event in self.after(after):
                    if event.key == key and (event.after.value if event.after else None) == value:
                        return event
                after = self.revision
                await self.news()
        finally:
            self.waiting -= 1

    # ---- reading

    def after(self, revision: int, count: int | None = None) -> list[Event]:
        """The events after a revision, which is kept, at most `count` of them."""
        start = max(0, revision - self.base)
        return self.events[start:None if count is None else start + count]

    def is_kept(self, revision: int) -> bool:
        """Whether the events from this revision on are kept."""
        return revision > self.base

    def at(self, revision: int) -> dict[bytes, Entry]:
        """The keys as of a revision, the newest one if it is 0. Raises Refusal if it isn't kept, or isn't there yet."""
        if revision <= 0 or revision == self.revision:
            return self.keys
        if revision > self.revision:
            raise Refusal('OUT_OF_RANGE', FUTURE)
        if revision < self.base:
            raise Refusal('OUT_OF_RANGE', COMPACTED)
        keys = dict(self.keys)
        for event in reversed(self.after(revision)):
            if event.before:
                keys[event.key] = event.before
            else:
                keys.pop(event.key, None)
        return keys

    def within(self, span: Span, revision: int = 0) -> Iterator[tuple[bytes, Entry]]:
        """The keys of a range as of a revision, with their entries, in ascending order. Markers are left out."""
        keys = self.at(revision)
        if span.is_one():
            names = [span.start] if span.start in keys else []
        else:
            names = sorted(key for key in keys if span.has(key))
        return ((key, keys[key]) for key in names if not key.startswith(HIDDEN))

    def size(self) -> int:
        """The bytes of all keys and values."""
        return sum(len(key) + len(entry.value) for key, entry in self.keys.items())
