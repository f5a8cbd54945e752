"""What each call of etcd's v3 API does on a quorum, whichever way it came in. A call raises Refusal if there is no answer of its form."""
from __future__ import annotations

import asyncio
import hashlib
import secrets
import time
from typing import Any, Awaitable, Callable, Optional

from cephmon import AsyncClient, Error, NotKnown, Refused
from cephmon.operations import removal, setting
from cephmon.wire import key_field, text_field
from etcd.changing import Changes, Running
from etcd.messages import new
from etcd.monitors import leading
from etcd.refusals import MAY_BE_MADE, NO_KEY, Refusal, no_form, of_error, within
from etcd.store import HIDDEN, Entry, Event, Span, Store, span_of, strangers

# Seconds for a call whose client names no deadline, and the most for any.
TIMEOUT = 30.0
# Seconds after which the leader is looked for again.
AGAIN = 3.0
# Seconds for which a call waits for the first map.
BEGIN = 5.0
# The release of etcd whose calls these are.
RELEASE = '3.4.0'
SORTED: dict[int, Callable[[tuple[bytes, Entry]], Any]] = {
    0: lambda pair: pair[0], 1: lambda pair: pair[1].times, 2: lambda pair: pair[1].created, 3: lambda pair: pair[1].modified, 4: lambda pair: pair[1].value}
NOT_SEEN = 'the change was made, but the monitors have not shown it to the gateway yet'


def key_value(key: bytes, entry: Entry, is_bare: bool = False) -> Any:
    """A key with its entry, without the value if `is_bare`."""
    return new('KeyValue', key=key, create_revision=entry.created, mod_revision=entry.modified, version=entry.times, value=b'' if is_bare else entry.value)


def checked_key(key: bytes) -> bytes:
    """The key of a change, if a quorum can have it."""
    if not key:
        raise Refusal('INVALID_ARGUMENT', NO_KEY)
    try:
        key_field(key)
    except ValueError as why:
        raise Refusal('INVALID_ARGUMENT', str(why)) from None
    if key.startswith(HIDDEN):
        raise Refusal('INVALID_ARGUMENT', f'keys that begin with {HIDDEN.decode()} are those of fresh reads')
    return key


def checked_value(value: bytes) -> bytes:
    try:
        text_field(value)
    except ValueError:
        raise Refusal('INVALID_ARGUMENT', 'a value is UTF-8; base64 makes other bytes text') from None
    return value


def kept(request: Any, entry: Entry) -> bool:
    """Whether an entry is within the bounds of revisions that a range has."""
    return ((not request.min_mod_revision or entry.modified >= request.min_mod_revision)
            and (not request.max_mod_revision or entry.modified <= request.max_mod_revision)
            and (not request.min_create_revision or entry.created >= request.min_create_revision)
            and (not request.max_create_revision or entry.created <= request.max_create_revision))


class Markers:
    """Fresh reads: a marker is set, and when the replica has it, it has all that was acknowledged before. All calls that wait share the next marker, which
    is one key that gets a new value each time."""

    def __init__(self, store: Store, change: Callable[..., Awaitable[int]], name: str):
        self.store, self.change, self.key = store, change, HIDDEN + name.encode()
        self.running: Optional[asyncio.Task[None]] = None
        self.next: Optional[asyncio.Task[None]] = None

    def asked(self) -> asyncio.Task[None]:
        """The next marker, which is asked for now if it isn't yet."""
        if self.next is None:
            self.next = asyncio.ensure_future(self.mark(self.running))
            self.next.add_done_callback(lambda task: task.cancelled() or task.exception())
        return self.next

    async def passed(self, end: float) -> None:
        """Waits until the replica has each change that was acknowledged before this call."""
        await within(end - time.monotonic(), asyncio.shield(self.asked()), 'a fresh read needs a change, which no quorum has made in time')

    async def mark(self, before: asyncio.Task[None] | None) -> None:
        if before:
            await asyncio.wait({before})
        self.running, self.next = self.next, None
        after, value = self.store.revision, secrets.token_hex(8).encode()
        try:
            paxos = await self.change(setting(self.key, value), time.monotonic() + TIMEOUT, [])
        except Refusal as why:
            raise Refusal('UNAVAILABLE' if why.status == 'DEADLINE_EXCEEDED' else why.status, f'a fresh read has to set a key: {why.text}') from None
        await within(TIMEOUT, self.store.found(after, self.key, value, paxos), NOT_SEEN)


class Gateway:
    """The calls, over a client for changes and a replica with a client of its own. `urls` are where clients find the gateway."""

    def __init__(self, client: AsyncClient, store: Store, urls: list[str], name: str):
        self.client, self.store, self.urls, self.name = client, store, urls, name
        self.changes = Changes(client)
        self.markers = Markers(store, self.change, name)
        quorum = repr((client.asker.settings.name, client.asker.settings.addresses)).encode()
        self.cluster = int.from_bytes(hashlib.sha256(quorum).digest()[:8], 'big') >> 1

    def header(self, revision: int | None = None) -> Any:
        """The header of an answer. The member is the monitor whose changes the replica follows."""
        return new('ResponseHeader', cluster_id=self.cluster, member_id=self.store.client.asker.asked + 1, raft_term=self.store.epoch,
                   revision=self.store.revision if revision is None else revision)

    async def ready(self, end: float) -> None:
        """Waits for the first map. A quorum in which nothing was ever changed shows none, so a marker is its first change."""
        if not self.store.begun.is_set():
            self.markers.asked()
            try:
                await asyncio.wait_for(self.store.begun.wait(), max(0.001, min(BEGIN, end - time.monotonic())))
            except asyncio.TimeoutError:
                raise Refusal('UNAVAILABLE', f'no map of the monitors yet: {self.store.trouble}') from None

    async def change(self, message: bytes, end: float, running: Running) -> int:
        """Has a change made, and returns its version of the log of all changes."""
        try:
            return await self.changes.made(message, end, running)
        except Error as error:
            raise of_error(error, '; '.join(strangers(self.client))) from None

    async def prefer_leader(self) -> None:
        """Has the leader asked first, without end: it has each change before the other monitors have it."""
        while True:
            rank = (await leading(self.client.asker.settings.addresses)).rank
            if rank is not None:
                self.client.asker.asked = self.store.client.asker.asked = rank
            await asyncio.sleep(AGAIN)

    # ---- keys

    async def range(self, request: Any, end: float) -> Any:
        if not request.key:
            raise Refusal('INVALID_ARGUMENT', NO_KEY)
        if request.sort_target not in SORTED or request.sort_order not in (0, 1, 2):
            raise Refusal('INVALID_ARGUMENT', 'etcdserver: invalid sort option')
        await self.ready(end)
        if not request.serializable:
            await self.markers.passed(end)
        found = list(self.store.within(span_of(request.key, request.range_end), request.revision))
        count, found = len(found), [pair for pair in found if kept(request, pair[1])]
        if request.sort_order or request.sort_target:
            found.sort(key=SORTED[request.sort_target], reverse=request.sort_order == 2)
        answer = new('RangeResponse', header=self.header(), count=count)
        if not request.count_only:
            shown = found[:request.limit] if request.limit > 0 else found
            answer.more = len(shown) < len(found)
            answer.kvs.extend(key_value(key, entry, request.keys_only) for key, entry in shown)
        return answer

    async def put(self, request: Any, end: float) -> Any:
        key, value = checked_key(request.key), checked_value(request.value)
        if request.lease:
            raise no_form('etcdserverpb.Lease', 'Put')
        if request.ignore_value or request.ignore_lease:
            raise Refusal('UNIMPLEMENTED', 'a quorum has no change of a key that keeps its value, and no leases')
        await self.ready(end)
        async with self.changes.alone(key) as running:
            after = self.store.revision
            paxos = await self.change(setting(key, value), end, running)
            event = await within(end - time.monotonic(), self.store.found(after, key, value, paxos), NOT_SEEN)
        answer = new('PutResponse', header=self.header(event.revision if event else None))
        if request.prev_kv and event and event.before:
            answer.prev_kv.CopyFrom(key_value(key, event.before))
        return answer

    async def delete(self, request: Any, end: float) -> Any:
        if not request.key:
            raise Refusal('INVALID_ARGUMENT', NO_KEY)
        await self.ready(end)
        key = await self.only_key(span_of(request.key, request.range_end), end)
        event = await self.removed(key, end) if key else None
        answer = new('DeleteRangeResponse', header=self.header(event.revision if event else None), deleted=1 if event else 0)
        if request.prev_kv and event and event.before:
            answer.prev_kvs.append(key_value(event.key, event.before))
        return answer

    async def only_key(self, span: Span, end: float) -> bytes | None:
        """The key of a range that one change can remove, if there is one."""
        if span.is_one():
            return checked_key(span.start)
        await self.markers.passed(end)
        keys = [key for key, _ in self.store.within(span)]
        if len(keys) > 1:
            raise Refusal('UNIMPLEMENTED', f'the range has {len(keys)} keys, and a change of a quorum is of one key: delete one key after the other')
        return keys[0] if keys else None

    async def removed(self, key: bytes, end: float) -> Event | None:
        """Removes a key. The result is None if there was none."""
        async with self.changes.alone(key) as running:
            while True:
                after = self.store.revision
                try:
                    paxos = await self.removal(key, end, running)
                except NoKey:
                    await self.markers.passed(end)
                    if key not in self.store.keys:
                        return None
                    continue
                event = await within(end - time.monotonic(), self.store.found(after, key, None, paxos), NOT_SEEN)
                return event or Event(self.store.revision, key, None, None)

    async def removal(self, key: bytes, end: float, running: Running) -> int:
        """Has a key removed. Raises NoKey if there was none, and no try removed it."""
        try:
            return await self.changes.made(removal(key), end, running)
        except Refused as why:
            if why.kind == 'NoSuch' and not isinstance(why, NotKnown):
                raise NoKey from None
            if why.kind == 'NoSuch':
                raise Refusal('DEADLINE_EXCEEDED', f'{MAY_BE_MADE}: there is no such key now, and a try of the removal had no answer') from None
            raise of_error(why, '') from None
        except Error as why:
            raise of_error(why, '; '.join(strangers(self.client))) from None

    # ---- the quorum

    async def status(self, request: Any, end: float) -> Any:
        await self.ready(end)
        leader = await leading(self.client.asker.settings.addresses)
        found = 0 if leader.rank is None else leader.rank + 1
        version, size = max(self.client.seen, self.store.paxos), self.store.size()
        return new('StatusResponse', header=self.header(), version=RELEASE, dbSize=size, dbSizeInUse=size, leader=found, raftIndex=version,
                   raftAppliedIndex=version, raftTerm=leader.epoch, errors=[self.store.trouble] if self.store.trouble else [])

    async def members(self, request: Any, end: float) -> Any:
        members = [new('Member', ID=rank + 1, name=f'monitor{rank}', peerURLs=[f'udp://{host}:{port}'], clientURLs=self.urls)
                   for rank, (host, port) in enumerate(self.client.asker.settings.addresses)]
        return new('MemberListResponse', header=self.header(), members=members)

    async def alarms(self, request: Any, end: float) -> Any:
        if request.action:
            raise no_form('etcdserverpb.Maintenance', 'Alarm')
        return new('AlarmResponse', header=self.header())


class NoKey(Exception):
    """There was no key to remove, and no try of it was made."""
