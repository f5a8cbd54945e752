"""A lock, an election, a counter and a queue of tasks, on unique keys, so that a request that is sent again changes nothing more. docs/RECIPES.md has what
each promises and why.

    from cephmon import Client
    from cephmon.recipes import Lock

    with Client() as client, Lock(client, 'backups') as token:
        store(token)    # whoever stores refuses a token below one that it saw

A recipe has a client of its own, made from the one that is given. It keeps its keys below `lock/`, `election/`, `counter/` or `tasks/`, and removes them.
"""
from __future__ import annotations

import random
import secrets
import time
from typing import NamedTuple

from cephmon.client import Client, ended_at
from cephmon.contenders import LOOK, PATIENCE, PERIOD, Contender, Keeper, Lost, Replica, left, removed, won
from cephmon.errors import Done, Error, NotKnown, NotServed
from cephmon.wire import key_field, text_field

# Seconds in which keys are removed if nothing depends on it, and among how many free tasks a worker chooses that lost a race for one.
QUIETLY, CHOICES = 5.0, 8

__all__ = ['Counter', 'Election', 'Fence', 'Lock', 'Lost', 'Stale', 'Task', 'Tasks', 'TimedOut']


class TimedOut(Error):
    """It wasn't acquired in time. Nothing is held."""


class Stale(Error):
    """A fence saw a greater token before: whoever has this one was passed over."""


class Fence:
    """What the guarded service keeps: the greatest token that it saw. It has to keep that as safely as what it guards."""

    def __init__(self, greatest: int = 0):
        self.greatest = greatest

    def check(self, token: int) -> None:
        """Raises Stale if a greater token was seen before."""
        if token < self.greatest:
            raise Stale(f'the token is {token}, and {self.greatest} was seen before')
        self.greatest = token


def prefix_of(kind: str, name: str) -> str:
    """The prefix of the keys of a recipe. Raises ValueError if no key can have it."""
    key_field(f'{kind}/{name}/{"0" * 64}')
    if not name or '/' in name:
        raise ValueError('the name of a recipe is not empty, and has no /')
    return f'{kind}/{name}/'


class Lock:
    """A lock with fencing tokens. Each `acquire` has a token that is greater than all of those that held before."""

    def __init__(self, client: Client, name: str, *, period: float = PERIOD, patience: int = PATIENCE, prefix: str | None = None):
        """`period` is the seconds between two renewals, and `patience` how many renewals of another one a silent holder is waited for. `prefix` is for other
        recipes: what the keys of contenders begin with, and no other keys."""
        self.prefix = prefix or prefix_of('lock', name)
        self.client, self.period, self.patience = client.copy(), period, patience
        self.contender: Contender | None = None
        self.keeper: Keeper | None = None
        # The last contender that left without having been first.
        self.waited: Contender | None = None

    def acquire(self, timeout: float | None = None) -> int:
        """Waits until it is held, and returns the token. Raises TimedOut if it isn't within these seconds, by default those of the client's requests.
        Then it may take some seconds more to leave. A holder that died is passed over after some `patience` periods, also of several calls together. A lock
        that was lost can be acquired again."""
        if self.keeper and self.contender:
            if not self.contender.is_lost:
                raise RuntimeError('it is already acquired')
            self.keeper.stop()
            lost, self.keeper, self.contender = self.contender, None, None
            left_quietly(lost)
        end = ended_at(timeout, self.client.timeout)
        while time.monotonic() < end:
            contender = Contender(Replica(self.client, self.prefix), self.prefix, self.period, self.patience, self.waited)
            try:
                contender.enter(left(end))
                if won(contender, end):
                    self.contender, self.keeper, self.waited = contender, Keeper(contender), None
                    self.keeper.start()
                    return contender.token
            except NotServed:
                pass
            finally:
                if not self.keeper:
                    self.waited = contender
                    left_quietly(contender)
        raise TimedOut('it was not acquired in time')

    @property
    def token(self) -> int:
        """The token of the holder. Raises Lost if it is known that it was passed over; it may have been, even if that isn't known here yet."""
        if not self.contender or not self.keeper:
            raise RuntimeError('it is not acquired')
        if self.contender.is_lost:
            raise Lost(f'the holder of token {self.contender.token} was passed over')
        return self.contender.token

    def release(self, timeout: float | None = None) -> None:
        """Lets the next one hold. Raises NotServed if that isn't known in time: the others then pass over this one."""
        if self.keeper and self.contender:
            self.keeper.stop()
            contender, self.keeper, self.contender = self.contender, None, None
            contender.leave(timeout)

    def close(self) -> None:
        """Releases it if it is held, and closes its client."""
        try:
            self.release()
        except Error:
            pass
        self.client.close()

    def __enter__(self) -> int:
        try:
            return self.acquire()
        except BaseException:
            self.close()
            raise

    def __exit__(self, *_: object) -> None:
        self.close()


def removed_quietly(client: Client, key: str) -> None:
    """Removes a key that means nothing any more. If that fails, a later one is removed with it."""
    try:
        removed(client, key, None)
    except Error:
        pass


def left_quietly(contender: Contender) -> None:
    """Leaves, or lets the others pass over what is left."""
    try:
        contender.leave(max(contender.period, QUIETLY))
    except Error:
        pass


class Leader(NamedTuple):
    """Who was elected last, as far as a map says: the fencing token, and the value that the leader gave of itself."""
    token: int
    value: str


class Election:
    """An election among clients. The leader's token is a fencing token."""

    def __init__(self, client: Client, name: str, value: str, *, period: float = PERIOD, patience: int = PATIENCE):
        """`value` is what others read of the leader, such as its address. Raises ValueError if it has no encoding."""
        text_field(value)
        self.client, self.value, self.place = client.copy(), value, prefix_of('election', name)
        self.lock = Lock(client, name, period=period, patience=patience, prefix=f'{self.place}candidate/')

    def campaign(self, timeout: float | None = None) -> int:
        """Waits until this client leads, and returns its token. Raises TimedOut if it doesn't within these seconds."""
        token = self.lock.acquire(timeout)
        try:
            self.publish(token, self.value)
        except BaseException:
            self.lock.release()
            raise
        return token

    @property
    def token(self) -> int:
        """The token of the leader that this is. Raises Lost if it is known that another one was elected."""
        return self.lock.token

    def resign(self, timeout: float | None = None) -> None:
        """Lets another one lead."""
        if self.lock.keeper and self.lock.contender:
            token = self.lock.contender.token
            self.publish(token, '')
            self.lock.release(timeout)

    def publish(self, token: int, value: str) -> None:
        """Says who leads, under the token, and removes what earlier leaders said."""
        prefix = f'{self.place}leader/'
        self.client.set(f'{prefix}{token:016x}', value)
        for key in self.client.keys(prefix):
            if int(key[len(prefix):], 16) < token:
                removed_quietly(self.client, key)

    def close(self) -> None:
        """Resigns, and closes its client."""
        try:
            self.resign()
        except Error:
            pass
        self.lock.close()
        self.client.close()

    @staticmethod
    def leader(client: Client, name: str, *, fresh: bool = False, timeout: float | None = None) -> Leader | None:
        """Who was elected last, if that one didn't resign. It may have been passed over since: only a fence excludes that."""
        prefix = f'{prefix_of("election", name)}leader/'
        found = client.show('kv', fresh=fresh, timeout=timeout)['map']
        leaders = [Leader(int(key[len(prefix):], 16), value) for key, value in found.items() if key.startswith(prefix)]
        last = max(leaders, default=None)
        return last if last and last.value else None


class Total(NamedTuple):
    """What a key of a counter says: the token of the process that set it, its place among those, and the sum (None: it only claims the name)."""
    token: int
    place: int
    total: int | None
    key: str


class Counter:
    """A counter. Each writer has a name of its own, which one process uses at a time. The name keeps one key for good."""

    def __init__(self, client: Client, name: str, writer: str, *, period: float = PERIOD, patience: int = PATIENCE):
        prefix_of('counter', f'{name}.{writer}')
        prefix_of('counter', writer)
        place = prefix_of('counter', name)
        self.client, self.prefix = client.copy(), f'{place}total/{writer}/'
        self.lock = Lock(client, name, period=period, patience=patience, prefix=f'{place}writer/{writer}/')
        self.claimed, self.place, self.total = 0, 0, 0

    def open(self, timeout: float | None = None) -> None:
        """Waits until no other process uses the name of this writer, and reads what was counted under it. Raises TimedOut if another one still does."""
        self.claimed = 0
        self.lock.release()
        token, self.place = self.lock.acquire(timeout), 0
        earlier = self.save(token, '')
        self.total = max((each[:3] for each in earlier if each.total is not None), default=(0, 0, 0))[2] or 0
        self.save(token, str(self.total))
        self.claimed = token

    def add(self, amount: int = 1) -> int:
        """Adds an amount, and returns the sum of this writer. After NotKnown the amount is counted once or not at all, and the counter has to be opened
        again; Lost, which is one, means that another process took the name."""
        if not self.claimed:
            raise RuntimeError('the counter is not open')
        try:
            self.save(self.claimed, str(self.total + amount))
        except NotKnown:
            self.claimed = 0
            raise
        self.total += amount
        return self.total

    def save(self, token: int, total: str) -> list[Total]:
        """Sets a new key, makes sure that nobody had taken the name by then, and removes the others, which it returns. A claim removes none."""
        self.place += 1
        key = f'{self.prefix}{token:016x}.{self.place:016x}'
        version = self.client.set(key, total)
        try:
            found = totals(self.client.show('kv', at_least=version)['map'], self.prefix)
        except NotServed as why:
            raise NotKnown(f'whether another process took the name of this writer: {why}') from None
        if any(each.token > token for each in found):
            raise Lost('another process took the name of this writer')
        others = [each for each in found if each.key != key]
        for each in others if total else []:
            removed_quietly(self.client, each.key)
        return others

    def close(self) -> None:
        """Lets another process use the name of this writer."""
        self.claimed = 0
        self.lock.close()
        self.client.close()

    @staticmethod
    def value(client: Client, name: str, *, fresh: bool = False, timeout: float | None = None) -> int:
        """The sum of all writers."""
        prefix = f'{prefix_of("counter", name)}total/'
        found = client.show('kv', fresh=fresh, timeout=timeout)['map']
        last: dict[str, Total] = {}
        for each in totals(found, prefix):
            writer = each.key[len(prefix):].split('/')[0]
            if each.total is not None:
                last[writer] = max(each, last.get(writer, each))
        return sum(each.total or 0 for each in last.values())


def totals(found: dict[str, str], prefix: str) -> list[Total]:
    """What the keys with this prefix say."""
    orders = {key: key.rsplit('/', 1)[-1].split('.') for key in found if key.startswith(prefix)}
    return [Total(int(token, 16), int(place, 16), int(found[key]) if found[key] else None, key) for key, (token, place) in orders.items()]


class Task(NamedTuple):
    """A task that a worker took: its ID, which is the same whenever it is taken, its text, and the fencing token of this taking."""
    id: str
    text: str
    token: int


class Tasks:
    """A queue of tasks. A task is taken by one worker at a time, in the order of `put`. It is taken again if a worker dies, so at least once."""

    def __init__(self, client: Client, name: str, *, period: float = PERIOD, patience: int = PATIENCE):
        # The first is the worker's, which its keeper uses too, and the second is for `put`.
        self.client, self.putter, self.period, self.patience = client.copy(), client.copy(), period, patience
        self.prefix = prefix_of('tasks', name)
        self.replica = Replica(self.client, self.prefix)
        self.orphans: set[str] = set()
        self.swept = 0.0
        self.keeper: Keeper | None = None
        self.taken: Task | None = None
        # The contender for the last task that wasn't taken.
        self.waited: Contender | None = None

    def put(self, text: str, timeout: float | None = None) -> str:
        """Adds a task, and returns its ID. If it raises NotKnown the task may be in the queue."""
        end = ended_at(timeout, self.client.timeout)
        own = f'{self.putter.fresh(timeout=left(end)):016x}.{secrets.token_hex(8)}'
        self.putter.set(f'{self.prefix}task/{own}', text, timeout=left(end))
        return own

    def take(self, timeout: float | None = None) -> Task:
        """Waits for a task. Raises TimedOut if there is none within these seconds. The one that was taken before must be done or given back."""
        if self.taken:
            raise RuntimeError('the task that was taken before is not done')
        end, is_raced = ended_at(timeout, self.client.timeout), False
        while time.monotonic() < end:
            try:
                self.replica.update(left(end))
                self.sweep()
                task = self.candidate(is_raced)
                if task and (taken := self.claimed(task, end)):
                    return taken
                is_raced = bool(task)
            except NotServed:
                pass
            time.sleep(min(LOOK, left(end)))
        raise TimedOut('there was no task in time')

    def sweep(self) -> None:
        """Removes the claims of tasks that aren't there, if they were there a period before: their clients died. Once per period."""
        if time.monotonic() >= self.swept + self.period:
            tasks, place = set(self.tasks()), f'{self.prefix}claim/'
            orphans = {key for key in self.replica.map if key.startswith(place) and key[len(place):].split('/')[0] not in tasks}
            for key in orphans & self.orphans:
                removed(self.client, key, self.period)
            self.orphans, self.swept = orphans, time.monotonic()

    def tasks(self) -> list[str]:
        """The IDs of all tasks, in their order."""
        place = f'{self.prefix}task/'
        return sorted(key[len(place):] for key in self.replica.map if key.startswith(place))

    def claims(self) -> set[str]:
        """The IDs of the tasks for which somebody contends."""
        place = f'{self.prefix}claim/'
        return {key[len(place):].split('/')[0] for key in self.replica.map if key.startswith(place)}

    def free(self) -> list[str]:
        """The tasks for which nobody contends, in their order."""
        claims = self.claims()
        return [task for task in self.tasks() if task not in claims]

    def candidate(self, is_raced: bool) -> str | None:
        """The oldest free task, or one of the oldest after a race for that one; or else the oldest of all, in case that its worker died."""
        free, tasks = self.free(), self.tasks()
        if free:
            return random.choice(free[:CHOICES]) if is_raced else free[0]
        return tasks[0] if tasks else None

    def claimed(self, task: str, end: float) -> Task | None:
        """Contends for a task until a free one is there. Returns it if it is taken."""
        prefix = f'{self.prefix}claim/{task}/'
        before = self.waited if self.waited and self.waited.prefix == prefix else None
        contender = Contender(self.replica, prefix, self.period, self.patience, before)
        try:
            contender.enter(left(end))
            while f'{self.prefix}task/{task}' in self.replica.map and not contender.is_lost and time.monotonic() < end:
                if won(contender, time.monotonic() + LOOK) and f'{self.prefix}task/{task}' in self.replica.map:
                    self.taken = Task(task, self.replica.map[f'{self.prefix}task/{task}'], contender.token)
                    self.keeper = Keeper(contender)
                    self.keeper.start()
                    return self.taken
                if self.free() or task != self.candidate(False):
                    break
        finally:
            if not self.taken:
                self.waited = contender
                left_quietly(contender)
        return None

    def done(self, timeout: float | None = None) -> None:
        """Removes the task that was taken. If it raises NotKnown it may be taken again. If it raises Done it won't be, but its lock may stay for a while."""
        self.end(True, timeout)

    def give_back(self, timeout: float | None = None) -> None:
        """Lets another worker take the task."""
        self.end(False, timeout)

    def end(self, is_done: bool, timeout: float | None) -> None:
        if self.keeper and self.taken:
            self.keeper.stop()
            task, keeper, self.taken, self.keeper = self.taken, self.keeper, None, None
            version = removed(self.client, f'{self.prefix}task/{task.id}', timeout) if is_done else None
            try:
                keeper.contender.leave(timeout)
            except NotServed as why:
                raise why if version is None else Done(version, f'the lock of the task stays until it is passed over: {why}') from None

    def close(self) -> None:
        """Gives back the task that was taken, if there is one, and closes its client."""
        try:
            self.give_back()
        except Error:
            pass
        self.client.close()
        self.putter.close()
