"""Who is first among the clients that contend for a name: the one algorithm under all recipes. docs/RECIPES.md has the argument why it holds.

A contender has an ID that nobody else has, and up to three keys below `PREFIX/ID/`:

    choosing   set first. The version of the log that made this change is the contender's token: no two have the same
    entry      set next, to the token. The contender waits until no other one has `choosing` without `entry`, or an `entry` with a lower token
    alive      a number that rises while it waits or holds for long

To leave it removes its keys. A contender whose keys stay as they are while another one renews `alive` several times is passed over: the other one removes
its keys. No clock decides that, and if the contender wasn't dead its token is now lower than that of the next one. So whoever serves the holder has to refuse
a token below one that it saw: that is the fence.
"""
from __future__ import annotations

import secrets
import threading
import time
from typing import NamedTuple

from cephmon.changes import Removed, Set, Whole, changes_of, whole_of
from cephmon.client import Client, ended_at
from cephmon.errors import Error, NotKnown, NotServed, Refused

# Seconds between two renewals and between two looks at the map, and after how many own renewals a silent contender is passed over.
PERIOD, LOOK, PATIENCE = 2.0, 0.05, 5
# The least seconds that a renewal may take.
LEAST = 5.0


class Lost(NotKnown):
    """The holder was passed over: another one may hold now. What it did since is only safe as far as a fence refused it."""


class Replica:
    """The keys with a prefix, as they were at `version` of the map of all keys."""

    def __init__(self, client: Client, prefix: str):
        self.client, self.prefix = client, prefix
        self.map: dict[str, str] = {}
        self.version: int | None = None

    def update(self, timeout: float | None = None) -> None:
        """Asks for the changes since its version, or for the whole map. A map that is older than the replica is left."""
        if self.version is None:
            self.replace(whole_of(self.client.show('kv', timeout=timeout)))
            return
        more = True
        while more:
            found = self.client.since('kv', self.version, timeout=timeout)
            more = found.get('more', False)
            if 'map' in found:
                self.replace(whole_of(found))
                return
            for change in changes_of(found):
                self.version = change.version
                if isinstance(change, Set) and change.key.startswith(self.prefix):
                    self.map[change.key] = change.value
                elif isinstance(change, Removed):
                    self.map.pop(change.key, None)

    def replace(self, whole: Whole) -> None:
        if self.version is None or whole.version >= self.version:
            self.map, self.version = {key: value for key, value in whole.map.items() if key.startswith(self.prefix)}, whole.version

    def refresh(self, version: int, timeout: float | None = None) -> None:
        """Reads the whole map, as of this version of the log of all changes or a later one."""
        self.replace(whole_of(self.client.show('kv', at_least=version, timeout=timeout)))


class Seen(NamedTuple):
    """The keys of another contender, and how often the own one had been renewed when they were first seen so."""
    keys: tuple[tuple[str, str], ...]
    renewals: int


class Contender:
    """One contender for a prefix. It is driven by `step`, and must be left at the end."""

    def __init__(self, replica: Replica, prefix: str, period: float = PERIOD, patience: int = PATIENCE, before: Contender | None = None):
        """`before` is an earlier contender of the same program, which left without having been first. What that one knew of the others goes on, so a silent one
        is passed over even if no single wait is long enough for that."""
        self.replica, self.client, self.prefix = replica, replica.client, prefix
        self.own = secrets.token_hex(8)
        self.period, self.patience = period, patience
        self.token, self.renewals, self.next = 0, 0, 0.0
        self.others: dict[str, Seen] = {}
        self.is_lost, self.is_renewed = False, False
        if before:
            self.others, self.renewals, self.next = before.others, before.renewals, before.next

    def key(self, part: str) -> str:
        return f'{self.prefix}{self.own}/{part}'

    def enter(self, timeout: float | None = None) -> None:
        """Sets `choosing` and `entry`. If it raises, keys may be left, which `leave` removes."""
        end, is_due = ended_at(timeout, self.client.timeout), 0.0 < self.next <= time.monotonic()
        self.token = self.client.set(self.key('choosing'), '', timeout=left(end))
        version = self.client.set(self.key('entry'), str(self.token), timeout=left(end))
        self.replica.refresh(version, left(end))
        self.look()
        self.is_lost = self.is_lost or self.key('choosing') not in self.replica.map
        if is_due:
            # These changes are as good as the renewal that the earlier contender would have made now.
            self.renewals += 1
            self.pass_over(left(end))
        if is_due or not self.next:
            self.next = time.monotonic() + self.period

    def step(self, timeout: float | None = None) -> None:
        """Reads what changed, renews if it is time, and passes over who is silent and ahead."""
        self.replica.update(timeout)
        self.look()
        if not self.is_lost and time.monotonic() >= self.next:
            self.renew(timeout)
            self.look()
            self.pass_over(timeout)

    def renew(self, timeout: float | None = None) -> None:
        """Sets `alive`, and reads the map of that version. If that takes longer than a period, the next one waits as long, so that a quorum that is slow
        has to make fewer renewals."""
        began, self.is_renewed = time.monotonic(), True
        try:
            self.replica.refresh(self.client.set(self.key('alive'), str(self.renewals + 1), timeout=timeout), timeout)
            self.renewals += 1
        finally:
            self.next = time.monotonic() + max(self.period, time.monotonic() - began)

    def look(self) -> None:
        """Takes notice of the map: whether the own entry is there, and who changed."""
        self.is_lost = self.is_lost or self.key('entry') not in self.replica.map
        found: dict[str, list[tuple[str, str]]] = {}
        for key, value in self.replica.map.items():
            if key.startswith(self.prefix):
                found.setdefault(key[len(self.prefix):].split('/')[0], []).append((key, value))
        found.pop(self.own, None)
        self.others = {own: seen if (seen := self.others.get(own)) and seen.keys == tuple(keys) else Seen(tuple(keys), self.renewals)
                       for own, keys in found.items()}

    def ahead(self) -> list[str]:
        """The others that are first as far as this one knows: who chooses, and who has a lower token."""
        return [own for own, seen in self.others.items() if is_ahead(dict(seen.keys), f'{self.prefix}{own}/', self.token)]

    def is_first(self) -> bool:
        """Whether it holds, as of the version of the replica."""
        return bool(self.token) and not self.is_lost and not self.ahead()

    def pass_over(self, timeout: float | None = None) -> None:
        """Removes the keys of those that didn't change anything while this one renewed several times, and are ahead or have no entry any more."""
        for own, seen in self.others.items():
            is_left = f'{self.prefix}{own}/entry' not in dict(seen.keys)
            if self.renewals - seen.renewals >= self.patience and (is_left or own in self.ahead()):
                # The entry goes last: as long as it is there, nobody else is first.
                for key, _ in sorted(seen.keys, key=lambda each: each[0].endswith('/entry')):
                    removed(self.client, key, timeout)

    def leave(self, timeout: float | None = None) -> None:
        """Removes its keys. Raises NotServed if no monitor removes them in time: others then pass over them."""
        end = ended_at(timeout, self.client.timeout)
        for part in ('alive',) * self.is_renewed + ('choosing', 'entry'):
            removed(self.client, self.key(part), left(end))


def is_ahead(keys: dict[str, str], place: str, token: int) -> bool:
    entry = keys.get(f'{place}entry')
    if entry is None:
        return f'{place}choosing' in keys
    return not entry.isdecimal() or int(entry) < token


def left(end: float) -> float:
    """The seconds that are left, and at least a few for one try."""
    return max(0.1, end - time.monotonic())


def removed(client: Client, key: str, timeout: float | None) -> int | None:
    """Removes a key, and returns the version of this change, or None if it was gone."""
    try:
        return client.remove(key, timeout=timeout)
    except Refused:
        return None


def won(contender: Contender, end: float, look: float = LOOK) -> bool:
    """Waits until the contender is first. Returns False if it isn't by the end, or was passed over."""
    while not contender.is_lost:
        if contender.is_first():
            return True
        if time.monotonic() >= end:
            return False
        time.sleep(min(look, max(0.0, end - time.monotonic())))
        try:
            contender.step(max(contender.period, LEAST))
        except NotServed:
            # The quorum is electing, or this client is cut off.
            pass
    return False


class Keeper(threading.Thread):
    """Renews a contender that holds, until it is stopped, and takes notice if it is passed over."""

    def __init__(self, contender: Contender):
        super().__init__(daemon=True, name=f'keeper of {contender.prefix}')
        self.contender, self.ends = contender, threading.Event()

    def run(self) -> None:
        while not self.ends.wait(self.contender.period / 2) and not self.contender.is_lost:
            try:
                self.contender.step(max(self.contender.period, LEAST))
            except Error:
                # The quorum is electing, the map is full, or this client is cut off: the next step tries again.
                pass

    def stop(self) -> None:
        self.ends.set()
        if self.is_alive():
            self.join()

