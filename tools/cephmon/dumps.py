"""Dumps: both maps of a running quorum at one version, in a file, and how they come into a quorum again.

A dump is one JSON object: its `format`, the name of the `quorum`, the version `paxos` of the log of all changes, the `kv` and the `log` with the `version` and
the `map` of each, as `show` prints them, and the `digest` of all this. It has what clients wrote, and no promise of a monitor: it makes no store.
"""
from __future__ import annotations

import hashlib
import json
import os
import time
from typing import Any, NamedTuple, Optional

from cephmon.client import Client, ended_at
from cephmon.errors import NotServed, NotServedNotDone
from cephmon.wire import encoded, key_field

FORMAT = 'cephmon dump 1'
# The most bytes of a dump: both maps at their limits, with each character escaped.
MOST_BYTES = 16_000_000
# Seconds for a look at a quorum that may show nothing.
LOOK = 5.0


class Faulty(ValueError):
    """The file is no dump that can be loaded."""


class Unfit(Exception):
    """The quorum is another one, or has what the dump doesn't have. Nothing was changed."""


class Dump(NamedTuple):
    """Both maps at version `paxos` of the log of all changes, and the name of their quorum if it is known."""
    quorum: Optional[str]
    paxos: int
    kv: dict[str, Any]
    log: dict[str, Any]

    @property
    def keys(self) -> dict[str, str]:
        return dict(self.kv['map'])

    @property
    def texts(self) -> list[str]:
        """The texts of the cluster log, the oldest first."""
        return [text for _, text in self.log['map']]

    def counted(self) -> str:
        return f'{len(self.keys)} keys and {len(self.texts)} texts of the cluster log'


def digest_of(fields: dict[str, Any]) -> str:
    """The SHA-256 of all members but the digest itself."""
    rest = {name: value for name, value in fields.items() if name != 'digest'}
    return hashlib.sha256(json.dumps(rest, sort_keys=True, separators=(',', ':')).encode()).hexdigest()


def take(client: Client, fresh: bool = False, at_least: int = 0, timeout: float | None = None) -> Dump:
    """Both maps at one version. If neither map stays the same while the other one is read, within the timeout, NotServed is raised."""
    end = ended_at(timeout, client.timeout)
    kv = client.show('kv', at_least, fresh=fresh, timeout=timeout)
    log = client.show('log', kv['paxos'], timeout=timeout)
    while time.monotonic() < end:
        # a map that is the same before and after the other one was read has been the same in between
        again = client.show('kv', log['paxos'], timeout=timeout)
        if again['version'] == kv['version']:
            return dump_of(client, log['paxos'], kv, log)
        kv, before = again, log
        log = client.show('log', kv['paxos'], timeout=timeout)
        if log['version'] == before['version']:
            return dump_of(client, kv['paxos'], kv, log)
    raise NotServedNotDone(client.timeout if timeout is None else timeout, {client.asker.asked: 'both maps change faster than they are read'})


def seen(client: Client) -> Dump:
    """What a quorum has, as far as it shows that. One in which nothing was ever written shows no map, and is taken for an empty one, and so is one that
    is without a leader: only a fresh dump is sure."""
    try:
        return take(client, timeout=min(LOOK, client.timeout))
    except NotServed as why:
        if 'NotReadable' not in why.outcomes.values():
            raise
        return Dump(client.settings.name, 0, {'version': 0, 'map': {}}, {'version': 0, 'map': []})


def dump_of(client: Client, paxos: int, kv: dict[str, Any], log: dict[str, Any]) -> Dump:
    return Dump(client.settings.name, paxos, *({name: found[name] for name in ('version', 'map')} for found in (kv, log)))


def write(path: str, dump: Dump) -> None:
    """Writes a dump to a new file, which its owner alone can read. If it can't be written whole, no file is left."""
    fields: dict[str, Any] = {'format': FORMAT, **dump._asdict()}
    octets = json.dumps({**fields, 'digest': digest_of(fields)}).encode() + b'\n'
    handle = os.open(path, os.O_WRONLY | os.O_CREAT | os.O_EXCL, 0o600)
    try:
        with open(handle, 'wb') as file:
            file.write(octets)
            file.flush()
            os.fsync(file.fileno())
    except BaseException:
        os.remove(path)
        raise


def read(path: str) -> Dump:
    """The dump of a file. Raises Faulty, and OSError if the file can't be read."""
    with open(path, 'rb') as file:
        octets = file.read(MOST_BYTES + 1)
    try:
        fields = json.loads(octets) if len(octets) <= MOST_BYTES else None
    except (ValueError, RecursionError):
        raise Faulty(f"'{path}' is no whole dump: it was cut or changed, or is another file") from None
    if not isinstance(fields, dict) or not str(fields.get('format')).startswith('cephmon dump '):
        raise Faulty(f"'{path}' is no dump")
    if fields['format'] != FORMAT:
        raise Faulty(f"'{path}' has the format {fields['format']!r}, and this program reads {FORMAT!r}")
    if fields.get('digest') != digest_of(fields):
        raise Faulty(f"'{path}' was changed: its digest is another one")
    try:
        dump = Dump(*(fields[name] for name in Dump._fields))
        texts = [*dump.keys, *dump.keys.values(), *dump.texts]
        if not all(isinstance(text, str) for text in texts):
            raise TypeError
        for key in dump.keys:
            key_field(key)
        for text in texts:
            encoded(text)
    except (KeyError, TypeError, ValueError):
        raise Faulty(f"'{path}' is no dump, although its digest is right") from None
    return dump


def named(quorum: str | None) -> str:
    return 'a quorum whose name is not given' if quorum is None else f"the quorum '{quorum}'"


class Load(NamedTuple):
    """What a quorum lacks of a dump: keys with their values, and texts of the cluster log."""
    keys: dict[str, str]
    texts: list[str]

    def counted(self) -> str:
        return f'sets {len(self.keys)} keys and adds {len(self.texts)} texts to the cluster log'


def lacking(dump: Dump, now: Dump, merge: bool = False, other: bool = False) -> Load:
    """What is to be written. Without `merge` the quorum may have a part of the dump and nothing else, as after a load that was interrupted. With `merge`
    the keys of the dump get its values, and other keys and the cluster log stay. With `other` the quorum may have another name. Raises Unfit."""
    if dump.quorum != now.quorum and not other:
        raise Unfit(f'the dump is of {named(dump.quorum)}, and this is {named(now.quorum)}; --other loads it nevertheless')
    keys = {key: value for key, value in sorted(dump.keys.items()) if now.keys.get(key) != value}
    if merge:
        return Load(keys, [])
    others = [key for key, value in now.keys.items() if dump.keys.get(key) != value]
    if others:
        raise Unfit(f'the quorum is not empty: {len(others)} of its keys are not in the dump or have another value; --merge writes over these values alone')
    if now.texts != dump.texts[:len(now.texts)]:
        raise Unfit('the quorum is not empty: its cluster log is not the beginning of the one in the dump; --merge loads the keys alone')
    return Load(keys, dump.texts[len(now.texts):])


def load(client: Client, what: Load) -> None:
    """Writes what a quorum lacks. If it raises an Error, a part was written, and loading again writes the rest."""
    for key, value in what.keys.items():
        client.set(key, value)
    for text in what.texts:
        client.log(text)
