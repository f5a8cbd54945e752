"""What a client asks for, as steps that `cephmon.client` and `cephmon.aio` run. Each takes the time at which it ends."""
from __future__ import annotations

import secrets
import time
from typing import Any

from cephmon.asking import Asker, Rest, Steps
from cephmon.changes import Change, changes_of, whole_of
from cephmon.errors import Error, Refused, refused
from cephmon.wire import LOG, REMOVE, SET, SHOW, SINCE, key_field, number_field, service_field, text_field

# What the key of a fresh read begins with.
MARK = 'fresh/'


def version_of(fields: dict[str, Any]) -> int:
    """The version in the fields of a Done."""
    return int(fields['version'])


def setting(key: str | bytes, value: str | bytes) -> bytes:
    """The request that sets a key."""
    return bytes([SET]) + key_field(key) + text_field(value)


def removal(key: str | bytes) -> bytes:
    """The request that removes a key."""
    return bytes([REMOVE]) + key_field(key)


def set_key(asker: Asker, key: str | bytes, value: str | bytes, end: float) -> Steps[int]:
    return version_of((yield from asker.ask(setting(key, value), end)))


def remove_key(asker: Asker, key: str | bytes, end: float) -> Steps[int]:
    return version_of((yield from asker.ask(removal(key), end)))


def log_text(asker: Asker, text: str | bytes, end: float) -> Steps[int]:
    return version_of((yield from asker.ask(bytes([LOG]) + text_field(text), end)))


def mark(asker: Asker, end: float) -> Steps[int]:
    """A version with every change that was acknowledged before. It is that of a change of this client alone, which removes its trace again."""
    key = MARK + secrets.token_hex(16)
    try:
        yield from set_key(asker, key, '', end)
    except Refused as why:
        raise refused(why.kind, f'a fresh read has to set a key, and {why}') from None
    try:
        yield from remove_key(asker, key, end)
    except Error:
        pass
    return asker.seen


def show(asker: Asker, service: str, at_least: int, fresh: bool, end: float) -> Steps[dict[str, Any]]:
    request = bytes([SHOW]) + service_field(service)
    least = (yield from mark(asker, end)) if fresh else 0
    return (yield from asker.ask(request, end, max(at_least, least)))


def get(asker: Asker, key: str | bytes, at_least: int, fresh: bool, end: float) -> Steps[str]:
    name = key_field(key)[1:].decode('ascii')
    found = yield from show(asker, 'kv', at_least, fresh, end)
    if name not in found['map']:
        raise refused('NoSuch')
    return str(found['map'][name])


def keys(asker: Asker, prefix: str, at_least: int, fresh: bool, end: float) -> Steps[list[str]]:
    found = yield from show(asker, 'kv', at_least, fresh, end)
    return sorted(key for key in found['map'] if key.startswith(prefix))


def since(asker: Asker, service: str, version: int, end: float) -> Steps[dict[str, Any]]:
    return (yield from asker.ask(bytes([SINCE]) + service_field(service) + number_field(version), end))


class Watch:
    """The state of a watch: what the next changes come after."""

    def __init__(self, asker: Asker, service: str, version: int | None, pause: float, timeout: float):
        service_field(service)
        self.asker, self.service, self.version, self.pause, self.timeout = asker, service, version, pause, timeout
        self.next = 0.0

    def changes(self) -> Steps[list[Change]]:
        """The changes that are there after the version of the last ones, perhaps none. Asks once per `pause`, unless the monitors have more."""
        yield Rest(self.next)
        end = time.monotonic() + self.timeout
        found = yield from (show(self.asker, self.service, 0, False, end) if self.version is None else since(self.asker, self.service, self.version, end))
        changes: list[Change] = [whole_of(found)] if 'map' in found else list(changes_of(found))
        self.next = 0.0 if found.get('more') else time.monotonic() + self.pause
        if changes:
            self.version = changes[-1].version
        return changes
