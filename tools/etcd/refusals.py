"""Why the gateway refuses a call: a status of gRPC by its name, and a sentence. The status of HTTP follows from it."""
from __future__ import annotations

import asyncio
from typing import Awaitable, TypeVar

from cephmon import Error, NotDone, NotKnown, Refused

T = TypeVar('T')
# The number of a status of gRPC, and the status of HTTP that etcd's JSON form has for it.
STATUSES = {
    'CANCELLED': (1, 408), 'UNKNOWN': (2, 500), 'INVALID_ARGUMENT': (3, 400), 'DEADLINE_EXCEEDED': (4, 504), 'NOT_FOUND': (5, 404),
    'PERMISSION_DENIED': (7, 403), 'RESOURCE_EXHAUSTED': (8, 429), 'FAILED_PRECONDITION': (9, 400), 'OUT_OF_RANGE': (11, 400), 'UNIMPLEMENTED': (12, 501),
    'INTERNAL': (13, 500), 'UNAVAILABLE': (14, 503), 'UNAUTHENTICATED': (16, 401),
}
MAY_BE_MADE = 'the change may have been made, and may still be made'
# etcd's own texts, by which its clients find the kind of an error.
COMPACTED = 'etcdserver: mvcc: required revision has been compacted'
FUTURE = 'etcdserver: mvcc: required revision is a future revision'
NO_KEY = 'etcdserver: key is not provided'
NO_TOKEN, BAD_TOKEN = 'etcdserver: user name is empty', 'etcdserver: invalid auth token'
BAD_PASSWORD, NO_AUTHENTICATION = 'etcdserver: authentication failed, invalid user ID or password', 'etcdserver: authentication is not enabled'
# What is said of each service or call that a quorum has no form for.
NO_FORM = {
    'Txn': 'a quorum has no transactions: there is no conditional write, and each change is of one key. docs/RECIPES.md has locks and counters without one',
    'Compact': 'the history is not compacted on demand: the gateway keeps the newest events, and forgets the others by itself',
    'MoveLeader': 'the monitors elect their leader by the rule of their elections: it is not moved',
    'Lease': 'a quorum has no leases: a key stays until it is removed',
    'Lock': 'a quorum has no leases, and so not these locks: docs/RECIPES.md has one without leases',
    'Election': 'a quorum has no leases, and so not these elections: docs/RECIPES.md has one without leases',
    'Auth': 'there are no users and roles: the gateway has one token, with --token',
    'Cluster': 'the monitors of a quorum are those of its file: docs/OPERATING.md says how they are replaced',
    'Maintenance': 'this is an operation on the files of etcd: docs/OPERATING.md says how the stores of monitors are saved and restored',
}


class Refusal(Exception):
    """A call is refused with this status and sentence."""

    def __init__(self, status: str, text: str):
        self.status, self.text = status, text
        super().__init__(f'{status}: {text}')

    def number(self) -> int:
        return STATUSES[self.status][0]

    def of_http(self) -> int:
        return STATUSES[self.status][1]


def no_form(service: str, method: str) -> Refusal:
    """The refusal of a call that the gateway doesn't have, of a service such as `etcdserverpb.KV`."""
    text = NO_FORM.get(method) or NO_FORM.get(service.rpartition('.')[2]) or 'the gateway has no such call'
    return Refusal('UNIMPLEMENTED', text)


def of_error(why: Error, reason: str) -> Refusal:
    """The refusal that says of a change what the client's error says, and a reason if that isn't in the error."""
    if isinstance(why, NotKnown):
        return Refusal('DEADLINE_EXCEEDED', f'{MAY_BE_MADE}: {why}')
    if isinstance(why, Refused):
        return Refusal('RESOURCE_EXHAUSTED' if why.kind in ('TooLong', 'MapFull') else 'UNAVAILABLE', str(why))
    return Refusal('UNAVAILABLE' if isinstance(why, NotDone) else 'UNKNOWN', 'nothing was changed: ' * isinstance(why, NotDone) + (reason or str(why)))


async def within(seconds: float, awaited: Awaitable[T], text: str) -> T:
    """Waits for a result, for some seconds at most. The refusal has this sentence."""
    try:
        return await asyncio.wait_for(awaited, max(0.001, seconds))
    except asyncio.TimeoutError:
        raise Refusal('DEADLINE_EXCEEDED', text) from None
