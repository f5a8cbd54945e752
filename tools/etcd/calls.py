"""The calls that the gateway has: by the name of their service and method, the path of their JSON form, and their messages."""
from __future__ import annotations

import time
from typing import Any, Awaitable, Callable, NamedTuple

from etcd.gate import Gate
from etcd.refusals import NO_FORM
from etcd.service import TIMEOUT, Gateway

Made = Callable[[Any, float], Awaitable[Any]]
WATCH, WATCH_PATH = '/etcdserverpb.Watch/Watch', '/watch'
# The first parts of the paths of the JSON form: those of etcd's releases.
PREFIXES = '/v3', '/v3beta', '/v3alpha'
# The paths of the JSON form of calls that are refused, and what `no_form` takes of each.
REFUSED = {
    '/kv/txn': ('etcdserverpb.KV', 'Txn'), '/kv/compaction': ('etcdserverpb.KV', 'Compact'), '/kv/lease/': ('etcdserverpb.Lease', ''),
    '/maintenance/transfer-leadership': ('etcdserverpb.Maintenance', 'MoveLeader'),
    **{f'/{service.lower()}/': (f'etcdserverpb.{service}', '') for service in NO_FORM if service not in ('Txn', 'Compact', 'MoveLeader')},
}


class Call(NamedTuple):
    """A call: its path of the JSON form, the name of its request, what makes the answer, and whether it needs no token."""
    path: str
    request: str
    made: Made
    is_open: bool = False


def calls(gateway: Gateway, gate: Gate) -> dict[str, Call]:
    """All calls but Watch, by their names as gRPC has them."""
    async def authenticate(request: Any, end: float) -> Any:
        return gate.authenticate(request, gateway.header())

    return {
        '/etcdserverpb.KV/Range': Call('/kv/range', 'RangeRequest', gateway.range),
        '/etcdserverpb.KV/Put': Call('/kv/put', 'PutRequest', gateway.put),
        '/etcdserverpb.KV/DeleteRange': Call('/kv/deleterange', 'DeleteRangeRequest', gateway.delete),
        '/etcdserverpb.Cluster/MemberList': Call('/cluster/member/list', 'MemberListRequest', gateway.members),
        '/etcdserverpb.Maintenance/Status': Call('/maintenance/status', 'StatusRequest', gateway.status),
        '/etcdserverpb.Maintenance/Alarm': Call('/maintenance/alarm', 'AlarmRequest', gateway.alarms),
        '/etcdserverpb.Auth/Authenticate': Call('/auth/authenticate', 'AuthenticateRequest', authenticate, True),
    }


def ends(seconds: float | None = None) -> float:
    """When a call ends whose client waits for this long, or names no time."""
    return time.monotonic() + (TIMEOUT if seconds is None else min(seconds, TIMEOUT))
