"""A client of a Cephmon quorum for programs. It needs Python 3.9 and no package.

    import cephmon

    with cephmon.Client() as client:      # the quorum of CEPHMON_CONFIG, or of /etc/cephmon/quorum.ini
        version = client.set('color', 'green')
        color = client.get('color')
        color = client.get('color', fresh=True)    # with every change that was acknowledged before, whichever monitor shows it
        for change in client.watch():
            print(change)

`AsyncClient` does the same with asyncio. What a request raises says whether a change was made: `NotDone`, `NotKnown` or `Done`.
"""
from typing import TYPE_CHECKING, Any

from cephmon.changes import Change, Logged, Removed, Set, Whole
from cephmon.client import Client
from cephmon.errors import Done, Error, NotDone, NotKnown, NotServed, Refused
from cephmon.quorum_file import Faulty

if TYPE_CHECKING:
    from cephmon.aio import AsyncClient

__all__ = ['AsyncClient', 'Change', 'Client', 'Done', 'Error', 'Faulty', 'Logged', 'NotDone', 'NotKnown', 'NotServed', 'Refused', 'Removed', 'Set', 'Whole']


def __getattr__(name: str) -> Any:
    """`AsyncClient`, which is imported when it is first used: asyncio takes as long to import as all else together."""
    if name == 'AsyncClient':
        from cephmon.aio import AsyncClient
        return AsyncClient
    raise AttributeError(f'module {__name__!r} has no attribute {name!r}')
