"""The map that the files of a monitor's disks hold."""
from __future__ import annotations

import store
from fields import At
from recorded.entries import Disk

Map = dict[tuple[bytes, bytes], bytes]
# After the bytes that are recorded come zeros.
ZEROS = bytes(64)


def map_on(disks: dict[int, Disk]) -> Map | None:
    """The map of a store in two files, or None if they weren't recorded, or hold no store."""
    if any(number not in disks or disks[number].octets is None for number in (1, 2)):
        return None
    try:
        return map_in(disks[1].octets or b'', disks[2].octets or b'')
    except At:
        return None


def map_in(a: bytes, b: bytes) -> Map:
    """The map of a store whose files hold these bytes."""
    files = [octets + ZEROS for octets in (a, b)]
    found: Map = {}
    newest = max(files, key=store.generation)
    if store.generation(newest):
        for payload in store.payloads(newest):
            store.play(found, payload)
    return found
