"""Reads the two files of a stopped monitor, by the bytes that docs/FORMATS.md specifies."""
from __future__ import annotations

from fields import MOST_NUMBER, Fields, changes_of

HEADER = 25
# A file that was begun ends at a multiple of this many bytes after it got longer. The last of them are zeros.
ROOM = 262_144
# The keys of the log that each monitor has for itself. Another one is the version after the last.
OWN = b'last_pn', b'accepted_pn', b'pending_v', b'pending_pn'


def payloads(octets: bytes):
    """The payloads of the records of an open file."""
    fields = Fields(octets, HEADER)
    while fields.unsigned(1) == 1:
        yield fields.counted()


def held(octets: bytes) -> int:
    """How many bytes of an open file hold a store: those up to and with the first closed gate."""
    return HEADER + sum(5 + len(payload) for payload in payloads(octets)) + 1


def generation(octets: bytes) -> int:
    """The generation of an open file, and 0 of a closed one."""
    return int.from_bytes(octets[17:HEADER], 'little') if len(octets) > 1 and octets[0] == 1 else 0


def play(kv: dict, payload: bytes):
    """Applies a payload to a map: makes the changes of a transaction, or puts the entries of a checkpoint."""
    if payload[:1] == b'\x80':
        fields = Fields(payload, 1)
        for _ in range(fields.unsigned(4)):
            place = fields.word(32), fields.word(255)
            kv[place] = fields.counted()
        return
    for kind, prefix, *more in changes_of(payload):
        if kind == 'Put':
            kv[prefix, more[0]] = more[1]
        elif kind == 'Erase':
            kv.pop((prefix, more[0]), None)
        elif kind == 'ErasePrefix':
            for place in [place for place in kv if place[0] == prefix]:
                del kv[place]
        else:
            for number in range(*more):
                kv.pop((prefix, b'%d' % number), None)


def read_store(a: str, b: str) -> dict:
    """The map that the two files hold."""
    files = []
    for path in (a, b):
        with open(path, 'rb') as file:
            files.append(file.read())
    kv = {}
    for payload in payloads(max(files, key=generation)):
        play(kv, payload)
    return kv


def size_of(kv: dict) -> int:
    """A store's size: the bytes of prefixes, keys and values, and 16 for each entry."""
    return sum(len(prefix) + len(key) + len(value) + 16 for (prefix, key), value in kv.items())


def number_at(kv: dict, prefix: bytes, key: bytes) -> int:
    """The number at a key, or 0 if there is none."""
    value = kv.get((prefix, key), b'')
    number = int.from_bytes(value, 'little')
    return number if len(value) == 8 and number <= MOST_NUMBER else 0


def shared_map(a: str, b: str) -> dict:
    """The part of the files' map that all monitors of one version share, and that version."""
    kv = read_store(a, b)
    own = {*OWN, b'%d' % (number_at(kv, b'paxos', b'last_committed') + 1)}
    return {name: value for name, value in kv.items() if name[0] in (b'kv', b'logm') or name[0] == b'paxos' and name[1] not in own}
