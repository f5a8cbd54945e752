"""The bytes of the messages among monitors and of the replies to clients, as docs/FORMATS.md specifies them."""
from __future__ import annotations

import struct
from typing import Any, Callable

from antt import Made, octets
from natives import counted, transaction_text, u32, u64, word

SERVICES = {'Kv': b'\1', 'Log': b'\2'}
REPLY = 25


def flag(value: Any) -> bytes:
    return bytes([bool(value)])


def ranks(members: Any) -> bytes:
    return struct.pack('<H', sum(1 << rank for rank, is_in in enumerate(members) if is_in))


def numbers(*values: int) -> bytes:
    return b''.join(map(u64, values))


def value(changes: Any) -> bytes:
    return counted(transaction_text(changes))


def listed(encode: Callable[[Any], bytes], items: Any) -> bytes:
    return struct.pack('<H', len(items)) + b''.join(map(encode, items))


def optional(encode: Callable[[Any], bytes], found: Made) -> bytes:
    return b'\1' + encode(found.args[0]) if found.args else b'\0'


def scores(count: int) -> Callable[[Any], bytes]:
    """Encodes the measures of this number of monitors."""
    def row(measures: Any) -> bytes:
        return numbers(measures.boot, measures.count) + b''.join(map(u32, measures.scores[:count]))
    return lambda table: b''.join(map(row, table.rows[:count]))


def told(pending: Any) -> bytes:
    return u64(pending.pn) + value(pending.value)


def cookie(made: Any) -> bytes:
    return numbers(made.boot, made.seq)


def place(at: Any) -> bytes:
    kinds = {'Start': b'\0', 'After': b'\1', 'Done': b'\2'}
    return u64(at.version) + kinds[at.key.name] + b''.join(map(word, at.key.args))


def entry(it: Any) -> bytes:
    return word(it.prefix) + word(it.key) + counted(it.value)


def command(it: Made) -> bytes:
    if it.name == 'Set':
        return b'\1' + word(it.args[0]) + counted(it.args[1])
    return b'\2' + word(it.args[0]) if it.name == 'Remove' else b'\3' + counted(it.args[0])


def shown_map(shown: Made) -> bytes:
    content = shown.args[0]
    if shown.name == 'Kv':
        entries = content.sorted()
        return counted(u32(len(entries)) + b''.join(word(key) + counted(text) for key, text in entries))
    return counted(u32(len(content)) + b''.join(bytes([it.rank]) + counted(it.text) for it in content))


REPLIES: dict[str, Callable[..., bytes]] = {
    'Done': lambda version: b'\1' + u64(version),
    'Shown': lambda service, paxos, version, shown: b'\2' + SERVICES[service.name] + numbers(paxos, version) + shown_map(shown),
    'Since': lambda service, at, changes, more: b'\3' + SERVICES[service.name] + u64(at) + flag(more) + listed(counted, changes),
    'NoSuch': lambda: b'\4',
    'TooLong': lambda length, most: b'\5' + numbers(length, most),
    'MapFull': lambda would_be: b'\6' + u64(would_be),
    'Unavailable': lambda: b'\7',
    'NotReadable': lambda has, lease: b'\x08' + u64(has) + flag(lease),
    'Busy': lambda waiting: b'\x09' + u64(waiting),
}


def reply(made: Made) -> bytes:
    return REPLIES[made.name](*made.args)


# By the name of a body: the number of its kind, and the encoding of its fields among this number of monitors.
BODIES: dict[str, tuple[int, Callable[..., bytes]]] = {
    'Probe': (1, lambda n: b''),
    'ProbeReply': (2, lambda n, quorum, first, last: ranks(quorum) + numbers(first, last)),
    'Propose': (3, lambda n, table: optional(scores(n), table)),
    'Ack': (4, lambda n: b''),
    'Victory': (5, lambda n, quorum: ranks(quorum)),
    'Collect': (6, lambda n, pn, first, last: numbers(pn, first, last)),
    'Last': (7, lambda n, pn, first, last, whole, start, values, pending: (
        numbers(pn, first, last) + flag(whole) + u64(start) + listed(value, values) + optional(told, pending))),
    'Begin': (8, lambda n, pn, version, changes: numbers(pn, version) + value(changes)),
    'Accept': (9, lambda n, pn, version: numbers(pn, version)),
    'Commit': (10, lambda n, start, values: u64(start) + listed(value, values)),
    'Lease': (11, lambda n, last: u64(last)),
    'LeaseAck': (12, lambda n, last: u64(last)),
    'Forward': (13, lambda n, seq, asked: u64(seq) + command(asked)),
    'Route': (14, lambda n, seq, answer: u64(seq) + reply(answer)),
    'GetCookieFull': (15, lambda n: b''),
    'GetCookieRecent': (16, lambda n, last: u64(last)),
    'Cookie': (17, lambda n, full, made, last: flag(full) + cookie(made) + u64(last)),
    'GetChunk': (18, lambda n, made, at: cookie(made) + place(at)),
    'Chunk': (19, lambda n, made, at, values, entries, done: cookie(made) + place(at) + listed(value, values) + listed(entry, entries) + flag(done)),
    'LastChunk': (20, lambda n, made, at, values, entries, last: cookie(made) + place(at) + listed(value, values) + listed(entry, entries) + u64(last)),
    'NoCookie': (21, lambda n, made: cookie(made)),
    'Ping': (22, lambda n, table: optional(scores(n), table)),
    'PingReply': (23, lambda n, table: optional(scores(n), table)),
}


def message(it: Any) -> bytes:
    """The bytes of a message among monitors."""
    kind, fields = BODIES[it.body.name]
    return bytes([1, kind, it.from_, it.monitors]) + u64(it.epoch) + octets(fields(it.monitors, *it.body.args))


def reply_message(rank: int, monitors: int, epoch: int, number: int, answer: Made) -> bytes:
    """The bytes of a reply to the request of this number."""
    return bytes([1, REPLY, rank, monitors]) + numbers(epoch, number) + reply(answer)
