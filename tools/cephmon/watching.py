"""What a monitor reports of itself in its answer to a status request: the request, the answer, and its metrics for Prometheus.

Nothing here sends or receives.
"""
from __future__ import annotations

import json
from typing import Any, NamedTuple, Sequence

from cephmon.wire import Malformed

# The first byte of a status request and of its answer, and the bytes before the text of an answer.
WATCH, HEADER = 5, 9
# The names of the counted datagrams, in order: pieces of long messages, and then messages by the bytes of their kinds.
KINDS = ('piece', 'probe', 'probe_reply', 'propose', 'ack', 'victory', 'collect', 'last', 'begin', 'accept', 'commit', 'lease', 'lease_ack', 'forward', 'route',
         'get_cookie_full', 'get_cookie_recent', 'cookie', 'get_chunk', 'chunk', 'last_chunk', 'no_cookie', 'ping', 'ping_reply', 'request', 'reply')
PHASES = ('unknown', 'probing', 'synchronizing', 'electing', 'collecting', 'active', 'peon')
# The upper bound of each bucket of the histogram of syncs, in seconds. The last bucket has none.
BOUNDS = [2**k / 1000 for k in range(15)]
COUNTS = ('elections', 'epoch', 'monitors', 'ms', 'quorum', 'rank', 'refused', 'unkept', 'version')
DISK_COUNTS = ('bytes_read', 'bytes_written', 'greatest_ms', 'length', 'reads', 'slow', 'syncs', 'total_ms', 'writes')


def status_request(number: int) -> bytes:
    """The request of this number."""
    return bytes([WATCH]) + number.to_bytes(8, 'little')


class Watched(NamedTuple):
    """An answer to a status request: its number, and `of` with its members."""
    number: int
    of: dict[str, Any]

    def ranks(self) -> list[int]:
        """The ranks of the quorum that the monitor names. It is empty if the monitor knows none."""
        return [rank for rank in range(15) if self.of['quorum'] >> rank & 1]

    def is_in_quorum(self) -> bool:
        return self.of['phase'] in ('collecting', 'active', 'peon')


def is_count(value: Any) -> bool:
    return isinstance(value, int) and not isinstance(value, bool) and value >= 0


def are_counts(values: Any, many: int) -> bool:
    return isinstance(values, list) and len(values) == many and all(map(is_count, values))


def is_answer(of: Any) -> bool:
    """Whether all members of an answer are there and have their types."""
    if not isinstance(of, dict) or not all(is_count(of.get(name)) for name in COUNTS) or of.get('phase') not in PHASES:
        return False
    disks = of.get('disks')
    return (all(of.get(name) is None or is_count(of[name]) for name in ('leader', 'source'))
            and all(are_counts(of.get(name), len(KINDS)) for name in ('sent', 'received'))
            and all(isinstance(of.get(name), list) and len(of[name]) == of['monitors'] and all(age is None or is_count(age) for age in of[name])
                    for name in ('asked_ms', 'heard_ms'))
            and isinstance(disks, list) and len(disks) == 2
            and all(isinstance(disk, dict) and all(is_count(disk.get(name)) for name in DISK_COUNTS) and are_counts(disk.get('buckets'), 16) for disk in disks))


def watched_of(datagram: bytes) -> Watched:
    """The answer in this datagram. Raises Malformed if it is none."""
    if len(datagram) <= HEADER or datagram[0] != WATCH:
        raise Malformed('no answer to a status request')
    try:
        of = json.loads(datagram[HEADER:].decode('ascii'))
    except ValueError as why:
        raise Malformed(f'no JSON: {why}') from None
    if not is_answer(of):
        raise Malformed('an answer without its members')
    return Watched(int.from_bytes(datagram[1:HEADER], 'little'), of)


# ---- metrics

class Metric(NamedTuple):
    """A metric: its name, type and text, and its samples: for each the labels beyond those of the monitor, the suffix of the name, and the value."""
    name: str
    kind: str
    text: str
    samples: Sequence[tuple[dict[str, str], str, float]]


def one(name: str, kind: str, text: str, value: float) -> Metric:
    return Metric(name, kind, text, [({}, '', value)])


def of_disks(name: str, kind: str, text: str, disks: list[dict[str, Any]], member: str, scale: float = 1) -> Metric:
    return Metric(name, kind, text, [({'disk': side}, '', disk[member] * scale) for side, disk in zip('ab', disks)])


def histogram(disks: list[dict[str, Any]]) -> Metric:
    samples = []
    for side, disk in zip('ab', disks):
        below = 0
        for bound, count in zip([*map(repr, BOUNDS), '+Inf'], disk['buckets']):
            below += count
            samples.append(({'disk': side, 'le': bound}, '_bucket', below))
        samples += [({'disk': side}, '_sum', disk['total_ms'] / 1000), ({'disk': side}, '_count', disk['syncs'])]
    return Metric('sync_seconds', 'histogram', 'How long the syncs of a disk took.', samples)


def metrics(of: dict[str, Any]) -> list[Metric]:
    """The metrics of a monitor. Their names lack the prefix that all share."""
    disks, here = of['disks'], range(of['monitors'])
    peers = [rank for rank in here if rank != of['rank']]
    return [
        one('uptime_seconds', 'gauge', 'How long the monitor has served.', of['ms'] / 1000),
        Metric('phase', 'gauge', 'What the monitor does.', [({'phase': phase}, '', int(phase == of['phase'])) for phase in PHASES]),
        one('seen_epoch', 'gauge', 'The epoch of the last message that the monitor sent.', of['epoch']),
        one('elections_total', 'counter', 'Elections that the monitor took part in.', of['elections']),
        Metric('datagrams_total', 'counter', 'Datagrams by direction and kind, without those that were sent again.',
               [({'direction': way, 'kind': kind}, '', count) for way in ('sent', 'received') for kind, count in zip(KINDS, of[way])]),
        one('refused_datagrams_total', 'counter', 'Datagrams that begin neither a message nor a piece of one.', of['refused']),
        one('unkept_copies_total', 'counter', 'Copies of datagrams that weren\'t kept because memory was refused.', of['unkept']),
        Metric('peer_silence_seconds', 'gauge', 'For how long a monitor hasn\'t answered what it was sent.',
               [({'peer': str(rank)}, '', (of['asked_ms'][rank] or 0) / 1000) for rank in peers]),
        histogram(disks),
        of_disks('slowest_sync_seconds', 'gauge', 'The longest sync of a disk.', disks, 'greatest_ms', 0.001),
        of_disks('slow_syncs_total', 'counter', 'Syncs that took a second or longer.', disks, 'slow'),
        of_disks('writes_total', 'counter', 'Writes to a disk.', disks, 'writes'),
        of_disks('written_bytes_total', 'counter', 'Bytes that were written to a disk.', disks, 'bytes_written'),
        of_disks('reads_total', 'counter', 'Reads of a disk.', disks, 'reads'),
        of_disks('read_bytes_total', 'counter', 'Bytes that were read from a disk.', disks, 'bytes_read'),
        of_disks('file_bytes', 'gauge', 'How long the file of a disk is.', disks, 'length'),
    ]
