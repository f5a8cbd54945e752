"""How a step of a real monitor compares with the reaction of the definitions: messages with their fields, phase, epoch and last version."""
from __future__ import annotations

from typing import Iterable

from . import definitions as proved
from .events import Event
from .messages import TABLED
from .shadow import Shadow

# The fields of a kind that are compared.
FIELDS = {'PROPOSE': ('e',), 'ACK': ('e',), 'VICTORY': ('e',), 'PROBE_REPLY': ('quorum', 'first', 'last'), 'COLLECT': ('pn', 'first', 'last'),
          'LAST': ('pn', 'first', 'last', 'pending'), 'BEGIN': ('pn', 'v'), 'ACCEPT': ('pn', 'v'), 'COMMIT': ('v',), 'LEASE': ('last',),
          'LEASE_ACK': ('last',), 'GET_COOKIE_RECENT': ('last',)}
CHUNKS = ('CHUNK', 'LAST_CHUNK')
Sends = dict  # (kind, receiver) -> the fields of each such message


class Verdict:
    """What the table says of a step, and what ceph-mon did. `classes` are short names of what differs, and `known` the known differences that explain it.
    `is_copied` says whether the monitor has copied a store and accepted nothing since."""

    def __init__(self, row: str):
        self.row, self.diffs, self.classes = row, [], []
        self.predicted = self.observed = ''
        self.why: list[str] = []
        self.known: list[str] = []
        self.is_idle = False
        self.crosses_commit = self.is_copied = False

    @property
    def is_same(self) -> bool:
        return not self.diffs

    @property
    def is_unknown(self) -> bool:
        """Whether it differs in no known way."""
        return not self.is_same and not self.known

    def differ(self, name: str, text: str):
        self.diffs.append(text)
        if name not in self.classes:
            self.classes.append(name)


def fields_of(kind: str, epoch: int, body: tuple) -> dict:
    """The fields of a message of the definitions, as a log has them."""
    if kind in ('PROPOSE', 'ACK', 'VICTORY'):
        return {'e': epoch}
    if kind == 'PROBE_REPLY':
        return {'quorum': ','.join(map(str, proved.members(body[0]))) or '-', 'first': body[1], 'last': body[2]}
    if kind == 'LAST':
        pending = proved.inside(body[6])
        return {'pn': body[0], 'first': body[1], 'last': body[2], 'pending': pending.pn if pending is not None else 0}
    if kind == 'COMMIT':
        return {'v': body[0] + len(body[1]) - 1}
    return dict(zip(FIELDS.get(kind, ()), body))


def gathered(sends: Iterable[tuple[str, int, dict]]) -> Sends:
    found: Sends = {}
    for kind, to, fields in sends:
        if kind in TABLED:
            found.setdefault((kind, to), []).append(fields)
    return found


def predicted(sends: list[tuple[str, int, int, tuple]]) -> Sends:
    return gathered((kind, to, fields_of(kind, epoch, body)) for kind, to, epoch, body in sends)


def observed(event: Event, end: Event) -> Sends:
    messages = event.sends if end is event else [*event.sends, *end.sends]
    return gathered((message.kind, message.receiver, {name: message.fields.get(name) for name in FIELDS.get(message.kind, ())}) for message in messages)


def said(sends: Sends, phase: str, epoch: int, last: int) -> str:
    parts = [' '.join([f'{kind} to {to}', *(f'{name}={value}' for name, value in fields.items())]) for (kind, to), many in sends.items() for fields in many]
    return f'{phase}, epoch {epoch}, last {last}; ' + ('; '.join(parts) or 'sends nothing')


def take_chunks(want: Sends, got: Sends):
    """Makes the two agree on which kind of chunk is sent: how much fits into one depends on the contents of the store, which no log has."""
    for kind, to in [key for key in want if key[0] in CHUNKS]:
        real = next((key for key in got if key[0] in CHUNKS and key[1] == to), None)
        if real is not None:
            want[real] = want.pop((kind, to))


def weigh(verdict: Verdict, event: Event, end: Event, shadow: Shadow, sends: list, has_messages: bool):
    """Notes in a verdict what differs. The shadow is in the state that the table says."""
    after, want, got = end.after, predicted(sends), observed(event, end)
    if event.is_message('GET_CHUNK'):
        take_chunks(want, got)
    verdict.predicted = said(want, shadow.phase(), shadow.epoch, shadow.last)
    verdict.observed = said(got, after.phase(), after.epoch, after.last)
    if has_messages:
        weigh_sends(verdict, want, got)
    if after.phase() != shadow.phase():
        verdict.differ(f'{after.phase()} not {shadow.phase()}', f'ceph-mon is {after.phase()} then, by the table {shadow.phase()}')
    if after.epoch and after.epoch != shadow.epoch:
        verdict.differ('epoch', f'its epoch is {after.epoch}, by the table {shadow.epoch}')
    if after.last != shadow.last:
        verdict.differ('last', f'its last version is {after.last}, by the table {shadow.last}')


def weigh_sends(verdict: Verdict, want: Sends, got: Sends):
    for kind, to in want:
        if (kind, to) not in got:
            verdict.differ(f'-{kind}', f'the table sends {kind} to {to}')
    for (kind, to), many in got.items():
        wanted = want.get((kind, to))
        if wanted is None or len(wanted) != len(many):
            verdict.differ(f'+{kind}', f'ceph-mon sends {len(many)} {kind} to {to}, by the table {len(wanted or ())}')
            continue
        for real, table in zip(many, wanted):
            for name in table:
                if real.get(name) != table[name]:
                    verdict.differ(f'{kind}.{name}', f'{kind} to {to} has {name}={real.get(name)}, by the table {name}={table[name]}')
