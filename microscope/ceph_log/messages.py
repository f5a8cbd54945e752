"""Messages of monitors as ceph-mon prints them, in the terms of docs/PROTOCOL.md."""
from __future__ import annotations

import re
from typing import TYPE_CHECKING, Callable

if TYPE_CHECKING:
    from .events import Event

ELECTION = re.compile(r'election\((\S+) (propose|ack|victory|nak|OLD_\w+|\w+)(?: rel \S+)? e(\d+)')
PAXOS = re.compile(r'paxos\((collect|last|begin|accept|commit|lease|lease_ack) lc (\d+) fc (\d+) pn (\d+) opn (\d+)(?: latest (\d+) \((\d+) bytes\))?')
PROBE = re.compile(r'mon_probe\((probe|reply|slurp|missing_features|\w+) (\S+) name (\S+)(?: quorum ([\d,]+))?(?: leader (-?\d+))?'
                   r'(?: paxos\( fc (\d+) lc (\d+) \))?( new)?')
SYNC = re.compile(r'mon_sync\((get_cookie_full|get_cookie_recent|cookie|get_chunk|chunk|last_chunk|no_cookie)'
                  r'(?: cookie (\d+))?(?: lc (\d+))?(?: bl (\d+) bytes)?(?: last_key ([^ )]*))?')
PING = re.compile(r'mon_ping\((ping_reply|ping) stamp (\S+)\)')
TID = re.compile(r' tid (\d+)')

KINDS = {'propose': 'PROPOSE', 'ack': 'ACK', 'victory': 'VICTORY', 'collect': 'COLLECT', 'last': 'LAST', 'begin': 'BEGIN', 'accept': 'ACCEPT',
         'commit': 'COMMIT', 'lease': 'LEASE', 'lease_ack': 'LEASE_ACK', 'get_cookie_full': 'GET_COOKIE_FULL', 'get_cookie_recent': 'GET_COOKIE_RECENT',
         'cookie': 'COOKIE', 'get_chunk': 'GET_CHUNK', 'chunk': 'CHUNK', 'last_chunk': 'LAST_CHUNK', 'no_cookie': 'NO_COOKIE', 'ping': 'PING',
         'ping_reply': 'PING_REPLY'}
# The kinds that the rows of docs/PROTOCOL.md have and that a trace shows. Pings and forwarded requests go beside them.
TABLED = frozenset({'PROBE', 'PROBE_REPLY', 'PROPOSE', 'ACK', 'VICTORY', 'COLLECT', 'LAST', 'BEGIN', 'ACCEPT', 'COMMIT', 'LEASE', 'LEASE_ACK',
                    'GET_COOKIE_FULL', 'GET_COOKIE_RECENT', 'COOKIE', 'GET_CHUNK', 'CHUNK', 'LAST_CHUNK', 'NO_COOKIE'})
MATCHED = TABLED | {'FORWARD', 'ROUTE', 'PING', 'PING_REPLY'}
# The fields of a kind that a trace prints.
PRINTED = {'PROPOSE': ('e',), 'ACK': ('e',), 'VICTORY': ('e', 'quorum'), 'COLLECT': ('pn', 'first', 'last'),
           'LAST': ('pn', 'first', 'last', 'values', 'pending'), 'BEGIN': ('pn', 'v'), 'ACCEPT': ('pn', 'v'), 'COMMIT': ('v',), 'LEASE': ('last',),
           'LEASE_ACK': ('last',), 'PROBE_REPLY': ('quorum', 'first', 'last'), 'FORWARD': ('seq',), 'ROUTE': ('seq',), 'COOKIE': ('cookie', 'last'),
           'GET_CHUNK': ('cookie',), 'CHUNK': ('cookie', 'bytes'), 'LAST_CHUNK': ('cookie', 'last', 'bytes'), 'GET_COOKIE_RECENT': ('last',),
           'NO_COOKIE': ('cookie',)}


class Message:
    """A message that a monitor sent or got. `sent` is its sending, if that is in the logs, and `event` the event that sent it."""
    __slots__ = ('kind', 'text', 'fields', 'sender', 'receiver', 'address', 'at', 'moment', 'where', 'number', 'size', 'is_delivered', 'event', 'is_routine')

    def __init__(self, kind: str, text: str, fields: dict | None = None, sender: int | None = None, receiver: int | None = None, at: int = 0):
        self.kind, self.text, self.fields = kind, text, fields or {}
        self.sender, self.receiver, self.at, self.moment = sender, receiver, at, at
        self.address, self.where, self.number, self.size = '', '', 0, 0
        self.is_delivered = self.is_routine = False
        self.event: Event | None = None

    def said(self, *without: str) -> str:
        """The fields as a trace prints them."""
        return ' '.join(f'{name}={self.fields[name]}' for name in PRINTED.get(self.kind, ()) if name not in without and self.fields.get(name) is not None)

    def __str__(self):
        return f'{self.kind} {self.said()}'.strip()


def number(text: str | None) -> int | None:
    return int(text) if text else None


def of_election(text: str) -> tuple[str, dict] | None:
    found = ELECTION.match(text)
    return found and (KINDS.get(found[2], 'OTHER'), {'e': int(found[3]), 'fsid': found[1]})


def of_paxos(text: str) -> tuple[str, dict] | None:
    found = PAXOS.match(text)
    if found is None:
        return None
    kind = KINDS[found[1]]
    last, first, pn, other = map(int, found.groups()[1:5])
    # `opn` of a LAST is the number of the uncommitted value, whose version is the sender's last one plus 1.
    return kind, {'COLLECT': {'pn': pn, 'first': first, 'last': last}, 'LAST': {'pn': pn, 'first': first, 'last': last, 'pending': other},
                  'BEGIN': {'pn': pn, 'v': last + 1}, 'ACCEPT': {'pn': pn, 'v': last + 1}, 'COMMIT': {'pn': pn, 'v': last}}.get(
                      kind, {'last': last, 'first': first})


def of_probe(text: str) -> tuple[str, dict] | None:
    found = PROBE.match(text)
    if found is None:
        return None
    what, fsid, name, quorum, _, first, last, new = found.groups()
    if what == 'probe':
        return 'PROBE', {'name': name, 'fsid': fsid, 'new': bool(new)}
    if what == 'reply':
        return 'PROBE_REPLY', {'name': name, 'quorum': quorum or '-', 'first': int(first or 0), 'last': int(last or 0), 'fsid': fsid}
    return 'OTHER', {}


def of_sync(text: str) -> tuple[str, dict] | None:
    found = SYNC.match(text)
    if found is None:
        return None
    kind = KINDS[found[1]]
    # A last version of 0 isn't printed.
    last = number(found[3]) or (0 if kind == 'GET_COOKIE_RECENT' else None)
    return kind, {'cookie': found[2], 'last': last, 'bytes': number(found[4])}


def of_ping(text: str) -> tuple[str, dict] | None:
    found = PING.match(text)
    return found and (KINDS[found[1]], {'stamp': found[2]})


def of_request(text: str) -> tuple[str, dict] | None:
    numbers = TID.findall(text)
    seq = int(numbers[-1]) if numbers else None
    return ('FORWARD', {'seq': seq, 'what': text[8:].split(' ')[0].split('(')[0]}) if text.startswith('forward(') else ('ROUTE', {'seq': seq})


FORMS: dict[str, Callable[[str], 'tuple[str, dict] | None']] = {
    'election(': of_election, 'paxos(': of_paxos, 'mon_probe(': of_probe, 'mon_sync(': of_sync, 'mon_ping(': of_ping, 'forward(': of_request,
    'route(': of_request}


def message_of(text: str) -> Message:
    """A message from its text. What isn't between monitors, or is of no known form, has the kind OTHER."""
    form = FORMS.get(text[:text.find('(') + 1])
    found = form(text) if form else None
    return Message(found[0], text, found[1]) if found else Message('OTHER', text)
