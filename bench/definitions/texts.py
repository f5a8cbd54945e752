"""The events of a schedule as definitions have them, and the lines of a trace from what definitions return."""
from __future__ import annotations

import json
from typing import Any, List, Optional, Tuple

import natives  # noqa: F401
from antt import TT, Made, octets, record, single

PHASE = dict(
    Booting='booting', Probing='probing', Synchronizing='synchronizing', Electing='electing', Collecting='collecting', Previous='previous',
    Active='active', Updating='updating', Peon='peon',
)
TIMER = dict(
    probe='Probe', election='Election', collect='Collect', accept='Accept', renew='Renew', leaseack='LeaseAck', lease='Lease', sync='Sync',
    step='Step', propose='Propose', ping='Ping',
)
NAMES = dict(
    Probe='PROBE', ProbeReply='PROBE_REPLY', Propose='PROPOSE', Ack='ACK', Victory='VICTORY', Collect='COLLECT', Last='LAST', Begin='BEGIN',
    Accept='ACCEPT', Commit='COMMIT', Lease='LEASE', LeaseAck='LEASE_ACK', Forward='FORWARD', Route='ROUTE', GetCookieFull='GET_COOKIE_FULL',
    GetCookieRecent='GET_COOKIE_RECENT', Cookie='COOKIE', GetChunk='GET_CHUNK', Chunk='CHUNK', LastChunk='LAST_CHUNK', NoCookie='NO_COOKIE',
    Ping='PING', PingReply='PING_REPLY',
)


# ---- events

def service_of(name: str) -> Made:
    return single('Kv' if name == 'kv' else 'Log')


def request_of(words: List[str]) -> Made:
    """A client's request, of the words after `client` and its four numbers."""
    kind, rest = words[0], words[1] if len(words) > 1 else ''
    if kind == 'set':
        key, value = rest.split(' ', 1)
        return Made('Set', key.encode(), value.encode())
    if kind == 'remove':
        return Made('Remove', rest.encode())
    if kind == 'log':
        return Made('Log', rest.encode())
    if kind == 'show':
        return Made('Show', service_of(rest))
    service, version = rest.split(' ')
    return Made('Since', service_of(service), int(version))


def rule_of(text: str) -> Made:
    ranks = [int(rank) for rank in text.split('=')[1].split(',')] if '=' in text else []
    members = tuple(rank in ranks for rank in range(15))
    return single('Classic') if text == 'classic' else Made('Disallow' if text.startswith('dis') else 'Connectivity', members)


def monitors_of(line: str) -> Any:
    """The monitors of a schedule's first line."""
    words = line.split(' ')
    return record(count=int(words[1]), most=TT, rule=rule_of(words[2]))


def plain_of(line: str) -> Made:
    words = line.split(' ')
    if words[0] == 'start':
        return Made('Start', int(words[1]), int(words[2]))
    if words[0] == 'deliver':
        return Made('Deliver', int(words[1]), int(words[2]))
    if words[0] == 'timer':
        return Made('Timer', int(words[1]), single(TIMER[words[2]]), int(words[3]))
    rank, at, client, number = map(int, words[1:5])
    return Made('Client', rank, at, record(client=client, id=number), request_of(line.split(' ', 6)[5:]))


def event_of(line: str) -> Made:
    words = line.split(' ', 4)
    if words[0] not in ('crash', 'fail'):
        return Made('Plain', plain_of(line))
    return Made(words[0].capitalize(), single(words[1].upper()), int(words[2]), int(words[3]), plain_of(words[4]))


# ---- traces

def ranks(members: Tuple[bool, ...]) -> str:
    return ','.join(str(rank) for rank, is_in in enumerate(members) if is_in) or '-'


def cookie(made: Any) -> str:
    return f'{made.boot}.{made.seq}'


def key_of(place: Made) -> str:
    if place.name in ('Start', 'Done'):
        return place.name.lower()
    return octets(place.args[0]).decode() + '/' + octets(place.args[1]).decode()


def chunk(kind: str, args: Tuple[Any, ...]) -> str:
    made, place, values, entries, end = args
    last = 'done' if kind == 'Chunk' else 'last'
    return f' cookie={cookie(made)} at={place.version} key={key_of(place.key)} values={len(values)} keys={len(entries)} {last}={int(end)}'


FIELDS = {
    'ProbeReply': lambda quorum, first, last: f' quorum={ranks(quorum)} first={first} last={last}',
    'Victory': lambda quorum: f' quorum={ranks(quorum)}',
    'Collect': lambda pn, first, last: f' pn={pn} first={first} last={last}',
    'Last': lambda pn, first, last, whole, start, values, pending: (
        f' pn={pn} first={first} last={last} whole={int(whole)} values={len(values)} pending={pending.args[0].pn if pending.args else 0}'),
    'Begin': lambda pn, v, value: f' pn={pn} v={v}',
    'Accept': lambda pn, v: f' pn={pn} v={v}',
    'Commit': lambda start, values: f' v={start}..{start + len(values) - 1}',
    'Lease': lambda last: f' last={last}',
    'LeaseAck': lambda last: f' last={last}',
    'GetCookieRecent': lambda last: f' last={last}',
    'Forward': lambda seq, command: f' seq={seq}',
    'Route': lambda seq, reply: f' seq={seq}',
    'Cookie': lambda full, made, last: f' full={int(full)} cookie={cookie(made)} last={last}',
    'GetChunk': lambda made, place: f' cookie={cookie(made)} at={place.version} key={key_of(place.key)}',
    'Chunk': lambda *args: chunk('Chunk', args),
    'LastChunk': lambda *args: chunk('LastChunk', args),
    'NoCookie': lambda made: f' cookie={cookie(made)}',
}


def fields(body: Made) -> str:
    """The fields of a message that a trace shows."""
    return FIELDS[body.name](*body.args) if body.name in FIELDS else ''


def map_text(shown: Made) -> str:
    content: Any = shown.args[0]
    if shown.name == 'Kv':
        found: Any = {key.decode(): value.decode() for key, value in content.sorted()}
    else:
        found = [[entry.rank, octets(entry.text).decode()] for entry in content]
    return json.dumps(found, separators=(',', ':'), ensure_ascii=False)


REPLIES = {
    'Done': lambda version: f'done {version}',
    'Shown': lambda service, paxos, version, shown: f'shown {service.name.lower()} paxos={paxos} version={version} {map_text(shown)}',
    'Since': lambda service, at, changes, more: f'since {service.name.lower()} from={at} to={at + len(changes)} count={len(changes)} more={int(more)}',
    'NoSuch': lambda: 'nosuch',
    'TooLong': lambda length, most: f'toolong len={length} most={most}',
    'MapFull': lambda would_be: f'mapfull would_be={would_be}',
    'Unavailable': lambda: 'unavailable',
    'NotReadable': lambda has, lease: f'notreadable has={int(has)} lease={int(lease)}',
    'Busy': lambda waiting: f'busy waiting={waiting}',
}


def reply(made: Made) -> str:
    return REPLIES[made.name](*made.args)


def outcome_line(outcome: Made) -> Optional[str]:
    if outcome.name in ('Crashed', 'Failed'):
        return f'  {outcome.name.lower()} {"kept" if outcome.args[0] else "lost"}'
    return {'Down': '  down', 'NoMessage': '  none'}.get(outcome.name)


def lines_of(step: Any) -> List[str]:
    """The lines of a step, as a trace has them."""
    found = list(filter(None, [outcome_line(step.outcome)]))
    if step.ops:
        found.append(f'  store {step.ops}')
    if step.state.args:
        state = step.state.args[0]
        found.append(f'  is {PHASE[state.phase.name]} epoch {state.epoch} last {state.last}')
    for sent in step.sent:
        message = sent.message
        kind = NAMES[message.body.name]
        found.append(f'  send {sent.number} {message.from_}>{sent.to} {kind} e={message.epoch}{fields(message.body)}')
    for made in step.replies:
        found.append(f'  reply {made.rank} {made.session.client}.{made.session.id} {reply(made.reply)}')
    return found
