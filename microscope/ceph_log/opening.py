"""Which lines begin an event: a timer fired, a value was proposed or is in the store, a message is handled that no line of the messenger showed."""
from __future__ import annotations

from .events import Event, Fact, Known
from .lines import SECOND
from .messages import KINDS, Message, message_of

TIMERS = {'probe_timeout': 'probe', 'election_timeout': 'election', 'collect_timeout': 'collect', 'accept_timeout': 'accept', 'lease_timeout': 'lease',
          'lease_ack_timeout': 'leaseack', 'sync_timeout': 'sync'}
# Without the messenger's lines a handled message is shown by such a line.
HANDLED = {'commits': 'COMMIT', 'lease': 'LEASE', 'lease_ack': 'LEASE_ACK'}
STOPS = ('shutdown', 'signal', 'got_signal', 'caught')
# Lines that begin an event by themselves, unless they belong to an event that has one of these facts.
BY_THEMSELVES = {'says_calls': ('calls', ('start_election', 'stands', 'join_election', *TIMERS)), 'sync_obtain': ('copies', ('sync_start',)),
                 'says_leads': ('leads', ('win',))}


class Opened(dict):
    """The kind, and the message or timer, of an event that a fact begins."""


def opening(fact: Fact, event: Event | None, known: Known, rank: int | None, has_messages: bool) -> Opened | None:
    """What a fact begins, if it isn't part of the event of its thread."""
    name = fact.name
    if name == 'process':
        return Opened(kind='start')
    if name in TIMERS:
        return Opened(kind='timer', timer=TIMERS[name])
    if name == 'proposes':
        return Opened(kind='propose')
    if name == 'commit_finish' or is_unseen_commit(name, event, known):
        return Opened(kind='commit')
    if name == 'requested_bootstrap':
        return Opened(kind='reconfigured')
    if name == 'extends' and (event is None or not event.has('all_answered', 'commit_finish', 'commit_proposal')):
        return Opened(kind='timer', timer='renew')
    if name == 'init_epoch' and event is not None and event.facts and fact.at - event.facts[-1].at > SECOND:
        return Opened(kind='calls')  # at the default levels no other line shows that an election's time is over
    if name in BY_THEMSELVES:
        kind, facts = BY_THEMSELVES[name]
        return Opened(kind=kind) if event is None or not event.has(*facts) else None
    if name in STOPS:
        return None if event is not None and event.kind == 'stop' else Opened(kind='stop')
    if name == 'bootstrap' and event is not None and event.is_message('OTHER'):
        return Opened(kind='reconfigured')
    return None if has_messages else handled(fact, event, known, rank)


def is_unseen_commit(name: str, event: Event | None, known: Known) -> bool:
    """Whether a fact shows that a value is in the store: `commit_finish` itself is written at level 20 only."""
    if name not in ('sends_commit', 'commit_proposal') or not known.paxos.startswith(('writing', 'refresh')):
        return False
    return event is None or event.kind != 'commit' or name == 'sends_commit' and event.has('commit_proposal')


def handled(fact: Fact, event: Event | None, known: Known, rank: int | None) -> Opened | None:
    """The message that a fact shows to be handled, in a log without the messenger's lines. Its sender is known only if its kind says so."""
    name, args = fact.name, fact.args
    if name == 'handle':
        message = message_of(args[0])
        message.receiver, message.at = rank, fact.at
        if message.kind in ('COLLECT', 'BEGIN', 'COMMIT', 'LEASE'):
            message.sender = known.leader
        return Opened(kind='deliver', message=message)
    if name == 'hears_election':
        return Opened(kind='deliver', message=Message(KINDS[args[0]], f'election({args[0]})', {}, int(args[1]), rank, fact.at))
    if name not in HANDLED or event is not None and event.is_message(HANDLED[name]):
        return None
    kind, sender = HANDLED[name], known.leader
    fields = {'v': int(args[0])} if name == 'commits' else {'last': int(args[0])}
    if name == 'lease_ack':
        fields, sender = {'last': known.last}, int(args[0])
    return Opened(kind='deliver', message=Message(kind, kind.lower(), fields, sender, rank, fact.at))
