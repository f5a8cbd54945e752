"""What an event was, as sentences: its cause, and what followed from it."""
from __future__ import annotations

from typing import Callable

from .events import Event, Fact
from .quorum import Quorum

TIMER = {
    'probe': 'Nobody answered its probe in time: it probes again.',
    'election': 'The time of the election is over.',
    'collect': 'Not all members answered its COLLECT within 10 seconds.',
    'accept': 'Not all members accepted the value within 10 seconds.',
    'lease': 'It had no lease from its leader for 10 seconds: it gives its leader up.',
    'leaseack': 'Not all members acknowledged its lease within 10 seconds: it steps down.',
    'sync': 'Its provider was silent: it begins the synchronization again.',
    'renew': 'It renews the lease.',
}
PLAIN = {'reconfigured': 'The monmap changed: it leaves the quorum and probes again.', 'calls': 'It calls an election.',
         'copies': 'It begins a full synchronization.', 'leads': 'It becomes the leader.'}
# A message that came: {by} is its sender, the other fields are those of the message.
CAME = {
    'PROBE': '{by} asks how far it is.',
    'PROPOSE': '{by} stands in the election of epoch {e}.',
    'ACK': '{by} votes for it in epoch {e}.',
    'VICTORY': '{by} has won: it leads epoch {e}.',
    'COLLECT': '{by} leads, and asks under number {pn} what was accepted. It has the versions {first} to {last}.',
    'BEGIN': '{by} asks to accept version {v} under number {pn}.',
    'ACCEPT': '{by} accepted version {v} under number {pn}.',
    'COMMIT': '{by} says that version {v} is committed.',
    'LEASE': '{by} gives a lease for version {last}.',
    'LEASE_ACK': '{by} acknowledges the lease for version {last}.',
    'GET_COOKIE_FULL': '{by} asks for a copy of the whole store.',
    'GET_COOKIE_RECENT': '{by} asks for the versions after {last}.',
    'COOKIE': '{by} gives a copy up to version {last}.',
    'GET_CHUNK': '{by} asks for the next part of the copy.',
    'CHUNK': '{by} sends a part of the copy, {bytes} bytes.',
    'LAST_CHUNK': '{by} sends the last part of the copy, {bytes} bytes, up to version {last}.',
    'NO_COOKIE': '{by} ended the copy.',
    'FORWARD': '{by} forwards a request ({what}).',
    'ROUTE': '{by} answers a forwarded request.',
    'PING': '{by} pings.',
    'PING_REPLY': '{by} answers its ping.',
}
# What a fact says of an event: {0} is its first group.
EFFECTS = {
    'rank': 'Its rank is {0}.',
    'existing_quorum': 'There is the quorum {0}.',
    'enough': 'Those in no quorum are a majority: it calls an election.',
    'first_ahead': 'It lacks versions that were trimmed there (first {0}, own {2}).',
    'last_ahead': 'It is more than the allowed drift behind (last {0}, own {1}).',
    'start_election': 'It calls an election.',
    'stands': 'It stands.',
    'epoch': 'Its epoch is {0}.',
    'already_acked': 'It gives no vote: {0}.',
    'new_pn': 'It makes the number {0}.',
    'own_uncommitted': 'It has accepted version {0} itself under {1}, which may not be committed.',
    'found_uncommitted': 'It finds version {0}, accepted under {1}, and not known to be committed.',
    'forgets_uncommitted': 'Its accepted value of version {0} is obsolete.',
    'shares_uncommitted': 'Its LAST carries its accepted value of version {0} ({1} bytes).',
    'promises': 'It promises {0}.',
    'no_promise': 'It promised {2} already, and its LAST says so.',
    'higher_pn': 'That number is greater than its own: it asks again under a new one.',
    'old_pn': 'That is an old number: ignored.',
    'all_answered': 'All answered: it is active.',
    'all_answered_old': 'All answered: it proposes the value that it found first.',
    'shares': 'It sends the versions that the other one lacks (that has {0} to {1}).',
    'accepts': 'It accepts version {0} under {1}.',
    'all_accepted': 'These are all of the quorum: it commits.',
    'sync_mark': 'It marks its store; the floor is {0}.',
    'sync_clear': 'It erases its store.',
    'sync_finish': 'The copy is complete, up to version {0}.',
    'bootstrap': 'It probes.',
    'trims': 'It trims the log: the first version becomes {0}.',
    'newer_monmap': 'The other one has monmap {0}: it takes that.',
    'pings_dead': 'Its ping to rank {0} was not answered in time.',
}


def clock_of(text: str) -> str:
    """The time of day of a time with its date."""
    return text[11:23]


def ranks(text: str) -> list[int]:
    return [int(rank) for rank in text.split(',')]


# The effects that depend on the event or name monitors.
OTHER_EFFECTS: dict[str, Callable[[Quorum, Event, tuple], 'str | None']] = {
    'opens': lambda q, e, a: f'It opens its store: versions {a[3]} to {a[2]}, made number {a[0]}, promised {a[1]}.' if e.kind == 'start' else None,
    'ever_joined': lambda q, e, a: 'It was never in a quorum.' if a[0] == '0' else None,
    'defers': lambda q, e, a: f'It votes for {q.who(int(a[0]))}.',
    'win': lambda q, e, a: f'It wins: it leads epoch {a[0]} with the quorum {q.those(ranks(a[1]))}.',
    'says_leads': lambda q, e, a: None if e.has('win') else f'It leads with the quorum {a[1]}.',
    'lose': lambda q, e, a: f'It follows {q.who(int(a[1]))} in epoch {a[0]}, quorum {a[2]}.',
    'answered': lambda q, e, a: None if e.has('all_answered', 'all_answered_old') else f'{a[0]} of the quorum answered, itself included.',
    'so_far': lambda q, e, a: None if e.has('i_win') else 'It counts the vote.',
    'accepted_by': lambda q, e, a: f'{q.those(ranks(a[0]))} accepted.',
    'stores': lambda q, e, a: f'It commits version {a[0]}.' if a[0] == a[1] else f'It commits the versions {a[0]} to {a[1]}.',
    'extends': lambda q, e, a: f'It gives a lease up to {clock_of(a[1])}.',
    'lease': lambda q, e, a: f'Its lease lasts up to {clock_of(a[1])}.',
    'lease_ack': lambda q, e, a: {'got': 'All acknowledged.', 'str': 'Too late: a value is in progress.'}.get(a[1][:3]),
    'sync_start': lambda q, e, a: f'It begins a {a[1]} synchronization from {q.who(q.rank_at(a[0]))}.',
    'resend': lambda q, e, a: f'It forwards a waiting request again to {q.who(int(a[0]))}.',
    'command': lambda q, e, a: f'A client asks: {a[0][:90]}.',
}


def cause(q: Quorum, event: Event) -> str:
    """Why the event happened."""
    kind, message = event.kind, event.message
    if kind == 'start':
        process = event.get('process')
        return 'ceph-mon starts' + (f' (version {process.args[0]})' if process else '') + '.'
    if kind == 'timer':
        return TIMER[event.timer or '']
    if kind == 'propose':
        version, size = event.get('proposes').args
        return f'It proposes version {version} of {size} bytes.'
    if kind == 'commit':
        return f'Its store has version {event.after.last}.'
    if kind == 'stop':
        return f'It stops: {event.facts[0].args[0] if event.facts and event.facts[0].args else "shutdown"}.'
    return came(q, message) if message is not None else PLAIN.get(kind, '')


def came(q: Quorum, message) -> str:
    fields, by = message.fields, q.who(message.sender)
    if message.kind == 'PROBE_REPLY':
        quorum = 'no quorum' if fields['quorum'] == '-' else f'the quorum {fields["quorum"]}'
        return f'{by} says: versions {fields["first"]} to {fields["last"]}, in {quorum}.'
    if message.kind == 'LAST':
        pending = f', and an accepted value of number {fields["pending"]}' if fields.get('pending') else ''
        return f'{by} answers with number {fields["pn"]}: versions {fields["first"]} to {fields["last"]}{pending}.'
    form = CAME.get(message.kind)
    return form.format(by=by, **{'e': '?', **fields}) if form else f'A message comes: {message.text[:60]}.'


def effect(q: Quorum, event: Event, fact: Fact) -> str | None:
    if fact.name in EFFECTS:
        return EFFECTS[fact.name].format(*fact.args)
    form = OTHER_EFFECTS.get(fact.name)
    return form(q, event, fact.args) if form else None


def effects(q: Quorum, event: Event) -> list[str]:
    """What followed from the event, each sentence once."""
    said = (effect(q, event, fact) for fact in event.facts)
    return list(dict.fromkeys(text for text in said if text))


def explained(q: Quorum, event: Event) -> str:
    """The event as sentences."""
    said, message = effects(q, event), event.message
    if not said and event.kind == 'deliver' and message is not None:
        sent = [str(answer) for answer in event.sends if answer.kind != 'OTHER']
        if sent:
            said = [f'It answers {", ".join(sent)}.']
        elif message.kind in ('LEASE_ACK', 'ACCEPT', 'ACK', 'LAST', 'PROBE_REPLY', 'PROPOSE', 'VICTORY', 'COLLECT', 'BEGIN', 'COMMIT', 'LEASE'):
            said = [f'Nothing follows{why_dropped(q, event)}.']
    return ' '.join([cause(q, event), *said]).strip()


def why_dropped(q: Quorum, event: Event) -> str:
    """Why a message had no effect, as far as the log shows it."""
    message, known = event.message, event.before
    is_election = message.kind in ('PROPOSE', 'VICTORY', 'ACK')
    if is_election and known.state in ('probing', 'synchronizing'):
        return f': it is {known.state}, and takes part in no election'
    sent = event.sending_epoch()
    if not is_election and message.kind != 'PROBE_REPLY' and 0 < sent < known.epoch:
        return f': it was sent in epoch {sent}, and this one is {known.epoch}'
    if is_election and (message.fields.get('e') or 0) < known.epoch:
        return f': that is epoch {message.fields.get("e")}, and this one {known.epoch}'
    if message.kind == 'PROPOSE' and message.sender is not None and message.sender > event.rank:
        return ': it outranks that one'
    return ': it probes no more' if message.kind == 'PROBE_REPLY' and known.state != 'probing' else ''
