"""How a rule of docs/CEPH.md shows in a log, and the times of timers."""
from __future__ import annotations

import collections
import os
import sys
from typing import Callable

sys.path.insert(0, os.path.join(os.path.dirname(os.path.abspath(__file__)), '..', '..', 'microscope'))
from ceph_log.events import Event  # noqa: E402
from ceph_log.quorum import Quorum  # noqa: E402


def of_timer(event: Event, timer: str, *facts: str) -> bool:
    return event.kind == 'timer' and event.timer == timer and (not facts or event.has(*facts))


def starts_above(event: Event) -> bool:
    opens = event.get('opens')
    return event.kind == 'start' and opens is not None and int(opens.args[0]) > int(opens.args[1])


def numbered(event: Event) -> bool:
    new = event.get('new_pn')
    return new is not None and int(new.args[0]) % 100 == event.rank


def comes_back(event: Event) -> bool:
    epoch = event.message.fields.get('e') if event.is_message('PROPOSE') else None
    return epoch is not None and event.before.epoch % 2 == 0 and epoch < event.before.epoch and event.has('start_election')


RULES: dict[str, Callable[[Event], bool]] = {
    'a proposal number belongs to its rank': numbered,
    'a win by all votes': lambda event: event.is_message('ACK') and event.has('win'),
    'a win by a majority when the timer fires': lambda event: of_timer(event, 'election', 'win'),
    'an election timer without a win: it stands again': lambda event: of_timer(event, 'election', 'stands'),
    'an election timer without a win: it probes': lambda event: of_timer(event, 'election', 'bootstrap'),
    'a PROPOSE of an earlier epoch from outside calls an election': comes_back,
    'an election that is called again has a new odd epoch': lambda event: event.has('init_epoch') and event.before.epoch % 2 == 1 and event.before.epoch > 1,
    'no vote, since another one has it': lambda event: event.has('already_acked'),
    'a monitor that is alone leads an odd epoch': lambda event: event.has('win') and event.has('win_standalone') and event.after.epoch % 2 == 1,
    'a LAST with a greater number: another COLLECT': lambda event: event.has('higher_pn'),
    'values of a LAST with another number are stored': lambda event: event.has('stores') and event.has('higher_pn', 'old_pn'),
    'a COMMIT at a LAST': lambda event: event.is_message('LAST') and event.has('sends_commit'),
    'a value is recovered': lambda event: event.has('all_answered_old'),
    'an obsolete value is dropped': lambda event: event.has('forgets_uncommitted'),
    'a COLLECT begins the time without leases anew': lambda event: event.is_message('COLLECT') and event.has('lease_timer'),
    'a late LEASE_ACK is dropped': lambda event: any(fact.args[1].startswith('stray') for fact in event.all('lease_ack')),
    'the log is trimmed': lambda event: event.has('trims'),
    'a start with last_pn above accepted_pn': starts_above,
    'requests are forwarded again': lambda event: event.has('resend', 'requeue'),
    'a recent copy': lambda event: any(fact.args[1] == 'recent' for fact in event.all('sync_start')),
    'a full copy': lambda event: any(fact.args[1] == 'full' for fact in event.all('sync_start')),
    'a marked monitor answers PROBE': lambda event: event.is_message('PROBE') and event.before.state == 'synchronizing' and bool(event.sends),
    'a ping': lambda event: event.is_message('PING'),
    'a ping is answered': lambda event: event.is_message('PING') and any(message.kind == 'PING_REPLY' for message in event.sends),
    'a version that changes the monmap ends the quorum': lambda event: event.kind == 'reconfigured',
    'timer lease': lambda event: of_timer(event, 'lease'), 'timer leaseack': lambda event: of_timer(event, 'leaseack'),
    'timer accept': lambda event: of_timer(event, 'accept'), 'timer collect': lambda event: of_timer(event, 'collect'),
    'timer sync': lambda event: of_timer(event, 'sync'), 'timer probe': lambda event: of_timer(event, 'probe'),
}


class Times:
    """Times between events, in seconds."""

    def __init__(self):
        self.found: dict[str, list[float]] = collections.defaultdict(list)

    def add(self, name: str, begin: int | None, end: int):
        if begin is not None:
            self.found[name].append((end - begin) / 1e6)

    def take(self, q: Quorum):
        for monitor in q.monitors.values():
            self.take_monitor(monitor.events)

    def take_monitor(self, events: list[Event]):
        last: dict[str, int] = {}
        pings: dict[int | None, list[int]] = collections.defaultdict(list)
        for event in events:
            if event.kind == 'start':
                last.clear()
            for message in event.sends:
                if message.kind == 'PING':
                    pings[message.receiver].append(message.at)
            for fact in event.facts:
                self.take_fact(event, fact, last)
        for times in pings.values():
            times.sort()
            for before, now in zip(times, times[1:]):
                self.add('between two pings to one monitor', before, now)

    def take_fact(self, event: Event, fact, last: dict[str, int]):
        if fact.name == 'extends':
            if event.kind == 'timer':
                self.add('renew: between two leases', last.get('extends'), fact.at)
            last['extends'] = fact.at
        elif fact.name == 'lease_timer':
            last['lease'] = fact.at
        elif fact.name == 'lease_timeout':
            self.add('lease: from the last lease', last.get('lease'), fact.at)
        elif fact.name == 'stands':
            last['stands'] = fact.at
            last.pop('defers', None)
        elif fact.name == 'defers':
            last['defers'] = fact.at
        elif fact.name == 'election_timeout':
            name = 'election: from the vote for another one' if 'defers' in last else 'election: from its own candidacy'
            self.add(name, last.get('defers', last.get('stands')), fact.at)
        elif fact.name in ('begins', 'collects'):
            last[fact.name] = fact.at
        elif fact.name in ('accept_timeout', 'collect_timeout'):
            self.add(f'{fact.name.split("_")[0]}: from the question', last.get('begins' if fact.name == 'accept_timeout' else 'collects'), fact.at)
