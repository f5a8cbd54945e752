"""Compares each step of the real monitors with the row of docs/PROTOCOL.md: a shadow of each monitor, by the proved definitions, gets the same input.

If the real monitor does otherwise, the difference is noted. Then the shadow is set to what the log shows, so that one difference doesn't cause others.
"""
from __future__ import annotations

import collections
from typing import NamedTuple

from . import definitions as proved
from .definitions import NONE
from .differences import names_of
from .events import Event, Fact
from .files import Refused
from .inputs import Inputs
from .levels import ALL, level_of
from .messages import TABLED
from .quorum import Quorum
from .shadow import Shadow
from .steady import is_complete, state_of
from .strategies import Strategy
from .verdict import Verdict, weigh

# The most steps in which the versions at the end of a full copy are taken.
REPLAYED = 400
# A lease that ends within this of the time of a read, in milliseconds, decides nothing: Ceph's ends by the leader's clock.
NEAR = 20
ASIDE = ('FORWARD', 'ROUTE', 'OTHER')


class Read(NamedTuple):
    """A read that the log allows or not, and the table otherwise."""
    event: Event
    text: str


class Comparison:
    """The steps that were compared, as pairs of event and verdict; those that weren't, by reason; and the reads."""

    def __init__(self, q: Quorum, strategy: str = 'classic'):
        q.one_map()
        if level_of(q.levels()) != ALL:
            raise Refused('the comparison needs debug_mon and debug_paxos of at least 10, and debug_ms of at least 1')
        self.q, self.strategy = q, Strategy(strategy, q.names)
        self.shadows = {rank: Shadow(rank, q.count) for rank in q.monitors}
        self.inputs = Inputs(self.shadows, q.count)
        self.verdicts: list[tuple[Event, Verdict]] = []
        self.skipped: collections.Counter = collections.Counter()
        self.reads, self.misread = 0, []
        self.deferred: dict[int, Event] = {}
        self.place = {id(event): at for monitor in q.monitors.values() for at, event in enumerate(monitor.events)}
        for shadow in self.shadows.values():
            self.strategy.give(shadow)
        for event in q.events:
            self.take(event, self.shadows[event.rank], max(0, (event.moment - q.begin) // 1000))

    def unknown(self) -> list[tuple[Event, Verdict]]:
        return [(event, verdict) for event, verdict in self.verdicts if verdict.is_unknown]

    # -- events

    def take(self, event: Event, shadow: Shadow, now: int):
        self.strategy.hear(event)
        if event.kind == 'start':
            self.start(event, shadow, now)
        elif event.kind == 'stop':
            shadow.is_known = False
        elif event.kind == 'reconfigured' or event.kind == 'deliver' and event.has('newer_monmap'):
            self.strategy.give(shadow)
            self.skip(event, shadow, now, 'a change of the monmap')
        elif event.is_message('PING', 'PING_REPLY'):
            self.skip(event, shadow, now, 'pings')
        elif event.is_message(*ASIDE):
            self.take_aside(event, shadow, now)
        elif not shadow.is_known:
            self.begin(event, shadow, now)
        else:
            self.step(event, shadow, now)

    def take_aside(self, event: Event, shadow: Shadow, now: int):
        read = event.get('readable')
        if shadow.is_known and read is not None:
            self.read(event, shadow, read)
        self.skip(event, shadow, now, 'services and clients')

    def begin(self, event: Event, shadow: Shadow, now: int):
        """Looks whether the log has shown the whole state of a monitor that ran already when the log began."""
        if is_complete(event):
            known = state_of(self.q, event)
            if known.pending and known.pending[0] == known.last + 1:
                shadow.put_pending(known.pending[0], known.pending[1] or 1)  # under a number that the log may not show
            shadow.set_to(known, now)
            if event.is_message('LEASE'):
                shadow.take_lease(now)
        self.skipped['before the state is known'] += 1

    def step(self, event: Event, shadow: Shadow, now: int):
        if event.kind == 'deliver' and event.has('all_accepted') or event.kind == 'propose' and event.before.quorum == (event.rank,):
            self.deferred[event.rank] = event  # the commit that follows belongs to it
        elif event.kind == 'commit':
            accept = self.deferred.pop(event.rank, None)
            if accept is not None:
                self.compare(accept, event, shadow, now)
            else:
                self.skip(event, shadow, now, 'a commit whose ACCEPT is not in the log')
        elif event.kind in ('deliver', 'timer', 'propose'):
            self.compare(event, event, shadow, now)
        elif any(message.kind in TABLED for message in event.sends) or event.before.phase() != event.after.phase():
            self.skip(event, shadow, now, 'no cause in the log')
        elif event.rank not in self.deferred:
            shadow.set_to(event.after, now)

    def skip(self, event: Event, shadow: Shadow, now: int, why: str):
        self.skipped[why] += 1
        if event.kind == 'deliver' and event.rank in self.deferred:
            return  # the commit that it waits for is under way in another thread, and may show already
        if shadow.is_known or event.kind == 'reconfigured' and event.after.epoch:
            shadow.set_to(event.after, now)

    def start(self, event: Event, shadow: Shadow, now: int):
        opens = event.get('opens')
        shadow.are_numbers_known = opens is not None
        shadow.state = proved.booting(shadow.rank)
        if opens is not None:
            made, promise, last, first = map(int, opens.args)
            shadow.open(made, promise, last, first)
            pending = self.accepted_before(event, last + 1)
            if pending is not None:
                shadow.put_pending(*pending)
        events = self.q.monitors[event.rank].events[self.place[id(event)]:]
        epoch = next((int(fact.args[0]) for later in events for fact in later.facts if fact.name in ('init_epoch', 'first_epoch')), 1)
        shadow.put(b'monitor', b'election_epoch', epoch)
        shadow.is_known = True
        self.compare(event, event, shadow, now)

    def accepted_before(self, start: Event, version: int) -> tuple[int, int] | None:
        """The version and number of a value that a monitor accepted before it started again: the line that shows its store doesn't name that value."""
        for event in reversed(self.q.monitors[start.rank].events[:self.place[id(start)]]):
            accepts = event.get('accepts')
            if accepts is not None and int(accepts.args[0]) == version and any(message.kind == 'ACCEPT' for message in event.sends):
                return version, int(accepts.args[1])
            begins = event.get('begins')
            if begins is not None and int(begins.args[0]) == version and event.after.made and any(message.kind == 'BEGIN' for message in event.sends):
                return version, event.after.made
            if event.after.last >= version:
                break
        return None

    # -- reads

    def read(self, event: Event, shadow: Shadow, fact: Fact):
        """Compares whether the monitor may read, as it says and by its shadow's lease."""
        if event.before.paxos in ('writing', 'refresh', 'writing-previous') or int(fact.args[2]) > int(fact.args[3]):
            return
        now = max(0, (fact.at - (event.at - event.moment) - self.q.begin) // 1000)
        lease = shadow.lease()
        if lease is not None and abs(lease - now) < NEAR:
            return
        may = shadow.last > 0 and (lease is not None and now < lease or self.q.count == 1)
        self.reads += 1
        if may != (fact.args[0] == '1'):
            self.misread.append(Read(event, f'it {"may" if fact.args[0] == "1" else "may not"} read, and by the table it {"may" if may else "may not"}'))

    # -- a step

    def compare(self, event: Event, end: Event, shadow: Shadow, now: int):
        """Compares an event, whose effects end with the event `end`, with the reaction of the table."""
        before = shadow.phase()
        if event.kind == 'deliver' and event.message.sender is None:
            self.skip(event, shadow, now, 'a message of an unknown sender')
            return
        came, name = self.inputs.of(event, shadow)
        self.prepare(event, end, shadow, now)
        verdict, state = Verdict(f'{name} in {before}'), shadow.state
        reaction = shadow.react(now, came)
        verdict.why = proved.why_dropped()
        sends = reaction.sends
        if reaction.refusal:
            verdict.differ('runs out', f'a number runs out: {reaction.refusal}')
        else:
            verdict.is_idle = not reaction.operations and not sends and reaction.state == state
            self.learn_cookies(event, sends)
            shadow.take(reaction)
            if event.is_message('LAST_CHUNK'):
                sends = sends + self.replayed(shadow, now)
        weigh(verdict, event, end, shadow, sends, True)
        if event.kind == 'propose' and end is event and bool(reaction.answers) != bool(event.answers):
            verdict.differ('answer', f'{event.answers} clients are answered before the value is committed, by the table {reaction.answers}')
        if not verdict.is_same:
            self.explain(event, end, verdict, shadow)
        shadow.set_to(end.after, now)
        event.verdict = end.verdict = verdict
        self.verdicts.append((event, verdict))

    def prepare(self, event: Event, end: Event, shadow: Shadow, now: int):
        """Gives the shadow what the log shows only now: a lease for a proposal of the services, and numbers of a log that began later than they were made."""
        if event.kind == 'propose' and shadow.phase() == 'active':
            leader = shadow.state.leader
            lease = proved.inside(leader.lease)
            until = proved.some(now + 1) if lease is None or lease <= now else leader.lease
            clients = proved.booting(shadow.rank).clients
            shadow.state = proved.changed(shadow.state, leader=proved.changed(leader, lease=until), clients=clients)
        made = end.get('new_pn')
        if not shadow.are_numbers_known and made is not None:
            for key in (b'last_pn', b'accepted_pn'):
                shadow.put(b'paxos', key, max(0, int(made.args[0]) - 100))
            shadow.are_numbers_known = True
        accepts = event.get('accepts')
        if not shadow.number(b'paxos', b'accepted_pn') and accepts is not None:
            shadow.put(b'paxos', b'accepted_pn', int(accepts.args[1]))

    def learn_cookies(self, event: Event, sends: list):
        real = next((message for message in event.sends if message.kind == 'COOKIE'), None)
        for kind, _, _, body in sends:
            if kind == 'COOKIE' and real is not None:
                self.inputs.cookies[real.fields['cookie']] = body[1]

    @staticmethod
    def replayed(shadow: Shadow, now: int) -> list:
        """What is sent while the versions at the end of a full copy are taken, in steps of their own."""
        sends: list = []
        for _ in range(REPLAYED):
            if shadow.phase() != 'synchronizing':
                break
            step = shadow.react(now, proved.timer('step'))
            if step.refusal or not (step.operations or step.sends):
                break
            sends += step.sends
            shadow.take(step)
        return sends

    # -- differences

    def explain(self, event: Event, end: Event, verdict: Verdict, shadow: Shadow):
        events, at = self.q.monitors[event.rank].events, self.place[id(end)]
        begun = self.place[id(event)]
        near = events[max(0, begun - 3):at + 6]
        verdict.crosses_commit = any(other.kind == 'commit' for other in near) and any(other.has('start_election', 'stands') for other in near)
        following = next((other for other in events[at + 1:] if other.kind != 'other' or other.facts), None)
        is_cut = following is None or following.kind in ('start', 'stop') or end.after.state == 'shutdown'
        verdict.is_copied = self.is_copied(event)
        ends_quorum = self.ends_quorum(event, end)
        verdict.known = names_of(event, verdict, shadow.is_connected(), ends_quorum, is_cut)
        if ends_quorum:
            self.strategy.give(shadow)

    def is_copied(self, event: Event) -> bool:
        """Whether a monitor has copied a whole store before an event, and accepted no value since."""
        for earlier in reversed(self.q.monitors[event.rank].events[:self.place[id(event)]]):
            if earlier.has('accepts', 'begins'):
                return False
            if any(fact.args[1] == 'full' for fact in earlier.all('sync_start')):
                return True
        return False

    def ends_quorum(self, event: Event, end: Event) -> bool:
        """Whether the version that an ACCEPT or a COMMIT commits changes the monmap, so that the quorum ends."""
        if not event.is_message('ACCEPT', 'COMMIT'):
            return False
        if end.has('stands', 'bootstrap'):
            return True
        at = self.place[id(end)]
        following = next((other for other in self.q.monitors[event.rank].events[at + 1:at + 40]
                          if other.kind == 'reconfigured' or other.has('bootstrap', 'stands', 'start_election')), None)
        return following is not None and following.kind == 'reconfigured' and following.at - end.at < 1_000_000
