"""A schedule of the model that does what the logs show of real monitors, as far as the table's rows do the same. microscope/play goes on from its end by hand.

The schedule begins with a quorum that is in the state of the logs at a *calm* moment: a leader and its peons are active, and nothing is under way between
monitors. Epochs, proposal numbers and versions count from the schedule's own beginning. Then each input of a real monitor is given to its monitor in the
model, and what both do is compared. The first step in which they differ ends the schedule.
"""
from __future__ import annotations

from typing import NamedTuple

from . import definitions, times  # noqa: F401  the first one makes the modules of the microscope importable
from .events import Event, Known
from .files import Refused
from .levels import ALL, clock, level_of
from .lines import WHOLE, Window
from .messages import TABLED
from .quorum import Quorum
from .trace import joined
import searching
import texts

# The most events of the logs that are followed, and the most versions by which a monitor is behind at the beginning.
MOST, BEHIND = 2_000, 20
STEADY = 'active'
# What a log shows beside the steps of the table.
ASIDE = ('PING', 'PING_REPLY', 'FORWARD', 'ROUTE', 'OTHER')


class Followed(NamedTuple):
    """A schedule, how many events of the logs it has, the time of the calm moment, and why it ends: a sentence."""
    lines: list[str]
    events: int
    begin: int
    why: str

    def __str__(self):
        return f'from {clock(self.begin)} on {self.events} events of the logs are followed, {len(self.lines) - 1} in the schedule; {self.why}'


class Calm(NamedTuple):
    """A calm moment: the place of its event among all, its leader, and what is known of each monitor."""
    place: int
    leader: int
    known: dict[int, Known]

    @property
    def quorum(self) -> tuple[int, ...]:
        return self.known[self.leader].quorum

    @property
    def last(self) -> int:
        return self.known[self.leader].last


def is_calm(known: dict[int, Known], leader: int) -> bool:
    quorum = known[leader].quorum
    if not quorum or leader != min(quorum) or any(rank not in known for rank in quorum):
        return False
    peons = [known[rank] for rank in quorum if rank != leader]
    others = [it for rank, it in known.items() if rank not in quorum]
    return (known[leader].phase() == 'active' and known[leader].paxos == STEADY and all(it.phase() in ('down', 'probing') for it in others)
            and all(it.phase() == 'peon' and it.leader == leader and it.paxos == STEADY and it.last == known[leader].last for it in peons))


def calm_from(q: Quorum, begin: int) -> Calm:
    """The first calm moment from a time on. Raises Refused if there is none."""
    ends = {id(event.sent): place for place, event in enumerate(q.events) if event.sent is not None}
    known: dict[int, Known] = {}
    clear = 0  # the place up to which something is under way
    for place, event in enumerate(q.events):
        known[event.rank] = event.after if event.kind != 'stop' else Known(last=event.after.last)
        clear = max([clear, *(ends.get(id(message), 0) for message in event.sends if message.kind in TABLED)])
        if event.moment >= begin and clear <= place and not has_more(q.events, place):
            leader = next((rank for rank, it in known.items() if it.state == 'leader' and is_calm(known, rank)), None)
            if leader is not None:
                return Calm(place, leader, known)
    raise Refused('the logs show no moment at which a quorum is active and nothing is under way between its monitors')


def has_more(events: list[Event], place: int) -> bool:
    """Whether the next event belongs to the same step: a commit after its ACCEPT."""
    return place + 1 < len(events) and events[place + 1].kind == 'commit'


class Following:
    """Follows the logs with a run of the model."""

    def __init__(self, q: Quorum, window: Window = WHOLE):
        q.one_map()
        if level_of(q.levels()) != ALL:
            raise Refused('a schedule needs debug_mon and debug_paxos of at least 10, and debug_ms of at least 1')
        self.q, self.calm = q, calm_from(q, window.begin)
        self.killed = {id(event) for monitor in q.monitors.values() for event, after in zip(monitor.events, monitor.events[1:]) if after.kind == 'start'}
        self.course = searching.Course(f'monitors {q.count} classic')
        self.numbers: dict[int, int] = {}
        self.lead_in()
        self.begin = q.events[self.calm.place].moment
        self.start, self.base, self.count = self.course.now + 1, self.last_of(self.calm.leader) - self.calm.last, 0
        self.why = self.follow(window.end)

    # -- to the calm moment

    def lead_in(self):
        """Brings the model to the state of the calm moment."""
        course, calm = self.course, self.calm
        others = sorted((it.last, rank) for rank, it in calm.known.items() if rank not in calm.quorum and it.last)
        group = tuple(sorted([*calm.quorum, *(rank for _, rank in others)]))
        leader = self.lead(group)
        for last, rank in others:
            self.stop(rank, course.now)
            group = tuple(it for it in group if it != rank)
            leader = self.lead(group)
            following = next((later for later, other in others if later > last), calm.last)
            for _ in range(min(following - last, BEHIND)):
                self.write(leader, group)
        for rank, it in calm.known.items():
            if rank not in calm.quorum and it.phase() == 'probing':
                course.take(f'start {rank} {course.now}')
        course.waiting.clear()

    def lead(self, group: tuple[int, ...]) -> int:
        """A quorum of this group, whose leader has written once."""
        leader = searching.part(self.course, group, group)
        if leader != min(group):
            raise Refused('the model has no such quorum: a majority is missing')
        searching.within(self.course, group)
        while self.course.waiting:
            self.course.deliver(0)
        self.write(leader, group)
        return leader

    def write(self, leader: int, group: tuple[int, ...]):
        searching.write_in(self.course, leader, group, 6 * len(group))

    # -- the model

    def stop(self, rank: int, now: int):
        if self.course.state(rank) is not None:
            self.course.take(f'crash a 1 0 timer {rank} step {now}')

    def phase(self, rank: int) -> str:
        state = self.course.state(rank)
        return 'down' if state is None else texts.PHASE[state.phase.name]

    def last_of(self, rank: int) -> int:
        return int.from_bytes(self.course.play.world.store(rank).entries.get((b'paxos', b'last_committed'), b''), 'little')

    def now(self, event: Event) -> int:
        return self.start + max(0, event.moment - self.begin) // 1000

    # -- from the calm moment on

    def follow(self, end: int) -> str:
        """Follows the events after the calm moment. Returns why that ends."""
        done = {id(event) for event in self.q.events[:self.calm.place + 1]}
        for event, last in joined(self.q):
            if id(event) in done:
                continue
            if event.moment > end:
                return 'the part that was asked for ends there'
            if self.count >= MOST:
                return f'these are {MOST} events, and the rest is left out'
            before, numbers = self.course.copy(), dict(self.numbers)
            why = self.take(event, last)
            if why:
                self.course, self.numbers = before, numbers
                return f'at {clock(event.moment)} [{event.where}] {why}'
        return 'the logs end there'

    def take(self, event: Event, end: Event) -> str:
        """Takes a step. Returns how ceph-mon and the model differ in it, or nothing."""
        who, seen = self.q.who(event.rank), len(self.course.messages())
        if event.kind == 'reconfigured' or event.has('newer_monmap'):
            return f'{who} leaves its quorum, since the monmap changed'
        inputs = self.inputs(event)
        if isinstance(inputs, str):
            return inputs
        for line in inputs:
            self.course.take(line)
        is_shown = bool(inputs) or any(message.kind in TABLED for message in [*event.sends, *end.sends])
        self.count += is_shown
        is_killed = id(event) in self.killed or id(end) in self.killed
        why = self.differs(event, end, seen, is_killed) if is_shown else ''
        if is_killed and not why:
            self.stop(event.rank, self.now(end))
        return why

    def inputs(self, event: Event) -> list[str] | str:
        """The lines of the schedule that an event is, or why it has none."""
        rank, now = event.rank, self.now(event)
        if event.kind == 'start':
            return [f'start {rank} {now}']
        if event.kind == 'stop':
            self.stop(rank, now)
            return []
        if event.kind == 'timer':
            return [f'timer {rank} {event.timer} {now}']
        if event.kind == 'propose':
            self.course.asked += 1
            return [f'client {rank} {now} 1 {self.course.asked} set version {event.get("proposes").args[0]}', f'timer {rank} propose {now}']
        if event.kind == 'deliver' and not event.is_message(*ASIDE):
            number = self.numbers.get(id(event.sent))
            return [f'deliver {number} {now}'] if number is not None else f'{self.q.who(rank)} gets {event.message}, which the model did not send'
        return []

    def differs(self, event: Event, end: Event, seen: int, is_killed: bool) -> str:
        """How what ceph-mon and the model did differ, and notes which message of the model is which one of the logs. A monitor that was killed may have done less."""
        rank, who = event.rank, self.q.who(event.rank)
        sent: dict[tuple[str, int], list[int]] = {}
        for number, it in enumerate(self.course.messages()[seen:], seen + 1):
            sent.setdefault((texts.NAMES[it.message.body.name], it.to), []).append(number)
        real = [message for message in (event.sends if end is event else [*event.sends, *end.sends]) if message.kind in TABLED]
        for message in real:
            if not sent.get((message.kind, message.receiver)):
                return f'{who} sends {message.kind} to {self.q.who(message.receiver)}, and the model does not'
            self.numbers[id(message)] = sent[message.kind, message.receiver].pop(0)
        if is_killed:
            return ''
        left = [(kind, to) for (kind, to), numbers in sent.items() if numbers and to != rank]
        if left:
            return f'the model sends {left[0][0]} to {self.q.who(left[0][1])}, and {who} does not'
        if end.after.phase() != self.phase(rank):
            return f'{who} is {end.after.phase()} then, and the model {self.phase(rank)}'
        if end.after.phase() in ('active', 'peon') and end.after.last != self.last_of(rank) - self.base:
            return f'{who} has version {end.after.last} then, and the model {self.last_of(rank) - self.base}'
        return ''


def schedule(paths: list[str], begin: str | None = None, end: str | None = None) -> Followed:
    """The schedule of these logs, between these times. Raises Refused if they can't be followed."""
    window = times.window_of(paths, begin, end, None)
    found = Following(Quorum(paths, times.read(window)), window)
    return Followed(found.course.lines, found.count, found.begin, found.why)
