"""A trace, as docs/FORMATS.md has it, of what real monitors did. tools/chart draws it."""
from __future__ import annotations

from typing import NamedTuple

from .events import Event
from .lines import WHOLE, Window
from .messages import TABLED, Message
from .quorum import Quorum


class Traced(NamedTuple):
    """The lines of a trace, the event of each number (None for one that no line shows), and marks for the chart by number."""
    lines: list[str]
    events: dict[int, Event | None]
    marks: dict[int, list[str]]


def joined(q: Quorum) -> list[tuple[Event, Event]]:
    """The events, each with the one that ends it: a commit ends the ACCEPT that made it possible, since the model commits at once."""
    waiting: dict[int, Event] = {}
    begun: dict[int, Event] = {}
    for event in q.events:
        if event.kind == 'deliver' and event.has('all_accepted'):
            waiting[event.rank] = event
        elif event.kind == 'commit' and event.rank in waiting:
            begun[id(event)] = waiting.pop(event.rank)
        elif event.kind == 'start':
            waiting.pop(event.rank, None)
    ended = {id(event) for event in begun.values()}
    return [(begun.get(id(event), event), event) for event in q.events if id(event) not in ended]


def mark_routine(q: Quorum):
    """Marks the leases that are renewed, their arrivals, and their acknowledgements."""
    for event in q.events:
        if event.kind == 'timer' and event.timer == 'renew':
            for message in event.sends:
                message.is_routine = message.kind == 'LEASE'
    for event in q.events:
        if event.sent is not None and event.sent.is_routine:
            event.is_routine = True
            for message in event.sends:
                message.is_routine = message.is_routine or message.kind == 'LEASE_ACK'


class Tracing:
    """Writes the trace."""

    def __init__(self, q: Quorum, window: Window, with_routine: bool):
        self.q, self.window, self.with_routine = q, window, with_routine
        self.lines, self.events, self.marks = [f'monitors {q.count} classic'], {}, {}
        self.number = self.message = 0
        self.numbers: dict[int, int] = {}
        self.states: dict[int, tuple] = {}
        self.seen: dict[int, int] = {}
        self.up = {rank for rank, monitor in q.monitors.items() if monitor.events and monitor.events[0].kind != 'start'}
        mark_routine(q)
        for event, end in joined(q):
            if window.has(event.moment):
                self.take(event, end)
            elif event.kind == 'start':
                self.up.add(event.rank)
        self.lines.append(f'end events={self.number} log={max((monitor.known.last for monitor in q.monitors.values()), default=0)}')

    def time(self, moment: int) -> int:
        return max(0, (moment - self.q.begin) // 1000)

    def add(self, head: str, event: Event | None):
        self.number += 1
        self.events[self.number] = event
        self.lines.append(f'{self.number} {head}')

    def mark(self, text: str):
        self.marks.setdefault(self.number + 1, []).append(text)

    def crash(self, rank: int, moment: int, event: Event | None):
        self.add(f'crash a 1 0 timer {rank} step {self.time(moment)}', event)
        self.lines.append('  crashed kept')

    def take(self, event: Event, end: Event):
        rank, who = event.rank, self.q.who(event.rank)
        if event.kind == 'stop':
            if rank in self.up:
                self.up.discard(rank)
                self.crash(rank, event.moment, event)
            return
        if event.kind == 'start':
            if rank in self.up:
                self.mark(f'{who} was killed, or stopped without a word')
                self.crash(rank, self.seen.get(rank, event.moment), None)
            self.up.add(rank)
        sends = [message for message in (event.sends if end is event else [*event.sends, *end.sends]) if message.kind in TABLED]
        head = self.head(event, bool(sends))
        self.seen[rank] = event.moment
        if head is None:
            return
        self.add(head, event)
        self.state(end)
        for message in sends:
            if message.receiver is not None and (self.with_routine or not message.is_routine):
                self.send(message, end)

    def state(self, end: Event):
        after = end.after
        state = after.phase(), after.epoch, after.last
        if state[0] != 'down' and state != self.states.get(end.rank):
            self.states[end.rank] = state
            self.lines.append('  is {} epoch {} last {}'.format(*state))

    def send(self, message: Message, end: Event):
        self.message += 1
        self.numbers[id(message)] = self.message
        fields = f'e={message.fields.get("e", end.after.epoch)} {message.said("e")}'.rstrip()
        self.lines.append(f'  send {self.message} {message.sender}>{message.receiver} {message.kind} {fields}')

    def head(self, event: Event, sends: bool) -> str | None:
        """The first line of an event, or None if it isn't shown."""
        rank, now = event.rank, self.time(event.moment)
        if event.kind == 'start':
            return f'start {rank} {now}'
        if event.kind == 'deliver':
            return self.delivery(event, now)
        if event.kind == 'timer':
            return f'timer {rank} {event.timer} {now}' if event.timer != 'renew' or self.with_routine else None
        if event.kind == 'propose':
            version, size = event.get('proposes').args
            return f'client {rank} {now} 0 {version} set version-{version} {size} bytes'
        words = {'calls': 'calls an election', 'leads': 'leads', 'reconfigured': 'leaves the quorum: the monmap changed', 'copies': 'begins a copy'}.get(event.kind)
        if words:
            self.mark(f'{self.q.who(rank)} {words}')
        return f'timer {rank} step {now}' if words or sends else None

    def delivery(self, event: Event, now: int) -> str | None:
        message = event.message
        if message.kind not in TABLED or event.is_routine and not self.with_routine:
            return None
        number = self.numbers.get(id(event.sent)) if event.sent is not None else None
        if number is None and message.sender is None:
            return f'timer {event.rank} step {now}'
        if number is None:
            # Its sending isn't in the logs.
            self.add(f'timer {message.sender} step {now}', None)
            self.message += 1
            number = self.message
            fields = f'e={message.fields.get("e", event.before.epoch)} {message.said("e")}'.rstrip()
            self.lines.append(f'  send {number} {message.sender}>{event.rank} {message.kind} {fields}')
        return f'deliver {number} {now}'


def trace(q: Quorum, window: Window = WHOLE, with_routine: bool = False) -> Traced:
    """The trace of the events within a window. Renewed leases are left out unless asked for."""
    made = Tracing(q, window, with_routine)
    return Traced(made.lines, made.events, made.marks)
