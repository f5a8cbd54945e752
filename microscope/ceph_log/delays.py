"""How late monitors are: when each member accepted a value, how long it took itself, and how long a store takes."""
from __future__ import annotations

import statistics
from collections import defaultdict
from typing import NamedTuple

from .events import Event, ranks_of
from .lines import SECOND
from .quorum import Quorum

# Delays are bad if their median is above SLOW seconds, if they were above WORST seconds at least three times, or above STALL seconds once.
SLOW, WORST, STALL = 0.25, 1.0, 4.0


class Delay(NamedTuple):
    """One delay in microseconds, and the event at its end."""
    value: int
    event: Event


class Delays:
    """`accepts`: from the BEGIN to the ACCEPT at the leader, per member. `there`: how long its BEGINs took to arrive. `own`: how long a monitor syncs what it accepts, between a BEGIN and its ACCEPT or, of a
    leader, between the proposal and its BEGIN. `commits`: from the last ACCEPT to what the leader's store has."""

    def __init__(self, q: Quorum):
        self.accepts: dict[int, list[Delay]] = defaultdict(list)
        self.there: dict[int, list[Delay]] = defaultdict(list)
        self.own: dict[int, list[Delay]] = defaultdict(list)
        self.commits: dict[int, list[Delay]] = defaultdict(list)
        begun: dict[int, dict[int, int]] = {}
        committing: dict[int, Event] = {}
        for event in q.events:
            begins = event.get('begins')
            if begins is not None:
                begun[event.rank] = {int(fact.args[0]): fact.at for fact in event.all('sends_begin')}
                for at in list(begun[event.rank].values())[:1]:
                    self.own[event.rank].append(Delay(at - begins.at, event))
            else:
                self.accept(event, begun.get(event.rank, {}))
            if event.is_message('BEGIN'):
                if event.sent is not None:
                    self.there[event.rank].append(Delay(event.moment - event.sent.moment, event))
                answer = next((message for message in event.sends if message.kind == 'ACCEPT'), None)
                if answer is not None:
                    self.own[event.rank].append(Delay(answer.at - event.at, event))
            if event.has('commit_start'):
                committing[event.rank] = event
            elif event.kind == 'commit' and event.rank in committing:
                start = committing.pop(event.rank).get('commit_start')
                self.commits[event.rank].append(Delay(event.at - start.at, event))
            elif event.kind == 'start':
                begun.pop(event.rank, None)
                committing.pop(event.rank, None)

    def accept(self, event: Event, begun: dict[int, int]):
        now = event.get('accepted_by')
        if now is not None:
            for member in ranks_of(now.args[0]):
                if member in begun:
                    self.accepts[member].append(Delay(now.at - begun.pop(member), event))


def median(delays: list[Delay]) -> float:
    return statistics.median(delay.value for delay in delays) / SECOND


def worst(delays: list[Delay]) -> Delay:
    return max(delays, key=lambda delay: delay.value)


def said(delays: list[Delay]) -> str:
    return f'{len(delays)} times, median {1000 * median(delays):.0f} ms, worst {worst(delays).value / 1000:.0f} ms'


def is_bad(delays: list[Delay]) -> bool:
    values = [delay.value / SECOND for delay in delays]
    return any(value > STALL for value in values) or len(values) >= 3 and (median(delays) > SLOW or sum(value > WORST for value in values) >= 3)


def stood_still(q: Quorum, rank: int, delay: Delay) -> bool:
    """Whether the log of a monitor, which gets a ping each second, has nothing in the midst of a delay of several seconds."""
    end, monitor = delay.event.moment, q.monitors.get(rank)
    if monitor is None or not q.levels().get('ms') or delay.value < STALL * SECOND:
        return False
    return not any(end - delay.value + SECOND < event.moment < end - SECOND for event in monitor.events)
