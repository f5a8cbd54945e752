"""Who led when, who called elections and why, who was out of the quorum: what the conditions are found in, at any levels."""
from __future__ import annotations

from typing import NamedTuple

from .events import Event, ranks_of
from .lines import SECOND
from .quorum import Quorum
from .story import why_called

# The first elections aren't counted, since monitors start one after the other. A quorum is settled soon after the last leader with all monitors that comes early,
# and otherwise after PARTIAL.
EARLY, SOON, PARTIAL = 12 * SECOND, 3 * SECOND, 30 * SECOND


class Reign(NamedTuple):
    """A leader's time: from when it won to when its log shows that it leads no more, or to the end of its log."""
    begin: int
    end: int
    leader: int
    quorum: tuple[int, ...]
    epoch: int
    event: Event


class Call(NamedTuple):
    """An election that a monitor called."""
    moment: int
    rank: int
    why: str
    event: Event


class Timeline:
    """Reigns, calls, timers that fired, and starts of a quorum, in order of time."""

    def __init__(self, q: Quorum):
        self.q = q
        self.begin = min((event.moment for event in q.events), default=0)
        self.end = max((event.moment for event in q.events), default=0)
        self.reigns: list[Reign] = []
        self.calls: list[Call] = []
        self.place = {id(event): at for monitor in q.monitors.values() for at, event in enumerate(monitor.events)}
        self.timers: list[Event] = [event for event in q.events if event.kind == 'timer']
        self.starts: dict[int, list[Event]] = {rank: [] for rank in q.monitors}
        self.stops: dict[int, list[Event]] = {rank: [] for rank in q.monitors}
        for event in q.events:
            if event.kind in ('start', 'stop'):
                (self.starts if event.kind == 'start' else self.stops)[event.rank].append(event)
            self.take(event)
        self.reigns.sort()
        self.calls.sort(key=lambda call: call.moment)
        self.settled = self.settling()

    def take(self, event: Event):
        win, says = event.get('win'), event.get('says_leads')
        if win is not None:
            self.reign(event, ranks_of(win.args[1]), int(win.args[0]))
        elif says is not None and event.kind == 'leads':
            self.reign(event, ranks_of(says.args[2]), event.after.epoch)
        if event.kind == 'calls' or event.has('start_election') or event.has('stands') and event.kind == 'timer':
            self.calls.append(Call(event.moment, event.rank, 'its log shows no cause' if event.kind == 'calls' else why_called(self.q, event), event))

    def reign(self, event: Event, quorum: tuple[int, ...], epoch: int):
        events, at = self.q.monitors[event.rank].events, self.place[id(event)] + 1
        while at < len(events) and events[at].kind != 'start' and events[at].after.state == 'leader':
            at += 1
        # A leader that was killed led up to its last line.
        last = events[at].moment if at < len(events) and events[at].kind != 'start' else events[at - 1].moment
        self.reigns.append(Reign(event.moment, last, event.rank, quorum, epoch, event))

    def settling(self) -> int:
        """When the monitors that started together had become a quorum; the beginning, if they ran before."""
        starts = sum(event.kind == 'start' and event.moment < self.begin + PARTIAL for event in self.q.events[:200])
        if starts * 2 <= len(self.q.monitors) or not self.reigns:
            return self.begin
        first = self.reigns[0].begin
        whole = [reign.begin for reign in self.reigns if reign.begin < first + PARTIAL and len(reign.quorum) == self.q.count]
        early = [begin for begin in whole if begin < first + EARLY]
        return (early[-1] if early else whole[0]) + SOON if whole else first + PARTIAL

    def leader_at(self, moment: int) -> Reign | None:
        """The last leader that had won by a time."""
        won = [reign for reign in self.reigns if reign.begin <= moment]
        return won[-1] if won else None
