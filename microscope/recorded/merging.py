"""Merges the lives of several monitors into a schedule, and checks it against the records.

A monitor is a function of what it is given. So any order of the events does in which each message comes after its sending: the order here is that of the
times of day, as far as that is one. The schedule is played as it is made, and each event's sends are compared with those of the record.
"""
from __future__ import annotations

import copy
import re
from typing import Iterator, NamedTuple, Tuple

from played import Play
from fields import At
from loaded import fn
from recorded.beginning import Beginning, beginning
from recorded.disks import Map, map_on
from recorded.lives import Life, Message, Step
from recorded.messages import message, reply_message
from recorded.requests import Unwritable, request_words
from recorded.supposing import Supposing
from recorded.timing import due
from schedules import DELIVERY, TIMERS

# A call of a disk and an image by which the transaction of an event is lost: half of its record is on the disk.
TORN = '3 2'
# An event and its time.
TIME = re.compile(r'(?:(?:crash|fail) [ab] \d+ \d )?(?:(?:start|deliver|client) \d+|timer \d+ \w+) (\d+)')
# The most merges that are tried if a monitor has no record.
MOST_TRIED = 100


# A message: its sender, its receiver and its bytes.
Key = Tuple[int, int, bytes]


class Note(NamedTuple):
    """What isn't known, or differs: of a monitor, at an event of the schedule."""
    rank: int
    event: int
    text: str

    def __str__(self) -> str:
        return f'monitor {self.rank}, event {self.event}: {self.text}'


class Monitor:
    """A monitor's lives, and how far they were merged."""

    def __init__(self, rank: int, lives: list[Life], began: int):
        self.rank, self.lives, self.began = rank, lives, began
        self.life = self.place = 0
        self.is_stopped = False

    def step(self) -> Step | None:
        """The next step, or None after the last one that is known."""
        if self.is_stopped or self.life >= len(self.lives):
            return None
        steps = self.lives[self.life].steps
        return steps[self.place] if self.place < len(steps) else None

    def time(self, step: Step) -> int:
        """The time of a step, in milliseconds since the first life of all began."""
        life = self.lives[self.life]
        return life.time(step) - self.began

    def end(self) -> int | None:
        """The time before which this life ended, if another one follows."""
        following = self.following()
        return following.begin.time - self.began if following else None

    def following(self) -> Life | None:
        """The life after this one."""
        return self.lives[self.life + 1] if self.life + 1 < len(self.lives) else None


class Merge:
    """A schedule that is made of lives by rank, and what was noted: what differs from the records, and what isn't known."""

    def __init__(self, begun: Beginning):
        self.begun, lives = begun, begun.lives
        self.count = next(iter(lives.values()))[0].begin.monitors
        self.lines, self.play = list(begun.stage.lines), begun.stage.play.copy()
        # How many events lead to the stores with which the lives begin.
        self.before = self.play.events
        began = min(life.begin.time for found in lives.values() for life in found)
        self.monitors = {rank: Monitor(rank, found, began) for rank, found in lives.items()}
        # The numbers of the messages by sender, receiver and bytes, and how many messages and replies were read.
        self.sent: dict[Key, int] = {}
        self.came = set(keys_of(lives))
        self.messages, self.replies = len(self.play.world.messages), len(self.play.world.replied)
        self.differences: list[Note] = []
        self.unknown: list[Note | str] = list(begun.notes)
        self.compared = self.stores = 0
        # By the rank of each monitor without a record: how many events were supposed, and which messages arrived in them.
        self.supposed = {rank: 0 for rank in range(self.count) if rank not in self.monitors}
        self.arrived: set[int] = set()
        # The time of the last event, and that of the event which sent each message.
        self.now, self.times = 0, {}
        for monitor in self.monitors.values():
            self.begin_life(monitor)

    def copy(self) -> Merge:
        """Another merge that goes on from here."""
        other = copy.copy(self)
        other.play, other.monitors = self.play.copy(), {rank: copy.copy(it) for rank, it in self.monitors.items()}
        other.lines, other.differences, other.unknown = list(self.lines), list(self.differences), list(self.unknown)
        other.sent, other.supposed, other.arrived, other.times = dict(self.sent), dict(self.supposed), set(self.arrived), dict(self.times)
        return other

    # ---- notes

    def differs(self, rank: int, text: str) -> None:
        """Notes a difference. Nothing more of this monitor is merged."""
        self.differences.append(Note(rank, self.play.events, text))
        self.monitors[rank].is_stopped = True

    def lacks(self, rank: int, text: str) -> None:
        self.unknown.append(Note(rank, self.play.events, text))

    # ---- the order

    def is_ready(self, rank: int, step: Step) -> bool:
        """Whether a step may be taken: its message, if it has one, was sent."""
        came = step.came
        return came is None or came.party == 'client' or (came.who, rank, came.octets) in self.sent

    def run(self, others: list[Merge]) -> None:
        """Merges as many steps as can be taken. If what a monitor without a record did may be supposed in another way, the merge with that is added to the
        others."""
        while self.takes_next() or self.supposes(others):
            pass
        for rank, monitor in self.monitors.items():
            if step := monitor.step():
                self.lacks(rank, self.missing(rank, step))

    def merged(self) -> int:
        """How many events of the records are merged."""
        return self.play.events - sum(self.supposed.values())

    def steps(self) -> Iterator[tuple[int, int, Step]]:
        """The next step of each monitor, with its time and its monitor."""
        yield from ((monitor.time(step), rank, step) for rank, monitor in self.monitors.items() if (step := monitor.step()))

    def takes_next(self) -> bool:
        """Takes the earliest step that is ready, if one is."""
        ready = [(time, rank, step) for time, rank, step in self.steps() if self.is_ready(rank, step)]
        if ready:
            time, rank, step = min(ready)
            self.take(self.monitors[rank], step, time)
        return bool(ready)

    def supposes(self, others: list[Merge]) -> bool:
        """Adds events of a monitor without a record after which it sends a message that came from it, if some are found."""
        for time, _, step in sorted(self.steps()):
            sender = step.came.who if step.came else -1
            if sender in self.supposed:
                wanted = {(rank, it.came.octets) for _, rank, it in self.steps() if it.came and it.came.party == 'monitor' and it.came.who == sender}
                if found := Supposing(self.play, sender, wanted, time, self.arrived, self.times).found():
                    for lines in found[1:]:
                        others.append(self.copy())
                        others[-1].suppose(sender, lines)
                    self.suppose(sender, found[0])
                    return True
        return False

    def suppose(self, rank: int, lines: list[str]) -> None:
        for line in lines:
            self.event(line)
            self.note_sent(None)
            if match := DELIVERY.fullmatch(line):
                self.arrived.add(int(match[2]))
        self.supposed[rank] += len(lines)

    def missing(self, rank: int, step: Step) -> str:
        sender = step.came.who
        kind = step.came.octets[1] if len(step.came.octets) > 1 else 0
        why = 'has no record' if sender not in self.monitors else 'sent it at no event that is known'
        return f'a message of kind {kind} came from monitor {sender}, which {why}: what follows isn\'t replayed ({step.at} in its record)'

    # ---- lives

    def begin_life(self, monitor: Monitor) -> None:
        """Compares the store with which a life begins, if it is known."""
        life = monitor.lives[monitor.life]
        recorded = map_on(life.disks) if monitor.life else self.begun.stores[monitor.rank]
        if recorded is None:
            self.lacks(monitor.rank, 'the store at the beginning of a life isn\'t recorded')
        elif recorded and not self.before and not monitor.life:
            self.lacks(monitor.rank, f'its store had {len(recorded)} keys when its record began, to which no events lead')
            monitor.is_stopped = True
        elif recorded != self.store(monitor.rank):
            self.differs(monitor.rank, f'the store of life {monitor.life + 1} began with {len(recorded)} keys that aren\'t those of the schedule')
        else:
            self.stores += 1
        if not life.steps:
            self.end_life(monitor)

    def store(self, rank: int) -> Map:
        return dict(self.play.world.store(rank).entries)

    def end_life(self, monitor: Monitor) -> None:
        """After the last step of a life: the next one begins with a start, before which the monitor is down."""
        life = monitor.lives[monitor.life]
        if life.is_cut:
            self.lacks(monitor.rank, f'the record of its life {monitor.life + 1} ends within an entry')
        if life.lack:
            self.lacks(monitor.rank, life.lack)
            monitor.is_stopped = True
            return
        time = monitor.time(life.steps[-1]) if life.steps else 0
        self.fire_last(monitor)
        self.stop(monitor, time)
        monitor.life, monitor.place = monitor.life + 1, 0
        if monitor.life < len(monitor.lives):
            self.begin_life(monitor)

    def fire_last(self, monitor: Monitor) -> None:
        """The timers that fire after the last wait of a life that is killed aren't recorded. What they sent and kept shows them, if another monitor got it
        or the next life's store has it."""
        if monitor.lives[monitor.life].status is None:
            for _ in TIMERS:
                if not self.fires(monitor):
                    return

    def fires(self, monitor: Monitor) -> bool:
        """Fires the next timer, if something shows that it fired. Returns whether it did. No timer fires after the next life began."""
        following, timer, end = monitor.following(), due(self.play, monitor.rank), monitor.end()
        if timer is None or end is not None and timer[1] > end:
            return False
        line = f'timer {monitor.rank} {timer[0]} {timer[1]}'
        tried, before, kept = self.play.copy(), self.store(monitor.rank), map_on(following.disks) if following else None
        if not tried.take(line):
            return False
        if kept is not None and kept != dict(tried.world.store(monitor.rank).entries):
            return False
        is_kept = kept is not None and kept != before
        if not is_kept and not any(key in self.came and key not in self.sent for key, _number in self.sent_in(tried)):
            return False
        self.event(line)
        self.note_sent(None)
        return True

    def sent_in(self, play: Play) -> Iterator[tuple[Key, int]]:
        """The messages of a run that weren't noted, with their numbers."""
        for number in range(self.messages, len(play.world.messages)):
            sent = play.world.messages[number]
            yield (sent.message.from_, sent.to, message(sent.message)), number + 1

    def stop(self, monitor: Monitor, time: int) -> None:
        """Stops a monitor by a crash in a timer that isn't set."""
        state = self.play.state(monitor.rank)
        if state is None:
            return
        for name, timer in zip(TIMERS, state.timers):
            if not timer.args:
                self.event(f'crash a 1 0 timer {monitor.rank} {name} {time}')
                return

    # ---- steps

    def take(self, monitor: Monitor, step: Step, time: int) -> None:
        line = self.line_of(monitor, step, time)
        if line is None:
            monitor.is_stopped = True
            return
        if step.is_last and monitor.following() and not step.sent:
            self.take_last(monitor, line)
        else:
            self.event(line)
            self.compare(monitor.rank, step)
        monitor.place += 1
        if monitor.place == len(monitor.lives[monitor.life].steps):
            self.end_life(monitor)

    def take_last(self, monitor: Monitor, line: str) -> None:
        """The step within which a life ended: the next life's store says whether its transaction is kept."""
        recorded = map_on(monitor.following().disks)
        before = self.store(monitor.rank)
        tried = self.play.copy()
        is_taken = tried.take(line)
        after = dict(tried.world.store(monitor.rank).entries)
        if not is_taken or recorded is None or recorded == after or recorded != before:
            self.event(line)
            self.note_sent(None)
            return
        side = self.live_side(monitor.rank)
        self.event(f'crash {side} {TORN} {line}')

    def live_side(self, rank: int) -> str:
        side = fn('quorum_model.specs.Files', 'live_side')(self.play.scene.files(rank))
        return side.name.lower()

    def line_of(self, monitor: Monitor, step: Step, time: int) -> str | None:
        """The line of a step, or None if there is none, which is noted."""
        rank = monitor.rank
        if step.kind == 'start':
            return f'start {rank} {time}'
        if step.kind == 'timer':
            return self.timer_line(rank, time)
        if step.came.party == 'monitor':
            return f'deliver {self.sent[step.came.who, rank, step.came.octets]} {time}'
        try:
            return f'client {rank} {time} {step.came.who} {request_words(step.came.octets)}'
        except (Unwritable, At, KeyError) as why:
            self.lacks(rank, f'{why}: no line of a schedule has it, so what follows isn\'t replayed')
            return None

    def timer_line(self, rank: int, time: int) -> str | None:
        timer = due(self.play, rank)
        if timer is None or timer[1] > time:
            self.differs(rank, f'a timer fired at {time}, and the schedule has none that is due')
            return None
        return f'timer {rank} {timer[0]} {time}'

    def event(self, line: str) -> None:
        """Adds an event, and plays it."""
        if self.play.take(line):
            self.lines.append(line)
            self.now = int(TIME.match(line)[1])
        else:
            raise Unwritable(f'the run stops at event {self.play.events + 1}, {line}: {self.play.stop}')

    # ---- what is sent

    def note_sent(self, rank: int | None) -> list[Message]:
        """Notes the messages that were sent since the last call. Returns these and the replies of a monitor."""
        found = []
        for key, number in self.sent_in(self.play):
            self.sent[key], self.times[number] = number, self.now
            sender, receiver, octets = key
            if sender == rank:
                found.append(Message('monitor', receiver, octets))
        self.messages = len(self.play.world.messages)
        replied = self.play.world.replied
        for it in replied[self.replies:]:
            if it.rank == rank:
                found.append(Message('client', it.session.client, reply_message(it.rank, self.count, it.epoch, it.session.id, it.reply)))
        self.replies = len(replied)
        return found

    def compare(self, rank: int, step: Step) -> None:
        """Compares what was sent at the last event with the record. At the end of a life a part of it may be missing."""
        wanted = self.note_sent(rank)
        if sorted(step.sent) == sorted(wanted) or step.is_last and not [it for it in step.sent if it not in wanted]:
            self.compared += len(step.sent)
            return
        self.differs(rank, f'it sent {shown(step.sent)}, and the schedule sends {shown(wanted)} ({step.at} in its record)')


def merged(lives: dict[int, list[Life]], exports: dict[int, Map] | None = None) -> Merge:
    """The merge of these lives; if a monitor has none, the one that goes furthest among those that are tried. The exports are of the stores with which the lives
    of some monitors begin. Raises Unreachable if no events are found that lead to the stores."""
    others: list[Merge] = []
    best = Merge(beginning(lives, exports or {}))
    best.run(others)
    for _ in range(MOST_TRIED):
        if not best.unknown or not others:
            break
        merge = others.pop()
        merge.run(others)
        best = max(best, merge, key=Merge.merged)
    return best


def shown(sent: list[Message]) -> str:
    return ', '.join(f'{it.octets[1] if len(it.octets) > 1 else 0} to {it.party} {it.who} ({len(it.octets)} bytes)' for it in sent) or 'nothing'


def keys_of(lives: dict[int, list[Life]]) -> Iterator[Key]:
    """The messages that came from monitors in these lives."""
    for rank, found in lives.items():
        for life in found:
            yield from ((step.came.who, rank, step.came.octets) for step in life.steps if step.came and step.came.party == 'monitor')
