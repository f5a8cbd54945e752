"""Replays of schedules by the definitions, event by event."""
from __future__ import annotations

import gc
import json
import os
import sys
import time
from typing import Callable, Iterator

TOP = os.path.dirname(os.path.dirname(os.path.abspath(__file__)))
sys.path.insert(0, os.path.join(TOP, 'bench', 'definitions'))
from judging import last_of  # noqa: E402
from plays import Play  # noqa: E402

# The program's status if a number or the room of a store is used up, and the start of the text on standard error.
STOPS = {'Spent': (10, 'spent'), 'Full': (13, 'store full')}
# Seconds between two lines of progress.
BETWEEN = 5.0


class Stopped(Exception):
    """A run stopped at an event, as the program's would, with this status and text."""

    def __init__(self, stop):
        (what,) = stop.args
        self.status, name = STOPS[stop.name]
        super().__init__(f'{name}: {getattr(what, "name", what)}')


class Replay:
    """A run of a schedule. The lines of its trace come in parts, one per event, and none is kept."""

    def __init__(self, lines: list[str], on_event: Callable[[int], None] = lambda events: None):
        self.lines, self.on_event = lines, on_event
        self.play = Play(lines[0])

    def parts(self) -> Iterator[list[str]]:
        """The lines of the trace. Raises Stopped at an event at which the run stops."""
        gc.disable()  # A run makes no cycles that matter.
        yield self.taken()
        for line in self.lines[1:]:
            if not self.play.take(line):
                raise Stopped(self.play.stop)
            yield self.taken()
            self.on_event(self.play.events)
        yield [f'end events={self.play.events} log={len(self.play.world.log)}']

    def taken(self) -> list[str]:
        """The lines since the last part."""
        found, self.play.trace = self.play.trace, []
        return found

    def summary(self) -> str:
        """The summary of the whole run, in place of its trace. Raises Stopped."""
        counts = dict.fromkeys(('reply', 'send', 'store'), 0)
        for part in self.parts():
            for line in part:
                if line.startswith('  ') and (kind := line.split(' ', 3)[2]) in counts:
                    counts[kind] += 1
        last = [last_of(self.play.world.store(rank)) for rank in range(self.play.n)]
        found = {'events': self.play.events, 'last': last, 'log': len(self.play.world.log), 'replies': counts['reply'], 'sent': counts['send'],
                 'stores': counts['store']}
        return json.dumps(found, separators=(',', ':'))


class Progress:
    """Lines on standard error about a run that takes long: how far it is, and its speed. They are for a person, so there are none unless standard error
    is a terminal and standard output isn't."""

    def __init__(self, name: str, events: int):
        self.name, self.events = name, events
        self.is_on = sys.stderr.isatty() and not sys.stdout.isatty()
        self.began = self.printed = time.monotonic()

    def speed(self, events: int) -> str:
        return f'{events / max(time.monotonic() - self.began, 0.001):.0f} per s'

    def at(self, events: int):
        now = time.monotonic()
        if self.is_on and now >= self.printed + BETWEEN:
            self.printed = now
            print(f'{self.name}: {events} of {self.events} events, {self.speed(events)}', file=sys.stderr, flush=True)

    def end(self, events: int):
        if self.is_on:
            print(f'{self.name}: {events} events in {time.monotonic() - self.began:.1f} s, {self.speed(events)}', file=sys.stderr, flush=True)
