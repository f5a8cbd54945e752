"""A search of all runs within bounds: from an opening on, every run of at most a number of events, in which each message is delivered at most once.

The events are: a message that was sent since the opening is delivered, or one that was under way then; a timer fires at its end; a monitor starts again; and a
client asks a monitor for a write. After each event every monitor is asked for its map, and the run is judged. Runs that lead to the same state are continued
once: the same stores, memories, messages under way, log and acknowledgements, at the same time.
"""
from __future__ import annotations

import time
from typing import Hashable, Iterator, NamedTuple

import played  # noqa: F401
import loaded
import safety
from searching import OPENINGS, Course, Found, first_of

# The most writes that clients ask after the opening.
WRITES = 2


class Bounds(NamedTuple):
    """How far the search goes: monitors, events after the opening, and seconds of a processor."""
    monitors: int
    events: int
    seconds: float


class Exhausted(NamedTuple):
    """What a search covered: its bounds, its opening, how many states it reached and events it tried, up to which number of events it tried all, the seconds
    of a processor, and what it found, or None."""
    bounds: Bounds
    opening: str
    states: int
    tried: int
    complete: int
    seconds: float
    found: Found | None

    def __str__(self):
        if self.found:
            said = f'an unsafe run of {self.complete + 1} events, and none of fewer'
        elif self.complete == self.bounds.events:
            said = f'all runs of at most {self.complete} events'
        else:
            said = f'all runs of at most {self.complete} events, and not all of {self.complete + 1}: the time was over'
        return (f'{self.bounds.monitors} monitors, from the opening `{self.opening}`: {said}. {self.states:,} states, {self.tried:,} events, '
                f'{self.seconds:.0f} seconds of a processor')


def state_of(course: Course) -> Hashable:
    """What a run's future depends on, and what is judged of it."""
    world, ranks = course.play.world, range(course.play.n)
    stores = tuple(hash(frozenset(world.store(rank).entries.items())) for rank in ranks)
    memories = tuple(hash(world.state(rank)) for rank in ranks)
    wire = hash(frozenset((number_of(course, it), course.waiting.count(it)) for it in course.waiting))
    return stores, memories, wire, hash(tuple(world.log)), hash(frozenset(it.what for it in world.acknowledged)), hash(frozenset(world.active)), course.now


def number_of(course: Course, waiting: tuple) -> int:
    """What a message that waits is, whatever its number."""
    envelope = course.messages()[waiting[0] - 1]
    return hash((envelope.to, envelope.message))


def next_runs(course: Course, writes: int) -> Iterator[tuple[Course, int]]:
    """The runs of one event more, each with how many writes were asked."""
    seen = set()
    for place, it in enumerate(course.waiting):
        if (what := number_of(course, it)) not in seen:
            seen.add(what)
            other = course.copy()
            other.deliver(place)
            yield other, writes
    for end, rank, name in course.timers(course.up()):
        other = course.copy()
        other.now = max(other.now, end)
        other.take(f'timer {rank} {name} {other.now}')
        yield other, writes
    for rank in range(course.play.n):
        other = course.copy()
        other.take(f'start {rank} {other.now}')
        yield other, writes
        if writes < WRITES and course.state(rank) is not None:
            other = course.copy()
            other.write(rank)
            yield other, writes + 1


def broken_in(course: Course) -> Found | None:
    """What is wrong of a run, or of one in which each monitor is then asked for its map."""
    if broken := safety.broken(course.play):
        return first_of(course.lines, broken)
    other = course.copy()
    for rank in course.up():
        other.ask(rank, 'show kv')
    broken = safety.broken(other.play)
    return first_of(other.lines, broken) if broken else None


def exhaust(opening: str, bounds: Bounds) -> Exhausted:
    """Tries all runs, those of fewer events first."""
    base, begun = Course(f'monitors {bounds.monitors} classic'), time.process_time()
    OPENINGS[opening][0](base)
    known, level, tried = {state_of(base)}, [(base, 0)], 0

    def ended(complete: int, found: Found | None = None) -> Exhausted:
        return Exhausted(bounds, opening, len(known), tried, complete, time.process_time() - begun, found)
    for events in range(1, bounds.events + 1):
        following = []
        for course, writes in level:
            for other, asked in next_runs(course, writes):
                tried += 1
                if (key := (state_of(other), asked)) in known:
                    continue
                known.add(key)
                if found := broken_in(other):
                    return ended(events - 1, found)
                following.append((other, asked))
            loaded.forget()
            if time.process_time() - begun > bounds.seconds:
                return ended(events - 1)
        level = following
    return ended(bounds.events)
