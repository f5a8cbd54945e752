"""Schedules that are played by definitions, event by event."""
from __future__ import annotations

import collections
import copy
from typing import Any, Counter, List, Optional

import natives
from antt import Made, changed
from loaded import fn
from texts import event_of, lines_of, monitors_of

SCENES, FILES = 'quorum_model.specs.Scenes', 'quorum_model.specs.Files'
# How many scheduled crashes of each kind there were.
KINDS: Counter[str] = collections.Counter()


class Play:
    """A schedule that is played event by event, with its trace so far."""

    def __init__(self, first: str):
        self.monitors = monitors_of(first)
        self.n: int = self.monitors.count
        self.scene = fn(SCENES, 'first_scene')
        self.stop: Optional[Made] = None
        self.events = 0
        self.trace = [first]
        # The transactions that each monitor's events wrote. An event to which it didn't react wrote none.
        self.writes: List[List[Any]] = [[] for _ in range(self.n)]

    @property
    def world(self) -> Any:
        return self.scene.world

    def state(self, rank: int) -> Any:
        """What a monitor remembers, or None if it is down."""
        state = self.scene.world.state(rank)
        return state.args[0] if state.args else None

    def copy(self) -> Play:
        """Another play that goes on from here. Its trace begins here."""
        other = copy.copy(self)
        other.trace, other.writes = [], [list(writes) for writes in self.writes]
        return other

    def take(self, line: str) -> bool:
        """Plays an event. Returns whether the run goes on."""
        event, before = event_of(line), self.scene
        done = fn('mon_world.specs.Step', 'step')(self.monitors, before, event)
        if done.name == 'Err':
            self.stop = done.args[0]
            return False
        scheduled = fn('mon_world.specs.Events', 'scheduled_of')(event)
        met = fn('quorum_model.specs.Meets', 'meets')(self.monitors, before.world, scheduled.plain)
        if met.name == 'Reacts':
            happened, rank = fn(SCENES, 'event_in')(self.monitors, before, scheduled), met.args[0]
            self.writes[rank] += fn('quorum_model.specs.Runs', 'writes_of')(self.monitors, before.world, happened, rank)
        self.scene, step = done.args[0]
        self.scene = flat(self.scene, self.n)
        self.events += 1
        self.trace.append(f'{self.events} {line}')
        self.trace += lines_of(step)
        if step.outcome.name in ('Crashed', 'Failed'):
            count(event, met, before, step.outcome)
        return True

    def ended(self) -> str:
        """The trace."""
        end = [] if self.stop else [f'end events={self.events} log={len(self.scene.world.log)}']
        return '\n'.join(self.trace + end) + '\n'


def flat(scene: Any, n: int) -> Any:
    """The same scene, in which the value of each rank is known, so that no chain of updates grows."""
    world, ranks = scene.world, range(n)
    states, stores, transactions = (tuple(map(f, ranks)).__getitem__ for f in (world.state, world.store, world.transactions))
    return changed(scene, files=tuple(map(scene.files, ranks)).__getitem__,
                   world=changed(world, state=states, store=stores, transactions=transactions))


def count(event: Made, met: Made, before: Any, outcome: Made) -> None:
    """Counts a scheduled crash by its kind."""
    rank, came, reaction = met.args
    files = fn(SCENES, 'files_at')(came, before.files(rank))
    changes = fn(SCENES, 'ops_of')(reaction)
    side = fn(FILES, 'live_side')(files)
    file = fn(FILES, 'file_after')(changes, fn(FILES, 'file_on')(side, files).args[0])
    due = fn(FILES, 'is_due')(file, natives.apply(changes, before.world.store(rank)))
    kind = [
        event.name.lower(),
        'in a start' if came.name == 'Start' else '',
        'before a checkpoint' if due else '',
        'of the live disk' if side == event.args[0] else 'of the other disk',
        'kept' if outcome.args[0] else 'lost',
    ]
    KINDS[' '.join(filter(None, kind))] += 1


def played(schedule: str) -> Play:
    """The play of a schedule, up to the event at which the run stops."""
    lines = schedule.split('\n')[:-1]
    play = Play(lines[0])
    for line in lines[1:]:
        if not play.take(line):
            break
    return play
