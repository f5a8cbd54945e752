"""Runs a schedule by the proved definitions: what each event did, and what its monitor remembers and has in its store afterwards."""
from __future__ import annotations

import os
import sys
from typing import Any, Iterator, NamedTuple

TOP = os.path.dirname(os.path.dirname(os.path.abspath(__file__)))
sys.path[:0] = [os.path.join(TOP, 'bench', 'definitions'), os.path.join(TOP, 'tools')]
import loaded  # noqa: E402
import plays  # noqa: E402
from cephmon import quorum_file  # noqa: E402, F401
from antt import Long, Made, Record, fields_of  # noqa: E402
from plays import Play  # noqa: E402
from schedules import TIMERS, faults_of  # noqa: E402

loaded.load(is_watched=True)  # Rows say why they drop an input.

# The prefixes of a store whose numbers are shown.
PREFIXES = b'paxos', b'monitor', b'mon_sync', b'kv', b'logm'
# What is printed of a row that does nothing with an input, or nothing more.
ENDS = {'dropped': 'drops it', 'nothing_more': 'does no more'}
# The most characters of bytes that are shown.
LONGEST = 60


class Refused(Exception):
    """The text isn't a schedule, or the definitions stop at one of its events."""


class Drop(NamedTuple):
    """A row that dropped its input or did no more with it: its name, how it ended, the part of its test that decided so, and whether that part holds."""
    row: str
    how: str
    test: str
    holds: bool

    def __str__(self):
        return f'{self.row} {ENDS[self.how]}, since {self.test} {"holds" if self.holds else "fails"}'


class Step(NamedTuple):
    """An event: its number, its lines in the trace, its changes as (monitor, part, before, after), the rows that dropped its input, what each
    monitor then remembers and has in its store (`looks`), and the run after it."""
    number: int
    lines: list[str]
    changes: list[tuple[int, str, str, str]]
    drops: list[Drop]
    looks: list[dict[str, str]]
    play: Play

    @property
    def reasons(self) -> list[str]:
        return [str(drop) for drop in self.drops]

    def is_idle(self) -> bool:
        """Whether the event sent, wrote and changed nothing."""
        return not self.changes and len(self.lines) == 1


def shown(value: Any) -> str:
    """A value of the definitions as text."""
    if isinstance(value, Record):
        return '{' + ', '.join(f'{name} {shown(part)}' for name, part in fields_of(value)) + '}'
    if isinstance(value, Made):
        if value.name in ('None', 'Some'):
            return shown(value.args[0]) if value.args else '-'
        return value.name.lower() + ('(' + ', '.join(map(shown, value.args)) + ')' if value.args else '')
    if isinstance(value, (tuple, Long)):
        if len(value) == 15 and all(isinstance(part, bool) for part in value):
            return '{' + ','.join(str(rank) for rank, is_in in enumerate(value) if is_in) + '}'
        return '[' + ', '.join(map(shown, value)) + ']'
    if isinstance(value, (bytes, bytearray)):
        text = repr(bytes(value))[2:-1]
        return text if len(text) <= LONGEST else f'{text[:LONGEST]}.. ({len(value)} bytes)'
    return {True: 'yes', False: 'no'}.get(value, str(value)) if isinstance(value, bool) else str(value)


def remembered(state: Any) -> dict[str, str]:
    """The parts of a monitor's state that aren't in its store, each as text."""
    if state is None:
        return {'up': 'no'}
    found = {'up': 'yes'}
    for part, value in fields_of(state):
        if part == 'timers':
            found |= {f'timer {name}': f'at {timer.args[0]}' if timer.args else 'off' for name, timer in zip(TIMERS, value)}
        elif isinstance(value, Record):
            found |= {f'{part}.{name}': shown(field) for name, field in fields_of(value) if name != 'scores'}
        else:
            found[part] = shown(value)
    return found


def kept(store: Any) -> dict[str, str]:
    """The numbers of a monitor's store."""
    return {f'store {prefix.decode()}/{key.decode()}': str(int.from_bytes(value, 'little'))
            for (prefix, key), value in store.entries.items() if prefix in PREFIXES and len(value) == 8 and not key.isdigit()}


def looks(play: Play) -> list[dict[str, str]]:
    """What each monitor remembers and has in its store, as texts by name."""
    return [{**remembered(play.state(rank)), **kept(play.world.store(rank))} for rank in range(play.n)]


def lines_of(octets: bytes) -> list[str]:
    """The lines of a schedule. Raises Refused at its first fault."""
    if fault := next(faults_of(octets), None):
        raise Refused(f'line {fault.line}, {fault.kind}: expected {fault.allowed}. microscope/lint shows the place')
    return octets.decode('ascii').splitlines()


def after(play: Play, line: str, before: list[dict[str, str]] | None = None) -> Step:
    """The event of a line after a run, which isn't changed. `before` are the looks of that run, if they are known. Raises Refused if a number runs out; the
    program stops then, too."""
    before, play, number = before or looks(play), play.copy(), play.events + 1
    loaded.drops().clear()
    if not play.take(line):
        raise Refused(f'line {number + 1}, {line}: the run stops there, {shown(play.stop)}')
    now = looks(play)
    changes = [(rank, part, before[rank].get(part, '-'), now[rank].get(part, '-'))
               for rank in range(play.n) for part in {**before[rank], **now[rank]} if before[rank].get(part) != now[rank].get(part)]
    # A kill between two events is written as a crash in a timer that isn't set. That this timer is dropped explains nothing, so it is left out.
    is_crash = any(it.startswith('  crashed ') for it in play.trace)
    drops = [Drop(*drop) for drop in dict.fromkeys(loaded.drops()) if not (is_crash and drop.row == 'take_timer')]
    return Step(number, play.trace, changes, drops, now, play)


def steps(schedule: list[str]) -> Iterator[Step]:
    """The events of a schedule, run one after the other. Raises Refused if the run stops in one."""
    play, before = Play(schedule[0]), None
    for line in schedule[1:]:
        step = after(play, line, before)
        yield step
        play, before = step.play, step.looks


def trace_of(lines: list[str]) -> str:
    """The trace of a schedule, up to the event at which the run stops."""
    return plays.played('\n'.join(lines) + '\n').ended()
