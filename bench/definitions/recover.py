"""Tries by the definitions that a majority can serve again after random runs, by the events that docs/LAWS.md describes (The way back).

usage: recover.py FIRST_SEED COUNT EVENTS [EVERY [PROGRAM]]

COUNT runs of fuzz.py are played. At the end of each, and before that after every EVERY events, a majority whose monitors are near the whole log goes on
alone, and a command is asked. It must get its reply within 2n² + 14n + 5 events for n monitors, none of which delivers a message that was sent before.
Half of the ways come at time 0, and half at times that don't go back and at which each timer that fires is due. If
PROGRAM is given, its trace of all of these events must be the same. A run that ends early, and a majority without a member that may lead, are counted
separately. The script prints the counts, and for each number of monitors the length of the longest way. The status is 0 if every other majority got its
reply, and 1 otherwise.
"""
from __future__ import annotations

import collections
import random
import subprocess
import sys

import fuzz
import loaded
from antt import Made, octets, record
from loaded import fn
from natives import transaction_text
from plays import Play
from texts import TIMER

RECORDS, READINGS = 'mon_msg.specs.Protocol.Records', 'mon_msg.specs.Protocol.Readings'
PLANS, PLAN = 'quorum_elects.specs.Plans', 'quorum_recovers.specs.Plan'
TIMES = 'mon_msg.specs.Protocol.Timers'
SESSION, COMMAND = record(client=4_000_000_000, id=9_000_000), Made('Set', b'recovered', b'x')
TIMERS = {name: word for word, name in TIMER.items()}


def line_of(event: Made) -> str:
    """A planned event, as a schedule has it."""
    plain = event.args[0]
    if plain.name == 'Start':
        return 'start %d %d' % plain.args
    if plain.name == 'Deliver':
        return 'deliver %d %d' % plain.args
    if plain.name == 'Ring':
        rank, timer, at = plain.args
        return f'timer {rank} {TIMERS[timer.name]} {at}'
    rank, at, session, request = plain.args
    return f'client {rank} {at} {session.client} {session.id} set {request.args[0].decode()} {request.args[1].decode()}'


class Way:
    """The way back of a majority: the events that follow the plan of the definitions, each of which delivers the newest message. They come at time 0; or, if
    the way is punctual, after all timers that are set, and each timer that fires is due."""

    def __init__(self, play: Play, majority: list[int], punctual: bool = False):
        self.play, self.sent, self.lines = play, len(play.world.messages), []
        self.punctual = punctual
        self.now = max((end for rank in range(play.n) for end in self.ends(rank)), default=0) if punctual else 0
        members = tuple(rank in majority for rank in range(15))
        self.steps = fn(PLAN, 'way_back')(play.monitors, members, SESSION, COMMAND)

    def ends(self, rank: int) -> list[int]:
        """The times for which a monitor's timers are set."""
        state = self.play.state(rank)
        return [end.args[0] for end in state.timers if end.args] if state else []

    def time_of(self, planned) -> int:
        """When the planned event comes: now, or once its timer is due."""
        if self.punctual and planned.name == 'Rings':
            rank, timer = planned.args
            self.now = max(self.now, fn(TIMES, 'end_of')(timer, self.play.state(rank).timers).args[0])
        return self.now

    def take(self, planned):
        event = fn(PLANS, 'event_of')(self.sent, self.time_of(planned), self.play.world, planned)
        if event.name == 'None':
            raise ValueError(f'there is no message for {planned!r}')
        self.lines.append(line_of(event.args[0]))
        if not self.play.take(self.lines[-1]):
            raise ValueError(f'the run stops at {self.lines[-1]!r}')

    def go(self):
        for step in self.steps:
            for planned in step(self.play.world):
                self.take(planned)

    def replied(self) -> bool:
        return any(reply.session == SESSION for reply in self.play.world.replied)


def is_near(play: Play, rank: int) -> bool:
    """Whether the monitor has the whole log, or all of it but the last version and that as its pending value."""
    read = fn(READINGS, 'readings_of')(play.world.store(rank))
    end = len(play.world.log)
    if read.marked or read.last not in (end, end - 1):
        return False
    pending = fn(RECORDS, 'pending')(read)
    return read.last == end or pending.name == 'Some' and transaction_text(pending.args[0].value) == octets(play.world.log[end - 1])


def allowed_in(play: Play) -> list[int]:
    rule = play.monitors.rule
    return [rank for rank in range(play.n) if rule.name == 'Classic' or not rule.args[0][rank]]


def most_events(n: int) -> int:
    """The bound on the events of a way of n monitors."""
    return 2 * n * n + 14 * n + 5


def outcome(seed: int, schedule: str, play: Play, program: str | None, longest: collections.Counter) -> str:
    """How a majority fares after the run of a seed. Notes the longest way of each number of monitors."""
    near = [rank for rank in range(play.n) if is_near(play, rank)]
    least = play.n // 2 + 1
    where = f'seed {seed}, event {play.events}'
    if len(near) < least:
        return f'WRONG: {where}: {len(near)} of {play.n} are near'
    rng = random.Random(seed + play.events)
    majority = sorted(rng.sample(near, rng.randint(least, len(near))))
    if not set(majority) & set(allowed_in(play)):
        return 'none may lead'
    way, most = Way(play, majority, punctual=rng.randrange(2) == 1), most_events(play.n)
    try:
        way.go()
    except ValueError as why:
        return f'WRONG: {where}, {majority} of {play.n}: {why}'
    if not way.replied() or len(way.lines) > most:
        return f'WRONG: {where}, {majority} of {play.n}: {len(way.lines)} events of at most {most}, and {"a" if way.replied() else "no"} reply'
    if program:
        whole = schedule + '\n'.join(way.lines) + '\n'
        if subprocess.run([program, 'replay'], input=whole.encode('latin-1'), stdout=subprocess.PIPE).stdout.decode('latin-1') != play.ended():
            return f'WRONG: {where}, {majority} of {play.n}: the program has another trace'
    longest[play.n] = max(longest[play.n], len(way.lines))
    return 'served'


def outcomes(seed: int, events: int, every: int, program: str | None, longest: collections.Counter) -> list[str]:
    """How a majority fares at the end of the run of a seed, and at regular intervals before it."""
    found = []

    def seen(lines: list[str], play: Play):
        if play.events % every == 0 and play.events < events:
            other = play.copy()
            other.trace = list(play.trace)
            found.append(outcome(seed, '\n'.join(lines) + '\n', other, program, longest))
    schedule, play = fuzz.schedule_of(seed, events, 'small', seen)
    return found + ['stopped' if play.stop else outcome(seed, schedule, play, program, longest)]


def main(arguments: list[str]) -> int:
    first, count, events = map(int, arguments[:3])
    every = int(arguments[3]) if len(arguments) > 3 else events
    program = arguments[4] if len(arguments) > 4 else None
    found, longest = collections.Counter(), collections.Counter()
    for seed in range(first, first + count):
        for result in outcomes(seed, events, every, program, longest):
            found[result.split(':')[0]] += 1
            if result.startswith('WRONG'):
                print(result, flush=True)
        loaded.forget()
    print(', '.join(f'{name} {number}' for name, number in sorted(found.items())))
    for n, number in sorted(longest.items()):
        print(f'{n} monitors: at most {number} events of {most_events(n)}')
    return 1 if found['WRONG'] else 0


if __name__ == '__main__':
    sys.exit(main(sys.argv[1:]))
