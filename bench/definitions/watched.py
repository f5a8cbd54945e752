"""Tries by the definitions that a watching link shows the true state of its monitor after each event of random runs.

usage: watched.py FIRST_SEED COUNT EVENTS

Runs of fuzz.py are played. A watching link concludes the state of its monitor from the headers of the messages that the monitor sent since its start. After
each event this state is compared with what the monitor's core remembers. The script reports how often each phase was concluded in each phase of a core.
The status is 0 if all conclusions agreed, and 1 otherwise.
"""
from __future__ import annotations

import collections
import sys

import fuzz
from antt import NONE, some
from judging import epoch_of
from loaded import fn
from plays import Play
from texts import event_of

SEEN, LAWS, LEADER = 'mon_watch.specs.Seen', 'watch_laws.specs.Watching', 'quorum_laws.specs.Elections'


class Watch:
    """What a watching link concludes of each monitor of a play."""

    def __init__(self, monitors: int):
        self.seen, self.sent = [fn(SEEN, 'nothing_seen')] * monitors, 0

    def took(self, play: Play, line: str):
        """Takes an event that was played."""
        plain = fn('mon_world.specs.Events', 'scheduled_of')(event_of(line)).plain
        if plain.name == 'Start':
            self.seen[plain.args[0]] = fn(SEEN, 'nothing_seen')
        messages = play.world.messages
        for envelope in messages[self.sent:]:
            to, message = envelope.to, envelope.message
            own, heading = message.from_, fn('mon_decode.specs.Headers', 'heading')(message)
            self.seen[own] = fn(SEEN, 'after_header')(own, to, some(heading), self.seen[own])
        self.sent = len(messages)

    def line(self, rank: int) -> str | None:
        """The last line that the monitor would write on standard error."""
        seen = self.seen[rank]
        phase, epoch = seen.phase.name, seen.epoch
        if phase in ('Collecting', 'Active'):
            return f'leads epoch {epoch}'
        if phase == 'Peon':
            return f'follows monitor {seen.leader.args[0]} in epoch {epoch}'
        if phase == 'Synchronizing':
            return f'copies the store of monitor {seen.source.args[0]}'
        return {'Probing': 'asks the other monitors how far they are', 'Electing': 'takes part in an election'}.get(phase)


def wrong(own: int, seen, epoch: int, state) -> str | None:
    """What is concluded of a monitor and isn't true, or None."""
    shown, actual = seen.phase, state.phase
    if fn(LAWS, 'lags')(shown, actual):
        return None
    if not fn(LAWS, 'fits')(shown, actual):
        return f'phase {shown.name}, which is {actual.name}'
    if seen.epoch != epoch:
        return f'epoch {seen.epoch}, which is {epoch}'
    is_in = fn('mon_wire.specs.Phases', 'is_member')(actual)
    leader = some(fn(LEADER, 'leader_of')(own, state)) if is_in else NONE
    if seen.leader != leader:
        return f'leader {seen.leader}, which is {leader}'
    if actual.name == 'Synchronizing' and seen.source != some(state.requester.provider):
        return f'source {seen.source}'
    return None


def tried(seed: int, events: int, phases: collections.Counter) -> str | None:
    """The first wrong conclusion in a run, or None."""
    schedule, _ = fuzz.schedule_of(seed, events, 'small')
    lines = schedule.split('\n')[:-1]
    play = Play(lines[0])
    watch = Watch(play.n)
    for number, line in enumerate(lines[1:], 1):
        if not play.take(line):
            break
        watch.took(play, line)
        for rank in range(play.n if play.n > 1 else 0):
            state = play.state(rank)
            if state is None:
                continue
            phases[watch.seen[rank].phase.name, state.phase.name] += 1
            if found := wrong(rank, watch.seen[rank], epoch_of(play.world.store(rank)), state):
                return f'seed {seed}, event {number}, {line}: monitor {rank} is seen in {found}'
    return None


def main(arguments: list[str]) -> int:
    first, count, events = map(int, arguments)
    phases, faults = collections.Counter(), 0
    for seed in range(first, first + count):
        if found := tried(seed, events, phases):
            print(found, flush=True)
            faults += 1
    for (shown, actual), many in sorted(phases.items()):
        print(f'seen {shown.lower()}, is {actual.lower()}: {many}')
    print(f'so {count - faults} of {count}')
    return 1 if faults else 0


if __name__ == '__main__':
    sys.exit(main(sys.argv[1:]))
