"""Scenarios that are drawn at random, for trials in which nobody knows what was done: the failure is named from the logs, and then compared with actions.txt."""
from __future__ import annotations

import random
from typing import Callable

from acts import SMALL, Scenario, begin
from monitors import Late, Monitors

# A fault: it gets the monitors, the names that it is about, and how long it lasts in seconds.
Fault = Callable[[Monitors, str, float], None]


def writes(q: Monitors, seconds: float):
    """Time goes by, with a write each second or so, which nobody waits for."""
    for number in range(max(1, int(seconds))):
        q.set_only(f'w{number}')
        q.wait(seconds / max(1, int(seconds)))


def killed(q: Monitors, names: str, seconds: float):
    """Monitors are killed, and come back."""
    q.kill(names)
    q.wait(seconds)
    q.start(names)


def paused(q: Monitors, names: str, seconds: float):
    """Monitors are paused."""
    q.pause(names)
    writes(q, seconds)
    q.resume(names)


def flaps(q: Monitors, names: str, seconds: float):
    """A monitor is paused for 13 to 17 seconds, four times."""
    for _ in range(4):
        paused(q, names[0], 13 + seconds % 4)
        q.wait(7)


def deaf(q: Monitors, names: str, seconds: float):
    """Nothing arrives in one direction."""
    pair = names[0], names[1]
    q.hold(pair)
    writes(q, seconds + 30)
    q.free(pair)


def apart(q: Monitors, names: str, seconds: float):
    """A monitor is cut off from all others."""
    pairs = [pair for other in q.names if other != names[0] for pair in ((names[0], other), (other, names[0]))]
    q.hold(*pairs)
    writes(q, seconds + 15)
    q.free(*pairs)


def late(q: Monitors, names: str, seconds: float):
    """What one monitor sends to another one arrives late."""
    delay = round(0.2 + seconds % 7 / 20, 2)
    q.delay(delay, (names[0], names[1]))
    q.sets(12)
    q.delay(0, (names[0], names[1]))


def slow(q: Monitors, names: str, seconds: float):
    """The syncs of a monitor take longer."""
    q.slow(names[0], 150 + 10 * int(seconds))
    q.sets(8)
    q.slow(names[0], 0)


def behind(q: Monitors, names: str, seconds: float):
    """A monitor is down while the others write, so that it has to copy."""
    q.kill(names[-1])
    q.until_quorum(len(q.names) - 1)
    q.sets(40 + int(seconds))
    q.wait(8)
    q.sets(5)
    q.start(names[-1])


def gone(q: Monitors, names: str, seconds: float):
    """So many monitors are killed that no quorum is left for a while."""
    most = ''.join(random.Random(names).sample(q.names, len(q.names) // 2 + 1))
    q.kill(most)
    q.wait(seconds + 32)
    q.start(most)


FAULTS: list[Fault] = [killed, paused, flaps, deaf, apart, late, slow, behind, gone]


def drawn(seed: str) -> Scenario:
    """The scenario of a seed: one or two faults, of three or five monitors."""
    chance = random.Random(seed)
    count, faults = chance.choice([3, 3, 5]), chance.sample(FAULTS, chance.choice([1, 1, 2]))

    def act(q: Monitors):
        begin(q, 8 + chance.random() * 8, 2)
        for fault in faults:
            names, seconds = ''.join(chance.sample(q.names, 2)), round(chance.uniform(5, 20), 1)
            if fault in (deaf, late) and 'a' not in names:
                names = chance.choice([names[0] + 'a', 'a' + names[0]])     # A link between two peons carries pings alone.
            q.note(f'DRAWN {fault.__name__} {names} {seconds}: {fault.__doc__}')
            fault(q, names if fault in (deaf, late, gone) else names[0], seconds)
            q.wait(4)
            try:
                q.until_quorum(seconds=60)
            except Late as why:
                q.note(str(why))
            q.wait(chance.uniform(4, 10))
    act.__doc__ = 'Faults that are drawn at random.'
    return Scenario(act, {'count': count, 'apart': True, 'more': SMALL})
