"""Makes random schedules: one to fifteen monitors, every rule and timer, crashes of either disk at any call."""
from __future__ import annotations

import random
from typing import Callable, List, Tuple

from plays import Play
from texts import TIMER

TIMERS = list(TIMER)
MOST_KV_VALUE, MOST_TEXT = 65_536, 1_024


def text(rng: random.Random, length: int) -> str:
    return ''.join(rng.choice('abcxyz "\\~') for _ in range(length))


def request(rng: random.Random, big: bool) -> str:
    length = rng.choice([0, 1, 5, 60, MOST_TEXT, MOST_TEXT + 1, MOST_KV_VALUE, MOST_KV_VALUE + 1, 60000] if big else [0, 1, 3, 8, 40])
    draw = rng.random()
    if draw < 0.35:
        return 'set k%d %s' % (rng.randrange(12), text(rng, length))
    if draw < 0.5:
        return 'remove k%d' % rng.randrange(12)
    if draw < 0.7:
        return 'log %s' % text(rng, length)
    if draw < 0.85:
        return 'show %s' % rng.choice(['kv', 'log'])
    return 'since %s %d' % (rng.choice(['kv', 'log']), rng.choice([0, 1, 2, 5, 20, 30, 60, 2 ** 62]))


def first_line(rng: random.Random, big: bool) -> Tuple[int, str]:
    n = rng.choice([3, 5] if big else [1, 2, 3, 3, 3, 4, 5, 5, 7, 15])
    rule = rng.choice(['classic', 'disallow=', 'connectivity', 'connectivity='])
    if rule.endswith('='):
        rule += ','.join(map(str, sorted(rng.sample(range(n), rng.randint(1, max(1, n // 2))))))
    return n, 'monitors %d %s' % (n, rule)


Seen = Callable[[List[str], Play], None]


def schedule_of(seed: int, events: int, flavour: str, seen: Seen = lambda lines, play: None) -> Tuple[str, Play]:
    """The schedule of a number, and its play. `seen` is called with the lines and the play after each event."""
    rng = random.Random(seed)
    big = flavour == 'big'
    n, first = first_line(rng, big)
    play = Play(first)
    lines = [first]
    waiting = []
    now = 0
    session = 0
    sent = 0
    often = {'timer': rng.choice([0.02, 0.1, 0.25]), 'start': rng.choice([0, 0.002, 0.01]), 'client': rng.choice([0.05, 0.15, 0.4])}
    old, lost, armed, crashed = rng.choice([0, 0.05, 0.2]), rng.choice([0, 0.02, 0.1]), rng.choice([0.3, 0.7]), rng.choice([0, 0.01, 0.04])
    # Most schedules begin with an undisturbed election and some undisturbed commands.
    quiet = rng.choice([0, 1, 1]) * (5 * n * n + 40)
    while len(lines) <= events:
        if len(lines) > quiet and rng.random() < 0.3:
            now = max(0, now + rng.choice([0, 1, 10, 100, 999, 1000, 2000, 3000, 5000, 5001, 30000, -1500, 43200000]))
        draw = rng.random()
        down = [i for i in range(n) if play.state(i) is None]
        if len(lines) <= n and rng.random() < 0.95:
            line = 'start %d %d' % (len(lines) - 1, now)
        elif len(lines) <= quiet:
            if waiting:
                line = 'deliver %d %d' % (waiting.pop(0), now)
            else:
                session += 1
                line = 'client %d %d %d %d %s' % (rng.randrange(n), now, rng.randint(0, 3), session, request(rng, big))
        elif down and rng.random() < 0.1:
            line = 'start %d %d' % (rng.choice(down), now)
        elif draw < often['start']:
            line = 'start %d %d' % (rng.randrange(n), now)
        elif draw < often['start'] + often['timer']:
            rank = rng.randrange(n)
            kind = rng.choice(TIMERS)
            if rng.random() < armed and play.state(rank) is not None:
                kind = rng.choice([TIMERS[i] for i, t in enumerate(play.state(rank).timers) if t.args] or [kind])
            line = 'timer %d %s %d' % (rank, kind, now)
        elif draw < often['start'] + often['timer'] + often['client']:
            leads = [i for i in range(n) if play.state(i) and play.state(i).phase.name in ('Active', 'Updating')]
            rank = rng.choice(leads) if leads and rng.random() < 0.5 else rng.randrange(n)
            session += 1
            line = 'client %d %d %d %d %s' % (rank, now, rng.randint(0, 3), session, request(rng, big))
        elif waiting and rng.random() > old:
            number = waiting.pop(0 if rng.random() < 0.8 else rng.randrange(min(len(waiting), 12)))
            if rng.random() < lost:
                continue
            line = 'deliver %d %d' % (number, now)
        else:
            line = 'deliver %d %d' % (rng.randint(max(1, sent - 60), sent + 1), now)
        if len(lines) > quiet and rng.random() < crashed:
            line = '%s %s %d %d %s' % (rng.choice(['crash', 'fail']), rng.choice('ab'), rng.randint(1, 14), rng.randrange(4), line)
        lines.append(line)
        if not play.take(line):
            break
        seen(lines, play)
        others = len(play.world.messages)
        waiting += range(sent + 1, others + 1)
        sent = others
    return '\n'.join(lines) + '\n', play
