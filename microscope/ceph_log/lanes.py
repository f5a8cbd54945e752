"""The overview of a page: a lane per monitor over real time, with its state, what happened to it, and the commits of each second."""
from __future__ import annotations

from collections import Counter

from .answers import Asked
from .events import Event
from .lines import SECOND
from .quorum import Quorum
from .sentences import cause

STATES = {'probing': 'probing', 'synchronizing': 'synchronizing', 'electing': 'electing', 'leader': 'leader', 'peon': 'peon'}
# A monitor that writes nothing for so long stands still.
STILL = 5 * SECOND
LOST = {'lease': 'lost its leases', 'leaseack': 'lost acknowledgements', 'accept': 'lost ACCEPTs', 'collect': 'lost LASTs', 'sync': 'lost its provider'}


def lane(q: Quorum, rank: int, asked: Asked) -> list[tuple[int, int, str]]:
    """The states of a monitor: each from a time to a time, in milliseconds after the beginning."""
    found: list[list] = []
    monitor = q.monitors[rank]
    state, since = 'down' if not monitor.events or monitor.events[0].kind == 'start' else 'unknown', q.begin
    for event in monitor.events:
        now = 'down' if event.kind == 'stop' else STATES.get(event.after.state, 'probing')
        if event.kind == 'start':
            since = close(found, state, since, event.moment if state != 'down' else event.moment)
            state = 'probing'
        if now != state:
            since = close(found, state, since, event.moment)
            state = now
    end = max(event.moment for event in q.events)
    last = monitor.events[-1].moment if monitor.events else end
    close(found, state, since, max(last, since) if state != 'down' else end)
    found += still(q, rank)
    window = asked.window
    return [((max(begin, window.begin) - q.begin) // 1000, (min(to, window.end) - q.begin) // 1000, name) for begin, to, name in found
            if to > window.begin and begin < window.end]


def still(q: Quorum, rank: int) -> list[tuple[int, int, str]]:
    """The times in which a monitor wrote nothing though others ping it each second: it stood still."""
    monitor = q.monitors[rank]
    if not monitor.levels.get('ms'):
        return []
    return [(before.moment, event.moment, 'still') for before, event in zip(monitor.events, monitor.events[1:])
            if event.moment - before.moment > STILL and event.kind != 'start' and before.kind != 'stop']


def close(found: list, state: str, since: int, until: int) -> int:
    if until > since:
        found.append((since, until, state))
    return until


def mark_of(q: Quorum, event: Event) -> tuple[str, str] | None:
    """The kind and the text of what is marked on a lane."""
    if event.kind == 'start':
        return 'start', 'starts'
    if event.kind == 'stop':
        return 'stop', 'stops'
    if event.kind == 'timer' and event.timer in LOST:
        return 'lost', LOST[event.timer]
    if event.has('win') or event.kind == 'leads':
        return 'wins', f'leads epoch {event.after.epoch}'
    if event.has('start_election') or event.kind == 'calls':
        return 'calls', 'calls an election'
    if event.has('sync_start') or event.kind == 'copies':
        return 'copies', 'begins a synchronization'
    return None


def marks(q: Quorum, numbers: dict[int, int], asked: Asked) -> list[tuple]:
    """What is marked: rank, milliseconds, kind, text, and the event's number if it is in the table."""
    found = []
    for event in q.events:
        mark = mark_of(q, event)
        if mark is not None and asked.window.has(event.moment):
            found.append((event.rank, (event.moment - q.begin) // 1000, mark[0], f'{q.who(event.rank)} {mark[1]}. {cause(q, event)}', numbers.get(id(event))))
    return found


def commits(q: Quorum, asked: Asked) -> list[tuple[int, int]]:
    """Commits of leaders per second: the second after the beginning, and how many."""
    found = Counter((event.moment - q.begin) // SECOND for event in q.events if event.has('commit_start') and asked.window.has(event.moment))
    return sorted(found.items())
