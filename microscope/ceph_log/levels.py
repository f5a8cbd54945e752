"""What the logs are and what their levels show: the head of each output."""
from __future__ import annotations

import datetime

from .quorum import SKEW, Quorum

DEFAULTS, NO_MESSAGES, ALL = 'defaults', 'no messages', 'all'
SHOWS = {
    DEFAULTS: 'That shows starts and stops, who calls an election, who leads with whom, the epochs (from below), lost leases and full synchronizations.',
    NO_MESSAGES: 'That shows each event and what was promised, accepted and committed. It shows no messages, so arrows and the comparison are missing.',
    ALL: 'That shows each event and each message.',
}
RAISE = "For all of it, raise the levels: ceph tell 'mon.*' config set debug_mon 10, debug_paxos 10 and debug_ms 1 (docs/CEPH_LOGS.md)."


def level_of(levels: dict[str, int]) -> str:
    """Which of the three levels the seen ones are."""
    if levels.get('mon', 0) < 10 or levels.get('paxos', 0) < 10:
        return DEFAULTS
    return ALL if levels.get('ms', 0) else NO_MESSAGES


def clock(moment: int, with_date: bool = False) -> str:
    text = datetime.datetime.fromtimestamp(moment / 1e6, datetime.timezone.utc).isoformat(' ', 'milliseconds')
    return text[:23] if with_date else text[11:23]


def head(q: Quorum) -> list[str]:
    """What was read, what its levels show, and what can't be read."""
    lines = [f'Logs of {logs_of(q)}.']
    begins = [monitor.first_at for monitor in q.monitors.values() if monitor.first_at]
    if begins:
        lines[0] += f' From {clock(min(begins), True)} to {clock(max(monitor.last_at for monitor in q.monitors.values()), True)} UTC.'
    level, levels = level_of(q.levels()), q.levels()
    seen = ', '.join(f'debug_{part} {levels.get(part, 0)}' for part in ('mon', 'paxos', 'ms'))
    lines.append(f'Levels seen: {seen}. {SHOWS[level]}' + (f' {RAISE}' if level != ALL else ''))
    lines += [*differing(q, level), *clocks(q), *passed_over(q)]
    return lines


def logs_of(q: Quorum) -> str:
    missing = [q.who(rank) for rank in range(q.count) if rank not in q.monitors]
    return ', '.join(f'{q.who(rank)} ({monitor.count:,} lines, ceph {monitor.release or "of an unknown version"})' for rank, monitor in sorted(q.monitors.items())) \
        + (f'; none of {", ".join(missing)}' if missing else '')


def differing(q: Quorum, level: str) -> list[str]:
    """The monitors whose levels are lower than the others'."""
    lower = [q.who(rank) for rank, monitor in sorted(q.monitors.items()) if level_of(monitor.levels) != level]
    return [f'The levels of {", ".join(lower)} are lower, so less is shown of {"it" if len(lower) == 1 else "them"}.'] if lower else []


def clocks(q: Quorum) -> list[str]:
    said = []
    if q.skewed:
        said.append('Clocks differ from the first monitor\'s, as pings and messages show, and are corrected here: '
                    + ', '.join(f'{q.who(rank)} {ahead / 1e6:+.3f} s' for rank, ahead in q.skewed.items()) + '.')
    elif len(q.monitors) > 1 and q.pairs:
        said.append(f'The clocks agree within {SKEW // 1000} ms, as far as messages show.')
    for reading in q.logs.readings:
        if reading.jumps:
            where, seconds = reading.jumps[0]
            said.append(f'The clock of {reading.name} goes back {len(reading.jumps)} times, first by {seconds:.1f} s at {where}: times after it are its own.')
    return said + [f'From there on a rank means another monitor: {text}.' for text in q.changed_ranks()]


def passed_over(q: Quorum) -> list[str]:
    readings = q.logs.readings
    foreign, skipped = sum(reading.foreign for reading in readings), sum(reading.skipped for reading in readings)
    unknown, others = (sum(getattr(monitor, name) for monitor in q.logs.monitors) for name in ('unknown', 'others'))
    said = [f'Passed over: {foreign:,} lines that are of no log, {skipped + unknown:,} lines of a log that no pattern knows'
            + (f', {others:,} lines of another monitor in the same file' if others else '') + '.']
    said += [f'{reading.name} is cut: it counts up to there.' for reading in readings if reading.is_cut]
    return said + [f'Left out: {why}.' for why in q.logs.refused]
