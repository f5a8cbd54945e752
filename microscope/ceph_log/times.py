"""The times that a user names: --from, --to and --around."""
from __future__ import annotations

import re

from .files import File, Refused, label
from .lines import SECOND, WHOLE, Window, time_of

TIME = re.compile(r'(?:(\d{4}-\d\d-\d\d)[T ])?(\d\d):(\d\d)(?::(\d\d)(?:\.(\d{1,6}))?)?(Z|[+-]\d\d:?\d\d)?$')
# What --around shows before and after its time; and what is read beside a window, so that the states at its ends are known.
AROUND, BESIDE = 60 * SECOND, 60 * SECOND
DAY = 86_400 * SECOND


def moment(text: str, day: int) -> int:
    """A time as text in microseconds since 1970. Without a date it is of a day, which is given by its first microsecond. Raises Refused if it is none."""
    found = TIME.match(text)
    if found is None:
        raise Refused(f'{text} is no time such as 17:48:07, 17:48:07.690 or 2026-11-30T17:48:07+01:00')
    date, hour, minute, second, part, zone = found.groups()
    clock = f'{date or "1970-01-01"}T{hour}:{minute}:{second or "00"}'
    try:
        return time_of(clock.encode(), (part or '0').encode(), zone.encode() if zone else None) + (0 if date else day)
    except ValueError:
        raise Refused(f'{text} is no time of a day') from None


def first_day(paths: list[str]) -> int:
    """The day on which the logs begin, by UTC."""
    names = label(list(dict.fromkeys(paths)))
    first = [file.first for file in (File(path, name) for path, name in names.items()) if file.monitor is not None and file.first is not None]
    return min(first, default=0) // DAY * DAY


def window_of(paths: list[str], begin: str | None, end: str | None, around: str | None) -> Window:
    """The window that these texts name. A time without a date is of the day on which the logs begin."""
    if not (begin or end or around):
        return WHOLE
    if around and (begin or end):
        raise Refused('--around excludes --from and --to')
    day = first_day(paths)
    if around:
        middle = moment(around, day)
        return Window(middle - AROUND, middle + AROUND)
    found = Window(moment(begin, day) if begin else WHOLE.begin, moment(end, day) if end else WHOLE.end)
    if found.begin >= found.end:
        raise Refused('--from is not before --to')
    return found


def read(window: Window) -> Window:
    """The window that is read for one that is shown."""
    return window if window == WHOLE else Window(max(0, window.begin - BESIDE), window.end + BESIDE)
