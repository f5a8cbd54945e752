"""The schedules that are printed by scripts of `examples`, because they are long, and how much of their traces is kept."""
from __future__ import annotations

# By schedule: how many of its trace's last lines are kept (None: all), and how many columns of each line.
PRINTED = {
    'limits': (None, 100),
    'full_synchronization': (123, 100),
    'cases/bounds_of_trims': (15, 100),
    'cases/sets_beside_a_full_map': (113, 100),
    'cases/five_hundred_texts': (3, 5000),
    'cases/three_steps': (40, 100),
    'cases/cookie_outlived': (5, 100),
    'cases/floor_holds': (36, 100),
    'cases/sent_keys_change': (83, 100),
    'cases/lagging_pair': (171, 100),
}


def kept(name: str, trace: bytes) -> bytes:
    """The part of a schedule's trace that is kept beside it. The trace of a schedule that is a file is kept whole."""
    if name not in PRINTED:
        return trace
    count, columns = PRINTED[name]
    lines = trace.splitlines()
    return b''.join(line[:columns] + b'\n' for line in (lines if count is None else lines[-count:]))
