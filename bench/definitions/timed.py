"""Tries by the definitions that a quorum which is led answers each command in time, as docs/LAWS.md says of runs in time.

usage: timed.py FIRST_SEED COUNT

COUNT runs of two to five monitors are played, by `node`. Each begins with a quorum that is led. Then messages take at most a drawn delay, in order, timers
are late by at most a drawn time, within what the law allows, and the clocks of monitors differ by a constant. Clients ask 5 to 70 commands at random
monitors. The script prints for each delay the number of runs and of commands, how many were answered Busy, the longest time until an answer, and the
greatest share of the bound. The status is 0 if each command was answered within the bound and each quorum stayed led, and 1 otherwise.
"""
from __future__ import annotations

import sys

import bundled


def main() -> int:
    if len(sys.argv) != 3 or not all(word.isdigit() for word in sys.argv[1:]):
        print(__doc__, end='', file=sys.stderr)
        return 2
    return bundled.run(['texts', 'plays', 'runs', 'timed'], bundled.STEP, sys.argv[1:])


if __name__ == '__main__':
    sys.exit(main())
