"""Tries by the definitions that a calm quorum which loses a monitor is led again in time.

usage: failovers.py FIRST_SEED COUNT [SHARE [MOST_DELAY MOST_LATE]]

COUNT runs of three to fifteen monitors are played, by `node`, under the rule classic or disallow. Each begins with a quorum that is calm: it is led, all
leases stand, and no client asks. Then the leader or another monitor stops for ever. The others have to be led again, all of them and nobody else, with
all leases standing: within 15,000 + 6 d + 2 e milliseconds if the leader stopped, and within 18,000 + 7 d + 3 e otherwise. `law_failover` proves these
bounds if d is at most 750. It counts from a time by which the last message of that monitor has come, and the script from when it stops.

The other premises are those of docs/LAWS.md, *Runs in time*. Messages take at most a drawn d of 1 to MOST_DELAY (500) milliseconds, in order, and timers are
late by at most a drawn e of up to MOST_LATE (200), less if d + e would be 2,000 or more. A call for an election comes again within a drawn time r of 100
milliseconds or more, until it is acknowledged, so that r + 4 d + e is less than 5,000. The clocks of monitors differ by a constant. Of the messages under
way from the monitor that stops, some arrive. Delays, late timers, the moment of the stop and the order of what comes at one time are drawn. In two of
five runs they are mostly those that should make the failover longest.

The script prints for each size, and for what stopped, the number of runs, the median and the longest time, and the greatest share of the bound. The last
column is by how many milliseconds a run took longer than 15,000 + 6 d + 2 e or 18,000 + 5 d + 3 e, at most: the longest times that are known. A run that
took more than SHARE (1) of the bound is reported, and its schedule is left in failover_SEED.schedule in the current folder. The status is 0 if there was
none, and 1 otherwise.
"""
from __future__ import annotations

import sys

import bundled

CALLS = {
    **bundled.STEP, 'stands': ('mon_lease.specs.Lease', 'stands'),
    'epochOf': (f'{bundled.PROTOCOL}Readings', 'epoch_of'), 'readingsOf': (f'{bundled.PROTOCOL}Readings', 'readings_of'),
}


# The longest delay of which four, and the 100 milliseconds between two arrivals of a call, are below 5,000.
LONGEST = 1224


def are_words(words: list[str]) -> bool:
    if len(words) not in (2, 3, 5) or not all(word.isdigit() for word in words[:2] + words[3:]):
        return False
    return all(word.replace('.', '', 1).isdigit() for word in words[2:3]) and all(1 <= int(word) <= LONGEST for word in words[3:4])


def main() -> int:
    if not are_words(sys.argv[1:]):
        print(__doc__, end='', file=sys.stderr)
        return 2
    return bundled.run(['texts', 'plays', 'runs', 'failovers'], CALLS, sys.argv[1:])


if __name__ == '__main__':
    sys.exit(main())
