"""Where the schedule of records begins: with which life of each monitor, and with which stores."""
from __future__ import annotations

from typing import Dict, List, NamedTuple, Optional

from recorded.disks import Map, map_on
from recorded.held import Unreachable
from recorded.lives import Life, Step
from recorded.prelude import prelude
from recorded.staging import Stage

Lives = Dict[int, List[Life]]
# What is said if the monitors were started one after the other, while others were up.
NEVER_DOWN = 'no start of all monitors is recorded, before which all were down: stop all, and start them with records'
# By rank; None if the store isn't known.
Stores = Dict[int, Optional[Map]]


class Beginning(NamedTuple):
    """The lives that are merged, the stores with which they begin, the run that leads to these, and what isn't known before them."""
    lives: Lives
    stores: Stores
    stage: Stage
    notes: list[str]


def beginning(lives: Lives, exports: dict[int, Map]) -> Beginning:
    """Where the schedule of these lives begins. The exports are of stores as they were before. Raises Unreachable if no run is found that leads there."""
    begin = next(iter(lives.values()))[0].begin
    first = f'monitors {begin.monitors} {begin.rule}'
    stores = stores_of(lives, exports)
    are_new = not any(stores.values()) and any(it is not None for it in stores.values())
    if are_new and all(found[0].begin.part == 0 for found in lives.values()):
        return Beginning(lives, stores, Stage(first), [])
    places = cut(lives)
    if places is None:
        return Beginning(lives, stores, Stage(first), [NEVER_DOWN])
    later = {rank: found[places[rank]:] for rank, found in lives.items()}
    notes = [f'the first {place} lives of monitor {rank} are left out, since not all began with them' for rank, place in places.items() if place]
    stores = stores_of(later, exports)
    if lacking := [rank for rank, it in stores.items() if it is None]:
        raise Unreachable(f'the store with which the record of monitor {lacking[0]} begins isn\'t in it: --store {lacking[0]}=EXPORT gives it')
    return Beginning(later, stores, prelude(first, {rank: it for rank, it in stores.items() if it is not None}), notes)


def stores_of(lives: Lives, exports: dict[int, Map]) -> Stores:
    """The stores with which lives begin, by rank, None if one isn't known."""
    found: Stores = {rank: map_on(them[0].disks) for rank, them in lives.items()}
    for rank, entries in exports.items():
        if (known := found.get(rank)) is not None and known != entries:
            raise Unreachable(f'the export of monitor {rank} isn\'t the store with which its record begins')
        found[rank] = entries
    return found


def cut(lives: Lives) -> dict[int, int] | None:
    """The place of the first life of each monitor from which on all that came was sent from there on too; None if there are none such."""
    places: dict[int, int] = {}
    for rank, found in lives.items():
        places[rank] = next((place for place, life in enumerate(found) if life.begin.part == 0), len(found))
    while all(places[rank] < len(found) for rank, found in lives.items()):
        late = next((rank for rank in lives if hears_from_before(rank, lives, places)), None)
        if late is None:
            return places
        places[late] += 1
    return None


def hears_from_before(rank: int, lives: Lives, places: dict[int, int]) -> bool:
    """Whether a message came to a monitor, in its lives from its place on, that was sent before the lives at these places."""
    return any(is_from_before(step, rank, life, lives, places) for life in lives[rank][places[rank]:] for step in life.steps)


def is_from_before(step: Step, rank: int, life: Life, lives: Lives, places: dict[int, int]) -> bool:
    """Whether a message that came in a step was sent before the lives at these places."""
    if step.came is None or step.came.party != 'monitor' or step.came.who not in lives:
        return False
    sender, key = lives[step.came.who], (rank, step.came.octets)
    place = places[step.came.who]
    if any(key in it.sent for it in sender[place:]):
        return False
    return any(key in it.sent for it in sender[:place]) or life.time(step) < sender[place].begin.time
