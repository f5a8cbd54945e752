"""The definitions that are executed now: the true ones, or others under changed rules."""
from __future__ import annotations

import os
from typing import Any, Callable, Dict, List, Mapping, Optional

import antt
from antt import Made, Program
from natives import NATIVES

ROOT = os.environ.get('SPECROOT') or antt.CRATES
PROTOCOL = 'mon_msg.specs.Protocol.'
# How many values of a definition are kept. Those of an event, such as the state in which it happens, are asked for several times.
KEPT = {
    'mon_msg.specs.Fold.fold': 1_000_000, 'mon_msg.specs.Fold.incrementals': 1_000_000, 'mon_msg.specs.Fold.map_of_log': 1_000_000,
    f'{PROTOCOL}Readings.readings_of': 256, 'mon_tx.specs.Keys.shared': 32, 'mon_world.specs.Events.scheduled_of': 8,
    'quorum_model.specs.Meets.meets': 8, 'quorum_model.specs.Scenes.event_in': 8, 'mon_resend.specs.Datagrams.part_of': 64,
    'schedule_text.specs.Ranks.flags_at': 100, f'{PROTOCOL}Maps.next_map': 10_000,
    f'{PROTOCOL}Maps.decoded_map': 1_000, 'map_kv.specs.Text.map_text': 1_000, 'map_log.specs.Text.map_text': 1_000,
}


def reaction(me: Any, now: int, store: Any, state: Any, came: Made) -> Made:
    """What a monitor does at an input. The entries that are shared are computed only for the message that asks for them."""
    asks = came.name == 'Deliver' and came.args[0].body.name == 'GetChunk'
    shared = fn(f'{PROTOCOL}Readings', 'shared_entries')(store) if asks else ()
    readings = fn(f'{PROTOCOL}Readings', 'readings_of')(store)
    found: Made = fn(f'{PROTOCOL}Reaction', 'any_reaction')(fn(f'{PROTOCOL}Table', 'react')(me, shared, now, readings, state, came))
    return found


HOST = antt.Host({**NATIVES, f'{PROTOCOL}Reaction.reaction': reaction}, KEPT)
# What is to be forgotten when other definitions are loaded.
FORGOTTEN: List[Callable[[], None]] = []


class Loaded:
    """The program that is executed, and whether its rows note why they drop their input."""
    is_watched = False
    program: Program = Program(HOST, ROOT)


def fn(module: str, name: str) -> Any:
    """A definition that is executed now. One with arguments takes all of them at once."""
    return Loaded.program(module, name)


def load(changes: Optional[antt.Changes] = None, constants: Optional[Mapping[str, int]] = None, is_watched: Optional[bool] = None) -> None:
    """Reads the definitions anew: the true ones, or under changed rules and with other numbers. `is_watched` says whether rows note why they drop their input."""
    if is_watched is not None:
        Loaded.is_watched = is_watched
    Loaded.program = Program(HOST, ROOT, changes, constants, Loaded.is_watched)
    for forgets in FORGOTTEN:
        forgets()


def drops() -> List[antt.Drop]:
    """Why rows dropped their input since this list was cleared."""
    return Loaded.program.drops


def forget() -> None:
    """Empties the caches of values."""
    Loaded.program.forget()
