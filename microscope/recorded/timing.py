"""The timers of a monitor in a run."""
from __future__ import annotations

from loaded import fn
from played import Play
from texts import TIMER

NAMES = {constructor: word for word, constructor in TIMER.items()}


def due(play: Play, rank: int) -> tuple[str, int] | None:
    """The name and the time of the timer of a monitor that is due next, if one is set."""
    state = play.state(rank)
    found = fn('mon_msg.specs.Protocol.Timers', 'due')(state.timers) if state else None
    return (NAMES[found.args[0][0].name], found.args[0][1]) if found and found.args else None
