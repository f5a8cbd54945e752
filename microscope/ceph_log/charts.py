"""The chart of what real monitors did, drawn by tools/chart, with the monitors' names."""
from __future__ import annotations

import functools
import importlib.machinery
import importlib.util
import os
import sys
from html import escape
from typing import NamedTuple

from .quorum import Quorum
from .trace import Traced

TOP = os.path.dirname(os.path.dirname(os.path.dirname(os.path.abspath(__file__))))
# The most events of a chart: a browser needs seconds for more.
MOST = 1_500


class Chart(NamedTuple):
    """The picture, where the columns of the monitors are, the place of each event's row, and how many events are left out."""
    picture: str
    columns: list[int]
    rows: dict[int, int]
    left_out: int


@functools.lru_cache(maxsize=None)
def module():
    """The script that draws charts, as a module."""
    loader = importlib.machinery.SourceFileLoader('chart', os.path.join(TOP, 'tools', 'chart'))
    found = importlib.util.module_from_spec(importlib.util.spec_from_loader('chart', loader))
    was, sys.dont_write_bytecode = sys.dont_write_bytecode, True
    loader.exec_module(found)
    sys.dont_write_bytecode = was
    return found


def chart(q: Quorum, traced: Traced, idle: set[int] | None) -> Chart:
    """The chart of a trace. `idle` are the numbers of the events that change nothing, if the comparison knows them."""
    draw = module()
    monitors, rule, events = draw.read(iter(traced.lines))
    shown = [event.number for event in events][:MOST]
    drawn = draw.draw(monitors, rule, events, 1, shown[-1] if shown else 0, idle, traced.marks)
    picture = str(drawn)
    for rank in range(q.count):
        picture = picture.replace(f'>monitor {rank}<', f'>{escape(q.who(rank))}<')
    picture = picture.replace('<svg ', '<svg class="chart" ', 1)
    picture = picture.replace('<rect class="paper" width="100%" height="100%"/>',
                              f'<rect class="paper" width="100%" height="100%"/><rect id="here" x="0" y="-99" width="100%" height="{draw.ROW}"/>', 1)
    return Chart(picture, [drawn.x(rank) for rank in range(monitors)], {number: drawn.y(at) for at, number in enumerate(shown, 1)}, len(events) - len(shown))
