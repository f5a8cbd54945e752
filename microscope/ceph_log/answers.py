"""What each word of microscope/ceph answers: lines, and a status that is 0 if nothing is wrong."""
from __future__ import annotations

from typing import Callable, NamedTuple

from . import levels, reports
from .diagnosing import diagnosed, report
from .judging import judged
from .lines import WHOLE, Window
from .quorum import Quorum
from .sentences import explained
from .story import story
from .trace import trace


class Asked(NamedTuple):
    """What is asked beside the word."""
    window: Window = WHOLE
    leases: bool = False
    strategy: str = 'classic'
    rows: bool = False
    title: str = 'Monitors of Ceph'


class Answer(NamedTuple):
    status: int
    lines: list[str]


def tell(q: Quorum, asked: Asked) -> Answer:
    return Answer(0, [f'{levels.clock(told.moment)} {told.text} [{told.event.where}]' for told in story(q) if asked.window.has(told.moment)])


def explain(q: Quorum, asked: Asked) -> Answer:
    events = trace(q, asked.window, asked.leases).events
    return Answer(0, [f'{number} {levels.clock(event.moment)} {q.who(event.rank)}: {explained(q, event)} [{event.where}]'
                      for number, event in events.items() if event is not None])


def diagnose(q: Quorum, asked: Asked) -> Answer:
    findings = diagnosed(q)
    return Answer(int(bool(findings)), report(q, findings))


def judge(q: Quorum, asked: Asked) -> Answer:
    clauses = judged(q)
    return Answer(int(any(clause.failed for clause in clauses)), reports.of_judge(clauses))


def compare(q: Quorum, asked: Asked) -> Answer:
    from .comparing import Comparison  # the definitions are read when they are needed
    comparison = Comparison(q, asked.strategy)
    lines = reports.of_comparison(q, comparison) + (reports.by_row(comparison) if asked.rows else [])
    return Answer(int(bool(comparison.unknown() or comparison.misread)), lines)


def draw(q: Quorum, asked: Asked) -> Answer:
    return Answer(0, trace(q, asked.window, asked.leases).lines)


def page(q: Quorum, asked: Asked) -> Answer:
    from .page import page_of
    return page_of(q, asked)


ANSWERS: dict[str, Callable[[Quorum, Asked], Answer]] = {
    'story': tell, 'explain': explain, 'diagnose': diagnose, 'judge': judge, 'compare': compare, 'trace': draw, 'page': page}
# Words whose answer is one file of a form, so that what was read is said on standard error.
FILES = ('trace', 'page')
