"""One HTML file of the logs: what happened, what is wrong, the overview, the chart, each event with its place, the judge and the comparison."""
from __future__ import annotations

import collections
import json
import os
from html import escape
from typing import Iterator

from . import levels
from .answers import Answer, Asked
from .charts import TOP, Chart, chart
from .clauses import Clause
from .comparing import Comparison
from .diagnosing import MOST, Finding, diagnosed
from .differences import DIFFERENCES
from .events import Event
from .files import Refused
from .judging import judged
from .lanes import commits, lane, marks
from .quorum import Quorum
from .sentences import explained
from .story import story
from .trace import Traced, trace

# Events of these kinds of messages are quiet: a value or a lease as it should be. So many of them in a row are folded.
QUIET = ('BEGIN', 'ACCEPT', 'COMMIT', 'LEASE', 'LEASE_ACK')
FOLDED = 8
# The most steps that differ in no known way, and the most places of a failed clause.
MOST_UNKNOWN, MOST_FAILED = 30, 3


def web(name: str) -> str:
    with open(os.path.join(TOP, 'microscope', 'web', name), encoding='utf-8') as file:
        return file.read()


class Page:
    """Writes the page of a quorum's logs."""

    def __init__(self, q: Quorum, asked: Asked):
        self.q, self.asked = q, asked
        self.traced: Traced = trace(q, asked.window, asked.leases)
        self.numbers = {id(event): number for number, event in self.traced.events.items() if event is not None}
        self.findings: list[Finding] = diagnosed(q)
        self.clauses, self.comparison, self.unjudged = self.measured()
        verdicts = {number: event.verdict for number, event in self.traced.events.items() if event is not None and event.verdict is not None}
        self.idle = {number for number, verdict in verdicts.items() if verdict.is_same and verdict.is_idle} if self.comparison else None
        self.chart: Chart = chart(q, self.traced, self.idle)

    def measured(self) -> tuple[list[Clause], Comparison | None, str]:
        try:
            clauses = judged(self.q)
        except Refused as why:
            return [], None, str(why)
        try:
            return clauses, Comparison(self.q, self.asked.strategy), ''
        except Refused as why:
            return clauses, None, str(why)

    # -- parts

    def place(self, event: Event | None) -> str:
        """The place of an event, as a link to its row if it has one."""
        if event is None:
            return ''
        number = self.numbers.get(id(event))
        text = f'<span class="place">{escape(event.where)}</span>'
        return f'<a href="#e{number}" class="to">{text}</a>' if number else text

    def conditions(self) -> Iterator[str]:
        if not self.findings:
            yield '<p class="good">No condition is named: as far as these logs show it, the quorum is well.</p>'
        for condition in dict.fromkeys(finding.condition for finding in self.findings):
            same = [finding for finding in self.findings if finding.condition is condition]
            yield f'<details class="condition" open><summary>{escape(condition.name)} <span class="count">{len(same)}</span></summary><p>{escape(condition.means)}</p><ul>'
            for finding in same[:MOST]:
                yield f'<li>{escape(finding.text)} {" ".join(map(self.place, finding.events[:MOST]))}</li>'
            yield f'</ul><p class="do">{escape(condition.do)} <a href="{escape(condition.link)}">more</a></p></details>'

    def happened(self) -> Iterator[str]:
        for told in story(self.q):
            if self.asked.window.has(told.moment):
                yield f'<tr><td class="time">{levels.clock(told.moment)}</td><td>{escape(told.text)}</td><td>{self.place(told.event)}</td></tr>'

    def is_quiet(self, event: Event | None) -> bool:
        if event is None:
            return True
        known = event.verdict is None or event.verdict.is_same
        return known and (event.is_message(*QUIET) and not event.has('higher_pn', 'forgets_uncommitted') or event.kind in ('propose', 'commit', 'other')
                          or event.kind == 'timer' and event.timer == 'renew')

    def rows(self) -> Iterator[str]:
        """The rows of the table. Quiet ones that follow one another are a part of their own, which is folded."""
        run: list[tuple[int, Event]] = []
        for number, event in self.traced.events.items():
            if self.is_quiet(event):
                run += [(number, event)] if event is not None else []
                continue
            yield from self.folded(run)
            run = []
            yield f'<tbody>{self.row(number, event)}</tbody>'
        yield from self.folded(run)

    def folded(self, run: list[tuple[int, Event]]) -> Iterator[str]:
        rows = ''.join(self.row(number, event) for number, event in run)
        if len(run) < FOLDED:
            yield f'<tbody>{rows}</tbody>' if rows else ''
            return
        first, last = run[0], run[-1]
        versions = max(event.after.last for _, event in run)
        text = f'{len(run)} events from {levels.clock(first[1].moment)} to {levels.clock(last[1].moment)} as they should be, up to version {versions}'
        yield f'<tbody class="fold"><tr><td>{first[0]}</td><td colspan="5"><button aria-expanded="false">{text}</button></td></tr></tbody><tbody hidden>{rows}</tbody>'

    def row(self, number: int, event: Event) -> str:
        return (f'<tr id="e{number}" data-ms="{(event.moment - self.q.begin) // 1000}"><td class="number">{number}</td><td class="time">{levels.clock(event.moment)}</td>'
                f'<td class="who">{escape(self.q.who(event.rank))}</td><td>{escape(explained(self.q, event))}</td><td>{self.sign(event)}</td>'
                f'<td class="place">{escape(event.where)}</td></tr>')

    @staticmethod
    def sign(event: Event) -> str:
        verdict = event.verdict
        if verdict is None:
            return ''
        if verdict.is_same:
            return f'<span class="good" title="{escape("; ".join([verdict.row, *verdict.why]))}">=</span>'
        title = escape('; '.join([verdict.row, *verdict.known, *verdict.diffs]))
        return f'<span class="{"bad" if verdict.is_unknown else "known"}" title="{title}">≠ {escape(", ".join(verdict.known))}</span>'

    def judgement(self) -> Iterator[str]:
        for clause in self.clauses:
            failed = '; '.join(f'{escape(text)} {self.place(event)}' for text, event in clause.failed[:MOST_FAILED])
            look = 'bad' if clause.failed else 'good' if clause.tested else 'quiet'
            yield (f'<tr><td class="who">{escape(clause.title)}</td><td>{escape(clause.says)}</td><td class="number">{clause.tested}</td>'
                   f'<td class="{look}">{clause.result()}{": " * bool(failed)}{failed}</td></tr>')

    def compared(self) -> Iterator[str]:
        if self.comparison is None:
            yield f'<p class="quiet">Not compared: {escape(self.unjudged)}.</p>'
            return
        verdicts, unknown = self.comparison.verdicts, self.comparison.unknown()
        same = sum(verdict.is_same for _, verdict in verdicts)
        yield (f'<p>{len(verdicts)} steps of real monitors were compared with the rows of docs/PROTOCOL.md: <b>{same}</b> do what the row says, '
               f'{len(verdicts) - same - len(unknown)} differ in a known way, <b>{len(unknown)}</b> in no known way. '
               f'{self.comparison.reads} reads were compared, of which {len(self.comparison.misread)} differ.</p><table>')
        for name, count in collections.Counter(name for _, verdict in verdicts for name in verdict.known).most_common():
            yield f'<tr><td class="number">{count}</td><td>{escape(DIFFERENCES[name].says)}</td><td class="quiet">{escape(DIFFERENCES[name].row)}</td></tr>'
        yield '</table>'
        for event, verdict in unknown[:MOST_UNKNOWN]:
            yield f'<p class="bad">{escape(self.q.who(event.rank))}, {escape(verdict.row)}: {escape("; ".join(verdict.diffs))} {self.place(event)}</p>'

    # -- the whole

    def data(self) -> str:
        q = self.q
        end = max((event.moment for event in q.events if self.asked.window.has(event.moment)), default=q.begin)
        begin = min((event.moment for event in q.events if self.asked.window.has(event.moment)), default=q.begin)
        found = {'begin': (begin - q.begin) // 1000, 'end': max((end - q.begin) // 1000, (begin - q.begin) // 1000 + 1), 'zero': q.begin // 1000,
                 'lanes': [{'name': q.who(rank), 'rank': rank, 'states': lane(q, rank, self.asked)} for rank in sorted(q.monitors)],
                 'marks': marks(q, self.numbers, self.asked), 'commits': commits(q, self.asked), 'columns': self.chart.columns,
                 'names': [q.who(rank) for rank in range(q.count)], 'rows': self.chart.rows}
        return json.dumps(found, separators=(',', ':')).replace('</', '<\\/')

    def html(self) -> str:
        title, chart_ = escape(self.asked.title), self.chart
        left_out = f'<p class="quiet">The chart has the first events; {chart_.left_out} are left out. --from and --to choose a part.</p>' * bool(chart_.left_out)
        head = ''.join(f'<li>{escape(line)}</li>' for line in levels.head(self.q))
        names = ''.join(f'<span>{escape(self.q.who(rank))}</span>' for rank in range(self.q.count))
        parts = [('happened', 'What happened', f'<table>{"".join(self.happened())}</table>'), ('wrong', 'What is wrong', ''.join(self.conditions())),
                 ('overview', 'Overview', '<p id="zoom"></p><div id="lanes"></div>'),
                 ('chart', 'Chart', f'{left_out}<div id="picture" tabindex="0"><div class="names">{names}</div>{chart_.picture}</div>'),
                 ('events', 'Events', f'<table id="table">{"".join(self.rows())}</table>'),
                 ('safety', 'Safety, as far as these logs show it', f'<table>{"".join(self.judgement())}</table>'),
                 ('compared', 'Beside the proved table', ''.join(self.compared())), ('read', 'What was read', f'<ul>{head}</ul>')]
        links = ''.join(f'<a href="#{name}">{heading.split(",")[0]}</a>' for name, heading, _ in parts)
        body = ''.join(f'<section id="{name}"><h2>{heading}</h2>{text}</section>' for name, heading, text in parts)
        return f'''<!DOCTYPE html>
<html lang="en">
<meta charset="utf-8">
<meta name="viewport" content="width=device-width, initial-scale=1">
<link rel="icon" href="data:,">
<title>{title}</title>
<style>{web("ceph.css")}</style>
<header><h1>{title}</h1><nav>{links}</nav></header>
<main>{body}</main>
<script>const LOG = {self.data()};
{web("ceph.js")}</script>
</html>'''


def page_of(q: Quorum, asked: Asked) -> Answer:
    made = Page(q, asked)
    is_bad = made.findings or any(clause.failed for clause in made.clauses) or made.comparison is not None and made.comparison.unknown()
    return Answer(int(bool(is_bad)), [made.html()])
