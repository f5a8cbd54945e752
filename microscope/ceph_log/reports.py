"""The judge's and the comparison's results as text."""
from __future__ import annotations

import collections

from .clauses import Clause
from .comparing import Comparison
from .differences import DIFFERENCES
from .quorum import Quorum

# The most failures of a clause that are printed.
MOST = 5


def of_judge(clauses: list[Clause]) -> list[str]:
    lines = []
    for clause in clauses:
        lines.append(f'{clause.title:16} {clause.tested:6} tests  {clause.result()}')
        lines += [f'    {text}' + (f' [{event.where}]' if event else '') for text, event in clause.failed[:MOST]]
    return lines


def of_comparison(q: Quorum, comparison: Comparison) -> list[str]:
    """How many steps do what the table says, which known differences there are, and each step that differs in no known way."""
    verdicts, unknown = comparison.verdicts, comparison.unknown()
    same = sum(verdict.is_same for _, verdict in verdicts)
    lines = [f'{len(verdicts)} steps were compared: {same} do what the table says, {len(verdicts) - same - len(unknown)} differ in a known way, '
             f'{len(unknown)} in no known way. Reads compared: {comparison.reads}, of which {len(comparison.misread)} differ.']
    if comparison.skipped:
        lines.append('Not compared: ' + ', '.join(f'{count} {why}' for why, count in sorted(comparison.skipped.items())) + '.')
    for name, count in collections.Counter(name for _, verdict in verdicts for name in verdict.known).most_common():
        difference = DIFFERENCES[name]
        lines.append(f'{count:5} {difference.says}' + (f' (docs/CEPH.md: {difference.row})' if difference.row else ''))
    for event, verdict in unknown:
        lines += [f'UNKNOWN {q.who(event.rank)}, {verdict.row}: {"; ".join(verdict.diffs)} [{event.where}]', f'    ceph-mon: {verdict.observed}',
                  f'    table:    {verdict.predicted}', *(f'    {why}' for why in verdict.why)]
    lines += [f'READ {q.who(read.event.rank)}: {read.text} [{read.event.where}]' for read in comparison.misread]
    return lines


def by_row(comparison: Comparison) -> list[str]:
    """A table of the steps by row: how many, how many are the same, and which known differences the others have."""
    rows: dict[str, list] = {}
    for _, verdict in comparison.verdicts:
        rows.setdefault(verdict.row, []).append(verdict)
    lines = [f'{"steps":>6} {"same":>6}  row']
    for row, verdicts in sorted(rows.items()):
        known = collections.Counter(name for verdict in verdicts for name in verdict.known)
        lines.append(f'{len(verdicts):6} {sum(verdict.is_same for verdict in verdicts):6}  {row}'
                     + (': ' + ', '.join(f'{name} {count}' for name, count in sorted(known.items())) if known else ''))
    return lines
