"""What the crates cost the gate, estimated from their text, in seconds.

Most of a check is spent on large values: on each `?` beside which one is alive, and on the drops of its parts, which every crate proves anew. So a crate's
counts are its functions, its `?`, its tests, and the types with memory of their own that it names, with their parts. `cost.json` has the counts of a state
of the crates, and the processor seconds that `rt ci` took for each. A linear fit of the seconds gives what one more of each costs.
"""
from __future__ import annotations

import json
import os
import re
from typing import NamedTuple

TOP = os.path.dirname(os.path.dirname(os.path.abspath(__file__)))
MEASURED = os.path.join(TOP, 'bench', 'cost.json')
# Types of std and of the toolchain's crates that have memory of their own.
OWNERS = frozenset(['Box', 'File', 'IndexMap', 'Map', 'String', 'Value', 'Vec'])
CLAUSE = re.compile(r'\b(?:ensures|requires|invariant|ghost)\b[^{;]*\{')
DECLARED = re.compile(r'\b(?:struct|enum)\s+(\w+)[^{;(]*([{(;])')
NAME = re.compile(r'\b[A-Z]\w*')
CLOSES = {'{': '}', '(': ')'}


class Counts(NamedTuple):
    functions: int
    questions: int
    owned: int
    tests: int


def group(text: str, begin: int) -> int:
    """The place after the bracket that closes the one before `begin`."""
    opens = text[begin - 1]
    depth, at = 1, begin
    while depth and at < len(text):
        depth += (text[at] == opens) - (text[at] == CLOSES[opens])
        at += 1
    return at


def code_alone(text: str) -> str:
    """Code without comments, texts and clauses."""
    text = re.sub(r'"(?:\\[\s\S]|[^"\\])*"', '""', re.sub(r'//.*', '', text))
    kept, begin = [], 0
    for match in CLAUSE.finditer(text):
        if match.start() >= begin:
            kept.append(text[begin:match.start()])
            begin = group(text, match.end())
    return ''.join(kept) + text[begin:]


def fields_by_type(code: str) -> dict[str, str]:
    """What each struct and enum of the code holds."""
    return {match[1]: '' if match[2] == ';' else code[match.end():group(code, match.end()) - 1] for match in DECLARED.finditer(code)}


def parts_by_type(codes: list[str]) -> dict[str, set[str]]:
    """The types that each type holds by value."""
    fields = {name: held for code in codes for name, held in fields_by_type(code).items()}
    return {name: set(NAME.findall(re.sub(r'&[^,}]*', '', held))) - {name} for name, held in fields.items()}


def owned_types(parts: dict[str, set[str]]) -> set[str]:
    """The types that have memory of their own, by themselves or by a part."""
    owned: set[str] = set()
    while found := {name for name, held in parts.items() if name not in owned and held & (OWNERS | owned)}:
        owned |= found
    return owned


def reached(names: set[str], parts: dict[str, set[str]]) -> set[str]:
    """These types and all their parts."""
    found, waiting = set(), [name for name in names if name in parts]
    while waiting:
        name = waiting.pop()
        if name not in found:
            found.add(name)
            waiting += [part for part in parts[name] if part in parts]
    return found


def sources(folder: str) -> str:
    texts = []
    for at, _, names in sorted(os.walk(os.path.join(folder, 'src'))):
        for name in sorted(names):
            if name.endswith('.rt'):
                with open(os.path.join(at, name), encoding='utf-8') as file:
                    texts.append(file.read())
    return '\n'.join(texts)


def counted(texts: dict[str, str]) -> dict[str, Counts]:
    """The counts of crates, from the text of each."""
    codes = {crate: code_alone(text) for crate, text in texts.items()}
    parts = parts_by_type(list(codes.values()))
    owned = owned_types(parts)
    return {crate: Counts(len(re.findall(r'\bfn\s+\w', code)), code.count('?'), len(reached(set(NAME.findall(code)), parts) & owned), code.count('#[test]'))
            for crate, code in codes.items()}


def crates() -> dict[str, Counts]:
    """The counts of the crates as they are."""
    folder = os.path.join(TOP, 'crates')
    names = sorted(name for name in os.listdir(folder) if os.path.isdir(os.path.join(folder, name, 'src')))
    return counted({name: sources(os.path.join(folder, name)) for name in names})


def solved(rows: list[list[float]], values: list[float]) -> list[float]:
    """The solution of linear equations, by elimination."""
    table = [[*row, value] for row, value in zip(rows, values)]
    for at in range(len(table)):
        best = max(range(at, len(table)), key=lambda row: abs(table[row][at]))
        table[at], table[best] = table[best], table[at]
        for row in range(len(table)):
            if row != at:
                factor = table[row][at] / table[at][at]
                table[row] = [a - factor * b for a, b in zip(table[row], table[at])]
    return [row[-1] / row[at] for at, row in enumerate(table)]


def fit(points: list[tuple[Counts, float]]) -> list[float]:
    """The seconds of a crate, and what one more of each count adds, by least squares. A little is added to the squares, so that equal counts do no harm."""
    rows = [[1.0, *counts] for counts, _ in points]
    width = len(rows[0])
    squares = [[sum(row[i] * row[j] for row in rows) + (1e-6 if i == j else 0) for j in range(width)] for i in range(width)]
    return solved(squares, [sum(row[i] * seconds for row, (_, seconds) in zip(rows, points)) for i in range(width)])


class Estimate(NamedTuple):
    seconds: float
    measured: float | None
    now: Counts
    then: Counts | None


def estimates(now: dict[str, Counts], measured: dict[str, tuple[Counts, float]]) -> dict[str, Estimate]:
    """What each crate costs: what was measured, and what its counts add since then; for a new crate, what its counts make."""
    base, *weights = fit(list(measured.values()))
    found = {}
    for crate, counts in now.items():
        then, seconds = measured.get(crate, (None, None))
        changes = [a - b for a, b in zip(counts, then)] if then else [float(count) for count in counts]
        added = sum(weight * change for weight, change in zip(weights, changes))
        found[crate] = Estimate(max(0.0, (base if seconds is None else seconds) + added), seconds, counts, then)
    return found


def read_measured(path: str = MEASURED) -> dict[str, tuple[Counts, float]]:
    with open(path, encoding='utf-8') as file:
        return {crate: (Counts(*row['counts']), float(row['seconds'])) for crate, row in json.load(file).items()}


def write_measured(seconds: dict[str, float], path: str = MEASURED) -> None:
    """Keeps what a gate took for each crate, with the crates' counts as they are."""
    now = crates()
    rows = (f'  {json.dumps(crate)}: {json.dumps({"seconds": seconds[crate], "counts": now[crate]})}' for crate in sorted(now) if crate in seconds)
    with open(path, 'w', encoding='utf-8') as file:
        file.write('{\n' + ',\n'.join(rows) + '\n}\n')
