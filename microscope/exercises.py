"""Exercises: a question, and what the trace of an answer must have. microscope/exercises/README.md says how to write one."""
from __future__ import annotations

import json
import os
import re
from typing import NamedTuple

from played import TOP

FOLDER = os.path.join(TOP, 'microscope', 'exercises')
# In a pattern, {name} is the text that the group of this name matched in an earlier pattern, and {"name"} that text as JSON.
NAMED = re.compile(r'\{("?)([a-z]+)\1\}')


class Exercise(NamedTuple):
    """An exercise: its question; the first line of its answers; the limit of their events or None; what a trace must have in this order, and what it must not
    have, each as a text and a pattern; its hints; and the text that answers the question."""
    question: str
    header: str
    events: int | None
    needs: list[tuple[str, str]]
    never: list[tuple[str, str]]
    hints: list[str]
    answer: str

    def demands(self) -> list[str]:
        most = [] if self.events is None else [f'at most {self.events} events']
        return [f'the first line is {self.header}', *most, *(text for text, _ in self.needs), *(f'never: {text}' for text, _ in self.never)]

    def judged(self, lines: list[str], trace: str) -> list[tuple[bool, str]]:
        """Each demand, and whether the answer and its trace meet it."""
        met = [lines[0] == self.header]
        if self.events is not None:
            met.append(len(lines) - 1 <= self.events)
        count = shown_of(trace, [pattern for _, pattern in self.needs])
        met += [number < count for number in range(len(self.needs))]
        met += [not compiled(pattern, {}).search(trace) for _, pattern in self.never]
        return list(zip(met, self.demands()))


def compiled(pattern: str, names: dict[str, str]) -> re.Pattern:
    """The pattern, in which the names of groups are replaced by what they matched earlier."""
    def text(found):
        return re.escape(json.dumps(names[found[2]]) if found[1] else names[found[2]])
    return re.compile(NAMED.sub(text, pattern), re.MULTILINE | re.DOTALL)


def shown_of(trace: str, patterns: list[str], at: int = 0, names: dict[str, str] = {}) -> int:
    """How many of the patterns, from the first on, a trace matches one after the other. If no match of a later pattern follows, the next match of the earlier
    one is tried."""
    most = 0
    for found in compiled(patterns[0], names).finditer(trace, at) if patterns else ():
        most = max(most, 1 + shown_of(trace, patterns[1:], found.end() - 1, {**names, **found.groupdict()}))
        if most == len(patterns):
            break
    return most


class Faulty(Exception):
    """A file isn't an exercise, for this reason."""


def names(folder: str = FOLDER) -> list[str]:
    """The names of a folder's exercises. Those of this folder come first, the easier before the harder."""
    order = 'alone two_of_three lease made_twice no_reply retried half_a_write value_lost two_winners no_winner overtaken cookie courtesy old_map catch_up'.split()
    found = sorted(name[:-len('.exercise')] for name in os.listdir(folder) if name.endswith('.exercise'))
    return [name for name in order if name in found] + [name for name in found if name not in order]


def exercise(name: str, folder: str = FOLDER) -> Exercise:
    """The exercise of a file. Raises Faulty at its first line that has none of the forms of microscope/exercises/README.md."""
    lines = {'#': [], 'hint': [], 'answer': [], 'monitors': [], 'events': [], 'need': [], 'never': []}
    with open(os.path.join(folder, name + '.exercise'), encoding='utf-8') as file:
        for number, line in enumerate(file.read().splitlines(), 1):
            word, _, rest = line.partition(' ')
            if word not in lines or not rest or word == 'events' and not rest.isdigit():
                raise Faulty(f'{name}.exercise: line {number} begins with none of {", ".join(lines)} and a text')
            lines[word].append(demand_of(name, number, rest) if word in ('need', 'never') else rest)
    if len(lines['monitors']) != 1 or not lines['#'] or not lines['need']:
        raise Faulty(f'{name}.exercise: it has a question (#), one line that begins with monitors, and a need')
    events = int(lines['events'][0]) if lines['events'] else None
    return Exercise('\n'.join(lines['#']), f'monitors {lines["monitors"][0]}', events, lines['need'], lines['never'], lines['hint'], '\n'.join(lines['answer']))


def demand_of(name: str, number: int, text: str) -> tuple[str, str]:
    said, sign, pattern = text.partition(' :: ')
    try:
        re.compile(NAMED.sub('x', pattern))
    except re.error as why:
        raise Faulty(f'{name}.exercise: line {number} has no regular expression after its ::, {why}') from None
    if not sign:
        raise Faulty(f'{name}.exercise: line {number} has no :: between what it says and its pattern')
    return said, pattern
