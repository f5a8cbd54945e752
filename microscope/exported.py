"""The page of play as one file: its texts, scripts and styles, the definitions as JavaScript, the changed rules, exercises and scenarios."""
from __future__ import annotations

import json
import os
import re
from typing import Any, Mapping, NamedTuple, Optional

from played import TOP, Refused
import bundled
import exercises
import rules
import safety
import words
from loaded import PROTOCOL
from simulation import Scenario, Simulation, read_schedule

WEB, SCENARIOS = os.path.join(TOP, 'microscope', 'web'), os.path.join(TOP, 'microscope', 'scenarios')
MODEL, FOLD = 'quorum_model.specs.', 'mon_msg.specs.Fold'
# The definitions that the page calls, by the name under which it does.
CALLS = {
    **bundled.STEP, 'lastOf': (f'{MODEL}Growth', 'last_of'), 'isMarked': ('mon_kv.specs.Readers', 'is_marked'), 'shared': ('mon_tx.specs.Keys', 'shared'),
    'entry': (FOLD, 'entry'), 'fold': (FOLD, 'fold'), 'putIn': (FOLD, 'put_in'), 'incrementals': (FOLD, 'incrementals'), 'mapOfLog': (FOLD, 'map_of_log'),
    'commandOf': (f'{MODEL}Clients', 'command_of'), 'incrementalOf': (f'{MODEL}Clients', 'incremental_of'), 'madeBy': (f'{MODEL}Clients', 'made_by'),
    'value': (f'{PROTOCOL}Value', 'value'), 'viewAt': ('log_model.specs.LogOfValues', 'view_at'), 'opsIn': ('mon_tx.specs.Decode', 'ops_in'),
    'isActive': (f'{MODEL}Happens', 'is_active'), 'afterTransactions': (f'{MODEL}Safe', 'after_transactions'),
    'readingsOf': (f'{PROTOCOL}Readings', 'readings_of'), 'epochOf': (f'{PROTOCOL}Readings', 'epoch_of'), 'promiseOf': (f'{PROTOCOL}Readings', 'promise_of'),
    'pending': (f'{PROTOCOL}Records', 'pending'), 'readMap': (f'{PROTOCOL}Services', 'read_map'),
}
# The scripts of the page, in order: those of the definitions, and its own.
PARTS = ['runtime', 'natives', 'texts', 'plays', 'judging']
OWN = ['schedules', 'steps', 'words', 'cards', 'exercises', 'scenarios', 'game', 'terms', 'tour', 'arena', 'play']


class Beginning(NamedTuple):
    """What the page begins with: the lines of a schedule, a changed rule, and an exercise."""
    lines: list[str]
    rule: Optional[rules.Rule]
    exercise: Optional[str]
    folder: str
    is_tour: bool = False


def definitions(rule: Optional[rules.Rule]) -> Mapping[str, str]:
    found = bundled.texts(CALLS, rule and rule.changes, rule and rule.constants, True)
    return {**found, 'reaction': bundled.part('reaction')}


def changed(rule: rules.Rule, true: Mapping[str, str]) -> dict[str, str]:
    """The definitions that a rule changes, or adds."""
    return {name: text for name, text in definitions(rule).items() if true.get(name) != text}


def pattern(text: str) -> str:
    """A regular expression of Python as JavaScript has it."""
    return re.sub(r'\(\?P=(\w+)\)', r'\\k<\1>', text.replace('(?P<', '(?<'))


def exercise(name: str, folder: str) -> dict[str, Any]:
    found = exercises.exercise(name, folder)
    return {**found._asdict(), 'needs': [[said, pattern(it)] for said, it in found.needs], 'never': [[said, pattern(it)] for said, it in found.never]}


def scenario_names() -> list[str]:
    """The scenarios of this repository that a page can have. One with `fill` has thousands of events: too many for a page, and it takes half a minute."""
    names = sorted(name[:-len('.scenario')] for name in os.listdir(SCENARIOS) if name.endswith('.scenario'))
    return [name for name in names if ' fill ' not in scenario_text(name)]


def scenario_text(name: str) -> str:
    with open(os.path.join(SCENARIOS, name + '.scenario'), encoding='utf-8') as file:
        return file.read()


def scenario(name: str) -> list[str]:
    """The schedule of a scenario of this repository."""
    return read_schedule(scenario_text(name).encode())[0]


def tour() -> dict[str, Any]:
    """The schedule of the tour, and the event at which each of its steps ends: the first leader, the first answer, the kill, the second answer, the end."""
    with open(os.path.join(WEB, 'tour.scenario'), encoding='utf-8') as file:
        simulation = Simulation(Scenario(file.read().split('\n')))
    lines = simulation.run()
    event, steps, ends = 0, [], ['  is active', ' done ', '  crashed', ' done ']
    for line in simulation.play.trace[1:]:
        event += not line.startswith(' ')
        if len(steps) < len(ends) and ends[len(steps)] in line:
            steps.append(event)
    return {'lines': lines, 'steps': [*steps, len(lines) - 1]}


def data(begin: Beginning) -> dict[str, Any]:
    """What the scripts of the page read."""
    all_rules = [*rules.RULES, *([begin.rule] if begin.rule and begin.rule.name not in {it.name for it in rules.RULES} else [])]
    true = definitions(None)
    return {
        'definitions': true, 'calls': bundled.calls_text(CALLS), 'changed': {rule.name: changed(rule, true) for rule in all_rules},
        'rules': [{'name': rule.name, 'changed': rule.changed, 'true': rule.true, 'why': rule.why} for rule in all_rules],
        'exercises': {name: exercise(name, begin.folder) for name in exercises.names(begin.folder)},
        'scenarios': {name: scenario(name) for name in scenario_names()},
        'paragraphs': {row: words.paragraph_of(row) for row in words.ROWS}, 'tests': words.TESTS,
        'clauses': [clause._asdict() for clause in safety.CLAUSES], 'says': safety.SAYS,
        'begin': {'lines': begin.lines, 'rule': begin.rule and begin.rule.name, 'exercise': begin.exercise, 'isTour': begin.is_tour},
        'tour': tour(),
    }


def own(name: str) -> str:
    with open(os.path.join(WEB, name), encoding='utf-8') as file:
        return file.read()


def script(text: str) -> str:
    """A script element. No text in it ends the element."""
    return '<script>' + text.replace('</', '<\\/') + '</script>'


def scripts(begin: Beginning, parts: list[str]) -> str:
    """The scripts of the page, of which the last are these."""
    texts = ["'use strict';", f'const DATA = {json.dumps(data(begin), ensure_ascii=False)};', *map(bundled.part, PARTS)]
    return '\n'.join(texts + [own(f'{name}.js').replace("'use strict';\n", '') for name in parts])


def page(begin: Beginning) -> str:
    """The page as one file."""
    text = own('play.html')
    text = text.replace('<link rel="stylesheet" href="play.css">', f'<style>\n{own("play.css")}</style>')
    return text.replace('<script src="play.js"></script>', script(scripts(begin, OWN)))
