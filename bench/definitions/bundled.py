"""The definitions as a program of JavaScript: the texts of their functions, and what they stand on."""
from __future__ import annotations

import os
import subprocess
import tempfile
from typing import Dict, Mapping, Optional, Sequence

import antt
import loaded
from loaded import HOST, KEPT, PROTOCOL

HERE = os.path.dirname(os.path.abspath(__file__))
# The definitions that JavaScript calls, by the name under which it does.
STEP = {
    'step': ('mon_world.specs.Step', 'step'), 'firstScene': ('quorum_model.specs.Scenes', 'first_scene'),
    'scheduledOf': ('mon_world.specs.Events', 'scheduled_of'), 'meets': ('quorum_model.specs.Meets', 'meets'),
    'eventIn': ('quorum_model.specs.Scenes', 'event_in'), 'writesOf': ('quorum_model.specs.Runs', 'writes_of'),
}
# What the reaction of js/reaction.js calls.
WITHIN = {'sharedEntries': (f'{PROTOCOL}Readings', 'shared_entries'), 'readingsOf': (f'{PROTOCOL}Readings', 'readings_of'),
          'anyReaction': (f'{PROTOCOL}Reaction', 'any_reaction'), 'react': (f'{PROTOCOL}Table', 'react')}


def texts(calls: Mapping[str, tuple], changes: Optional[antt.Changes] = None, constants: Optional[Mapping[str, int]] = None,
          is_watched: bool = False) -> Dict[str, str]:
    """The texts of the functions that these calls need, by name, under these rules."""
    program = antt.Program(HOST, loaded.ROOT, changes, constants)
    return antt.javascript([*calls.values(), *WITHIN.values()], program.library, is_watched, KEPT)


def part(name: str) -> str:
    with open(os.path.join(HERE, 'js', f'{name}.js'), encoding='utf-8') as file:
        return file.read().replace("'use strict';\n", '')


def calls_text(calls: Mapping[str, tuple]) -> str:
    """An object of the functions that JavaScript calls, of those that the definitions define."""
    found = {name: antt.Writer.global_name('.'.join(path)) for name, path in calls.items()}
    return '({' + ', '.join(f'{name}: {function}' for name, function in found.items()) + '})'


def bundle(parts: Sequence[str], calls: Mapping[str, tuple], definitions: Mapping[str, str]) -> str:
    """A program of these parts of the folder js, over these definitions."""
    functions = '\n'.join(definitions.values())
    return '\n'.join([
        "'use strict';", *map(part, ['runtime', 'natives']), 'const TRUE = (() => {', functions, part('reaction'), f'return {calls_text(calls)}; }})();',
        *map(part, parts), '',
    ])


def program() -> str:
    """The program that replays schedules."""
    return bundle(['texts', 'plays', 'replay'], STEP, texts(STEP))


def run(parts: Sequence[str], calls: Mapping[str, tuple], words: Sequence[str]) -> int:
    """Runs a program of these parts by `node`, with these arguments. Returns its status."""
    with tempfile.NamedTemporaryFile('w', suffix='.js', encoding='utf-8') as file:
        file.write(bundle(parts, calls, texts(calls)))
        file.flush()
        return subprocess.run(['node', file.name, *words], check=False).returncode
