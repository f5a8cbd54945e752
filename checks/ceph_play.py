"""Checks of play --log: what logs show becomes a schedule of the model, and the page begins at its end."""
from __future__ import annotations

import json
import os
import re
import subprocess
from tempfile import TemporaryDirectory

from browser import Browser
from ceph_texts import paths
from checking import TOP, Failed, equal

TOOL = os.path.join(TOP, 'microscope', 'play')
# A scenario, the time up to which it is followed, and the phase of each monitor then.
PARTS = {
    'a quorum at work': ('pacific_calm', '21:22:40', ['active', 'peon', 'peon']),
    'a value that was accepted, and a dead leader': ('pacific_uncommitted', '21:08:20', ['down', 'electing', 'electing']),
    'a leader that recovered it': ('pacific_uncommitted', '21:08:25', ['down', 'active', 'peon']),
    'a leader that comes back': ('reef_leader_killed', None, ['down', 'down', 'down']),
}
# Scenarios that end with a step that the table doesn't take, and what is said of it.
ENDS = {
    'pacific_few_behind': 'mon.a sends COMMIT to mon.c, and the model does not', 'pacific_stopped_leader': 'mon.a sends BEGIN to mon.b, and the model does not',
}
REFUSED = {'pacific_default_levels': 'a schedule needs debug_mon', 'pacific_alone': 'has no such quorum'}
SCENARIO, PLACE = 'pacific_uncommitted', '21:08:20'


def phases(lines: list[str]) -> list[str]:
    """The phase of each monitor after a schedule."""
    import texts
    from plays import Play
    play = Play(lines[0])
    for line in lines[1:]:
        equal(play.take(line), True, line)
    return ['down' if (state := play.state(rank)) is None else texts.PHASE[state.phase.name] for rank in range(play.n)]


def is_followed(scenario: str, end: str | None, wanted: list[str]):
    from ceph_log.scheduling import schedule
    found = schedule(paths(scenario), None, end)
    equal((found.why, phases(found.lines)), ('the part that was asked for ends there' if end else 'the logs end there', wanted))
    if found.events < 40 or len(found.lines) < found.events:
        raise Failed(f'{found.events} events, {len(found.lines)} lines')


def ends_with(scenario: str, why: str):
    from ceph_log.scheduling import schedule
    found = schedule(paths(scenario))
    if not found.why.startswith('at ') or not found.why.endswith(f'] {why}') or found.events < 40:
        raise Failed(str(found))


def run(*words: str) -> tuple[int, str]:
    done = subprocess.run([TOOL, *words], stdout=subprocess.PIPE, stderr=subprocess.PIPE, timeout=600)
    return done.returncode, done.stderr.decode()


def is_refused(why: str, *words: str):
    status, errors = run(*words)
    if status != 2 or why not in errors:
        raise Failed(f'status {status}, {errors!r}')


def begins_there():
    """The page begins with the schedule, says nothing else, and shows the monitors as the logs do. Its user goes on by hand."""
    with TemporaryDirectory() as folder:
        path = os.path.join(folder, 'play.html')
        status, errors = run('--log', '--to', PLACE, '--export', path, *paths(SCENARIO))
        equal((status, bool(re.fullmatch(r'play: from \d\d:\d\d:\d\d\.\d{3} on \d+ events of the logs are followed, .*\n', errors))), (0, True), errors)
        with open(path, encoding='utf-8') as file:
            begun = json.loads(re.search(r'"begin": (\{.*?\}), "tour"', file.read())[1])['lines']
        from ceph_log.scheduling import schedule
        equal(begun, schedule(paths(SCENARIO), None, PLACE).lines)
        with Browser() as browser:
            browser.call('Page.navigate', url=f'file://{path}')
            browser.until('typeof state !== "undefined" && !!state && state.count > 0')
            equal(browser.of_page('state.monitors.map(it => it.up ? it.phase : "down")'), ['down', 'electing', 'electing'])
            equal(browser.of_page('(act("start", {rank: 0}), state.monitors[0].up)'), True)
            equal(browser.errors, [])


def checks_of_play(check):
    for name, words in PARTS.items():
        check(f'play --log: {name}', is_followed, *words)
    for scenario, why in ENDS.items():
        check(f'play --log: {scenario} ends with a step that the table doesn\'t take', ends_with, scenario, why)
    for scenario, why in REFUSED.items():
        check(f'play --log refuses {scenario}', is_refused, why, '--log', '--port', '0', *paths(scenario))
    check('play --log takes logs, and --to belongs to it', is_refused, '--log takes logs', '--to', '21:08:20', '3')
    check('the page of play --log begins where the schedule ends', begins_there)
