"""Checks of the stored logs: what microscope/ceph says of them; changed logs, which the judge reports; and changed rules, from which real logs differ."""
from __future__ import annotations

import os
import re
from tempfile import TemporaryDirectory

from ceph_texts import LOGS, WORDS, logs, paths, put, said, scenarios, texts, told
from checking import Failed, Skipped, equal, read, same_text

# A mutation: the scenario, the monitor whose log is changed, what is replaced by what, and the clause that must fail.
MUTATIONS = {
    'two leaders of one epoch': ('pacific_leader_killed', 'a', r'win_election epoch 14 quorum 0,1,2', 'win_election epoch 10 quorum 0,1,2', 'One leader'),
    'a quorum that is no majority': ('pacific_leader_killed', 'b', r'win_election epoch 10 quorum [\d,]+', 'win_election epoch 10 quorum 1', 'Majority'),
    'a peon accepts under an older number': ('pacific_first', 'b', r'accepting value for 5 pn 300', 'accepting value for 5 pn 100', 'Promises'),
    'a peon never accepted what was committed': ('pacific_first', 'c', r'[^\n]*accepting value for 5 pn 300\n', '', 'All accept'),
    'another value of a version': ('pacific_few_behind', 'a', r'sharing 14 \(157 bytes\)', 'sharing 14 (158 bytes)', 'Agreement'),
    'a promise falls at a restart': ('pacific_leader_killed', 'a', r'init last_pn: 300 accepted_pn: \d+', 'init last_pn: 0 accepted_pn: 0', 'Promises'),
    'a version is skipped': ('pacific_first', 'c', r'store_state \[6\.\.6\]', 'store_state [7..7]', 'Growth'),
}
# A rule of microscope/break, and the scenario that differs from the table under it. Real logs can't show the other two. pending_lease: a LEASE that was sent before
# a BEGIN comes before it, since Ceph's connections keep their order. forgotten_promise: Ceph does what the changed rule says, which the judge reports (Promises
# fails in pacific_full_sync).
RULES = {'majority': 'pacific_five', 'rival': 'pacific_uncommitted', 'any_votes': 'pacific_few_behind', 'kept_lease': 'pacific_pending_read',
         'early_answer': 'pacific_first', 'first_reported': 'pacific_two_values'}


# Scenarios in which nothing is wrong.
CALM = ['pacific_alone', 'pacific_calm', 'pacific_first', 'pacific_lossy', 'pacific_pending_read']


def levels_suffice(scenario: str) -> bool:
    return 'levels' not in scenario


def as_stored(scenario: str, word: str):
    same_text(said(scenario, word), read(LOGS, scenario, f'{word}.txt'), f'{word} of {scenario}')


def is_told(scenario: str):
    """The command says what its modules say."""
    status, output, errors = told('story', paths(scenario))
    equal((f'status {status}\n{output}'.encode(), errors), (said(scenario, 'story'), ''))


def no_step_is_unknown(scenario: str):
    found = re.search(rb'(\d+) in no known way\. Reads compared: \d+, of which (\d+) differ', read(LOGS, scenario, 'compare.txt'))
    equal(found and found.groups(), (b'0', b'0'), scenario)


def has_no_path(scenario: str):
    for name, text in texts(scenario).items():
        found = re.search(r'(?<![\w.:/])/(?!var/lib/ceph/mon\b)\w+/\w[^\s]*', text)
        if found:
            raise Failed(f'mon.{name}: {found[0]}')


def is_reported(scenario: str, monitor: str, old: str, new: str, clause: str):
    found = texts(scenario)
    found[monitor], count = re.subn(old, new, found[monitor], count=1)
    equal(count, 1, f'{old} in mon.{monitor} of {scenario}')
    from ceph_log.judging import judged
    from ceph_log.quorum import Quorum
    with TemporaryDirectory() as folder:
        failed = [clause.title for clause in judged(Quorum(put(folder, logs(found)))) if clause.failed]
    equal(clause in failed, True, f'{clause} is not among {failed}')


def differs_under(rule: str, scenario: str):
    """Under the changed rule real logs differ from the table in a way that isn't known; under the true one they don't."""
    from ceph_log import definitions
    from ceph_log.comparing import Comparison
    from ceph_log.quorum import Quorum
    if scenario not in scenarios():
        raise Skipped(f'there are no logs {scenario}')
    definitions.take_rule(rule)
    try:
        comparison = Comparison(Quorum(paths(scenario)))
    finally:
        definitions.take_rule(None)
    if not comparison.unknown() and not comparison.misread:
        raise Failed(f'{len(comparison.verdicts)} steps, and none differs')


def compares_from_the_middle():
    """Logs that begin in the middle of a steady quorum are compared from their first complete state on. A monitor writes its epoch at each ping; of these lines
    the stored logs have those with another epoch, so one stands at the beginning of each part."""
    found = texts('pacific_first')
    cut = {}
    for name, text in found.items():
        begin = text.index('\n', int(len(text) * 0.75)) + 1
        shown = re.findall(r'(?m)^.* mon\.\w@\d+\(\w+\)\.elector\(\d+\) .*$', text[:begin])[-1]
        rest = shown.split(' ', 1)[1].replace('(electing)', '(leader)' if name == 'a' else '(peon)')
        epoch = max(re.findall(r'elector\((\d+)\)|electionLogic\((\d+)\)', text[:begin]), key=lambda pair: int(pair[0] or pair[1]))
        rest = re.sub(r'elector\(\d+\).*', f'elector({epoch[0] or epoch[1]}) send_peer_ping to peer 0', rest)
        cut[name] = f'{text[begin:].split(" ", 1)[0]} {rest}\n{text[begin:]}'
    if 'electionLogic' in ''.join(cut.values()):
        raise Failed('the logs have an election: they show nothing')
    with TemporaryDirectory() as folder:
        status, output, errors = told('compare', put(folder, logs(cut)))
    steps = int(re.search(r'(\d+) steps were compared', output)[1])
    if status != 0 or steps < 20:
        raise Failed(f'{errors}{output}')


def conditions_are_named():
    """Each condition is named in the logs of some scenario, but for clocks that differ, of which there is one on a machine. In calm logs none is."""
    from ceph_log.conditions import CONDITIONS
    named = {scenario: [name for name in CONDITIONS if f'\n{name.upper()}: ' in read(LOGS, scenario, 'diagnose.txt').decode()] for scenario in scenarios()}
    equal({*CONDITIONS} - {name for names in named.values() for name in names}, {'clocks differ'})
    equal({scenario: named[scenario] for scenario in CALM if named[scenario]}, {})


def rows_are_there():
    """Each known difference has a row in docs/CEPH.md, which begins as the difference says."""
    from ceph_log.differences import DIFFERENCES
    page = read('docs', 'CEPH.md').decode()
    equal([difference.row for difference in DIFFERENCES.values() if difference.row and f'\n| {difference.row}' not in page], [])


def checks_of_stored(check):
    check('each condition is named in some logs, and none in calm ones', conditions_are_named)
    check('each known difference has its row in docs/CEPH.md', rows_are_there)
    for scenario in scenarios():
        for word in WORDS:
            if word != 'compare' or levels_suffice(scenario):
                check(f'{word} of {scenario} is as stored', as_stored, scenario, word)
        if levels_suffice(scenario):
            check(f'no step of {scenario} differs in an unknown way', no_step_is_unknown, scenario)
        check(f'{scenario} has no path of a machine', has_no_path, scenario)
    check('the command says the story', is_told, 'pacific_first')
    for name, words in MUTATIONS.items():
        check(f'{name}: the judge reports it', is_reported, *words)
    check('logs that begin in the middle of a steady quorum are compared', compares_from_the_middle)
    for rule, scenario in RULES.items():
        check(f'under the rule {rule} {scenario} differs', differs_under, rule, scenario)


def store(scenario: str):
    """Writes what the command says of a scenario now."""
    for word in WORDS:
        if word != 'compare' or levels_suffice(scenario):
            with open(os.path.join(LOGS, scenario, f'{word}.txt'), 'wb') as file:
                file.write(said(scenario, word))
