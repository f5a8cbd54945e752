"""Checks of the forms that logs have: each of them reads as the same log."""
from __future__ import annotations

import datetime
import os
import re
import subprocess
from tempfile import TemporaryDirectory

from ceph_texts import leaders, logs, put, scenarios, texts, told
from checking import Failed, equal

LINE = '2026-11-30T17:48:07.690123+0000 7fd3640c0 10 mon.b@1(electing) e1 start_election'
AT = 1_796_060_887_690_123
FORMS = {
    'a file of Ceph': LINE,
    'the times before Octopus': LINE.replace('T', ' ', 1).replace('+0000', ''),
    'a zone': LINE.replace('17:48:07.690123+0000', '18:48:07.690123+0100'),
    'a zone with a colon': LINE.replace('17:48:07.690123+0000', '12:18:07.690123-05:30'),
    'Z as its zone': LINE.replace('+0000', 'Z'),
    'an end of Windows': LINE + '\r',
    'the journal': 'Nov 30 17:48:07 host-1 ceph-mon[22247]: ' + LINE,
    'the journal of a container': 'Nov 30 17:48:07 host-1 bash[22247]: debug ' + LINE,
    'the journal with whole times': '2026-11-30T17:48:07+0000 host-1 ceph-mon[22247]: ' + LINE,
    'the journal without its prefix': 'debug ' + LINE,
    'the dump of a crash': '   -12> ' + LINE,
}
# The scenario whose logs are given other forms.
SCENARIO = 'pacific_leader_killed'
STAMP = re.compile(r'(?m)^(\d{4}-\d\d-\d\dT\d\d:\d\d:\d\d\.\d{6})(\+0000)')


def reads(text):
    from ceph_log.lines import Reading, lines_in
    with TemporaryDirectory() as folder:
        path = os.path.join(folder, 'log')
        with open(path, 'w', encoding='utf-8', newline='') as file:
            file.write(text + '\n')
        line = next(iter(lines_in(path, 'log', Reading('log'))))
    equal((line.at, line.thread, line.level, line.text), (AT, '7fd3640c0', 10, 'mon.b@1(electing) e1 start_election'))


def same_leaders(files_of):
    with TemporaryDirectory() as folder:
        found = texts(SCENARIO)
        wanted = leaders(put(folder, logs(found)))
        equal(leaders(put(folder, files_of(found))), wanted)


def halves(found):
    """The log of mon.b in three parts, of which the older ones are zipped, named before and after the others."""
    text = found['b']
    first, second = (text.index('\n', len(text) * part // 3) + 1 for part in (1, 2))
    return {'b.log.1.gz': text[first:second], **logs({'a': found['a'], 'b': text[second:], 'c': found['c']}), 'b.log.2.gz': text[:first]}


def of_journal(found):
    return {f'{name}.txt': re.sub('(?m)^', 'Nov 30 17:48:07 host-1 bash[22247]: debug ', text) for name, text in found.items()}


def of_cephadm(found):
    return {f'7e0d5a2e-1111-4222-8333-444455557777/ceph-mon.{name}.log': text for name, text in found.items()}


def with_long_line(found):
    return logs({**found, 'a': found['a'] + '2026-11-30T17:50:00.000000+0000 7fd3640c0 10 ' + 'x' * 10_000_000 + '\n'})


def moved(text, seconds):
    def later(found):
        moment = datetime.datetime.strptime(found[1], '%Y-%m-%dT%H:%M:%S.%f') + datetime.timedelta(seconds=seconds)
        return moment.strftime('%Y-%m-%dT%H:%M:%S.%f') + found[2]
    return STAMP.sub(later, text)


def clocks_are_measured():
    from ceph_log.diagnosing import diagnosed
    from ceph_log.quorum import Quorum
    found = texts(SCENARIO)
    with TemporaryDirectory() as folder:
        q = Quorum(put(folder, logs({'a': found['a'], 'b': moved(found['b'], 3.7), 'c': moved(found['c'], -1.2)})))
    equal({rank: round(ahead / 1e6, 2) for rank, ahead in q.skewed.items()}, {1: 3.7, 2: -1.2})
    equal('clocks differ' in [finding.condition.name for finding in diagnosed(q)], True)


def dump_counts_once():
    """A crash that dumps the last lines again, and one line more, of which the log had not shown the level."""
    from ceph_log.files import Logs
    found = texts(SCENARIO)['b']
    tail = found.splitlines()[-200:]
    hidden = tail[100].split(' ')[0] + ' 7fd3640c0  5 mon.b@1(peon).elector(14) handle_propose from mon.2'
    dump = [f'{number - 201:6}> {line}' for number, line in enumerate([*tail[:100], hidden, *tail[100:]])]
    with TemporaryDirectory() as folder:
        once = Logs(put(folder, {'mon.b.log': found})).monitors[0]
        twice = Logs(put(folder, {'mon.b.log': found + '\n'.join(dump) + '\n'})).monitors[0]
    equal((twice.count, twice.known), (once.count + 1, once.known))


def window_is_read():
    with TemporaryDirectory() as folder:
        files = put(folder, logs(texts(SCENARIO)))
        status, whole, _ = told('story', files)
        equal(status, 0)
        times = [line.split(' ')[0] for line in whole.splitlines() if re.match(r'\d\d:\d\d:\d\d\.\d{3} ', line)]
        begin, end = times[len(times) // 3], times[len(times) // 2]
        part = told('story', files, '--from', begin, '--to', end)[1]
        found = [line for line in part.splitlines() if re.match(r'\d\d:\d\d:\d\d\.\d{3} ', line)]
    wanted = [line for line in whole.splitlines() if re.match(r'\d\d:\d\d:\d\d\.\d{3} ', line) and begin < line[:12] < end]
    missing = [line for line in wanted if line not in found]
    if missing or not found or not all(begin <= line[:12] <= end for line in found):
        raise Failed(f'found {found[:2]}, missing {missing[:2]}')


def patterns_are_true():
    """Each known line of the stored logs has the level that the table says, and its release is among those of its row."""
    from ceph_log.patterns import LOGIC, MON, name_of, patterns
    rows = {row.name: row for row in patterns()}
    faults = set()
    for scenario in scenarios():
        release = 18 if scenario.startswith('reef') else 16
        for text in texts(scenario).values():
            for found in re.finditer(r'(?m)^\S+ [0-9a-f]+ +(-?\d+) (.*)', text):
                part, rest = 'daemon', found[2]
                if (of := MON.match(rest)):
                    part, rest = {None: 'mon', 'paxos': 'paxos', 'elector': 'elector'}.get(of[4], 'service'), of[7]
                elif (of := LOGIC.match(rest)):
                    part, rest = 'logic', of[3]
                name = name_of(part, rest)
                if name and (rows[name[0]].level != int(found[1]) or release not in rows[name[0]].seen):
                    faults.add((name[0], int(found[1]), release))
    equal(sorted(faults), [])


def checks_of_forms(check):
    for name, text in FORMS.items():
        check(f'a line of {name} is read', reads, text)
    for name, files_of in {'rotated and zipped parts in any order': halves, 'the journal of containers': of_journal, 'the folders of cephadm': of_cephadm,
                           'a line of 10 MB': with_long_line}.items():
        check(f'{name}: the same leaders', same_leaders, files_of)
    check('clocks that differ are measured', clocks_are_measured)
    check('lines that a crash dumps again count once, and others get their places', dump_counts_once)
    check('a part of the story is what the whole story has of that time', window_is_read)
    check('the table of patterns has the levels and releases of the stored logs', patterns_are_true)
    check('the help is printed', lambda: subprocess.run([os.path.join(os.path.dirname(__file__), '..', 'microscope', 'ceph'), '--help'],
                                                        stdout=subprocess.DEVNULL, check=True) is not None)
