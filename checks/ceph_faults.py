"""Checks of what can't be read as the logs of one quorum: it is refused, or said."""
from __future__ import annotations

import os
import re
from tempfile import TemporaryDirectory

from ceph_texts import logs, put, texts, told
from checking import Failed, equal

SCENARIO = 'pacific_first'
OTHER = '7e0d5a2e-1111-4222-8333-444455557778'
OSD = '2026-11-30T17:48:07.690123+0000 7fd3640c0  1 osd.3 12 start_boot\n'


def refuses(files, text, word='story'):
    with TemporaryDirectory() as folder:
        paths = put(folder, files)
        status, output, errors = told(word, paths)
    if status != 2 or text not in errors or not errors.startswith('ceph: ') or errors.count('\n') != 1:
        raise Failed(f'status {status}, {errors!r}, {output[-200:]!r}')


def says(files, text, word='story'):
    with TemporaryDirectory() as folder:
        status, output, errors = told(word, put(folder, files))
    if status != 0 or text not in output or errors:
        raise Failed(f'status {status}, {errors!r}, {output[:600]!r}')


def absent_file():
    equal(told('story', ['/absent/mon.a.log'])[0], 2)


def two_clusters():
    found = texts(SCENARIO)
    fsid = re.search(r'fsid ([0-9a-f-]{36})', found['a'])[1]
    refuses(logs({**found, 'c': found['c'].replace(fsid, OTHER)}), 'two clusters')


def two_of_one_name():
    found = texts(SCENARIO)
    refuses({'x/mon.a.log': found['a'], 'y/mon.a.log': found['a']}, 'both of mon.a')


def other_daemon_beside():
    says({**logs(texts(SCENARIO)), 'osd.3.log': OSD}, 'Left out: osd.3.log is the log of osd.3, not of a monitor.')


def ranks_change():
    found = texts(SCENARIO)
    change = '2026-11-30T23:00:00.000000+0000 7fd3640c0  0 mon.c@2(probing) e4  my rank is now 1 (was 2)\n'
    files = logs({'a': found['a'], 'c': found['c'] + change})
    says(files, 'From there on a rank means another monitor')
    refuses(files, 'ranks change within these logs', 'judge')


def sixteen():
    names = 'abcdefghijklmnop'
    members = ','.join(f'{name}=v1:127.0.0.1:{10_000 + at}/0' for at, name in enumerate(names))
    text = f'2026-11-30T17:48:07.690123+0000 7fd3640c0 10 mon.a@0(leader) e2 monmap e2: 16 mons at {{{members}}}\n'
    refuses({'mon.a.log': text}, '16 monitors', 'judge')


def clock_goes_back():
    found = texts(SCENARIO)
    late = '2026-11-30T17:00:00.000000+0000 7fd3640c0 10 mon.c@2(peon) e1 bootstrap\n'
    says(logs({**found, 'c': found['c'] + late}), 'The clock of mon.c.log goes back 1 times')


def cut_file():
    import gzip
    octets = gzip.compress(texts(SCENARIO)['b'].encode())
    with TemporaryDirectory() as folder:
        path = os.path.join(folder, 'mon.b.log.gz')
        with open(path, 'wb') as file:
            file.write(octets[:len(octets) // 2])
        status, output, errors = told('story', [path])
    equal((status, 'mon.b.log.gz is cut' in output, errors), (0, True, ''), output[:300])


def checks_of_faults(check):
    check('a file that is absent is refused', absent_file)
    for name, octets, text in (('an empty file', b'', 'is empty'), ('a text', b'no log\n', 'is no log of Ceph'), ('binary data', bytes(range(256)) * 300, 'is no log'),
                               ('the log of an OSD', OSD.encode(), 'is the log of osd.3'), ('zeros', b'\0' * 300_000, 'is no log')):
        check(f'{name} is refused', refuses, {'file': octets}, text)
    check('the log of an OSD beside those of monitors is left out, and that is said', other_daemon_beside)
    check('logs of two clusters are refused', two_clusters)
    check('two monitors of one name are refused', two_of_one_name)
    check('ranks that change are said, and not judged', ranks_change)
    check('16 monitors are refused', sixteen)
    check('a clock that goes back is said', clock_goes_back)
    check('a zipped file that is cut is read up to there', cut_file)
    check('a faulty time is refused', lambda: equal(told('story', ['--from', '25:00:00', __file__])[0], 2))
