"""What the commands of this folder share: whether there are monitors to run, and how the logs of a run are kept."""
from __future__ import annotations

import gzip
import os
import shutil
import signal
import sys

from ceph_log.cutting import cut
from ceph_log.lines import rows_of
from monitors import Monitors


def lacks(programs: str, within: str, needed: tuple[str, ...] = ('ceph-mon', 'monmaptool', 'ceph')) -> str:
    """What isn't there to run monitors, or nothing."""
    if programs:
        return '' if os.path.exists(os.path.join(programs, 'ceph-mon')) else f'there is no ceph-mon in {programs}'
    if within:
        return ''
    missing = [name for name in needed if shutil.which(name) is None]
    return f'there is no {", ".join(missing)}: install ceph-mon, ceph-common, ceph-base and python3-rados' if missing else ''


def end_on_sigterm():
    """Makes SIGTERM end this process by an exception, so that what it started is ended too."""
    signal.signal(signal.SIGTERM, lambda number, _: sys.exit(128 + number))


def keep(q: Monitors, out: str, is_cut: bool, since: str = ''):
    """Keeps the logs of a run, what was done, and the configuration. If the logs are cut, lines before a time are left out, too."""
    shutil.rmtree(out, ignore_errors=True)
    os.makedirs(out)
    with open(os.path.join(out, 'actions.txt'), 'w', encoding='utf-8') as file:
        file.write('\n'.join(q.actions) + '\n')
    if not is_cut:
        shutil.copy(q.path('ceph.conf'), out)
    for name in q.names:
        path = q.path(f'mon.{name}.log')
        with open(os.path.join(out, f'mon.{name}.log.gz'), 'wb') as raw, gzip.GzipFile('', 'wb', 9, raw, 0) as file:
            for row in cut(path) if is_cut else rows_of(path):
                if row >= since.encode():
                    file.write(row + b'\n')
