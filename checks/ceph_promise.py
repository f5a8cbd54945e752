"""Checks of the forgotten promise: the judge names it in logs of real monitors, and the same schedule is unsafe in the model under that rule, and safe under the true one.
Also of the other forms that Ceph has: each of them fits the definitions."""
from __future__ import annotations

import glob
import os
import re
import subprocess

from ceph_texts import paths, scenarios
from checking import TOP, Failed, equal, read

SCENARIO = 'microscope', 'scenarios', 'forgotten_promise.scenario'
# The keys of the two values of version 764, as a map shows them: the one that was acknowledged, and the other one.
ACKED, OTHER = b'"acked":"of_0"', b'"disputed":"of_1"'


def judge_names_it(scenario: str):
    from ceph_log.judging import judged
    from ceph_log.quorum import Quorum
    failed = [clause.title for clause in judged(Quorum(paths(scenario))) if clause.failed]
    equal(failed, ['Agreement', 'Promises', 'Durability'], scenario)


def is_played(is_kept: bool, *words: str):
    """The same schedule in the model, under the changed rule or the true one."""
    tool = os.path.join(TOP, 'microscope', 'simulate')
    done = subprocess.run([tool, '--trace', *words], input=read(*SCENARIO), stdout=subprocess.PIPE, stderr=subprocess.PIPE, timeout=1800)
    equal((done.returncode, b'the run is safe' in done.stderr), (0, is_kept), done.stderr)
    shown = re.findall(rb'^  reply ([012]) [34]\.1 shown kv \S+ \S+ \{(\S+),', done.stdout, re.MULTILINE)
    lost = [(b'1', OTHER), (b'0', ACKED), (b'1', OTHER), (b'2', OTHER)]
    equal(shown, [(rank, ACKED) for rank, _ in lost] if is_kept else lost)
    equal(re.findall(rb'^  reply 0 2\.1 (.*)$', done.stdout, re.MULTILINE), [b'done 764'])


def form_fits(path: str):
    """A form of Ceph changes texts that stand once in the definitions, and docs/CEPH.md has its row."""
    import rules
    from antt import Fault
    form = rules.of_patch(path)
    try:
        rules.take(form)
    except Fault as why:
        raise Failed(why.what) from None
    finally:
        rules.take(None)
    name = os.path.basename(path)[:-len('.edit')]
    equal(f'\n| `{name}` | ' in read('docs', 'CEPH.md').decode(), True, f'docs/CEPH.md has no row of {name}')


def checks_of_the_promise(check):
    for path in sorted(glob.glob(os.path.join(TOP, 'bench', 'ceph', 'forms', '*.edit'))):
        check(f'the form {os.path.basename(path)} fits the definitions', form_fits, path)
    for scenario in scenarios():
        if scenario.endswith('_promise'):
            check(f'the judge names the forgotten promise in {scenario}', judge_names_it, scenario)
    check('under the rule forgotten_promise the same schedule loses the key in the model', is_played, False, '--rule', 'forgotten_promise', '--long-log')
    check('under the true rule the same schedule keeps the key', is_played, True)
