"""What the checks of this folder share: how a check is named, run and reported, and how the built program is run.

A script of this folder is called as checks/NAME [--only TEXT] PROGRAM. It prints a line for each check, and its status is 0 if and only if none
failed. --only takes the checks whose names have the text, of which there must be one.
"""
from __future__ import annotations

import argparse
import os
import re
import shutil
import subprocess
import sys
import tempfile
import time
import traceback
from typing import Callable, TypeVar

TOP = os.path.dirname(os.path.dirname(os.path.abspath(__file__)))
EXAMPLES, TOOLS = os.path.join(TOP, 'examples'), os.path.join(TOP, 'tools')
sys.path[:0] = [TOOLS, os.path.join(TOP, 'bench')]
# What the caller's environment says of a quorum is no part of a check.
for variable in [name for name in os.environ if name.startswith('CEPHMON_')]:
    del os.environ[variable]
# Seconds within which anything must have happened. A free machine takes a small part of them, and a loaded one may take most.
LONG = 300
# How clients ask, as arguments of Client and of the command. The seconds of a try suffice on a slow machine, so that no change is asked for twice.
PATIENT = {'timeout': LONG, 'patience': 30}
PATIENTLY = ['--timeout', str(LONG), '--patience', '30']
# Lines that `node` and `follow` write on standard error because of the machine or of other monitors: the pattern of each line. Lines of a `node` begin with
# the milliseconds since its start.
ROOM = rb'(?:\d+ ms: )?link: room for \d+ bytes, less than a long message takes: raise net\.core\.rmem_max\n'
SEEN = rb'\d+ ms: [^\n]*\n'
ASIDE = re.compile(b'^(?:' + b'|'.join([ROOM, SEEN]) + b')', re.MULTILINE)


class Failed(Exception):
    """A check failed, for this reason."""


class Skipped(Exception):
    """A check can't run on this machine, for this reason."""


def needs(tool: str):
    """Skips the check if this machine doesn't have a tool."""
    if shutil.which(tool) is None:
        raise Skipped(f'there is no {tool}')


def faults_of_unit(unit: str) -> list[str]:
    """What systemd finds in a unit. It also reads units of this machine, whose faults are no part of a check."""
    needs('systemd-analyze')
    done = subprocess.run(['systemd-analyze', 'verify', unit], stdin=subprocess.DEVNULL, stdout=subprocess.PIPE, stderr=subprocess.STDOUT)
    lines = done.stdout.decode().splitlines()
    found = [line for line in lines if 'cephmon' in line]
    if done.returncode and not found:
        raise Skipped(f'systemd-analyze ends with {done.returncode}, and says {lines[:1]}')
    return found


Found = TypeVar('Found')


def until(look: Callable[[], Found], holds: Callable[[Found], bool], what: str = '') -> Found:
    """Looks again and again until what is found is as it should be, and returns that. Fails if it isn't in time."""
    end = time.monotonic() + LONG
    while not holds(found := look()):
        if time.monotonic() > end:
            raise Failed(f'{what}: ' * bool(what) + f'after {LONG} s still {shortened(found)}')
        time.sleep(0.05)
    return found


def without_asides(errors: bytes) -> bytes:
    """The standard error of a `node` or a `follow`, without the lines that depend on the machine or on other monitors."""
    return ASIDE.sub(b'', errors)


def equal(found, wanted, what=''):
    """Fails unless the two are equal."""
    if found != wanted:
        raise Failed(f'{what}: ' * bool(what) + f'found {shortened(found)}, wanted {shortened(wanted)}')


def shortened(value) -> str:
    text = repr(value)
    return text if len(text) <= 300 else f'{text[:200]} .. {text[-80:]}'


def same_text(found: bytes, wanted: bytes, what=''):
    """Fails at the first line in which the two differ."""
    if found != wanted:
        lines, others = found.split(b'\n'), wanted.split(b'\n')
        at = next((at for at, pair in enumerate(zip(lines, others)) if pair[0] != pair[1]), min(len(lines), len(others)))
        raise Failed(f'{what}: ' * bool(what) + f'line {at + 1}: found {lines[at:at + 1]}, wanted {others[at:at + 1]}')


class Checks:
    """Runs checks, one after the other, and prints one line per check."""

    def __init__(self, only: str | None):
        self.only, self.passed, self.failed, self.skipped = only, 0, 0, 0

    def takes(self, name: str) -> bool:
        """Whether the check of this name is run."""
        return self.only is None or self.only in name

    def __call__(self, name: str, check, *words):
        """Runs a check, which fails if it raises anything but Skipped, or returns False."""
        if not self.takes(name):
            return
        try:
            good, why = check(*words) is not False, ''
        except Skipped as reason:
            self.skipped += 1
            print(f'skipped: {name}: {reason}', flush=True)
            return
        except (Failed, OSError, subprocess.SubprocessError) as error:
            good, why = False, str(error)
        except Exception:
            good, why = False, traceback.format_exc()
        self.passed += good
        self.failed += not good
        print(f'ok: {name}' if good else f'FAILED: {name}' + f'\n    {why}' * bool(why), flush=True)

    def status(self) -> int:
        if self.passed + self.failed + self.skipped == 0:
            print(f'FAILED: no check is named {self.only}', flush=True)
            return 1
        return 1 if self.failed else 0


class Ended:
    """How a call of the program ended."""

    def __init__(self, status: int, output: bytes, errors: bytes):
        self.status, self.output, self.errors = status, output, errors


class Program:
    """The built program, and a folder for its files."""

    def __init__(self, path: str, room: str):
        self.path, self.room = os.path.abspath(path), room

    def run(self, *words, schedule=b'', **how) -> Ended:
        """Runs the program on these arguments and this standard input."""
        done = subprocess.run([self.path, *words], input=schedule, stdout=subprocess.PIPE, stderr=subprocess.PIPE, timeout=LONG, **how)
        has_socket = words[:1] in (('node',), ('follow',))
        return Ended(done.returncode, done.stdout, without_asides(done.stderr) if has_socket else done.stderr)

    def ended(self, running: subprocess.Popen) -> Ended:
        """Waits until a `node` or a `follow` that was started before ends. Fails if it doesn't in time."""
        output, errors = running.communicate(timeout=LONG)
        return Ended(running.returncode, output or b'', without_asides(errors))

    def replay(self, schedule: bytes) -> bytes:
        """The trace of a schedule, which must be replayed to its end."""
        ended = self.run('replay', schedule=schedule)
        equal((ended.status, ended.errors), (0, b''))
        return ended.output

    def ends(self, status: int, text: str, *words, **how):
        """Fails unless the program ends with this status, this text on standard error and nothing on standard output."""
        ended = self.run(*words, **how)
        equal((ended.status, ended.errors, ended.output), (status, (text + '\n').encode(), b''), ' '.join(map(shown, words))[:80])

    def file(self, name: str) -> str:
        return os.path.join(self.room, name)

    def write(self, name: str, octets: bytes) -> str:
        path = self.file(name)
        with open(path, 'wb') as file:
            file.write(octets)
        return path


def shown(word) -> str:
    return word if isinstance(word, str) else repr(word)


def read(*names: str) -> bytes:
    """A file of this repository, or one by its whole path."""
    with open(os.path.join(TOP, *names), 'rb') as file:
        return file.read()


def main(text: str, checks) -> int:
    """Calls `checks` with a function that runs a check, and with the program if the script's text has the word PROGRAM. Returns the exit
    status."""
    wants = 'PROGRAM' in text
    parser = argparse.ArgumentParser(description=text, formatter_class=argparse.RawDescriptionHelpFormatter)
    parser.add_argument('--only', metavar='TEXT', help='only the checks whose names have this text')
    parser.add_argument('program', metavar='PROGRAM', nargs=None if wants else '?', help='the built program' if wants else 'not needed')
    words = parser.parse_args()
    check = Checks(words.only)
    with tempfile.TemporaryDirectory(prefix='checks.') as room:
        if wants and not os.access(words.program, os.X_OK):
            parser.error(f'{words.program} is no program')
        checks(check, *([Program(words.program, room)] if wants else []))
    return check.status()
