"""The tools of the microscope, run one call after the other without reading the definitions anew for each."""
from __future__ import annotations

import functools
import os
import runpy
import signal
import subprocess
import sys
import tempfile
import traceback

from checking import LONG, TOP

MICROSCOPE = os.path.join(TOP, 'microscope')
sys.path.insert(0, MICROSCOPE)
# A run in which three monitors elect a leader, and a change is done.
FIRST = 'monitors 3 classic\nat 0 start all\nat 6000 client 0 1 1 set a x\nuntil 7000\n'
# The tools that were called before.
CALLED: set[str] = set()


def tool(name: str, text: bytes, *words: str, seconds: int = 2 * LONG) -> tuple[int, bytes, str]:
    """The status, output and errors of a tool for this standard input. Its first call begins as the reader's does, with nothing read. Each later one is a fork
    of this process, which has read the definitions once."""
    if name not in CALLED:
        CALLED.add(name)
        done = subprocess.run([os.path.join(MICROSCOPE, name), *words], input=text, stdout=subprocess.PIPE, stderr=subprocess.PIPE, timeout=seconds)
        return done.returncode, done.stdout, done.stderr.decode()
    read_definitions()
    with tempfile.TemporaryFile() as given, tempfile.TemporaryFile() as output, tempfile.TemporaryFile() as errors:
        given.write(text)
        given.seek(0)
        process = os.fork()
        if process == 0:
            become([os.path.join(MICROSCOPE, name), *words], [file.fileno() for file in (given, output, errors)], seconds)
        status = os.waitstatus_to_exitcode(os.waitpid(process, 0)[1])
        if status == -signal.SIGALRM:
            raise subprocess.TimeoutExpired(name, seconds)
        output.seek(0)
        errors.seek(0)
        return status, output.read(), errors.read().decode()


@functools.lru_cache(maxsize=1)
def read_definitions() -> None:
    """Reads and writes the definitions that a run needs, and keeps nothing else of a run."""
    from simulation import Scenario, Simulation
    import loaded
    Simulation(Scenario(FIRST.split('\n'))).run()
    loaded.forget()
    loaded.drops().clear()


def become(words: list[str], streams: list[int], seconds: int) -> None:
    """Runs a script in this process, with these arguments and standard streams, and ends as it does."""
    signal.alarm(seconds)
    for place, stream in enumerate(streams):
        os.dup2(stream, place)
    sys.argv, status = words, 0
    try:
        runpy.run_path(words[0], run_name='__main__')
    except SystemExit as why:
        status = why.code if isinstance(why.code, int) else 0 if why.code is None else 1
        if isinstance(why.code, str):
            print(why.code, file=sys.stderr)
    except BaseException:
        traceback.print_exc()
        status = 1
    for file in (sys.stdout, sys.stderr):
        file.flush()
    os._exit(status)
