"""A monitor that is alone in its quorum, for the checks that need a real store or a real link."""
import contextlib
import subprocess

from checking import PATIENT, until
from cephmon import Client
from quorum import MOST_TURNS, answers, free_ports


def await_monitor(port):
    """Waits until the monitor answers anything, so that no change is sent twice."""
    until(lambda: answers([('127.0.0.1', port)], 0), lambda found: found, 'the monitor answers')


@contextlib.contextmanager
def serving(program, files):
    """Runs a monitor on these files and kills it at the end. Yields a client of it, and its address."""
    port = free_ports(1)[0]
    running = subprocess.Popen([program.path, 'node', '0', '1', 'classic', f'127.0.0.1:{port}', *files, MOST_TURNS], stdin=subprocess.DEVNULL)
    try:
        await_monitor(port)
        with Client([('127.0.0.1', port)], **PATIENT) as client:
            yield client, f'127.0.0.1:{port}'
    finally:
        running.kill()
        running.wait()
