"""Monitors on this machine: each is a process, and all keep their files in one folder."""
from __future__ import annotations

import itertools
import os
import random
import signal
import socket
import subprocess
import sys
import time

from cephmon import Client, NotServed

TOP = os.path.join(os.path.dirname(os.path.abspath(__file__)), '..')
MOST_TURNS = str(2**62)
# Seconds within which a monitor must answer after its start. A free machine takes some tenths.
STARTED = 300


def built_program() -> str:
    """The program of this repository. It is proved and built first, if it isn't built yet."""
    with open(os.path.join(TOP, 'examples', 'first.schedule'), encoding='ascii') as schedule:
        subprocess.run([os.path.join(TOP, 'cephmon'), 'replay'], stdin=schedule, stdout=subprocess.DEVNULL, check=True)
    return os.path.join(TOP, 'out', 'cephmon')


# The ports that `free_ports` returned. Whoever has one may not use it yet, or again later.
GIVEN: set[int] = set()


def own_ports() -> range:
    """Ports that the system doesn't assign by itself, so that one stays free while its monitor is down."""
    try:
        with open('/proc/sys/net/ipv4/ip_local_port_range', encoding='ascii') as file:
            first, last = map(int, file.read().split())
    except (OSError, ValueError):
        first, last = 32_768, 60_999
    return max(range(10_000, first), range(last + 1, 65_536), range(10_000, 10_000), key=len) or range(10_000, 65_536)


def free_ports(count: int) -> list[int]:
    """Ports of 127.0.0.1 that are free for datagrams and for connections, and that this process wasn't given before."""
    ports = own_ports()
    each = (port for port in random.sample(ports, len(ports)) if port not in GIVEN and is_free(port) and is_free(port, socket.SOCK_STREAM))
    found = list(itertools.islice(each, count))
    GIVEN.update(found)
    return found


def is_free(port: int, kind: socket.SocketKind = socket.SOCK_DGRAM) -> bool:
    """Whether no socket of this kind has a port of 127.0.0.1."""
    with socket.socket(socket.AF_INET, kind) as probe:
        try:
            probe.bind(('127.0.0.1', port))
        except OSError:
            return False
    return True


def answers(addresses: list[tuple[str, int]], rank: int) -> bool:
    """Whether a monitor answers a request, if only by a refusal."""
    with Client(addresses, monitor=rank, once=True) as client:
        try:
            client.show('kv')
        except NotServed as why:
            return not why.silent()
        return True


class Quorum:
    """Monitors that are started and killed by their ranks. They write no lines unless CEPHMON_LOG has another value than `off`. When the `with` block ends,
    all are killed, also if SIGTERM ends the script."""

    def __init__(self, program: str, folder: str, monitors: int = 3, rule: str = 'classic'):
        self.program, self.folder, self.rule = program, folder, rule
        self.addresses = [('127.0.0.1', port) for port in free_ports(monitors)]
        self.running = {}

    def __enter__(self) -> Quorum:
        signal.signal(signal.SIGTERM, lambda *_: sys.exit(1))
        return self

    def __exit__(self, *_):
        for process in self.running.values():
            process.kill()
            process.wait()

    def ranks(self) -> range:
        return range(len(self.addresses))

    def files(self, rank: int) -> list[str]:
        return [os.path.join(self.folder, f'store{rank}.{side}') for side in 'ab']

    def arguments(self, rank: int, turns: str = MOST_TURNS) -> list[str]:
        addresses = ','.join(f'{host}:{port}' for host, port in self.addresses)
        return [self.program, 'node', str(rank), str(len(self.addresses)), self.rule, addresses, *self.files(rank), turns]

    def start(self, rank: int):
        self.running[rank] = subprocess.Popen(self.arguments(rank), stdin=subprocess.DEVNULL, env={'CEPHMON_LOG': 'off', **os.environ})

    def start_all(self):
        """Starts all monitors, and waits until each answers or has ended."""
        for rank in self.ranks():
            self.start(rank)
        end = time.monotonic() + STARTED
        while time.monotonic() < end and not all(process.poll() is not None or answers(self.addresses, rank) for rank, process in self.running.items()):
            time.sleep(0.02)

    def kill(self, rank: int):
        """Kills a monitor with SIGKILL. If it had ended by itself, that is an error."""
        process = self.running.pop(rank)
        ended = process.poll()
        process.kill()
        process.wait()
        if ended is not None:
            raise RuntimeError(f'monitor {rank} ended by itself with status {ended}')

    def client(self, **how) -> Client:
        return Client(self.addresses, **how)

    def shown_by(self, rank: int, paxos: int, seconds: float) -> tuple[dict, dict] | None:
        """The maps of both services as one monitor shows them, once it has this version of the log of all changes; None if it hasn't in time."""
        end = time.monotonic() + seconds
        with self.client(monitor=rank, timeout=1.0) as client:
            while time.monotonic() < end:
                try:
                    keys, log = client.show('kv'), client.show('log')
                except NotServed:
                    continue
                if keys['paxos'] == log['paxos'] >= paxos:
                    return keys, log
                time.sleep(0.05)
        return None

    def serve(self, seconds: float = 40):
        """Starts all monitors, and waits until a change is made."""
        self.start_all()
        with self.client(timeout=seconds, patience=0.5) as client:
            client.log('begun')

    def ended(self) -> list[int]:
        """The monitors that ended by themselves."""
        return [rank for rank, process in self.running.items() if process.poll() is not None]

    def final(self, paxos: int, seconds: float = 60) -> list[tuple[dict, dict]] | None:
        """What each monitor shows of both services, once all show the same version of the log; None if they don't in time."""
        end = time.monotonic() + seconds
        while time.monotonic() < end:
            found = [self.shown_by(rank, paxos, 1.0) for rank in self.ranks()]
            if all(found) and len({keys['paxos'] for keys, _ in found}) == 1:
                return found
            time.sleep(0.1)
        return None
