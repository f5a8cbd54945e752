"""Runs monitors on this machine over a network that can be cut, and that loses, delays, doubles and reorders datagrams. The scripts beside this file,
checks/lossy and checks/stale_leader use it, with the clients and the judge of bench/load.py."""
from __future__ import annotations

import argparse
import collections
import multiprocessing
import os
import random
import signal
import sys
import tempfile
import time

TOP = os.path.join(os.path.dirname(os.path.abspath(__file__)), '..', '..')
sys.path[:0] = [os.path.join(TOP, 'tools'), os.path.join(TOP, 'bench')]
from load import Judge, Load  # noqa: E402
from network import Network  # noqa: E402
from quorum import MOST_TURNS, Quorum, built_program  # noqa: E402


# The faults of monitors and their network, and the most seconds of one.
OF_MONITORS, LASTS = ('kill_monitor', 'stop_monitor', 'cut', 'lose'), 8.0


class Apart(Quorum):
    """Monitors that have the ports of a network as addresses of each other."""

    def __init__(self, program, folder, monitors=3, rule='classic', seed=0):
        super().__init__(program, folder, monitors, rule)
        self.network = Network(monitors, seed)

    def __enter__(self):
        real = [port for _, port in self.addresses]
        self.process = multiprocessing.Process(target=self.network.run, args=(real,), daemon=True)
        self.process.start()
        return super().__enter__()

    def __exit__(self, *why):
        super().__exit__(*why)
        self.process.kill()
        self.process.join()

    def arguments(self, rank, turns=MOST_TURNS):
        arguments = super().arguments(rank, turns)
        own = self.addresses[rank][1]
        ports = [own if rank == other else self.network.ports[rank][other] for other in self.ranks()]
        arguments[5] = ','.join(f'127.0.0.1:{port}' for port in ports)
        return arguments


class Faults:
    """What goes wrong with monitors and their network, one thing after the other, and how often each was made."""

    def __init__(self, quorum: Apart, chance: random.Random):
        self.quorum, self.chance, self.made = quorum, chance, collections.Counter()

    def rank(self) -> int:
        return self.chance.choice(list(self.quorum.ranks()))

    def kill_monitor(self):
        rank = self.rank()
        self.quorum.kill(rank)
        time.sleep(self.chance.uniform(0, 2))
        self.quorum.start(rank)

    def stop_monitor(self):
        process = self.quorum.running[self.rank()]
        process.send_signal(signal.SIGSTOP)
        time.sleep(self.chance.uniform(0.5, 4))
        process.send_signal(signal.SIGCONT)

    def cut(self):
        self.quorum.network.part({self.rank()})
        time.sleep(self.chance.uniform(1, LASTS))
        self.quorum.network.heal()

    def lose(self):
        self.quorum.network.each(loss=0.05, doubled=0.05, late=0.05, late_by=0.5)
        time.sleep(LASTS)
        self.quorum.network.heal()

    def make(self, name: str):
        """Makes the fault of this name, and returns after its end."""
        self.made[name] += 1
        getattr(self, name)()


def arguments(about: str, seconds: float, **more):
    """Parses the arguments that each script takes: --program, --seconds, --monitors, --seed and --only. `more` has others: the default and the help of each."""
    parser = argparse.ArgumentParser(description=about, formatter_class=argparse.RawDescriptionHelpFormatter)
    parser.add_argument('--program', help='the built program (that of this repository, which is proved and built first)')
    parser.add_argument('--seconds', type=float, default=seconds, help=f'how long each network lasts ({seconds:g})')
    parser.add_argument('--monitors', type=int, default=3, help='how many monitors (3)')
    parser.add_argument('--seed', type=int, default=1, help='of what is lost and when (1)')
    parser.add_argument('--only', default='', metavar='TEXT', help='only the cases whose names have this text')
    for name, (default, what) in more.items():
        parser.add_argument(f'--{name}', type=type(default), default=default, help=f'{what} ({default})')
    asked = parser.parse_args()
    asked.program = os.path.abspath(asked.program or built_program())
    return asked


def judged(quorum, load, seconds=60):
    """The faults of a load that was stopped, and the monitors that ended."""
    answered = load.answered()
    wrong = Judge(load, quorum.final(answered[-1].version if answered else 0, seconds) or []).wrong
    return wrong + [f'monitor {rank} has ended' for rank in quorum.ended()]


def printed(name, figures, wrong):
    """Prints a line of figures, and one line per fault, eight at most. Returns whether there is a fault."""
    shown = ', '.join(f'{what} {value:.2f}' if isinstance(value, float) else f'{what} {value}' for what, value in figures.items())
    print(f'{name}: {shown}', flush=True)
    for line in wrong[:8]:
        print(f'  WRONG {line}', flush=True)
    return bool(wrong)


def folder():
    return tempfile.TemporaryDirectory()
