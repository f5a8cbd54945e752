"""A network among monitors of this machine that can be cut, and that loses, delays, doubles and reorders datagrams, for `lab` and for the scripts of
bench/hostile."""
from __future__ import annotations

import heapq
import multiprocessing
import os
import random
import selectors
import socket
import time
from typing import Callable

from quorum import free_ports
from cephmon.wire import MOST_MONITORS

# The settings of a *way* from one monitor to another: whether it is cut; the chances that a datagram is lost, doubled or late; the seconds that each
# datagram takes, the most random seconds in addition, and the seconds that a late one takes in addition.
SETTINGS = 'cut', 'loss', 'doubled', 'late', 'delay', 'spread', 'late_by'
ROOM = 4 << 20


def bound(port):
    found = socket.socket(socket.AF_INET, socket.SOCK_DGRAM)
    found.setsockopt(socket.SOL_SOCKET, socket.SO_RCVBUF, ROOM)
    found.setblocking(False)
    found.bind(('127.0.0.1', port))
    return found


class Network:
    """Takes the datagrams that monitor i sends to its port for monitor j, and sends them to j from the port that j has for i."""

    def __init__(self, monitors: int, seed: int, ports: list[list[int]] | None = None):
        """`ports[i][j]` is the port to which monitor i sends what is for monitor j. They are free ones unless they are given."""
        self.monitors, self.seed = monitors, seed
        free = [] if ports else free_ports(monitors * monitors)
        self.ports = ports or [free[i * monitors:(i + 1) * monitors] for i in range(monitors)]
        self.shared = multiprocessing.Array('d', len(SETTINGS) * MOST_MONITORS**2, lock=False)

    def place(self, i, j, name):
        return (i * MOST_MONITORS + j) * len(SETTINGS) + SETTINGS.index(name)

    def ways(self):
        return [(i, j) for i in range(self.monitors) for j in range(self.monitors) if i != j]

    def each(self, ways=None, **settings):
        for i, j in self.ways() if ways is None else ways:
            for name, value in settings.items():
                self.shared[self.place(i, j, name)] = value

    def heal(self):
        self.each(**dict.fromkeys(SETTINGS, 0.0))

    def part(self, group):
        """Cuts these monitors off from the others, in both directions."""
        self.each(cut=0.0)
        self.each([(i, j) for i, j in self.ways() if (i in group) != (j in group)], cut=1.0)

    def run(self, real, goes_on: Callable[[], bool] | None = None):
        """Is the network of monitors that have these ports, as long as the process that started this one is there. If `goes_on` is given, it is asked five
        times per second or more often instead."""
        self.real, self.chance, self.held, self.order = real, random.Random(self.seed), [], 0
        self.sockets = {(i, j): bound(self.ports[i][j]) for i, j in self.ways()}
        # epoll and poll wait for whole milliseconds, so that what is to be late by less comes late by one or two.
        with selectors.SelectSelector() as selector:
            for way, each in self.sockets.items():
                selector.register(each, selectors.EVENT_READ, way)
            parent = os.getppid()
            while goes_on() if goes_on else os.getppid() == parent:
                rest = 0.2 if not self.held else min(0.2, max(0.0, self.held[0][0] - time.monotonic()))
                for key, _ in selector.select(rest):
                    self.take(key.fileobj, *key.data)
                while self.held and self.held[0][0] <= time.monotonic():
                    self.hand(*heapq.heappop(self.held)[2:])

    def take(self, here, i, j):
        for _ in range(32):
            try:
                datagram, peer = here.recvfrom(65_536)
            except OSError:
                return
            at = self.place(i, j, 'cut')
            cut, loss, doubled, late, delay, spread, late_by = self.shared[at:at + len(SETTINGS)]
            if peer[1] != self.real[i] or cut or self.chance.random() < loss:
                continue
            for _ in range(2 if self.chance.random() < doubled else 1):
                wait = delay + spread * self.chance.random() + (late_by if self.chance.random() < late else 0.0)
                self.order += 1
                if wait:
                    heapq.heappush(self.held, (time.monotonic() + wait, self.order, i, j, datagram))
                else:
                    self.hand(i, j, datagram)

    def hand(self, i, j, datagram):
        try:
            self.sockets[j, i].sendto(datagram, ('127.0.0.1', self.real[j]))
        except OSError:
            # A datagram that can't be sent on is lost.
            pass
