"""A relay between clients and monitors that loses datagrams."""
from __future__ import annotations

import random
import selectors
import socket
import threading
import time

from quorum import free_ports

Address = tuple[str, int]
# Seconds without a datagram after which a client is forgotten.
IDLE = 60.0


class Relay(threading.Thread):
    """Has a port for each monitor. It passes on what clients send there and what the monitor replies, and loses a datagram by the chance `loss`. `asked` has
    the times at which clients sent."""

    def __init__(self, addresses: list[Address], loss: float, seed: int):
        super().__init__(daemon=True)
        self.loss, self.chance, self.asked, self.ends = loss, random.Random(seed), [], threading.Event()
        self.ports = free_ports(len(addresses))
        self.monitors = {self.bound(port): address for port, address in zip(self.ports, addresses)}
        # The socket at which a monitor replies to a client, by the socket of the monitor's port and the client; these two by that socket; and when it was
        # used.
        self.replies: dict[tuple[socket.socket, Address], socket.socket] = {}
        self.clients: dict[socket.socket, tuple[socket.socket, Address]] = {}
        self.used: dict[socket.socket, float] = {}
        self.selector = selectors.DefaultSelector()
        for here in self.monitors:
            self.selector.register(here, selectors.EVENT_READ)
        self.start()

    @staticmethod
    def bound(port: int) -> socket.socket:
        found = socket.socket(socket.AF_INET, socket.SOCK_DGRAM)
        found.setsockopt(socket.SOL_SOCKET, socket.SO_RCVBUF, 4 << 20)
        found.bind(('127.0.0.1', port))
        return found

    def run(self):
        while not self.ends.is_set():
            for key, _ in self.selector.select(0.2):
                self.take(key.fileobj)

    def take(self, here: socket.socket):
        if here not in self.monitors and here not in self.clients:
            return
        datagram, peer = here.recvfrom(65_536)
        if here in self.monitors:
            self.asked.append(time.monotonic())
            self.hand(self.reply(here, peer), datagram, self.monitors[here])
        else:
            there, client = self.clients[here]
            self.hand(there, datagram, client)

    def reply(self, here: socket.socket, client: Address) -> socket.socket:
        if (here, client) not in self.replies:
            self.forget()
            found = self.replies[here, client] = self.bound(0)
            self.clients[found] = here, client
            self.selector.register(found, selectors.EVENT_READ)
        found = self.replies[here, client]
        self.used[found] = time.monotonic()
        return found

    def forget(self):
        """Closes the sockets of clients that are silent: a program that asks from a new port each time would use up all descriptors."""
        for found in [found for found, used in self.used.items() if used < time.monotonic() - IDLE]:
            self.selector.unregister(found)
            del self.replies[self.clients.pop(found)], self.used[found]
            found.close()

    def hand(self, there: socket.socket, datagram: bytes, to: Address):
        if self.chance.random() >= self.loss:
            there.sendto(datagram, to)

    def most_in_a_second(self) -> int:
        """The most datagrams of clients within less than 0.95 seconds."""
        return max((sum(began <= other < began + 0.95 for other in self.asked) for began in self.asked), default=0)
