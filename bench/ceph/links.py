"""The links between monitors: a proxy for each ordered pair, which holds, delays or passes on what goes in either direction."""
from __future__ import annotations

import collections
import os
import selectors
import socket
import subprocess
import threading
import time

HERE = os.path.dirname(os.path.abspath(__file__))
BLOCK = 65_536


def library(folder: str) -> str:
    """Compiles the library that sends a monitor's connections through the proxies and slows its syncs. Raises OSError without a compiler."""
    path = os.path.join(folder, 'apart.so')
    done = subprocess.run(['cc', '-shared', '-fPIC', '-O1', '-o', path, os.path.join(HERE, 'apart.c'), '-ldl'], stderr=subprocess.PIPE)
    if done.returncode != 0:
        raise OSError(done.stderr.decode())
    return path


class Flow:
    """One direction of a connection: what was read of it waits until its time."""

    def __init__(self, source: socket.socket, sink: socket.socket, direction: tuple[str, str]):
        self.source, self.sink, self.direction = source, sink, direction
        self.waiting: collections.deque[tuple[float, bytes]] = collections.deque()
        self.is_ended = False


class Links:
    """The proxies of a quorum. Directions are pairs of names."""

    def __init__(self, ports: dict[str, int], first: int):
        self.ports = ports
        pairs = [(a, b) for a in ports for b in ports if a != b]
        self.proxies = {pair: first + at for at, pair in enumerate(pairs)}
        self.delays: dict[tuple[str, str], float] = {}
        self.held: set[tuple[str, str]] = set()
        self.flows: list[Flow] = []
        self.is_open = True
        self.selector = selectors.DefaultSelector()
        self.listeners = [socket.create_server(('127.0.0.1', port)) for port in self.proxies.values()]
        for listener, pair in zip(self.listeners, self.proxies):
            listener.setblocking(False)
            self.selector.register(listener, selectors.EVENT_READ, pair)
        self.thread = threading.Thread(target=self.run, daemon=True)
        self.thread.start()

    def of(self, name: str) -> str:
        """The pairs of ports for APART_PORTS of a monitor."""
        return ','.join(f'{self.ports[to]}={port}' for (source, to), port in self.proxies.items() if source == name)

    def hold(self, *directions: tuple[str, str]):
        """Holds what goes in these directions, on connections of both sides."""
        self.held |= set(directions)

    def free(self, *directions: tuple[str, str]):
        """Passes on what was held and what comes."""
        self.held -= set(directions)

    def delay(self, seconds: float, *directions: tuple[str, str]):
        for direction in directions:
            self.delays[direction] = seconds

    # -- the proxies

    def run(self):
        while self.is_open:
            for key, _ in self.selector.select(0.002 if any(flow.waiting for flow in self.flows) else 0.02):
                if isinstance(key.data, Flow):
                    self.read(key.data)
                else:
                    self.accept(key.fileobj, key.data)
            for flow in list(self.flows):
                self.write(flow)

    def accept(self, listener: socket.socket, pair: tuple[str, str]):
        near, _ = listener.accept()
        try:
            far = socket.create_connection(('127.0.0.1', self.ports[pair[1]]), 5)
        except OSError:
            near.close()
            return
        for source, sink, direction in ((near, far, pair), (far, near, pair[::-1])):
            source.setsockopt(socket.IPPROTO_TCP, socket.TCP_NODELAY, 1)
            flow = Flow(source, sink, direction)
            self.flows.append(flow)
            self.selector.register(source, selectors.EVENT_READ, flow)

    def read(self, flow: Flow):
        try:
            octets = flow.source.recv(BLOCK)
        except OSError:
            octets = b''
        if octets:
            flow.waiting.append((time.monotonic() + self.delays.get(flow.direction, 0), octets))
        else:
            self.selector.unregister(flow.source)
            flow.is_ended = True

    def write(self, flow: Flow):
        try:
            while flow.waiting and flow.direction not in self.held and flow.waiting[0][0] <= time.monotonic():
                flow.sink.sendall(flow.waiting.popleft()[1])
        except OSError:
            flow.is_ended = True
            flow.waiting.clear()
        if flow.is_ended and not flow.waiting:
            self.flows.remove(flow)
            for end in (flow.source, flow.sink):
                try:
                    end.shutdown(socket.SHUT_RDWR)
                except OSError:
                    pass

    def close(self):
        """Closes the proxies and what goes through them."""
        self.is_open = False
        self.thread.join(10)
        for end in [*self.listeners, *(end for flow in self.flows for end in (flow.source, flow.sink))]:
            end.close()
        self.selector.close()
