"""Makes datagrams that a monitor must ignore, and a network that sends them beside the real ones. The script `garbled` uses it."""
from __future__ import annotations

import collections
import multiprocessing
import random
import socket
import threading
import time

from apart import Network
from cephmon.wire import FRAME, FRAME_HEADER, MOST_DATAGRAM, REQUEST, framed, request_message, text_field, unframed

# The number of real datagrams per way that are kept to be garbled.
SHOWN = 200
# The kinds that no message has.
NO_KINDS = [0, *range(26, 256)]
STRANGERS = 32
HOWS = 'drawn by a stranger', 'drawn by a peer', 'cut by a stranger', 'cut by a peer', 'changed by a stranger', 'changed by a peer'


class Garbler:
    """Makes datagrams from real ones. A datagram of a peer gets a changed byte only if no message or frame has that byte there: a monitor believes its peers,
    and would take a message with other contents as theirs."""

    def __init__(self, seed: int, monitors: int, more=()):
        self.chance, self.monitors = random.Random(seed), monitors
        self.shown = collections.defaultdict(lambda: collections.deque(maxlen=SHOWN))
        # Strangers also send prefixes of these, which change nothing.
        self.asked = [request_message(monitors, 1, b'\1\1k' + text_field('v')), *more]

    def show(self, i, j, datagram):
        self.shown[i, j].append(datagram)

    def real(self, i, j):
        shown = self.shown[i, j]
        return self.chance.choice(shown) if shown else framed(b'', bytes(8))

    def drawn(self, i, j, is_peer):
        """Random bytes. Half of them begin as a frame, a message or a piece does. Those of a peer have its quorum's frame or no frame."""
        chance = self.chance
        length = chance.choice([chance.randrange(4), chance.randrange(40), chance.randrange(600)])
        if chance.random() < 0.002:
            length = chance.choice([MOST_DATAGRAM - 1, MOST_DATAGRAM, MOST_DATAGRAM + 1])
        octets = bytearray(chance.randbytes(length))
        if octets and chance.random() < 0.5:
            octets[0] = chance.choice([1, 2, FRAME])
        if is_peer and octets and chance.random() < 0.5:
            # A random message might be well-formed, but no monitor has this number.
            octets[2:3] = bytes([self.monitors])
            return framed(bytes(octets), unframed(self.real(i, j))[0] or bytes(8))
        return bytes(octets)

    def cut(self, i, j, is_peer):
        datagram = self.real(i, j)
        if not is_peer and self.chance.random() < 0.1:
            datagram = self.chance.choice(self.asked)
        return datagram[:self.chance.randrange(len(datagram))]

    def changed(self, i, j, is_peer):
        """A real datagram with a changed byte. For a stranger that is any byte."""
        octets = bytearray(self.real(i, j))
        at = self.chance.randrange(min(len(octets), FRAME_HEADER + 4) if is_peer else len(octets))
        other = (octets[at] + self.chance.randrange(1, 256)) % 256
        if is_peer and at == FRAME_HEADER + 1:
            other = self.chance.choice(NO_KINDS)
        octets[at] = other
        if octets[:1] == b'\1' and octets[1:2] == bytes([REQUEST]):
            octets[3] = 0
        return bytes(octets)

    def made(self, how, i, j):
        what, _, who = how.partition(' by a ')
        return getattr(self, what)(i, j, who == 'peer')


class GarbledNetwork(Network):
    """A network that also sends noise to the monitors, half of it random bytes: from addresses of strangers, and from the addresses of each monitor's
    peers."""

    def __init__(self, monitors: int, seed: int, count: int, pace: float, more=()):
        super().__init__(monitors, seed)
        self.count, self.pace, self.garbler = count, pace, Garbler(seed, monitors, more)
        self.begins, self.sent = multiprocessing.Event(), multiprocessing.Array('q', len(HOWS), lock=False)

    def run(self, real):
        threading.Thread(target=self.garble, daemon=True).start()
        super().run(real)

    def hand(self, i, j, datagram):
        self.garbler.show(i, j, datagram)
        super().hand(i, j, datagram)

    def garble(self):
        self.begins.wait()
        strangers = [socket.socket(socket.AF_INET, socket.SOCK_DGRAM) for _ in range(STRANGERS)]
        chance, began, ways = self.garbler.chance, time.monotonic(), self.ways()
        for number in range(self.count):
            i, j = chance.choice(ways)
            how = chance.randrange(2) if chance.random() < 0.5 else chance.randrange(2, len(HOWS))
            here = self.sockets[j, i] if HOWS[how].endswith('peer') else chance.choice(strangers)
            try:
                here.sendto(self.garbler.made(HOWS[how], i, j), ('127.0.0.1', self.real[j]))
            except OSError:
                # The socket is full: the datagram is lost.
                pass
            self.sent[how] += 1
            ahead = number / self.pace - (time.monotonic() - began)
            if ahead > 0.001:
                time.sleep(ahead)

    def done(self):
        return sum(self.sent)
