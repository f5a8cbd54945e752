"""Clients of Cephmon and etcd over bare sockets, which take little of the time that they measure."""
from __future__ import annotations

import os
import selectors
import socket
import struct
import sys
import time

sys.path.insert(0, os.path.join(os.path.dirname(os.path.abspath(__file__)), '..', 'tools'))
from cephmon.wire import SET, SHOW, key_field, new_number, reply_of, request_message, text_field  # noqa: E402

KEYS, MONITORS = 20, 3
# Frames of HTTP/2 by type, and the flags that matter here.
DATA, HEADERS, SETTINGS, PING, GO_AWAY, WINDOW = 0, 1, 4, 6, 7, 8
END_STREAM, ACK, END_HEADERS = 1, 1, 4
MOST_WINDOW = 2**31 - 1


class Refused(Exception):
    """A request was answered, but not served."""


class Datagrams:
    """A client of one monitor of Cephmon."""

    def __init__(self, address: tuple[str, int], patience: float):
        self.socket = socket.socket(socket.AF_INET, socket.SOCK_DGRAM)
        self.socket.settimeout(patience)
        self.socket.connect(address)
        self.number = new_number()

    def send(self, request: bytes):
        self.number += 1
        self.socket.send(request_message(MONITORS, self.number, request))

    def change(self, number: int):
        self.send(bytes([SET]) + key_field(f'k{number % KEYS}') + text_field(f'v{number}'))

    def read(self, _number: int):
        """Asks for the whole map, as Cephmon's clients do."""
        self.send(bytes([SHOW, 1]))

    def is_answered(self) -> bool:
        """Takes what has arrived. Returns whether the request was served."""
        reply = reply_of(self.socket.recv(65_536), MONITORS)
        if reply.number != self.number:
            return False
        if reply.kind not in ('Done', 'Shown'):
            raise Refused(reply.kind)
        return True


def frame(kind: int, flags: int, stream: int, payload: bytes = b'') -> bytes:
    return struct.pack('>I', len(payload))[1:] + bytes([kind, flags]) + struct.pack('>I', stream) + payload


def text(octets: bytes) -> bytes:
    return bytes([len(octets)]) + octets


def headers(method: bytes) -> bytes:
    """The header block of a call of etcd by gRPC. All fields are literals or in the static table."""
    return (b'\x83\x86\x04' + text(b'/etcdserverpb.KV/' + method) + b'\x01' + text(b'localhost') + b'\x0f\x10' + text(b'application/grpc')
            + b'\x00' + text(b'te') + text(b'trailers'))


class Calls:
    """A client of one member of etcd: gRPC over HTTP/2, one call at a time."""

    def __init__(self, address: tuple[str, int], patience: float):
        self.socket = socket.create_connection(address, timeout=patience)
        self.socket.setsockopt(socket.IPPROTO_TCP, socket.TCP_NODELAY, 1)
        self.socket.sendall(b'PRI * HTTP/2.0\r\n\r\nSM\r\n\r\n' + frame(SETTINGS, 0, 0)
                            + frame(WINDOW, 0, 0, struct.pack('>I', MOST_WINDOW - 65_535)))
        self.stream, self.rest, self.served = -1, b'', False

    def call(self, method: bytes, message: bytes):
        self.stream, self.served = self.stream + 2, False
        self.socket.sendall(frame(HEADERS, END_HEADERS, self.stream, headers(method))
                            + frame(DATA, END_STREAM, self.stream, b'\0' + struct.pack('>I', len(message)) + message))

    def change(self, number: int):
        self.call(b'Put', b'\x0a' + text(b'k%d' % (number % KEYS)) + b'\x12' + text(b'v%d' % number))

    def read(self, number: int):
        """A linearizable read of one key."""
        self.call(b'Range', b'\x0a' + text(b'k%d' % (number % KEYS)))

    def is_answered(self) -> bool:
        """Takes what has arrived. Returns whether the call was served: a call that failed ends without a message."""
        arrived = self.socket.recv(65_536)
        if not arrived:
            raise ConnectionError('closed')
        self.rest += arrived
        ended = False
        while len(self.rest) >= 9 and len(self.rest) >= 9 + (length := int.from_bytes(self.rest[:3], 'big')):
            kind, flags, stream = self.rest[3], self.rest[4], int.from_bytes(self.rest[5:9], 'big')
            payload, self.rest = self.rest[9:9 + length], self.rest[9 + length:]
            ended |= self.take(kind, flags, stream, payload)
        if ended and not self.served:
            raise Refused('a call failed')
        return ended

    def take(self, kind: int, flags: int, stream: int, payload: bytes) -> bool:
        """Takes a frame. Returns whether it ends the call."""
        if kind in (SETTINGS, PING) and not flags & ACK:
            self.socket.sendall(frame(kind, ACK, 0, payload if kind == PING else b''))
        elif kind == GO_AWAY:
            raise ConnectionError('told to go away')
        elif stream == self.stream:
            self.served |= kind == DATA and bool(payload)
            return kind in (DATA, HEADERS) and bool(flags & END_STREAM)
        return False


def waits(client, ask, number: int) -> float:
    """How long a request takes, in seconds."""
    began = time.perf_counter()
    ask(number)
    while not client.is_answered():
        pass
    return time.perf_counter() - began


def many(clients: list, seconds: float) -> list[float]:
    """How long changes take that these clients make for so long, each one after the other."""
    times, begun, end = [], {}, time.perf_counter() + seconds
    with selectors.DefaultSelector() as selector:
        for number, client in enumerate(clients):
            selector.register(client.socket, selectors.EVENT_READ, client)
            begun[client] = time.perf_counter()
            client.change(number)
        while begun:
            ready = selector.select(20)
            if not ready:
                raise Refused('a change has no answer for 20 seconds')
            for key, _ in ready:
                client = key.data
                if client.is_answered():
                    now = time.perf_counter()
                    times.append(now - begun.pop(client))
                    if now < end:
                        begun[client] = now
                        client.change(len(times))
    return times
