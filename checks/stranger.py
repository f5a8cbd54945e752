"""A stranger on a network, without a key of the tunnel. checks/network calls it within a network namespace of its own.

usage: checks/stranger.py record INTERFACE FILE            writes each frame that passes, with its length in 4 bytes before it, until standard input ends
       checks/stranger.py repeat INTERFACE FILE            sends these frames again
       checks/stranger.py forge FROM TO NAME MONITORS RANK EPOCH
                                                           sends a call for an election, as the monitor of this rank would, from one HOST:PORT to another
"""
import select
import socket
import struct
import sys

import checking  # noqa: F401, adds the folder of the next one
from cephmon.wire import framed, number_field, tag_of

ALL_FRAMES, PROPOSE = 3, 3


def record(interface, path):
    with socket.socket(socket.AF_PACKET, socket.SOCK_RAW, socket.htons(ALL_FRAMES)) as link, open(path, 'wb') as file:
        link.bind((interface, 0))
        # Promiscuous mode receives all frames of the wire.
        link.setsockopt(263, 1, struct.pack('iHH8s', socket.if_nametoindex(interface), 1, 0, b''))
        print('recording', flush=True)
        while link in (ready := select.select([link, sys.stdin], [], [])[0]) or not ready:
            frame = link.recv(65_536)
            file.write(struct.pack('<I', len(frame)) + frame)


def frames(path):
    with open(path, 'rb') as file:
        octets = file.read()
    at = 0
    while at < len(octets):
        length = int.from_bytes(octets[at:at + 4], 'little')
        yield octets[at + 4:at + 4 + length]
        at += 4 + length


def repeat(interface, path):
    with socket.socket(socket.AF_PACKET, socket.SOCK_RAW) as link:
        link.bind((interface, 0))
        for frame in frames(path):
            try:
                link.send(frame)
            except OSError:
                # The frame is longer than this interface can send.
                continue


def address(word):
    host, _, port = word.rpartition(':')
    return host, int(port)


def forge(source, target, name, monitors, rank, epoch):
    message = bytes([1, PROPOSE, int(rank), int(monitors)]) + number_field(int(epoch)) + b'\0'
    with socket.socket(socket.AF_INET, socket.SOCK_DGRAM) as link:
        link.bind(address(source))
        link.sendto(framed(message, tag_of(name, int(monitors), 'classic')), address(target))


if __name__ == '__main__':
    {'record': record, 'repeat': repeat, 'forge': forge}[sys.argv[1]](*sys.argv[2:])
