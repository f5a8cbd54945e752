"""What a power cut may leave of a monitor's two files: images that are made of the writes and syncs which a monitor was seen to make.

writes.c, which `cc` compiles, records them. docs/FORMATS.md says what may become of a write that isn't synced.
"""
from __future__ import annotations

import os
import random
import struct
import subprocess
from collections.abc import Iterator

from stopped import export_of
from store import ROOM, generation, payloads, play

HEADER = struct.Struct('<ccQI')
Files = dict[str, bytearray]


class Call:
    """A write, or a sync if it has no bytes."""

    def __init__(self, side: str, at: int, octets: bytes | None):
        self.side, self.at, self.octets = side, at, octets

    def end(self) -> int:
        return self.at + len(self.octets or b'')

    def is_room(self, length: int) -> bool:
        """Whether these are zeros that only make a file of this length longer."""
        return self.octets is not None and self.at == length and self.end() % ROOM == 0 and not any(self.octets)


def library(folder: str) -> str:
    """The recorder, compiled into this folder."""
    made = os.path.join(folder, 'writes.so')
    source = os.path.join(os.path.dirname(os.path.abspath(__file__)), 'writes.c')
    subprocess.run(['cc', '-shared', '-fPIC', '-O1', '-Wall', '-Werror', '-o', made, source, '-ldl'], check=True)
    return made


def calls_of(path: str) -> list[Call]:
    """The calls of a record."""
    with open(path, 'rb') as file:
        octets = file.read()
    calls, at = [], 0
    while at + HEADER.size <= len(octets):
        what, side, place, length = HEADER.unpack_from(octets, at)
        at += HEADER.size
        calls.append(Call(side.decode(), place, octets[at:at + length] if what == b'W' else None))
        at += length
    return calls


def write(file: bytearray, at: int, octets: bytes):
    """Writes into a file. Zeros fill a gap before the write."""
    file.extend(bytes(max(0, at - len(file))))
    file[at:at + len(octets)] = octets


def map_of(files: Files) -> dict:
    """The map that two files hold."""
    kv = {}
    for payload in payloads(bytes(max(files.values(), key=generation))):
        play(kv, payload)
    return kv


class Cut:
    """What is on the disks after some calls: what was synced, the writes since, and what a read returns."""

    def __init__(self):
        self.synced: Files = {'a': bytearray(), 'b': bytearray()}
        self.seen: Files = {'a': bytearray(), 'b': bytearray()}
        self.pending: dict[str, list[Call]] = {'a': [], 'b': []}

    def make(self, call: Call):
        if call.octets is None:
            self.synced[call.side], self.pending[call.side] = bytearray(self.seen[call.side]), []
        else:
            self.pending[call.side].append(call)
            write(self.seen[call.side], call.at, call.octets)

    def image(self, chance: random.Random) -> Files:
        """Files that a power cut may leave now."""
        image = {side: bytearray(file) for side, file in self.synced.items()}
        for side, calls in self.pending.items():
            for call in calls:
                tear(chance, image[side], call)
        return image

    def maps(self) -> list[dict]:
        """The maps that an image may hold: that of the synced files, and that after the writes since."""
        return [map_of(self.synced), map_of(self.seen)]


def tear(chance: random.Random, file: bytearray, call: Call):
    """Makes a write as a power cut may leave it: any bytes in its range, and a length between that before and that after. Of a byte inside the file it leaves
    the old one, the new one or any but 1."""
    if len(call.octets) == 1 and call.at < len(file):
        file[call.at] = chance.choice([file[call.at], call.octets[0], 0, 0xA5])
        return
    count = len(call.octets)
    kept = chance.choice([0, count, chance.randrange(count + 1)])
    filler = chance.choice([b'\0', b'\1', b'\xA5', None])
    rest = chance.randbytes(count - kept) if filler is None else filler * (count - kept)
    before = len(file)
    write(file, call.at, chance.choice([call.octets[:kept] + rest, rest + call.octets[count - kept:], call.octets[:kept]]))
    if len(file) > before and chance.random() < 0.5:
        del file[chance.randrange(before, len(file) + 1):]


def cuts(calls: list[Call]) -> Iterator[tuple[Call, Cut]]:
    """Each call with what is on the disks after it."""
    cut = Cut()
    for call in calls:
        cut.make(call)
        yield call, cut


def opens(program: str, folder: str, calls: list[Call], count: int, chance: random.Random) -> int:
    """Makes this number of images or a few more, most of them at calls that make room, and has the program export each. Returns their number. Raises an
    AssertionError if one doesn't hold the map from before or after the writes that the cut interrupts, or isn't exported as that map."""
    lengths, near, cut = {'a': 0, 'b': 0}, set(), Cut()
    for at, call in enumerate(calls):
        if call.is_room(lengths[call.side]):
            near.update(range(at - 1, at + 4))
        cut.make(call)
        lengths[call.side] = len(cut.seen[call.side])
    begun = next(at for at, call in enumerate(calls) if call.at == 0 and call.octets == b'\1') + 1
    chosen = [at for at in range(begun + 1, len(calls)) if at in near or at % 17 == 0]
    made = 0
    for at, (_, cut) in enumerate(cuts(calls)):
        if at not in chosen:
            continue
        maps = cut.maps()
        for _ in range(-(-count // len(chosen))):
            made += 1
            is_opened(program, folder, cut.image(chance), maps)
    return made


def is_opened(program: str, folder: str, image: Files, maps: list[dict]):
    kv = map_of(image)
    assert kv in maps, 'the image holds another map'
    names = []
    for side, octets in image.items():
        names.append(os.path.join(folder, f'image.{side}'))
        with open(names[-1], 'wb') as file:
            file.write(octets)
    done = subprocess.run([program, 'store-export', '0', '1', *names], stdin=subprocess.DEVNULL, capture_output=True)
    assert (done.returncode, done.stderr) == (0, b''), f'store-export ends with {done.returncode}: {done.stderr!r}'
    assert done.stdout == export_of(0, 1, kv), 'another map is exported'
