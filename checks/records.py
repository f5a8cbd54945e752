"""Makes the records that monitors would write of a schedule's run, as docs/FORMATS.md describes them. It shares no code with the program, and none with what
reads records, but the encoding of messages."""
from __future__ import annotations

import os
import re
import struct
import sys

from checking import TOP
from journal import checkpoint, file

sys.path[:0] = [os.path.join(TOP, 'bench', 'definitions'), os.path.join(TOP, 'microscope')]

READ, CAME, SENT, GAP, END, BEGIN, DISK = 1, 2, 7, 10, 11, 12, 13
TAG, DAY = 0x1122334455667788, 1_700_000_000_000
EVENT = re.compile(r'(?:(?:crash|fail) [ab] \d+ \d )?(start|timer|client|deliver) .*')


def entry(kind, party=0, who=0, number=0, octets=b''):
    return struct.pack('<BBIQI', kind, party, who, number, len(octets)) + octets


def beginning(rank, monitors, life, part=0, tag=TAG, time=DAY, rule=0, ranks=0):
    return entry(BEGIN, octets=struct.pack('<8sBBBHQQQQ', b'CEPHREC1', rank, monitors, rule, ranks, part, life, tag, time))


def disks(rank, monitors, entries):
    """The entries of two disks whose store has this map."""
    if not entries:
        return entry(DISK, 1) + entry(DISK, 2)
    octets = file(checkpoint(*((*place, value) for place, value in sorted(entries.items()))), rank=rank, monitors=monitors).rstrip(b'\0')
    return entry(DISK, 1, number=262_144, octets=octets) + entry(DISK, 2)


class Recorded:
    """The records of the monitors of a schedule, by rank, as it is played. What happened while all were down for the last time, and before, isn't recorded if
    `is_late`. `stores` has the maps with which the records begin."""

    def __init__(self, lines, is_late=False):
        from played import Play
        self.play, self.lines = Play(lines[0]), lines[1:]
        self.records = {rank: b'' for rank in range(self.play.n)}
        self.stores = dict.fromkeys(self.records, {})
        self.lives = dict.fromkeys(self.records, 0)
        for line in self.lines:
            self.take(line)
            if is_late and not any(self.play.state(rank) for rank in self.records):
                self.records = dict.fromkeys(self.records, b'')
                self.stores = {rank: dict(self.play.world.store(rank).entries) for rank in self.records}

    def rank_of(self, line):
        words = line.split(' ')
        if words[0] in ('crash', 'fail'):
            return self.rank_of(' '.join(words[4:]))
        return self.play.world.messages[int(words[1]) - 1].to if words[0] == 'deliver' else int(words[1])

    def take(self, line):
        """Plays an event, and records it as its monitor would."""
        rank, before = self.rank_of(line), self.play.world
        is_up = self.play.state(rank) is not None
        plain = EVENT.fullmatch(line)
        words = (line if plain[1] == line.split(' ')[0] else line.split(' ', 4)[4]).split(' ')
        given = self.given(rank, words, before)
        self.play.take(line)
        if not is_up and words[0] != 'start' or words[0] == 'timer' and not self.is_set(rank, words[2], before):
            return
        if words[0] == 'start':
            self.lives[rank] += 1
            given = beginning(rank, self.play.n, 10 * self.lives[rank] + rank) + disks(rank, self.play.n, before.store(rank).entries) + given
        self.records[rank] += given + self.sent(rank, before)

    def is_set(self, rank, name, world):
        """Whether a monitor's timer is set. A crash in one that isn't is a kill between two events, of which there is no record."""
        from schedules import TIMERS
        return bool(world.state(rank).args[0].timers[TIMERS.index(name)].args)

    def given(self, rank, words, world):
        from recorded.messages import message
        from texts import plain_of
        time = int(words[2 if words[0] in ('start', 'client', 'deliver') else 3])
        read = entry(READ, number=time)
        if words[0] == 'client':
            event = plain_of(' '.join(words))
            return read + entry(CAME, 2, int(words[3]), 1000, request(self.play.n, int(words[4]), event.args[3])) + read
        if words[0] == 'deliver':
            sent = world.messages[int(words[1]) - 1].message
            return read + entry(CAME, 1, sent.from_, 1000, message(sent)) + read
        return read

    def sent(self, rank, before):
        """What the monitor sent at the last event."""
        from recorded.messages import message, reply_message
        found = [entry(SENT, 1, it.to, 0, message(it.message)) for it in self.play.world.messages[len(before.messages):]]
        found += [entry(SENT, 2, it.session.client, 0, reply_message(rank, self.play.n, it.epoch, it.session.id, it.reply))
                  for it in self.play.world.replied[len(before.replied):]]
        return b''.join(found)


def request(monitors, number, asked):
    """The bytes of a client's request."""
    from recorded.messages import command
    if asked.name in ('Set', 'Remove', 'Log'):
        body = command(asked)
    else:
        service = bytes([1 if asked.args[0].name == 'Kv' else 2])
        body = b'\4' + service if asked.name == 'Show' else b'\5' + service + struct.pack('<Q', asked.args[1])
    return struct.pack('<BBBBQQ', 1, 24, 0, monitors, 0, number) + body
