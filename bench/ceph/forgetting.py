"""Leads three real monitors to a full synchronization that forgets a promise. Processes are paused, resumed and killed, and nothing else is done to them.

The monitors a, b and c have ranks 0, 1 and 2. c misses versions, promises a number to b, copies the store of a, and then promises a lesser number to a. Two
values of one version can then be committed, of which a client's acknowledged one is lost.
"""
from __future__ import annotations

import re
import time
from typing import Callable, NamedTuple

from monitors import Client, Late, Monitors, now
from watching import Line, Logs, numbers, value

# With Ceph's defaults the first trim is that of version 752, and leaves 252 as the first version. c needs it, and has its promise's chance, with 251 versions.
LAST, UNTIL = 251, 760
LEVELS = 'debug_mon = 10\ndebug_paxos = 10\ndebug_ms = 1\nlog_coarse_timestamps = false\nlog_max_recent = 1\n'
# A client waits for a monitor that is paused. librados reconnects if an answer to its ping comes while it looks for one, so it never pings.
PATIENT = 'mon_client_ping_interval = 1000\n'
# The health then doesn't change with the quorum, so the first version of an epoch is the client's.
STEADY = 'mon_down_mkfs_grace = 100000\n' + PATIENT
# Seconds: how long an election without all votes takes, when a peon is paused before its end, how long its leader waits at least for that, and how long a
# client's request may take afterwards. The peon calls an election itself a second after the end.
ELECTION, BEFORE, LEAST, PATIENCE = 5, 0.45, 0.9, 0.7
RANKS = {'a': 0, 'b': 1, 'c': 2}
KEY = 'acked'
HANDLED = 'handle_command mon_command({"prefix": "config-key get"'


class Elsewhere(Exception):
    """The run took another way: no monitor was late, but a version or a number isn't the one that is needed."""


class Outcome(NamedTuple):
    """What a run showed: the disputed version and its value at each monitor, the status of the client's `config-key set`, the status of `config-key get` at the
    quorum that goes on, and that at each monitor when all are one quorum again."""
    version: int
    values: dict[str, bytes | None]
    was_set: int
    is_there: int
    at_each: dict[str, int]
    forgot: tuple[int, int]

    @property
    def are_two(self) -> bool:
        return len(set(self.values.values())) > 1

    @property
    def is_lost(self) -> bool:
        return self.was_set == 0 and self.is_there != 0


class Turns:
    """A leader and a peon that go on by turns, so that each message between them arrives when the run wants it."""

    def __init__(self, q: Monitors, logs: Logs, leader: str, peon: str):
        self.q, self.logs, self.leader, self.peon = q, logs, leader, peon

    def end_of_election(self, since: int) -> float:
        """Waits for an election of the leader in which the peon voted and which has time left. Returns when it ends."""
        ack = re.compile(rf'<== mon\.{RANKS[self.peon]} .* election[^ ]* ack ')
        for _ in range(1200):
            lines = self.logs.lines(self.leader, since)
            begun = [at for at, line in enumerate(lines) if 'can i be leader' in line]
            if begun and any(ack.search(line) for line in lines[begun[-1]:]):
                end = Line(lines[begun[-1]], 0).time() + ELECTION
                if end - LEAST > time.time():
                    return end
            time.sleep(0.05)
        raise Late(f'{self.leader} has no election with a vote of {self.peon}')

    def answer(self, wanted: str, sent: str, since: int):
        """The peon alone goes on, until it handled a message and sent its answer."""
        self.q.pause(self.leader)
        self.q.resume(self.peon)
        self.logs.until(self.peon, wanted, since=since, seconds=4)
        self.logs.until(self.peon, '--> ', sent, since=since, seconds=4)
        time.sleep(0.05)
        self.q.pause(self.peon)
        self.q.resume(self.leader)

    def collect(self, since: int, then: Callable[[int], object] = lambda place: None) -> int:
        """The leader wins, and hears the peon's LAST. Returns the place after its victory. `then` is called with it when COLLECT was sent, and the peon is paused."""
        end = self.end_of_election(since)
        time.sleep(max(0.0, end - BEFORE - time.time()))
        self.q.pause(self.peon)
        place, heard = self.logs.place(self.leader) - 2000, self.logs.place(self.peon)
        won = self.logs.until(self.leader, 'win_election', since=place, seconds=8).end
        self.logs.until(self.leader, '--> ', 'paxos(collect', since=won)
        then(won)
        time.sleep(0.03)
        self.answer('handle_collect', 'paxos(last', heard)
        try:
            self.logs.until(self.leader, "that's everyone", since=won, seconds=5, unless='they had a higher pn')
        except Late as why:
            if 'they had a higher pn' not in str(why):
                raise
            # The peon kept its promise. The leader makes a greater number, and asks again.
            heard = self.logs.place(self.peon)
            self.logs.until(self.leader, 'they had a higher pn', since=won)
            time.sleep(0.1)
            self.answer('handle_collect', 'paxos(last', heard)
            self.logs.until(self.leader, "that's everyone", since=won, seconds=5)
        return won

    def begin(self, won: int) -> int:
        """The leader stores a value, and sends it to the peon, which is paused. Returns the version."""
        begun = self.logs.until(self.leader, 'begin for', since=won, seconds=10)
        self.logs.until(self.leader, 'sending begin', since=won)
        time.sleep(0.03)
        return int(begun.text.split('begin for ')[1].split()[0])


class Forgetting:
    """One run. `last` is the last version of c in its beginning."""

    def __init__(self, q: Monitors, last: int = LAST):
        self.q, self.logs, self.last, self.begun = q, Logs(q), last, time.monotonic()
        self.promised = self.since = 0
        # The time from which on the logs tell all that matters.
        self.matters = ''

    # -- the ways to b's promise

    def trimmed(self) -> int:
        """c lacks just what a and b trim, and stands in an election all the time. Then it promises a number to b. Returns the version that b alone accepted."""
        self.miss()
        self.stand()
        self.trim()
        self.matters = now()
        self.q.pause('a')
        since = self.logs.place('b')
        self.q.resume('c')
        return self.accept(since)

    def miss(self):
        """All three have the versions up to the last one of c, which ends there."""
        q = self.q
        q.start('abc')
        q.until_quorum()
        q.wait(6)
        for short, seconds in ((12, 4.0), (3, 3.0)):     # About a second after a change the cluster's log makes a version too.
            self.advance(self.last - short)
            q.wait(seconds)
        since = self.logs.place('c')
        self.advance(self.last)
        self.logs.until('c', f'..{self.last}) ', since=since, seconds=5)
        q.kill('c')
        q.wait(0.5)
        q.kill('ab')
        q.leave()
        found = numbers(q, 'abc')['c']['last_committed']
        if found != self.last:
            raise Elsewhere(f'mon.c ended at version {found}, not at {self.last}')

    def advance(self, version: int, at: str = ''):
        client = self.q.client(at)
        for number in range(2 * UNTIL):
            if self.logs.versions('a')[1] >= version:
                break
            client.answer(client.ask(prefix='config-key set', key='k', val=f'v{number}'))
        self.q.note(f'mon.a has the versions {self.logs.versions("a")}')

    def stand(self):
        """c votes for a, and is paused in this election; a is killed before it wins."""
        since = self.logs.place('a')
        self.q.start('ac')
        self.logs.until('a', '<== mon.2 ', 'election(', ' ack ', since=since, seconds=40)
        self.q.wait(0.3)
        self.q.pause('c')
        self.q.kill('a')

    def trim(self):
        """a and b go on without c, and trim. A client has its session with a."""
        q = self.q
        since = self.logs.place('a')
        q.start('ab')
        self.logs.until('a', 'win_election', since=since, seconds=60)
        self.logs.until('a', "that's everyone", since=since, seconds=20)
        q.wait(2)
        self.session_with_a()
        self.advance(UNTIL, 'a')
        q.wait(4)
        if self.logs.versions('a')[0] != LAST + 1:
            raise Elsewhere(f'mon.a kept the versions from {self.logs.versions("a")[0]} on')

    def reads(self, at: str) -> tuple[str, int]:
        """A client reads the key. Returns the monitor that answered, as the logs show it, and the status."""
        places = {name: self.logs.place(name) for name in 'abc'}
        status = self.q.ask(at, prefix='config-key get', key=KEY)['status']
        time.sleep(0.2)
        handled = [name for name in 'abc' if any(HANDLED in line for line in self.logs.lines(name, places[name]))]
        return ''.join(handled), status

    def session_with_a(self):
        """Makes a client whose session is with a: librados chooses a monitor by itself."""
        for _ in range(20):
            if self.reads('a')[0] == 'a':
                return
            self.q.leave('a')
        raise Elsewhere('no client has its session with mon.a')

    def forced(self) -> int:
        """b makes a greater number than a will make, and c promises it. Then an operator clears the store of c by `sync_force`."""
        q = self.q
        q.start('abc')
        q.until_quorum()
        q.wait(6)
        q.sets(6)
        q.leave()
        q.wait(2)
        q.kill('b')
        q.wait(2)
        q.until_quorum(2)
        q.wait(max(0.0, self.begun + 75 - time.monotonic()))     # The health says from then on that mon.b is down (mon_down_mkfs_grace).
        self.session_with_a()
        q.wait(4)
        self.matters = now()
        q.pause('a')
        q.kill('c')
        since = self.logs.place('b')
        q.start('bc')
        self.logs.until('b', 'collect with pn', since=since, seconds=60)
        q.kill('bc')
        since = self.logs.place('b')
        q.start('bc')
        version = self.accept(since)
        q.start('c')
        q.wait(1.5)
        q.daemon('c', 'sync_force', '--yes-i-really-mean-it')
        q.kill('c')
        return version

    def accept(self, since: int) -> int:
        """b leads, c promises its number, and b alone accepts a value. Returns its version."""
        turns = Turns(self.q, self.logs, 'b', 'c')
        version = turns.begin(turns.collect(since))
        self.q.kill('bc')
        self.promised = numbers(self.q, 'bc')['c']['accepted_pn']
        return version

    # -- what follows

    def go_on(self, version: int) -> Outcome:
        """c copies the store of a; a leads with c under a lesser number, answers its client, and ends. b and c go on, and at last a comes back."""
        pn = self.copy(version)
        was_set = self.outvote(version)
        is_there = self.recover(version)
        at_each = self.come_back()
        self.q.kill('abc')
        numbers(self.q, 'abc')
        values = {name: value(self.q, name, str(version)) for name in 'abc'}
        self.q.note(f'version {version}: {({name: len(octets or b"") for name, octets in values.items()})} bytes')
        return Outcome(version, values, was_set, is_there, at_each, (self.promised, pn))

    def copy(self, version: int) -> int:
        """c starts and copies. Returns the number that it promised, as its store has it then."""
        self.since, place = self.logs.place('a'), self.logs.place('c')
        self.q.start('c')
        self.logs.until('c', 'init last_pn', since=place)
        self.q.wait(0.3)
        self.q.resume('a')
        begun = self.logs.until('c', 'sync_start', since=place).end
        copied = self.logs.until('c', 'init last_pn', f'last_committed: {version - 1}', since=begun)
        self.vote(copied.end)
        return int(re.search(r'accepted_pn: (\d+)', copied.text)[1])

    def vote(self, copied: int):
        """c votes for a. If both stand in one epoch already, it would vote in a's next election, and a would be outside of the quorum for so long that it ends the
        sessions of its clients. So c starts again, and stands in a later epoch."""
        sent = self.logs.until('c', '--> ', 'election(', since=copied)
        try:
            self.logs.until('c', '--> ', 'election(', ' ack ', since=copied, seconds=0.3)
        except Late:
            self.q.note(f'mon.c sent {sent.text[33:160]}, and no vote')
            self.q.kill('c')
            self.q.start('c')

    def outvote(self, version: int) -> int:
        """a leads with c, commits the client's change, and answers. Returns the status that the client gets."""
        asked: list = []
        turns = Turns(self.q, self.logs, 'a', 'c')
        won = turns.collect(self.since, lambda place: asked.extend(self.ask_in_time(place)))
        found = turns.begin(won)
        if found != version:
            raise Elsewhere(f'mon.a stored version {found}, and mon.b {version}')
        heard = self.logs.place('c')
        turns.answer(f'accepting value for {version} ', 'paxos(accept', heard)
        self.logs.until('a', f'commit_start {version}', since=won)
        self.logs.until('a', 'sending commit to mon.2', since=won)
        client, number = asked
        try:
            status = client.answer(number, 3)['status']
        except Late:
            status = -1
        self.q.note(f'the client of mon.a got {status}')
        self.q.kill('ac')
        self.q.leave('a')
        return status

    def ask_in_time(self, won: int) -> tuple[Client, int]:
        """Asks a for the change while it waits for c's LAST, so that it is in the first version."""
        asked = self.q.set_only(KEY, 'a')
        self.logs.until('a', '<== client', f'key={KEY}}}', since=won, seconds=PATIENCE)
        return asked

    def recover(self, version: int) -> int:
        """b and c lead on. Returns the status of a read of the key."""
        since = self.logs.place('b')
        self.q.start('bc')
        begun = self.logs.until('b', 'begin for', since=since, seconds=60).text
        if f'begin for {version} ' not in begun:
            raise Elsewhere(f'mon.b learned version {version}, which mon.c had committed')
        self.q.until_quorum(2)
        self.q.wait(4)
        status = self.q.ask('b', prefix='config-key get', key=KEY)['status']
        self.q.leave('b')
        return status

    def come_back(self) -> dict[str, int]:
        """a comes back. Returns the status of a read of the key at each monitor of the one quorum, and compares the stores by Ceph's own scrub."""
        self.q.start('a')
        self.q.until_quorum()
        self.q.wait(3)
        found: dict[str, int] = {}
        for _ in range(20):
            if len(found) < 3:
                name, status = self.reads('')
                found[name] = status
                self.q.leave()
        since = self.logs.place('a')
        self.q.ask('a', prefix='mon scrub')
        try:
            self.logs.until('a', 'scrub mismatch', since=since, seconds=8)
        except Late as why:
            self.q.note(str(why))
        return found
