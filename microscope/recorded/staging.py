"""A run of a schedule that is made event by event, of acts that take several events."""
from __future__ import annotations

from typing import Any

from played import Play
from recorded.disks import Map
from recorded.held import HUNDRED
from recorded.history import Command
from recorded.reigns import Reign
from schedules import MOST_EVENTS, TIMERS
from store import number_at

# By the phase: the timer at which a monitor leaves it and probes.
LEAVING = dict(Peon='lease', Collecting='collect', Previous='accept', Updating='accept', Active='leaseack', Synchronizing='sync', Electing='')
# The client that asks for what the stores hold.
CLIENT = 4_000_000_002
# A store copies what it lacks from another one if it lacks more versions than this.
FEW = 10
# The milliseconds after which a score is whole if its monitor was heard in them, and 0 if it wasn't.
HALVED = 86_400_000
# The most that a copy takes: its messages and steps.
MOST_STEPS = 100_000


class Failing(Exception):
    """An event of a prelude didn't do what it was to do."""


class Stage:
    """A run that is made event by event."""

    def __init__(self, first: str):
        self.play, self.lines, self.asked = Play(first), [first], 0
        self.has_scores = 'connectivity' in first
        # The time at which scores are updated. All else happens at time 0.
        self.time = 0

    def event(self, line: str) -> None:
        if self.play.events >= MOST_EVENTS or not self.play.take(line):
            raise Failing(f'{line}: {self.play.stop or "too many events"}')
        self.lines.append(line)

    # ---- what monitors are in

    def state(self, rank: int) -> Any:
        return self.play.state(rank)

    def phase(self, rank: int) -> str:
        state = self.state(rank)
        return state.phase.name if state else 'Down'

    def store(self, rank: int) -> Map:
        return self.play.world.store(rank).entries

    def number(self, rank: int, prefix: bytes, key: bytes) -> int:
        return number_at(self.store(rank), prefix, key)

    def last(self, rank: int) -> int:
        return self.number(rank, b'paxos', b'last_committed')

    def first(self, rank: int) -> int:
        return self.number(rank, b'paxos', b'first_committed')

    def epoch(self, rank: int) -> int:
        return self.number(rank, b'monitor', b'election_epoch')

    def promised(self, rank: int) -> int:
        return self.number(rank, b'paxos', b'accepted_pn')

    def up(self) -> list[int]:
        return [rank for rank in range(self.play.n) if self.state(rank)]

    # ---- events

    def timer(self, rank: int, name: str) -> None:
        self.event(f'timer {rank} {name} 0')

    def newest(self, sender: int, receiver: int, *names: str, epoch: int | None = None) -> int | None:
        """The number of the newest such message, of these kinds and perhaps of an epoch."""
        sent = self.play.world.messages
        for number in range(len(sent), 0, -1):
            it = sent[number - 1]
            if it.to == receiver and it.message.from_ == sender and it.message.body.name in names and epoch in (None, it.message.epoch):
                return number
        return None

    def deliver(self, sender: int, receiver: int, *names: str, epoch: int | None = None) -> None:
        number = self.newest(sender, receiver, *names, epoch=epoch)
        if number is None:
            raise Failing(f'no {"/".join(names)} from {sender} to {receiver}')
        self.event(f'deliver {number} 0')

    def ask(self, rank: int, words: str) -> None:
        self.asked += 1
        self.event(f'client {rank} 0 {CLIENT} {self.asked} {words}')

    def stop(self, rank: int) -> None:
        """Stops a monitor by a crash in a timer that isn't set."""
        state = self.state(rank)
        if state:
            name = next(name for name, timer in zip(TIMERS, state.timers) if not timer.args)
            self.event(f'crash a 1 0 timer {rank} {name} 0')

    # ---- elections

    def leave(self, rank: int) -> None:
        """Lets a monitor probe."""
        if self.phase(rank) != 'Probing':
            self.timer(rank, LEAVING[self.phase(rank)])
        if self.phase(rank) != 'Probing':
            raise Failing(f'monitor {rank} is {self.phase(rank)}, and was to probe')

    def answers(self, rank: int) -> list[int]:
        """Whose answers to a PROBE lead to no copy."""
        last = self.last(rank)
        return [it for it in self.up() if it != rank and last + FEW >= self.last(it) and (last >= self.first(it) or self.first(it) <= 1)]

    def elect(self, rank: int) -> None:
        """Lets a monitor begin an election, or go on with that in which it is."""
        if self.phase(rank) == 'Electing':
            return
        self.leave(rank)
        for other in self.answers(rank):
            self.deliver(rank, other, 'Probe')
            self.deliver(other, rank, 'ProbeReply')
            if self.phase(rank) == 'Electing':
                return
        raise Failing(f'monitor {rank} begins no election')

    def join(self, rank: int, other: int, epoch: int) -> None:
        """Lets a monitor join the election of an epoch in which another one is."""
        if self.phase(rank) == 'Probing':
            self.elect(rank)
        if self.epoch(rank) < epoch:
            self.deliver(other, rank, 'Propose', epoch=epoch)
        if (self.epoch(rank), self.phase(rank)) != (epoch, 'Electing'):
            raise Failing(f'monitor {rank} is in epoch {self.epoch(rank)}, and was to be in {epoch}')

    def gather(self, ranks: list[int], epoch: int) -> None:
        """Lets monitors join the election of an epoch, which the one of them begins that is furthest."""
        first = max(ranks, key=lambda rank: (self.epoch(rank), self.last(rank)))
        self.elect(first)
        for rank in ranks:
            if rank != first:
                self.join(rank, first, epoch)

    def ping(self, rank: int) -> None:
        """Lets a monitor update its scores and send them."""
        self.event(f'timer {rank} ping {self.time}')

    def favour(self, rank: int) -> None:
        """Lets a monitor have scores by which it outranks all others: these heard each other for so long that their scores are whole, and it heard none for as
        long."""
        others = [it for it in self.up() if it != rank]
        for it in [rank, *others]:
            self.ping(it)
        for it in others:
            for other in [rank, *others]:
                if other != it:
                    self.deliver(other, it, 'Ping')
        self.time += HALVED
        for it in others:
            self.ping(it)
            self.deliver(it, rank, 'Ping')
        self.ping(rank)
        self.time += HALVED
        self.ping(rank)

    def win(self, winner: int, voters: list[int], epoch: int) -> None:
        """Lets a monitor win the election of an epoch by the votes of others that are in it."""
        if self.has_scores:
            self.favour(winner)
        if self.has_scores or not self.state(winner).elector.candidate:
            self.timer(winner, 'election')
        for rank in voters:
            deferred = self.state(rank).elector.deferred
            if deferred.args and deferred.args[0] != winner:
                self.timer(rank, 'election')
            self.deliver(winner, rank, 'Propose', epoch=epoch)
            self.deliver(rank, winner, 'Ack', epoch=epoch)
        if self.phase(winner) == 'Electing':
            self.timer(winner, 'election')
        if (self.phase(winner), self.epoch(winner)) != ('Collecting', epoch + 1):
            raise Failing(f'monitor {winner} didn\'t win the election of epoch {epoch}')

    # ---- values

    def collect(self, reign: Reign, hears: list[int], answer: list[int]) -> None:
        """Lets those who are to hear a leader's number promise it. The leader takes the answers of some."""
        leader = reign.winner
        while self.state(leader).leader.pn < reign.pn:
            before = self.state(leader).leader.pn
            voters = [rank for rank in self.up() if self.newest(leader, rank, 'Collect', epoch=2 * reign.number)]
            other = next((rank for rank in voters if self.promised(rank) > before and self.promised(rank) // HUNDRED == reign.level() - 1), None)
            if other is not None:
                self.exchange(leader, other)
            if self.state(leader).leader.pn == before:
                raise Failing(f'monitor {leader} makes {before}, and was to make {reign.pn}')
        if self.state(leader).leader.pn != reign.pn:
            raise Failing(f'monitor {leader} makes {self.state(leader).leader.pn}, and was to make {reign.pn}')
        for rank in hears:
            self.deliver(leader, rank, 'Collect')
            if rank in answer:
                self.deliver(rank, leader, 'Last')

    def exchange(self, leader: int, rank: int) -> None:
        self.deliver(leader, rank, 'Collect')
        self.deliver(rank, leader, 'Last')

    def begin(self, leader: int, command: Command) -> None:
        """Lets a leader propose a command's value, unless it recovers one."""
        if self.phase(leader) == 'Previous':
            return
        asked = leader if command.asked is None else command.asked
        self.ask(asked, command.words)
        if asked != leader:
            self.deliver(asked, leader, 'Forward')
        if self.phase(leader) not in ('Updating', 'Active'):
            raise Failing(f'monitor {leader} is {self.phase(leader)}, and was to propose')

    def accept(self, leader: int, ranks: list[int], is_answered: bool) -> None:
        for rank in ranks:
            self.deliver(leader, rank, 'Begin')
            if is_answered:
                self.deliver(rank, leader, 'Accept')

    # ---- copies

    def copy(self, rank: int, provider: int) -> None:
        """Lets a monitor copy what it lacks."""
        self.leave(rank)
        self.deliver(rank, provider, 'Probe')
        self.deliver(provider, rank, 'ProbeReply')
        self.deliver(rank, provider, 'GetCookieFull', 'GetCookieRecent')
        self.deliver(provider, rank, 'Cookie')
        for _ in range(MOST_STEPS):
            if self.phase(rank) != 'Synchronizing':
                return
            if self.state(rank).requester.stage.name == 'Replay':
                self.timer(rank, 'step')
            else:
                self.deliver(rank, provider, 'GetChunk')
                self.deliver(provider, rank, 'Chunk', 'LastChunk')
        raise Failing(f'monitor {rank} doesn\'t finish its copy')
