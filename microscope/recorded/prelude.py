"""A prelude: events that lead from new stores to those with which records begin.

A schedule can't give a monitor a store. So a run of all monitors is made that ends with these stores: the same elections as far as epochs and proposal
numbers show them (`reigns`), the same commands (`history`), and as many starts. It isn't the run by which the stores came about, but it ends like it: each key
of each store is compared.
"""
from __future__ import annotations

from functools import partial
from itertools import islice
from typing import Callable, Iterator, NamedTuple

from fields import At
from recorded.disks import Map
from recorded.held import Held, Unreachable, held, unknown
from recorded.history import Command, Shared, proposed_in
from recorded.reigns import Course, Planner, Ranking, Reign, course_of, winners
from recorded.requests import Unwritable
from recorded.staging import FEW, Failing, Stage
from schedules import MOST_EVENTS

# The most sequences of elections that are tried, and the most keys that are named.
MOST_COURSES, MOST_NAMED = 20, 3


class Work(NamedTuple):
    """What is done in a reign: by which voters, who learns that it was won, who hears its number, whose answers the leader takes, up to which version values
    are committed, and the version that is only begun, or 0."""
    voters: list[int]
    follow: list[int]
    hears: list[int]
    answer: list[int]
    end: int = 0
    begun: int = 0


class Leading:
    """Makes the run of a course."""

    def __init__(self, first: str, stores: dict[int, Held], ranking: Ranking, commands: list[Command]):
        self.stage, self.stores, self.ranking, self.commands = Stage(first), stores, ranking, commands

    def made(self, course: Course) -> Stage:
        """The run of a course. Raises Failing if it goes another way."""
        for rank in self.stores:
            self.stage.event(f'start {rank} 0')
        for number in sorted({reign.number for reign in course.plan}):
            self.epoch(number, course)
        for rank, it in self.stores.items():
            self.copied(rank, it.last if it.is_known() else len(self.commands))
        self.raised()
        for rank, it in self.stores.items():
            for _ in range(it.starts - 1):
                self.stage.event(f'start {rank} 0')
            self.stage.stop(rank)
        return self.stage

    # ---- one epoch

    def epoch(self, number: int, course: Course) -> None:
        """Lets those win who win the elections of this number, and do their work."""
        rivals = winners(course.plan, number)
        works = [(reign, self.work(reign, follow, hears, rivals))
                 for reign, follow, hears in zip(course.plan, course.follow, course.hears) if reign.number == number]
        voting = {rank for _, work in works for rank in work.voters}
        top = max(map(self.stage.last, voting | rivals))
        for rank in sorted(voting | rivals):
            if self.stage.phase(rank) == 'Probing' and self.stores[rank].last >= top:
                self.copied(rank, top)
        self.stage.gather(sorted(voting | rivals), 2 * number - 1)
        for reign, work in works:
            self.stage.win(reign.winner, work.voters, 2 * number - 1)
        for reign, work in works:
            self.reign(reign, work)

    def work(self, reign: Reign, follow: set[int], hears: set[int], rivals: set[int]) -> Work:
        """What is done in a reign."""
        stores, pn, leader = self.stores, reign.pn, self.stores[reign.winner]
        ends = {rank for rank in follow if stores[rank].epoch == 2 * reign.number or pn in (stores[rank].promised, stores[rank].accepted_pn)}
        accepting = {rank for rank in hears if stores[rank].accepted_pn >= pn}
        quorum = {leader.rank} | accepting
        is_majority = self.ranking.is_majority(quorum) and leader.accepted_pn >= pn and ends <= accepting
        base = max(map(self.stage.last, quorum if is_majority else hears | {leader.rank}))
        end = self.end(reign, quorum, base) if is_majority else 0
        ranks = sorted(accepting if is_majority and end > base else hears)
        begun = self.begun(reign, {*ranks, leader.rank}, max(base, end) + 1)
        if begun and is_majority:
            ranks = sorted(accepting)
        if end > base or begun or any(self.stage.last(rank) < base == stores[rank].last for rank in hears):
            return Work(ranks, ranks, ranks, ranks, end, begun)
        voters = {rank for rank, it in stores.items() if it.epoch >= 2 * reign.number - 1 and self.ranking.outranks(leader.rank, rank)} - rivals
        teacher = [rank for rank in ranks if self.stage.last(rank) == base == leader.last][:self.stage.last(leader.rank) < base]
        return Work(sorted(voters), sorted(follow), ranks, teacher)

    def end(self, reign: Reign, quorum: set[int], base: int) -> int:
        """The last version that this quorum commits, after one that it has. Each monitor can then still accept its last value, and learns no more than it
        has."""
        stores, pn = self.stores.values(), reign.pn
        later = [it.accepted - 1 for it in stores if it.accepted_pn > pn]
        lagging = [it.last for it in stores if it.last > it.accepted and it.promised > pn]
        here = [it.accepted for it in stores if it.rank in quorum and it.accepted_pn == pn]
        leader = self.stores[reign.winner]
        own = [leader.last] if leader.accepted_pn == pn else []
        end = min([len(self.commands), *later, *lagging, *here, *own])
        # A monitor that has to be asked has to be in the quorum, unless the value is recovered.
        first = base + any(self.stage.number(rank, b'paxos', b'pending_v') == base + 1 for rank in quorum)
        return next((at for at in range(first, end) if self.commands[at].asked not in (None, *quorum)), end)

    def begun(self, reign: Reign, quorum: set[int], version: int) -> int:
        """The version after the last one, if a member of a quorum accepts its value as its last one under this number; otherwise 0."""
        return version * any((self.stores[rank].accepted_pn, self.stores[rank].accepted) == (reign.pn, version) for rank in quorum)

    def reign(self, reign: Reign, work: Work) -> None:
        stage, leader = self.stage, reign.winner
        for rank in work.follow:
            stage.deliver(leader, rank, 'Victory', epoch=2 * reign.number)
        stage.collect(reign, work.hears, work.answer)
        if not work.answer or stage.phase(leader) == 'Collecting':
            return
        for rank in work.hears:
            if stage.last(rank) < stage.last(leader) <= self.stores[rank].last:
                stage.deliver(leader, rank, 'Commit')
        self.catch_up(reign, work)
        while stage.last(leader) < work.end:
            self.commit(reign, work, stage.last(leader) + 1)
            self.catch_up(reign, work)
        if work.begun:
            self.start(reign, work)

    def commit(self, reign: Reign, work: Work, version: int) -> None:
        """Lets a quorum commit a version, and those learn it who are to."""
        self.stage.begin(reign.winner, self.commands[version - 1])
        self.stage.accept(reign.winner, work.hears, True)
        self.learn(reign, work, version)

    def learn(self, reign: Reign, work: Work, version: int) -> None:
        for rank in work.hears:
            it = self.stores[rank]
            if it.last >= version and not (it.accepted_pn > reign.pn and it.accepted == version):
                self.stage.deliver(reign.winner, rank, 'Commit')

    def start(self, reign: Reign, work: Work) -> None:
        """Lets a leader begin a value which not all accept, or of which not all learn that it is committed."""
        version, leader = work.begun, self.stores[reign.winner]
        if self.stage.last(leader.rank) != version - 1:
            raise Failing(f'monitor {leader.rank} has version {self.stage.last(leader.rank)}, and was to begin {version}')
        command = self.command(reign.pn, version)
        self.stage.begin(leader.rank, command)
        is_committed = leader.last >= version and leader.accepted_pn == reign.pn
        # A later leader recovers the value if it can't ask the same monitor.
        is_kept = command.asked is not None and command in self.commands[version - 1:version]
        here = [rank for rank in work.hears if is_committed or is_kept and self.stores[rank].accepted_pn > reign.pn
                or (self.stores[rank].accepted_pn, self.stores[rank].accepted) == (reign.pn, version)]
        self.stage.accept(leader.rank, here, is_committed)
        if is_committed:
            self.learn(reign, work, version)

    def command(self, pn: int, version: int) -> Command:
        """The command of a value that is begun under a number, as a store shows it, or as it was committed."""
        for it in self.stores.values():
            value = it.pending()
            if value is not None and (it.accepted_pn, it.accepted) == (pn, version):
                return proposed_in(value).command()
        return self.commands[version - 1]

    def catch_up(self, reign: Reign, work: Work) -> None:
        """Lets those copy what they lack who aren't in the quorum, and have no later version."""
        version = self.stage.last(reign.winner)
        for rank, it in self.stores.items():
            if it.last == version and rank != reign.winner and rank not in work.voters and it.accepted_pn <= reign.pn:
                self.copied(rank, version)

    def copied(self, rank: int, version: int) -> None:
        """Lets a monitor copy the versions up to one from another monitor that has just these, if it lacks them and may."""
        stage = self.stage
        last = stage.last(rank)
        if last >= version:
            return
        for other in stage.up():
            if stage.last(other) == version and (version - last > FEW or stage.first(other) > max(last, 1)):
                stage.copy(rank, other)
                return

    # ---- after the last reign

    def raised(self) -> None:
        """Lets those begin or join an election whose store has its epoch."""
        odd = [rank for rank, it in self.stores.items() if it.is_known() and it.epoch % 2 and it.epoch > self.stage.epoch(rank)]
        for rank in sorted(odd, key=self.stage.epoch, reverse=True):
            epoch = self.stores[rank].epoch
            caller = next((other for other in self.stores if other != rank and self.stage.newest(other, rank, 'Propose', epoch=epoch)), None)
            if caller is None:
                self.stage.elect(rank)
            else:
                self.stage.join(rank, caller, epoch)


def alone(first: str, store: Held, commands: list[Command]) -> Stage:
    """The run of a quorum of one monitor."""
    stage = Stage(first)
    stage.event('start 0 0')
    for command in commands:
        stage.ask(0, command.words)
    for _ in range(store.starts - 1):
        stage.event('start 0 0')
    stage.stop(0)
    return stage


def difference(stage: Stage, stores: dict[int, Map]) -> str | None:
    """In what the stores of a run differ from those that are wanted."""
    for rank, wanted in stores.items():
        found = dict(stage.store(rank))
        places = sorted(place for place in {*wanted, *found} if wanted.get(place) != found.get(place))
        if places:
            names = [f'{b"/".join(place).decode()} ({shown(wanted.get(place))} instead of {shown(found.get(place))})' for place in places[:MOST_NAMED]]
            return f'the store of monitor {rank} differs in {len(places)} keys from what a schedule was found to lead to: {", ".join(names)}'
    return None


def shown(value: bytes | None) -> str:
    if value is None:
        return 'none'
    return str(int.from_bytes(value, 'little')) if len(value) == 8 else f'{len(value)} bytes'


def prelude(first: str, maps: dict[int, Map]) -> Stage:
    """A run that ends with these stores, by rank, and with all monitors down. A monitor that isn't among them may have any store. Raises Unreachable if no
    such run is found."""
    stores = {rank: held(rank, entries) for rank, entries in sorted(maps.items()) if entries}
    if not stores:
        return Stage(first)
    commands = commands_of(list(stores.values()), int(first.split(' ')[1]))
    why: list[str] = []
    for making in islice(makings(first, stores, maps, commands), MOST_COURSES):
        try:
            stage = making()
            if fault := difference(stage, maps):
                raise Failing(fault)
            return stage
        except (Failing, Unreachable) as fault:
            why.append(str(fault))
    raise Unreachable(why[0] if why else 'no sequence of elections was found after which the stores have their epochs (monitor/election_epoch) and proposal '
                      'numbers (paxos/last_pn, paxos/accepted_pn, paxos/pending_pn): ' + numbers_of(stores))


def commands_of(stores: list[Held], count: int) -> list[Command]:
    """The commands of all versions. Raises Unreachable if they take too many events, or no line has one of them."""
    last = max(it.last for it in stores)
    least = last * (1 + 3 * (count // 2))
    if least > MOST_EVENTS:
        raise Unreachable(f'the last version {last} takes {least} events, and a schedule has at most {MOST_EVENTS}')
    try:
        return Shared(stores).commands()
    except (At, Unwritable) as fault:
        raise Unreachable(f'{fault}: no events lead to it') from None


def makings(first: str, stores: dict[int, Held], maps: dict[int, Map], commands: list[Command]) -> Iterator[Callable[[], Stage]]:
    """Ways to make a run that may end with these stores."""
    _, count, rule = first.split(' ')
    if count == '1':
        yield lambda: alone(first, stores[0], commands)
        return
    ranking, known = Ranking(int(count), rule), list(stores.values())
    everyone = {**stores, **{rank: unknown(rank, known) for rank in range(int(count)) if rank not in maps}}
    for course in courses(ranking, everyone):
        yield partial(Leading(first, everyone, ranking, commands).made, course)


def courses(ranking: Ranking, stores: dict[int, Held]) -> Iterator[Course]:
    """The sequences of elections that are found for these stores."""
    for plan in Planner(ranking, stores).plans():
        if course := course_of(plan, ranking, stores):
            yield course


def numbers_of(stores: dict[int, Held]) -> str:
    return '; '.join(f'monitor {it.rank} {it.epoch}, {it.made}, {it.promised}, {it.accepted_pn}' for it in stores.values())
