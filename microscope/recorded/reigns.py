"""A sequence of won elections after which monitors have made and promised given proposal numbers, in given epochs.

Each won election makes the next even epoch and at least one proposal number. The winner's number has the next *level*, its hundreds, above what the winner
knows: its own number, what it promised, and, by collecting again, what a member of its quorum promised.
"""
from __future__ import annotations

from typing import Iterator, NamedTuple

from recorded.held import HUNDRED, Held, Unreachable

# The most winners that are tried in all.
MOST_TRIED = 50_000


class Reign(NamedTuple):
    """A won election: its number, from 1 on, which is half its epoch; the winner's rank, and its proposal number."""
    number: int
    winner: int
    pn: int

    def level(self) -> int:
        return self.pn // HUNDRED


class Ranking:
    """Who may win an election. If scores count, each monitor that may lead can have those by which it outranks all others."""

    def __init__(self, count: int, rule: str):
        self.count = count
        name, _, ranks = rule.partition('=')
        self.barred = {int(rank) for rank in ranks.split(',')} if ranks else set()
        self.has_scores = name == 'connectivity'

    def outranks(self, one: int, other: int) -> bool:
        if self.has_scores:
            return one != other and one not in self.barred
        return (one in self.barred, one) < (other in self.barred, other)

    def may_lead(self, rank: int) -> bool:
        return rank not in self.barred

    def is_majority(self, ranks: set[int]) -> bool:
        return 2 * len(ranks) > self.count


class Planner:
    """The search for such a sequence."""

    def __init__(self, ranking: Ranking, stores: dict[int, Held]):
        self.ranking, self.stores = ranking, stores
        known = [it for it in stores.values() if it.is_known()]
        self.count = max(it.latest() for it in known)
        self.needed = sorted({pn for it in known for pn in (it.made, it.promised, it.accepted_pn)} - {0})
        self.tried = 0
        for pn in self.needed:
            maker = stores.get(pn % HUNDRED)
            if maker is None or maker.made < pn:
                who = next(it.rank for it in known if pn in (it.promised, it.accepted_pn))
                raise Unreachable(f'monitor {who} knows the number {pn} (paxos/accepted_pn or paxos/pending_pn), which monitor {pn % HUNDRED} never made')
        self.latest = {pn: min(it.latest() for it in stores.values() if pn in (it.made, it.promised, it.accepted_pn) or it.rank == pn % HUNDRED)
                       for pn in self.needed}
        self.due = {pn: min((it.latest() for it in stores.values() if it.promised == pn), default=0) for pn in self.needed}

    def plans(self) -> Iterator[list[Reign]]:
        """The sequences that are found, the likeliest first."""
        yield from self.extended([], 0)

    def followers(self, winner: int, epoch: int) -> set[int]:
        """Who may vote for a winner, among those who have had an epoch."""
        return {rank for rank, it in self.stores.items() if it.epoch >= epoch and self.ranking.outranks(winner, rank)}

    def extended(self, begun: list[Reign], place: int) -> Iterator[list[Reign]]:
        """The sequences that begin so. `place` is that of the next needed number."""
        number = begun[-1].number if begun else 0
        if place == len(self.needed):
            if number == self.count:
                yield begun
            return
        for reign in self.choices(begun, number, place):
            self.tried += 1
            if self.tried > MOST_TRIED:
                return
            yield from self.extended([*begun, reign], place + (reign.pn == self.needed[place]))

    def choices(self, begun: list[Reign], number: int, place: int) -> list[Reign]:
        """The elections that may be won next, the likeliest first. Two monitors may win elections of one epoch, if others voted for both."""
        last, limit = begun[-1].pn if begun else 0, self.needed[place]
        level = last // HUNDRED
        found = [Reign(number + 1, rank, (level + more) * HUNDRED + rank) for rank in self.stores for more in (0, 1)]
        found += [it._replace(number=number) for it in found if number and it.winner not in winners(begun, number)]
        able = [it for it in found if max(last, HUNDRED - 1) < it.pn <= limit and self.stores[it.winner].made >= it.pn
                and self.leaves_room(it, place) and self.wins(it, winners(begun, it.number))]

        def unlikeliness(it: Reign) -> tuple:
            is_early = it.pn == limit and it.number < self.due[limit]
            return it.number == number, is_early, it.level() == level, it.pn != limit, it.pn
        return sorted(able, key=unlikeliness)

    def wins(self, reign: Reign, others: set[int]) -> bool:
        """Whether a monitor may win an election that others win as well."""
        rank, number = reign.winner, reign.number
        voters = self.followers(rank, 2 * number - 1) - others
        return self.ranking.may_lead(rank) and self.stores[rank].latest() >= number and self.ranking.is_majority({rank} | voters)

    def leaves_room(self, reign: Reign, place: int) -> bool:
        """Whether each needed number can still be made in time: each epoch adds at most one level."""
        later = self.needed[place + (reign.pn == self.needed[place]):]
        is_timely = reign.number <= self.latest.get(reign.pn, self.count)
        return is_timely and all(reign.number + it // HUNDRED - reign.level() <= self.latest[it] for it in later)


def winners(plan: list[Reign], number: int) -> set[int]:
    return {it.winner for it in plan if it.number == number}


class Course(NamedTuple):
    """A sequence of won elections, and of each who follows the winner and who hears its number."""
    plan: list[Reign]
    follow: list[set[int]]
    hears: list[set[int]]


def course_of(plan: list[Reign], ranking: Ranking, stores: dict[int, Held]) -> Course | None:
    """Who follows and hears the winners, as many as may; None if a winner couldn't make its number, or a monitor can't have its last epoch."""
    promised, course = dict.fromkeys(stores, 0), Course(plan, [], [])
    for at, reign in enumerate(plan):
        follow = {rank for rank in stores if follows(rank, reign, plan, ranking, stores)}
        front = promised[reign.winner] // HUNDRED
        again = (front + 1) * HUNDRED + reign.winner
        is_told = front == reign.level() - 1 or any(promised[rank] // HUNDRED == reign.level() - 1 and promised[rank] > again for rank in follow)
        if front >= reign.level() or not is_told:
            return None
        hears = {rank for rank in follow if stores[rank].promised >= reign.pn
                 and not any(it.winner == rank and it.level() <= reign.level() for it in plan[at + 1:])}
        for rank in hears | {reign.winner}:
            promised[rank] = max(promised[rank], reign.pn)
        course.follow.append(follow)
        course.hears.append(hears)
    ends = {rank for rank, it in stores.items() if it.epoch and it.epoch % 2 == 0}
    had = {rank for reign, follow in zip(plan, course.follow) for rank in follow | {reign.winner} if reign.number == stores[rank].latest()}
    return course if ends <= had and all(promised[rank] == it.promised for rank, it in stores.items() if it.is_known()) else None


def follows(rank: int, reign: Reign, plan: list[Reign], ranking: Ranking, stores: dict[int, Held]) -> bool:
    """Whether a monitor follows a winner. If several win in an epoch, it follows the one whose number it keeps, or else the last one that it may."""
    if rank in winners(plan, reign.number) or stores[rank].latest() < reign.number:
        return False
    able = [it for it in plan if it.number == reign.number and ranking.outranks(it.winner, rank)]
    keeps = [it for it in able if it.pn in (stores[rank].promised, stores[rank].accepted_pn)]
    return (keeps or able)[-1:] == [reign]
