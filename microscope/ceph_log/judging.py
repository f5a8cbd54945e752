"""Judges what the logs of a quorum show: which clauses of safety hold of it, how often each was tested, and where one fails."""
from __future__ import annotations

from collections import defaultdict
from typing import Callable, Iterator

from .clauses import Clause, new_clauses
from .events import Event, Fact, ranks_of
from .levels import DEFAULTS, level_of
from .quorum import Quorum

# Times in logs are as coarse as 4 ms: an ACCEPT may seem to be this much later than the commit that it allowed, in microseconds.
COARSE = 20_000
# The first version is proposed without the fields that its commit has, 51 bytes.
FIRST_VERSION = 51
PAXOS = ('BEGIN', 'COMMIT', 'LEASE', 'COLLECT', 'ACCEPT', 'LAST', 'LEASE_ACK')
ACTS = ('ACCEPT', 'LAST', 'LEASE_ACK')


class Judge:
    """Goes through the events once, and tests each clause at the facts that it is about."""

    def __init__(self, q: Quorum):
        q.one_map()
        self.q, self.clauses = q, new_clauses()
        self.sees_messages = bool(q.levels().get('ms'))
        self.is_detailed = level_of(q.levels()) != DEFAULTS
        self.leaders: dict[int, int] = {}
        self.epochs: dict[int, int] = {}
        self.promised: dict[int, int] = {}
        self.made: dict[int, int] = {}
        self.last: dict[int, int] = {}
        self.pending: dict[int, int] = {}
        self.floors: dict[int, int] = {}
        self.copying: set[int] = set()
        self.votes: set[tuple[int, int, int]] = set()
        self.accepts: dict[tuple, Event] = {}
        self.proposed: dict[int, tuple] = {}
        self.commits: list[tuple] = []
        self.most = 0
        self.sizes: dict[int, dict[int, Event]] = defaultdict(dict)
        self.carried: dict[tuple, dict[int, Event]] = defaultdict(dict)
        for event in q.events:
            self.take(event)
        self.close()

    def test(self, clause: str, holds: bool, text: str, event: Event | None = None):
        self.clauses[clause].test(holds, text, event)

    def who(self, rank: int | None) -> str:
        return self.q.who(rank)

    def take(self, event: Event):
        for message in event.sends:
            if message.kind == 'ACK':
                self.votes.add((event.rank, message.receiver, message.fields['e']))
        for fact in event.facts:
            form: Callable | None = getattr(self, 'at_' + fact.name, None)
            if form is not None:
                form(event, fact, fact.args)
        self.grow(event)
        if self.is_detailed and event.is_message(*PAXOS):
            self.at_old_message(event)

    # -- elections

    def epoch(self, event: Event, epoch: int):
        before = self.epochs.get(event.rank, 0)
        self.test('epochs', epoch >= before, f'the epoch of {self.who(event.rank)} falls from {before} to {epoch}', event)
        self.epochs[event.rank] = max(epoch, before)

    def at_epoch(self, event: Event, fact: Fact, args: tuple):
        self.epoch(event, int(args[0]))

    at_init_epoch = at_epoch

    def at_win(self, event: Event, fact: Fact, args: tuple):
        epoch, members, rank = int(args[0]), ranks_of(args[1]), event.rank
        self.epoch(event, epoch)
        self.test('epochs', epoch % 2 == 0, f'{self.who(rank)} wins in the odd epoch {epoch}', event)
        self.leads(event, epoch, rank)
        self.test('majority', 2 * len(members) > self.q.count, f'the quorum {args[1]} of epoch {epoch} is no majority of {self.q.count}', event)
        for voter in members if self.sees_messages else ():
            if voter != rank and voter in self.q.monitors and self.q.monitors[voter].levels.get('ms') and self.sees(voter, event):
                voted = (voter, rank, epoch - 1) in self.votes
                self.test('majority', voted, f'{self.who(voter)} is in the quorum of epoch {epoch}, and sent no vote to {self.who(rank)}', event)

    def sees(self, rank: int, event: Event) -> bool:
        """Whether the log of a monitor had begun a second before an event."""
        first = self.q.monitors[rank].first_at
        return first is not None and first + 1_000_000 < event.at

    def at_lose(self, event: Event, fact: Fact, args: tuple):
        epoch, leader = int(args[0]), int(args[1])
        self.epoch(event, epoch)
        self.test('epochs', epoch % 2 == 0, f'{self.who(event.rank)} is a peon in the odd epoch {epoch}', event)
        self.leads(event, epoch, leader)

    def leads(self, event: Event, epoch: int, leader: int):
        known = self.leaders.setdefault(epoch, leader)
        self.test('one_leader', known == leader, f'epoch {epoch} has the leaders {self.who(known)} and {self.who(leader)}', event)

    def at_says_leads(self, event: Event, fact: Fact, args: tuple):
        if not event.has('win'):
            self.test('majority', 2 * len(ranks_of(args[2])) > self.q.count, f'the quorum {args[2]} is no majority of {self.q.count}', event)

    # -- numbers and promises

    def at_promises(self, event: Event, fact: Fact, args: tuple):
        number, before = int(args[0]), self.promised.get(event.rank, 0)
        self.test('promises', number >= before, f'{self.who(event.rank)} promises {number} after {before}', event)
        self.promised[event.rank] = max(number, before)

    def at_new_pn(self, event: Event, fact: Fact, args: tuple):
        number, rank = int(args[0]), event.rank
        self.test('numbers', number % 100 == rank, f'{self.who(rank)} makes the number {number}', event)
        self.test('numbers', number > self.made.get(rank, 0), f'{self.who(rank)} makes the number {number} after {self.made.get(rank)}', event)
        self.made[rank] = number
        self.promised[rank] = max(number, self.promised.get(rank, 0))

    def at_opens(self, event: Event, fact: Fact, args: tuple):
        own, stored, rank = int(args[0]), int(args[1]), event.rank
        promised = self.promised.get(rank, 0)
        if event.kind == 'start' and rank in self.promised:
            kept = max(own if own % 100 == rank else 0, stored)
            self.test('promises', kept >= promised, f'{self.who(rank)} promised {promised}, and keeps {kept} after its restart', event)
            if promised % 100 == rank:
                self.promised[rank] = stored  # A leader's own number isn't stored as a promise: it sends nothing under it after a start.
        elif event.kind != 'start' and event.has('sync_finish') and not event.has('takes_recent') and stored < promised:
            self.test('promises', False, f'{self.who(rank)} promised {promised}, and its store has {stored} after the full copy', event)
            self.promised[rank] = stored

    # -- values

    def at_accepts(self, event: Event, fact: Fact, args: tuple):
        version, number, rank = int(args[0]), int(args[1]), event.rank
        promised = self.promised.get(rank, 0)
        self.test('promises', number >= promised, f'{self.who(rank)} accepts version {version} under {number} after it promised {promised}', event)
        self.accepts[rank, version, number] = event
        self.pending[rank] = version

    def at_begins(self, event: Event, fact: Fact, args: tuple):
        version, number = int(args[0]), self.made.get(event.rank)
        self.proposed[event.rank] = version, number, int(args[1])
        self.accepts[event.rank, version, number] = event

    def at_commit_start(self, event: Event, fact: Fact, args: tuple):
        version = int(args[0])
        _, number, size = self.proposed.get(event.rank, (version, None, None))
        by = list(event.all('accepted_by'))
        for member in event.before.quorum:
            if number is not None and member in self.q.monitors and self.q.monitors[member].levels.get('paxos', 0) >= 10 and self.sees(member, event):
                self.commits.append((member, version, number, event))
            if by:
                self.test('all_accept', member in ranks_of(by[-1].args[0]), f'version {version} is committed without {self.who(member)}', event)
        if size is not None:
            self.sizes[version].setdefault(size + (FIRST_VERSION if version == 1 else 0), event)
        self.most = max(self.most, version)

    def at_shares_version(self, event: Event, fact: Fact, args: tuple):
        self.sizes[int(args[0])].setdefault(int(args[1]), event)

    def at_all_answered(self, event: Event, fact: Fact, args: tuple):
        stored = event.get('stores')
        had = max(int(stored.args[1]) if stored else event.before.last, event.after.last)
        self.test('durability', had >= self.most, f'{self.who(event.rank)} leads epoch {event.after.epoch} with version {had}, and {self.most} was committed '
                  f'before', event)

    at_all_answered_old = at_all_answered

    # -- versions

    def at_stores(self, event: Event, fact: Fact, args: tuple):
        first, end, rank = int(args[0]), int(args[1]), event.rank
        if rank in self.last and rank not in self.copying:
            self.test('growth', first == self.last[rank] + 1, f'{self.who(rank)} stores the versions {first} to {end} after {self.last[rank]}', event)
        self.last[rank] = max(self.last.get(rank, 0), end)
        self.pending.pop(rank, None)

    def at_commit_finish(self, event: Event, fact: Fact, args: tuple):
        rank, version = event.rank, int(args[0])
        if rank in self.last and rank not in self.copying:
            self.test('growth', version == self.last[rank] + 1, f'{self.who(rank)} commits version {version} after {self.last[rank]}', event)
        self.last[rank] = version

    def at_commit_proposal(self, event: Event, fact: Fact, args: tuple):
        if event.has('commit_finish'):
            return
        rank, version = event.rank, event.after.last
        if rank in self.last and rank not in self.copying:
            self.test('growth', version - self.last[rank] in (0, 1), f'{self.who(rank)} commits version {version} after {self.last[rank]}', event)
        self.last[rank] = version

    def grow(self, event: Event):
        rank, known = event.rank, event.after
        if not known.last:
            return
        if rank in self.last and rank not in self.copying and known.state != 'down':
            holds = known.last >= self.last[rank] or event.kind == 'start'
            self.test('growth', holds, f'{self.who(rank)} has version {known.last} after {self.last[rank]}', event)
        self.last[rank] = known.last if rank in self.copying else max(self.last.get(rank, 0), known.last)

    # -- copies

    def at_sync_start(self, event: Event, fact: Fact, args: tuple):
        if args[1] == 'full':
            self.copying.add(event.rank)

    def at_sync_mark(self, event: Event, fact: Fact, args: tuple):
        self.floors[event.rank] = int(args[0])

    def at_sync_finish(self, event: Event, fact: Fact, args: tuple):
        rank, end = event.rank, int(args[0])
        floor = self.floors.pop(rank, None)
        if floor is not None:
            self.test('floor', end >= floor, f'{self.who(rank)} ends its copy at {end}, below its floor {floor}', event)
        self.copying.discard(rank)
        self.last[rank] = end

    # -- leases

    def at_lease(self, event: Event, fact: Fact, args: tuple):
        rank, after = event.rank, event.after
        giver = event.message.sender if event.message is not None else None
        self.test('leases', giver is None or after.leader is None or giver == after.leader,
                  f'{self.who(rank)} takes a lease of {self.who(giver)}, and follows {self.who(after.leader)}', event)
        self.test('leases', int(args[0]) == after.last, f'{self.who(rank)} takes a lease for version {args[0]}, and has {after.last}', event)
        pending = self.pending.get(rank, 0)
        self.test('leases', pending <= after.last, f'{self.who(rank)} takes a lease with the pending version {pending}', event)

    def at_extends(self, event: Event, fact: Fact, args: tuple):
        self.test('leases', 'leader' in (event.before.state, event.after.state), f'{self.who(event.rank)} extends leases, and does not lead', event)

    # -- messages

    def at_old_message(self, event: Event):
        message, sent = event.message, event.sending_epoch()
        if event.sent is not None and 0 < sent < event.before.epoch:
            acts = any(answer.kind in ACTS for answer in event.sends) or event.has('accepts', 'stores', 'lease', 'promises')
            self.test('old_leaders', not acts, f'{self.who(event.rank)} in epoch {event.before.epoch} acts on {message.kind} of epoch {sent}', event)
        if message.size and message.kind in ('BEGIN', 'COMMIT') and event.sent is not None and not event.sent.event.has('shares_version'):
            self.carried[message.kind, message.sender, message.fields['pn'], message.fields['v']].setdefault(message.size, event)

    def close(self):
        """The tests that need the whole logs."""
        for member, version, number, event in self.commits:
            vote = self.accepts.get((member, version, number))
            accepted = vote is not None and vote.moment <= event.moment + COARSE
            self.test('all_accept', accepted, f'version {version} is committed under {number}, and {self.who(member)} had not accepted it', event)
        for text, found in self.same_sizes():
            self.test('agreement', len(found) == 1, f'{text} has the sizes {", ".join(map(str, sorted(found)))}', next(iter(found.values())))

    def same_sizes(self) -> Iterator[tuple[str, dict[int, Event]]]:
        for version, found in self.sizes.items():
            yield f'version {version}', found
        for (kind, sender, number, version), found in self.carried.items():
            yield f'{kind} of version {version} by {self.who(sender)} under {number}', found


def judged(q: Quorum) -> list[Clause]:
    return list(Judge(q).clauses.values())
