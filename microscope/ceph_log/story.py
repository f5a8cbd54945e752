"""What happened, in few lines: who called an election and why, who led with whom, what was committed, who was copied."""
from __future__ import annotations

from typing import NamedTuple

from .events import Event
from .quorum import Quorum
from .sentences import cause, ranks

WHY_TIMER = {'election': 'nobody won the election in time', 'lease': 'it had no lease for 10 s', 'leaseack': 'a member did not acknowledge its lease for 10 s',
             'accept': 'a member did not accept a value for 10 s', 'collect': 'a member did not answer its COLLECT for 10 s'}
LOST = ('lease', 'leaseack', 'accept', 'collect', 'sync')


class Told(NamedTuple):
    """A line of the story, and the event that it is about."""
    moment: int
    rank: int
    text: str
    event: Event


def why_called(q: Quorum, event: Event) -> str:
    """Why a monitor called an election."""
    message = event.message
    if event.kind == 'timer':
        return WHY_TIMER.get(event.timer, event.timer or '')
    if event.is_message('PROBE_REPLY'):
        if event.has('enough'):
            return 'those in no quorum are a majority'
        quorum = message.fields['quorum']
        return f'there is the quorum {quorum}' + ('' if str(event.rank) in quorum.split(',') else ', without it')
    if event.is_message('PROPOSE'):
        is_late = (message.fields.get('e') or 0) < event.before.epoch
        return f'{q.who(message.sender)}' + (', outside of its quorum, stands' if is_late else ' stands, and it outranks that one')
    if event.has('win_standalone'):
        return 'it is alone in its map'
    return 'a version changed the monmap' if event.is_message('COMMIT') else 'the log shows no cause'


class Story:
    """Gathers the lines. Commits of one leader that follow one another are one line."""

    def __init__(self, q: Quorum):
        self.q, self.lines = q, []
        self.run: tuple | None = None
        for event in q.events:
            self.take(event)
        self.flush()
        self.lines.sort(key=lambda told: told.moment)

    def say(self, event: Event, text: str, ends_run: bool = True):
        if ends_run:
            self.flush()
        self.lines.append(Told(event.moment, event.rank, text, event))

    def flush(self):
        if self.run:
            first, last, by, epoch, size, event = self.run
            versions = f'version {first}' if first == last else f'versions {first} to {last}'
            self.run = None
            self.say(event, f'{self.q.who(by)} commits {versions} in epoch {epoch}, {size} bytes.', ends_run=False)

    def take(self, event: Event):
        who, facts = self.q.who(event.rank), {fact.name: fact for fact in event.facts}
        if event.kind == 'start':
            opens = facts.get('opens')
            self.say(event, f'{who} starts' + (f' with the versions {opens.args[3]} to {opens.args[2]}' if opens and opens.args[2] != '0' else '') + '.')
        elif event.kind == 'stop':
            self.say(event, f'{who} stops ({event.facts[0].args[0] if event.facts and event.facts[0].args else "shutdown"}).')
        elif event.kind == 'timer' and event.timer in LOST:
            self.say(event, f'{who}: {cause(self.q, event)}')
        elif event.kind == 'reconfigured':
            self.say(event, f'{who} leaves the quorum, since the monmap changed.', ends_run=False)
        self.take_election(event, who, facts)
        self.take_recovery(event, who, facts)
        self.take_copy(event, who, facts)
        if 'commit_start' in facts:
            self.commit(event, int(facts['commit_start'].args[0]))

    def take_election(self, event: Event, who: str, facts: dict):
        if event.kind == 'calls':
            self.say(event, f'{who} calls an election.')
        elif 'start_election' in facts or 'stands' in facts and event.kind != 'start':
            self.say(event, f'{who} calls an election (epoch {event.after.epoch}): {why_called(self.q, event)}.')
        if 'win' in facts:
            epoch, quorum = facts['win'].args
            self.say(event, f'{who} leads epoch {epoch} with {self.others(event, quorum)}.')
        elif event.kind == 'leads' and 'says_leads' in facts:
            epoch = f' (epoch {event.after.epoch} or a later one)' if event.after.epoch else ''
            self.say(event, f'{who} leads{epoch} with {self.others(event, facts["says_leads"].args[2])}.')

    def others(self, event: Event, quorum: str) -> str:
        return self.q.those(rank for rank in ranks(quorum) if rank != event.rank)

    def take_recovery(self, event: Event, who: str, facts: dict):
        if 'all_answered_old' in facts:
            self.say(event, f'{who} recovers version {event.before.last + 1}, which was accepted and not known to be committed.', ends_run=False)
        if 'forgets_uncommitted' in facts:
            self.say(event, f'{who} drops its accepted value of version {facts["forgets_uncommitted"].args[0]}: obsolete.', ends_run=False)
        if 'higher_pn' in facts and event.message is not None:
            self.say(event, f'{who} finds that {self.q.who(event.message.sender)} promised a greater number, and collects again.', ends_run=False)
        if 'trims' in facts:
            self.say(event, f'{who} trims the log up to version {int(facts["trims"].args[0]) - 1}.', ends_run=False)

    def take_copy(self, event: Event, who: str, facts: dict):
        if 'sync_start' in facts:
            address, what = facts['sync_start'].args
            self.say(event, f'{who} begins a {what} synchronization from {self.q.who(self.q.rank_at(address))}.')
        elif event.kind == 'copies':
            self.say(event, f'{who} begins a full synchronization.')
        if 'sync_finish' in facts:
            self.say(event, f'{who} has the copy, up to version {facts["sync_finish"].args[0]}.', ends_run=False)

    def commit(self, event: Event, version: int):
        size, epoch = self.q.monitors[event.rank].sizes.get(version, 0), event.before.epoch
        if self.run and self.run[1:4] == (version - 1, event.rank, epoch):
            self.run = (self.run[0], version, event.rank, epoch, self.run[4] + size, self.run[5])
        else:
            self.flush()
            self.run = (version, version, event.rank, epoch, size, event)


def story(q: Quorum) -> list[Told]:
    return Story(q).lines
