"""What a log shows of one monitor: events, each with the lines that belong to it, and what is known of the monitor's state before and after."""
from __future__ import annotations

from typing import Iterator, NamedTuple

from .lines import Line
from .messages import Message

PHASES = ('probing', 'synchronizing', 'electing', 'peon')
LEADING = {'recovering': 'collecting', 'updating-previous': 'previous', 'writing-previous': 'previous', 'active': 'active', 'updating': 'updating',
           'writing': 'updating', 'refresh': 'active'}


class Known(NamedTuple):
    """What the log shows of a monitor's state. A number that it doesn't show is 0 or None."""
    state: str = 'down'
    paxos: str = ''
    epoch: int = 0
    first: int = 0
    last: int = 0
    promise: int | None = None
    made: int | None = None
    pending: tuple | None = None
    leader: int | None = None
    quorum: tuple = ()

    def phase(self) -> str:
        """The phase of docs/PROTOCOL.md."""
        if self.state == 'leader':
            return LEADING.get(self.paxos, 'collecting')
        return self.state if self.state in PHASES else 'down'


class Fact(NamedTuple):
    """A line with a pattern: the pattern's name, its groups, and the line's place and time."""
    name: str
    args: tuple
    file: str
    number: int
    at: int

    @property
    def where(self) -> str:
        return f'{self.file}:{self.number}'


class Event:
    """What a monitor did for one cause.

    `kind` is start, stop, deliver, timer, propose, commit, reconfigured (the monmap changed), calls, leads, copies (each from a line of the default levels)
    or other. `order` is the index of the first line that handled it. `moment` is its time by the clock of the first monitor.
    """
    __slots__ = ('rank', 'kind', 'at', 'moment', 'file', 'line', 'message', 'timer', 'facts', 'sends', 'before', 'after', 'order', 'index', 'number',
                 'verdict', 'sent', 'is_routine', 'last_at', 'answers')

    def __init__(self, rank: int | None, kind: str, line: Line, message: Message | None = None, timer: str | None = None, index: int = 0):
        self.rank, self.kind, self.at, self.moment, self.last_at = rank, kind, line.at, line.at, line.at
        self.file, self.line, self.message, self.timer, self.index = line.file, line.number, message, timer, index
        self.facts: list[Fact] = []
        self.sends: list[Message] = []
        self.before: Known | None = None
        self.after: Known | None = None
        self.order, self.number, self.verdict, self.is_routine = 0, 0, None, False
        self.sent: Message | None = None
        self.answers = 0  # to clients that this event sent

    @property
    def where(self) -> str:
        return f'{self.file}:{self.line}'

    def has(self, *names: str) -> bool:
        return any(fact.name in names for fact in self.facts)

    def get(self, name: str) -> Fact | None:
        return next((fact for fact in self.facts if fact.name == name), None)

    def all(self, name: str) -> Iterator[Fact]:
        return (fact for fact in self.facts if fact.name == name)

    def is_message(self, *kinds: str) -> bool:
        """Whether a message of one of the kinds came."""
        return self.kind == 'deliver' and self.message is not None and self.message.kind in kinds

    def sending_epoch(self) -> int:
        """The epoch of the monitor that sent the message when it did, or 0."""
        return self.sent.event.after.epoch if self.sent is not None and self.sent.event is not None and self.sent.event.after is not None else 0


def learned(known: Known, fact: Fact, own: tuple[int | None, str | None]) -> Known:
    """What is known after a fact. `own` is the monitor's rank and name."""
    name, args = fact.name, fact.args
    form = LEARNED.get(name)
    if form is not None:
        return form(known, args)
    if name == 'win':
        return known._replace(epoch=int(args[0]), leader=own[0], quorum=ranks_of(args[1]), state='leader')
    if name == 'lose':
        return known._replace(epoch=int(args[0]), leader=int(args[1]), quorum=ranks_of(args[2]), state='peon')
    if name == 'says_leads' and args[0] == own[1]:
        # It won the election whose epoch it showed last: an odd one.
        return known._replace(leader=own[0], quorum=ranks_of(args[2]), state='leader', epoch=known.epoch + known.epoch % 2)
    return known


def ranks_of(text: str) -> tuple[int, ...]:
    return tuple(map(int, text.split(',')))


LEARNED = {
    'epoch': lambda known, args: known._replace(epoch=int(args[0])),
    'first_epoch': lambda known, args: known._replace(epoch=int(args[0])),
    # The election that begins: `bump_epoch` is written at level 10 only.
    'init_epoch': lambda known, args: known._replace(epoch=int(args[0]) + 1 + int(args[0]) % 2),
    'opens': lambda known, args: known._replace(made=int(args[0]), promise=int(args[1]), last=int(args[2]), first=int(args[3])),
    'promises': lambda known, args: known._replace(promise=int(args[0])),
    'no_promise': lambda known, args: known._replace(promise=int(args[2])),
    'new_pn': lambda known, args: known._replace(made=int(args[0]), promise=int(args[0])),
    'collects': lambda known, args: known._replace(made=int(args[0]), promise=int(args[0])),
    'accepts': lambda known, args: known._replace(pending=(int(args[0]), int(args[1]))),
    'begins': lambda known, args: known._replace(pending=(int(args[0]), known.made)),
    'bootstrap': lambda known, args: known._replace(leader=None, quorum=(), state='probing'),
    'start_election': lambda known, args: known._replace(leader=None, quorum=(), state='electing'),
    'join_election': lambda known, args: known._replace(leader=None, quorum=()),
    'sync_start': lambda known, args: known._replace(state='synchronizing'),
    'stores': lambda known, args: known._replace(last=max(known.last, int(args[1]))),
}
