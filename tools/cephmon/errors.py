"""What a request raises. Each exception says two things: whether the change was made, and why the request failed. Both can be caught.

    NotDone     the change wasn't made and never will be. A read changes nothing, so a read that fails is this
    NotKnown    the change may have been made, and may still be made
    Done        the change was made, as version `version` of the log, but what had to follow it failed

    Refused     the monitors refuse the request: no such key, too long, or the map is full
    NotServed   no monitor served the request in time

So a refusal is `Refused` and either `NotDone` or `NotKnown`, and so is a timeout. ValueError is raised instead if a request has no encoding: nothing was
sent. The premise of `NotDone` is that the network delivers no datagram of the client twice.
"""
from __future__ import annotations

# The outcome of a monitor that didn't answer, and of one at whose address nobody listens.
NO_ANSWER, CLOSED = 'no answer', 'nobody listens'
# The kinds of replies that refuse a request, with what is printed.
REFUSALS = {
    'NoSuch': 'no such key',
    'TooLong': 'too long: {len} bytes, of which there may be {most}',
    'MapFull': 'the map is full: it would have {would_be} bytes',
}


class Error(Exception):
    """A request failed."""


class NotDone(Error):
    """The change wasn't made, and never will be."""


class NotKnown(Error):
    """The change may have been made, and may still be made."""


class Done(Error):
    """The change was made, as version `version` of the log of all changes, but what had to follow it failed."""

    def __init__(self, version: int, why: str):
        self.version = version
        super().__init__(f'{why}; the change was made as version {version}')


class Refused(Error):
    """The monitors refuse the request. `kind` is NoSuch, TooLong or MapFull."""

    def __init__(self, kind: str, text: str | None = None):
        self.kind = kind
        super().__init__(text or REFUSALS[kind])


class NotServed(Error):
    """No monitor served the request in time.

    `outcomes` has the last outcome of each monitor that was asked, by its rank: `no answer`, `nobody listens`, `Unavailable`, `NotReadable`, `Busy`, or a sentence if
    the monitor drops these requests, is one of another quorum, or shows an old map."""

    def __init__(self, seconds: float, outcomes: dict[int, str]):
        self.outcomes = outcomes
        each = ', '.join(f'monitor {rank}: {outcome}' for rank, outcome in sorted(outcomes.items()))
        super().__init__(f'not served within {seconds:g} s; {each}')

    def silent(self) -> bool:
        """Whether no monitor answered anything."""
        return set(self.outcomes.values()) <= {NO_ANSWER, CLOSED}


class RefusedNotDone(Refused, NotDone):
    """Refused, and no earlier try of it was without an answer."""


class RefusedNotKnown(Refused, NotKnown):
    """Refused, but an earlier try had no answer, and may have been made."""


class NotServedNotDone(NotServed, NotDone):
    """Not served in time, and each try was refused, or it was a read."""


class NotServedNotKnown(NotServed, NotKnown):
    """Not served in time, and a try of the change had no answer."""


def refused(kind: str, text: str | None = None, is_known: bool = True) -> Refused:
    """A refusal. `is_known` says whether each earlier try of the change was answered."""
    return (RefusedNotDone if is_known else RefusedNotKnown)(kind, text)


def not_served(seconds: float, outcomes: dict[int, str], is_known: bool) -> NotServed:
    """A timeout. `is_known` says whether each try of the change was answered."""
    return (NotServedNotDone if is_known else NotServedNotKnown)(seconds, outcomes)
