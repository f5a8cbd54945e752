"""Links that carry messages in one direction only."""
from __future__ import annotations

from collections import defaultdict
from typing import NamedTuple

from .events import Event
from .lines import SECOND
from .messages import MATCHED, Message
from .quorum import Quorum

# A direction is silent if this many messages, sent over this time, did not arrive within LATE, while as many came from the other side.
LEAST, SPAN, LATE, BACK = 4, 8 * SECOND, 5 * SECOND, 3


class Silent(NamedTuple):
    """A time in which nothing arrived in one direction."""
    sender: int
    receiver: int
    begin: int
    end: int
    count: int
    events: list[Event]


def silent_directions(q: Quorum) -> list[Silent]:
    """The silent directions between monitors whose logs are here."""
    arrived = {id(event.sent): event.moment for event in q.events if event.sent is not None}
    sends: dict[tuple[int, int], list[Message]] = defaultdict(list)
    for event in q.events:
        for message in event.sends:
            if message.kind in MATCHED and message.receiver in q.monitors and message.receiver != event.rank:
                sends[event.rank, message.receiver].append(message)

    def is_in_time(message: Message) -> bool:
        return arrived.get(id(message), 1 << 62) - message.moment < LATE
    found = []
    for (sender, receiver), messages in sends.items():
        run: list[Message] = []
        for message in [*sorted(messages, key=lambda message: message.moment), None]:
            if message is not None and not is_in_time(message):
                run.append(message)
                continue
            back = sends.get((receiver, sender), [])
            if len(run) >= LEAST and run[-1].moment - run[0].moment >= SPAN and sum(
                    run[0].moment < answer.moment < run[-1].moment and is_in_time(answer) for answer in back) >= BACK:
                found.append(Silent(sender, receiver, run[0].moment, run[-1].moment, len(run), [run[0].event, run[-1].event]))
            run = []
    return sorted(found, key=lambda silent: silent.begin)
