"""What a monitor without a record may have been given: events after which it sends what others got from it.

They are found by a search, of a few events at a time. Each is one that the run could have had, and what the monitor then sends is compared by its bytes. So a
schedule with such events is a run of the protocol like any other. But the monitor may have been given something else.
"""
from __future__ import annotations

from typing import Iterator

from fields import At
from played import Play, remembered
from recorded.lives import FRONT
from recorded.messages import message
from recorded.requests import Unwritable, begun_words, command_words
from recorded.timing import due
from schedules import DELIVERY

# The most events of one search, the most messages that may arrive next, and the most runs that a search tries.
DEEPEST, NEWEST, MOST_RUNS = 6, 10, 1_500
BEGIN, FORWARD = 8, 13
# The client that asks what the monitor forwards or begins to commit.
CLIENT = 4_000_000_001
Wanted = set[tuple[int, bytes]]


class Supposing:
    """The search for one monitor, which may have events up to a time. `times` are those at which messages were sent: they arrive at once."""

    def __init__(self, play: Play, rank: int, wanted: Wanted, time: int, arrived: set[int], times: dict[int, int]):
        self.play, self.rank, self.wanted, self.time, self.arrived, self.times, self.runs = play, rank, wanted, time, arrived, times, 0

    def found(self) -> list[list[str]]:
        """The lines of events after which the monitor sends one of the wanted messages, if they are found: the fewest ones, and before them those by which
        messages that were sent earlier arrive as well, as most of them did."""
        for depth in range(1, DEEPEST + 1):
            if lines := self.search(self.play, depth, 0):
                earlier = self.with_earlier(lines)
                return [earlier, lines] if earlier and earlier != lines else [lines]
        return []

    def with_earlier(self, lines: list[str]) -> list[str] | None:
        """The same, but the messages arrive first that were sent before each event, or before the message that arrives. None if the monitor then sends no
        wanted message."""
        play, found, last = self.play.copy(), [], 0
        for line in lines:
            match = DELIVERY.fullmatch(line)
            end = int(match[2]) if match else 0 if line.startswith('start ') else len(self.play.world.messages) + 1
            found += [self.arrival(number) for number in self.waiting(self.play, last) if number < end] + [line]
            last = max(last, end - (not match))
        return found if all(map(play.take, found)) and self.sends(self.play, play) else None

    def arrival(self, number: int) -> str:
        return f'deliver {number} {self.times.get(number, self.time)}'

    def waiting(self, play: Play, least: int) -> list[int]:
        """The numbers of the messages to the monitor, above one, that haven't arrived."""
        sent = play.world.messages
        return [number for number in range(least + 1, len(sent) + 1) if sent[number - 1].to == self.rank and number not in self.arrived]

    def search(self, play: Play, depth: int, least: int) -> list[str] | None:
        """The same from a run on, with this number of events at most. Messages arrive in the order in which they were sent."""
        for line, number in self.next(play, least):
            self.runs += 1
            after = play.copy()
            if self.runs > MOST_RUNS or not after.take(line) or self.is_idle(play, after):
                continue
            if self.sends(play, after):
                return [line]
            if depth > 1 and (rest := self.search(after, depth - 1, max(least, number))):
                return [line, *rest]
        return None

    def next(self, play: Play, least: int) -> Iterator[tuple[str, int]]:
        """The lines of the events that may come next, each with the number of the message that arrives, or 0."""
        if play.state(self.rank) is None:
            yield f'start {self.rank} {self.time}', 0
            return
        yield from ((self.arrival(number), number) for number in self.waiting(play, least)[-NEWEST:])
        timer = due(play, self.rank)
        if timer and timer[1] <= self.time:
            yield f'timer {self.rank} {timer[0]} {timer[1]}', 0
        yield from ((line, 0) for line in map(self.request, sorted(self.wanted)) if line)

    def request(self, wanted: tuple[int, bytes]) -> str | None:
        """The line of a client's request that the monitor forwards, or begins to commit, by this message, if it is one."""
        octets = wanted[1]
        kind = octets[1] if len(octets) > FRONT.size else 0
        try:
            found = command_words(octets) if kind == FORWARD else begun_words(octets, self.rank) if kind == BEGIN else None
        except (Unwritable, At, KeyError):
            return None
        return f'client {self.rank} {self.time} {CLIENT} {found[0]} {found[1]}' if found else None

    def sends(self, play: Play, after: Play) -> bool:
        """Whether a wanted message is sent between two runs."""
        new = after.world.messages[len(play.world.messages):]
        return any((it.to, message(it.message)) in self.wanted for it in new if it.message.from_ == self.rank)

    def is_idle(self, play: Play, after: Play) -> bool:
        """Whether an event did nothing."""
        return len(after.trace) == 1 and remembered(play.state(self.rank)) == remembered(after.state(self.rank))
