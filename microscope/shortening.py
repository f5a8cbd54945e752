"""Makes a schedule shorter: events are removed as long as a condition holds, and deliveries are numbered anew."""
from __future__ import annotations

import re
from typing import NamedTuple

from played import Play
from schedules import DELIVERY, MOST_MESSAGE_NUMBER

SENT = re.compile(r'^(\d+) |^  send (\d+) ', re.MULTILINE)
# A number that no message has. A delivery has it if no event sends its message.
NEVER = MOST_MESSAGE_NUMBER


class Ended(NamedTuple):
    """How a replay ended: its status, or None if it took too long, and its trace."""
    status: int | None
    trace: str


# The event that sends a message, and the message's place among those of that event.
Source = tuple[int, int]


def messages_of(trace: str) -> dict[Source, int]:
    """The number of each message of a trace, by the event that sends it and its place there."""
    found, event, place = {}, 0, 0
    for match in SENT.finditer(trace):
        if match[1]:
            event, place = int(match[1]), 0
        else:
            found[event, place] = int(match[2])
            place += 1
    return found


class Shortening:
    """A schedule from which events are removed. `kept` has the numbers of the events that are left."""

    def __init__(self, lines: list[str], replay, holds):
        self.header, self.events, self.replay, self.holds = lines[0], lines[1:], replay, holds
        self.replays = 0
        whole = self.replayed(lines)
        self.sources = {number: source for source, number in messages_of(whole.trace).items()}
        self.kept, self.lines = list(range(1, len(lines))), lines
        self.held = holds(lines, whole)

    def replayed(self, lines: list[str]) -> Ended:
        self.replays += 1
        return self.replay(lines)

    def line_of(self, event: int, places: dict[int, int], messages: dict[Source, int]) -> str:
        """The line of an event among the kept ones. A message that isn't sent has the number NEVER."""
        line = self.events[event - 1]
        match = DELIVERY.fullmatch(line)
        if not match or int(match[2]) not in self.sources:
            return line
        sender, place = self.sources[int(match[2])]
        return f'{match[1]}{messages.get((places.get(sender, 0), place), NEVER)}{match[3]}'

    def numbered(self, kept: list[int]) -> tuple[list[int], list[str], Ended]:
        """The kept events without deliveries of messages that aren't sent, their lines, and their replay. All numbers before the first wrong one are right, so
        each replay corrects at least one."""
        places = {event: place for place, event in enumerate(kept, 1)}
        found = [self.events[event - 1] for event in kept]
        lines = None
        while found != lines:
            lines = found
            ended = self.replayed([self.header, *lines])
            messages = messages_of(ended.trace)
            found = [self.line_of(event, places, messages) for event in kept]
        sent = [(event, line) for event, line in zip(kept, lines) if f'deliver {NEVER} ' not in line]
        if len(sent) < len(kept):
            kept, lines = [event for event, _ in sent], [line for _, line in sent]
            ended = self.replayed([self.header, *lines])
        return kept, [self.header, *lines], ended

    def tries(self, kept: list[int]) -> bool:
        """Keeps only these events if the condition holds of them. Returns whether it does."""
        kept, lines, ended = self.numbered(kept)
        if len(kept) < len(self.kept) and self.holds(lines, ended):
            self.kept, self.lines = kept, lines
            return True
        return False

    def run(self) -> list[str]:
        """Removes groups of successive events, of half the length in each round, and then single events until none can be removed."""
        size = len(self.kept) // 2
        while size:
            at, removed = len(self.kept), False
            while at > 0:
                begin = max(0, at - size)
                removed |= self.tries(self.kept[:begin] + self.kept[at:])
                at = min(begin, len(self.kept))
            if not removed or size > 1:
                size //= 2
        return self.lines


class Prefixes:
    """Replays by the definitions. The lines that a schedule has in common with the one before it aren't run again."""

    def __init__(self, header: str):
        self.lines, self.plays, self.traces = [header], [Play(header)], [[header]]

    def is_taken(self, place: int, line: str) -> bool:
        """Runs the line at this place after those before it. Returns whether the run goes on."""
        if self.lines[place:place + 1] == [line]:
            return True
        for held in (self.lines, self.plays, self.traces):
            del held[place:]
        play = self.plays[-1].copy()
        if not play.take(line):
            return False
        self.lines.append(line)
        self.plays.append(play)
        self.traces.append(play.trace)
        return True

    def ended(self, count: int, has_ended: bool) -> Ended:
        """How a run of this number of lines ended."""
        for held in (self.lines, self.plays, self.traces):
            del held[count:]
        last = self.plays[-1]
        end = [f'end events={last.events} log={len(last.world.log)}'] if has_ended else []
        return Ended(0, ''.join(line + '\n' for lines in [*self.traces, end] for line in lines))

    def __call__(self, lines: list[str]) -> Ended:
        taken = next((place for place, line in enumerate(lines) if place and not self.is_taken(place, line)), len(lines))
        return self.ended(taken, taken == len(lines))


class OfDefinitions(Shortening):
    """A shortening by the definitions. They run event by event, so each message has its number before its delivery, and one replay is enough."""

    replay: Prefixes

    def numbered(self, kept: list[int]) -> tuple[list[int], list[str], Ended]:
        self.replays += 1
        places, messages, lines, left, goes_on = {}, {}, [self.header], [], True
        for event in kept:
            line = self.line_of(event, places, messages)
            if f'deliver {NEVER} ' in line:
                continue
            goes_on = self.replay.is_taken(len(lines), line)
            if not goes_on:
                break
            places[event] = len(lines)
            sent = (SENT.match(it) for it in self.replay.traces[len(lines)][1:])
            messages.update(((len(lines), place), int(match[2])) for place, match in enumerate(filter(None, sent)))
            lines.append(line)
            left.append(event)
        return left, lines, self.replay.ended(len(lines), goes_on)
