"""Reads scenarios and runs them by the proved definitions: messages take time, are lost, late or repeated, and timers fire by themselves."""
from __future__ import annotations

import heapq
import itertools
import random
import re
from typing import Iterator, NamedTuple

from played import Play, Refused, lines_of, quorum_file
from copying import Carried, Copying
from schedules import IMAGES, MOST_EVENTS, TIMERS, Fault, fault_of_event, fault_of_header, is_within
from texts import NAMES

# The actions at a time with their forms; and the form of a request, with what comes before its value or text.
FORMS = {
    'start': 'start R or start all', 'kill': 'kill R', 'pause': 'pause R', 'resume': 'resume R', 'fill': 'fill R COUNT EVERY', 'tear': 'tear R DISK CALL IMAGE', 'client': 'client R C ID COMMAND', 'cut': 'cut SIDES, cut A>B,.. or cut -',
    'latency': 'latency L [A>B]', 'loss': 'loss PERCENT [A>B]', 'repeat': 'repeat PERCENT [A>B]', 'delay': 'delay PERCENT L [A>B]',
    'lose': 'lose KIND [A>B] [COUNT]', 'twice': 'twice KIND [A>B] [COUNT]', 'late': 'late KIND L [A>B] [COUNT]',
}
REQUEST = re.compile(r'(\s*at\s+\S+\s+client\s+\S+\s+\S+\s+\S+\s+(?:set\s+\S+|log))(?:\s(.*))?')
COMMENT = re.compile(r'(?:^|\s)#.*')
LINK = re.compile(r'(\d+)>(\d+)')
KINDS = frozenset(NAMES.values())
MOST_LATENCY = 2**32


class Faulty(Exception):
    """The scenario is faulty, for this reason."""


class Named(NamedTuple):
    """A command on the next messages of a kind, on one link or on all: `lose`, `twice` or `late`; how much later; and for how many messages."""
    what: str
    kind: str
    link: tuple[int, int] | None
    later: int
    count: int


def numbered(word: str, most: int, what: str, least: int = 0) -> int:
    if not (word.isascii() and word.isdigit() and is_within(word, least, most)):
        raise Faulty(f"'{word}' is no {what}: a number from {least} to {most}")
    return int(word)


def refuse(fault: Fault | None):
    """Raises Faulty if there is a fault."""
    if fault:
        raise Faulty(f'{f"field {fault.field}: " if fault.field else ""}expected {fault.allowed}')


def words_of(line: str) -> list[str]:
    """The words of a line without its comment. The value or text at the end of a request counts as one word."""
    if line.lstrip().startswith('#'):
        return []
    if request := REQUEST.fullmatch(line):
        return request[1].split() + ([] if request[2] is None else [request[2]])
    return COMMENT.sub('', line).split()


def link_of(word: str, monitors: int) -> tuple[int, int]:
    match = LINK.fullmatch(word)
    if not match:
        raise Faulty(f"'{word}' is no link: A>B")
    ends = numbered(match[1], monitors - 1, 'rank'), numbered(match[2], monitors - 1, 'rank')
    if ends[0] == ends[1]:
        raise Faulty(f"'{word}' is no link: a monitor sends itself nothing")
    return ends


def links_cut(word: str, monitors: int) -> set[tuple[int, int]]:
    """The links that a cut ends: those that it names, each in one direction, or those between its sides."""
    if word == '-':
        return set()
    if '>' in word:
        return {link_of(link, monitors) for link in word.split(',')}
    found = {}
    for side, ranks in enumerate(word.split('|')):
        for rank in ranks.split(','):
            number = numbered(rank, monitors - 1, 'rank')
            if number in found:
                raise Faulty(f'monitor {number} is on two sides')
            found[number] = side
    if len(found) < monitors:
        raise Faulty(f'the sides must name all {monitors} monitors')
    return {(a, b) for a in found for b in found if found[a] != found[b]}


class Scenario:
    """The commands of a scenario: its header, its seed, whether messages are sent again, what happens at which time, and its end."""

    def __init__(self, lines):
        self.header, self.seed, self.copies, self.events, self.until, self.filled = None, 0, False, [], None, 0
        for number, line in enumerate(lines, 1):
            words = words_of(line)
            if not words:
                continue
            try:
                self.take(words)
            except Faulty as why:
                raise Faulty(f'line {number}: {why}') from None
        if self.until is None:
            raise Faulty('the last command must be `until TIME`')

    def take(self, words: list[str]):
        if self.header is None:
            self.begin(words)
        elif self.until is not None:
            raise Faulty('nothing comes after `until`')
        elif words[0] == 'until' and len(words) == 2:
            self.until = self.later(words[1])
        elif words[0] == 'seed' and len(words) == 2:
            self.seed = numbered(words[1], 2**62, 'seed')
        elif words == ['copies']:
            self.copies = True
        elif words[0] in ('latency', 'loss', 'repeat', 'delay'):
            self.action(self.events[-1][0] if self.events else 0, words)
        elif words[0] == 'at' and len(words) > 2:
            self.action(self.later(words[1]), words[2:])
        else:
            raise Faulty(f"'{words[0]}' is no command: at, copies, latency, loss, repeat, delay, seed or until")

    def begin(self, words: list[str]):
        self.header = ' '.join(words)
        if words[0] != 'monitors' or len(words) != 3:
            raise Faulty('the first command must be `monitors N RULE`')
        self.monitors = numbered(words[1], 15, 'number of monitors', 1)
        if fault := quorum_file.fault_of_rule(words[2], self.monitors):
            raise Faulty(fault)
        refuse(fault_of_header(self.header))

    def later(self, word: str) -> int:
        time = numbered(word, 2**62, 'time')
        if self.events and time < self.events[-1][0]:
            raise Faulty(f'the time {time} is before {self.events[-1][0]}')
        return time

    def action(self, time: int, words: list[str]):
        name, *rest = words
        if name not in FORMS:
            raise Faulty(f"'{' '.join(words)}' is none of {', '.join(FORMS)}")
        given = getattr(self, f'of_{name}', self.of_network)(time, name, rest)
        if given is None:
            raise Faulty(f"'{' '.join(words)}' isn't {FORMS[name]}")
        self.events += self.filling(time, *given) if name == 'fill' else [(time, name, given)]

    def filling(self, time: int, rank: int, count: int, every: int) -> Iterator[tuple[int, str, list]]:
        """The requests of a `fill`, by client 0."""
        for number in range(count):
            self.filled += 1
            yield time + number * every, 'client', [rank, f'0 {self.filled} set k v{self.filled}']

    def rank(self, word: str) -> int:
        return numbered(word, self.monitors - 1, 'rank')

    def of_start(self, _time, _name, rest):
        return [*range(self.monitors)] if rest == ['all'] else [self.rank(rest[0])] if len(rest) == 1 else None

    def of_kill(self, _time, _name, rest):
        return [self.rank(rest[0])] if len(rest) == 1 else None

    of_pause = of_resume = of_kill

    def of_fill(self, _time, _name, rest):
        return [self.rank(rest[0]), numbered(rest[1], MOST_EVENTS, 'count', 1), numbered(rest[2], MOST_LATENCY, 'time')] if len(rest) == 3 else None

    def of_client(self, time, _name, rest):
        if len(rest) < 4:
            return None
        rank, request = self.rank(rest[0]), ' '.join(rest[1:])
        refuse(fault_of_event(0, f'client {rank} {time} {request}', self.monitors))
        return [rank, request]

    def of_tear(self, _time, _name, rest):
        if len(rest) != 4 or rest[1] not in ('a', 'b'):
            return None
        return [self.rank(rest[0]), f'crash {rest[1]} {numbered(rest[2], 1000, "call", 1)} {numbered(rest[3], IMAGES - 1, "image")}']

    def of_cut(self, _time, _name, rest):
        return [links_cut(rest[0], self.monitors), rest[0]] if len(rest) == 1 else None

    def of_network(self, _time, name, rest):
        """The arguments of a command on the network: a link or None for all, and what holds there from then on; or what happens to the next messages of a kind."""
        link = next((word for word in rest if '>' in word), None)
        rest, ends = [word for word in rest if word != link], None if link is None else link_of(link, self.monitors)
        if name in ('lose', 'twice', 'late'):
            late = name == 'late'
            if not 1 + late <= len(rest) <= 2 + late:
                return None
            if rest[0] not in KINDS:
                raise Faulty(f"'{rest[0]}' is no kind of message: {', '.join(sorted(KINDS))}")
            later = numbered(rest[1], MOST_LATENCY, 'time') if late else 0
            return [Named(name, rest[0], ends, later, numbered(rest[1 + late], 1_000_000, 'count', 1) if len(rest) == 2 + late else 1)]
        if len(rest) != 1 + (name == 'delay'):
            return None
        first = numbered(rest[0], MOST_LATENCY if name == 'latency' else 100, 'latency' if name == 'latency' else 'percentage')
        return [ends, (first, numbered(rest[1], MOST_LATENCY, 'latency')) if name == 'delay' else first]


class Simulation:
    """A run of a scenario by the definitions. What is due first happens first. At the same time, commands come before messages, messages before copies, and
    copies before timers."""

    def __init__(self, scenario: Scenario):
        self.scenario, self.play = scenario, Play(scenario.header)
        self.schedule, self.trace, self.marks = [scenario.header], [scenario.header], {}
        self.now, self.cut, self.dead, self.tears, self.named = 0, set(), set(), {}, []
        # By paused monitor, what arrived at it since.
        self.paused: dict[int, list[Carried]] = {}
        # The settings of each link. The key None has those of all other links.
        self.network = {'latency': {None: 1}, 'loss': {None: 0}, 'repeat': {None: 0}, 'delay': {None: (0, 0)}}
        self.chance, self.wire, self.seen, self.order = random.Random(scenario.seed), [], 0, itertools.count()
        self.copying = Copying(self.play.n) if scenario.copies else None

    def world(self):
        return self.play.world

    def of_link(self, what: str, link: tuple[int, int]):
        return self.network[what].get(link, self.network[what][None])

    def happens(self, percent: int) -> bool:
        return percent > 0 and self.chance.random() * 100 < percent

    def next_of(self, kind: str, link: tuple[int, int]) -> Named | None:
        """The command on the next message of this kind and link, if there is one. Its count falls by one."""
        for place, it in enumerate(self.named):
            if it.kind == kind and it.link in (None, link):
                self.named[place:place + 1] = [it._replace(count=it.count - 1)] if it.count > 1 else []
                return it
        return None

    def send(self, number: int):
        """A monitor sends the message of this number."""
        envelope = self.world().messages[number - 1]
        if self.copying:
            self.put_all(self.copying.sends(self.now, number, envelope.message, envelope.to))
        else:
            self.put(Carried(envelope.message.from_, envelope.to, number, b''))

    def put_all(self, going: list[Carried]):
        for carried in going:
            self.put(carried)

    def put(self, carried: Carried):
        """Puts a message, or a datagram of it, on the wire, once for each time that it will arrive."""
        link = carried.sender, carried.to
        named = self.next_of(NAMES[self.world().messages[carried.number - 1].message.body.name], link)
        is_lost = self.happens(self.of_link('loss', link)) or named is not None and named.what == 'lose'
        if link in self.cut or is_lost:
            return
        percent, longer = self.of_link('delay', link)
        takes = self.of_link('latency', link) + (longer if self.happens(percent) else 0) + (named.later if named else 0)
        times = 1 + (self.happens(self.of_link('repeat', link)) or named is not None and named.what == 'twice')
        for copy in range(1, times + 1):
            heapq.heappush(self.wire, (self.now + takes * copy, next(self.order), carried))

    def take(self, line: str, rank: int):
        """Adds a line to the schedule, and puts what its event sends on the wire. If a tear waits for the monitor and the event writes, the event becomes that
        crash."""
        if len(self.schedule) > MOST_EVENTS:
            raise Faulty(f'the schedule has more than {MOST_EVENTS} events')
        before, at = self.play.copy() if rank in self.tears else None, len(self.play.trace)
        if not self.play.take(line):
            raise Faulty(f"the definitions refuse '{line}'")
        if before is not None and any(it.startswith('  store ') for it in self.play.trace[at:]):
            self.play, line, at = before, f'{self.tears.pop(rank)} {line}', 0
            self.play.take(line)
            self.dead.add(rank)
        self.schedule.append(line)
        self.trace += self.play.trace[at:]
        while self.seen < len(self.world().messages):
            self.seen += 1
            self.send(self.seen)

    def next_timer(self):
        """The time, rank and name of the timer that fires next."""
        found = []
        for rank in range(self.play.n):
            state = self.play.state(rank)
            if rank not in self.dead and rank not in self.paused and state is not None:
                found += [(timer.args[0], rank, name) for name, timer in zip(TIMERS, state.timers) if timer.args]
        return min(found, default=None)

    def next_copies(self):
        """The time at which copies are sent next, and the monitor that sends them."""
        due = [(self.copying.due(rank), rank) for rank in range(self.play.n) if rank not in self.dead and rank not in self.paused] if self.copying else []
        return min((it for it in due if it[0] is not None), default=None)

    def deliver(self, carried: Carried):
        """A message arrives, or a datagram of one."""
        if carried.to in self.dead:
            return
        if carried.to in self.paused:
            self.paused[carried.to].append(carried)
            return
        is_up, going = self.copying.arrives(self.now, carried) if self.copying else (True, [])
        self.put_all(going)
        if is_up:
            self.take(f'deliver {carried.number} {self.now}', carried.to)

    def mark(self, name: str, rest: list):
        """Notes a change of the network before the next event, as text."""
        if name == 'cut':
            said = f'cut {rest[1]}' if rest[0] else 'the network is whole'
        elif name in ('pause', 'resume'):
            said = f'{name} {rest[0]}'
        elif name in ('lose', 'twice', 'late'):
            it = rest[0]
            said = f'{it.count} {it.kind}{f" {it.link[0]}>{it.link[1]}" if it.link else ""}: {it.what}{f" by {it.later} ms" if it.later else ""}'
        else:
            said = f'{name} {rest[1]}{f" {rest[0][0]}>{rest[0][1]}" if rest[0] else ""}'
        self.marks.setdefault(len(self.schedule), []).append(f'{said}, at {self.now} ms')

    def act(self, name: str, rest: list):
        if name in ('cut', 'lose', 'twice', 'late', 'pause', 'resume') or name in self.network and self.now > 0:
            self.mark(name, rest)
        if name == 'start':
            for rank in rest:
                self.dead.discard(rank)
                self.paused.pop(rank, None)
                if self.copying:
                    self.copying.starts(rank)
                self.take(f'start {rank} {self.now}', rank)
        elif name == 'kill':
            self.take(f'crash a 1 0 timer {rest[0]} step {self.now}', -1)
            self.dead.add(rest[0])
        elif name == 'pause':
            self.paused.setdefault(rest[0], [])
        elif name == 'resume':
            for carried in self.paused.pop(rest[0], []):
                heapq.heappush(self.wire, (self.now, next(self.order), carried))
        elif name == 'tear':
            self.tears[rest[0]] = rest[1]
        elif name == 'cut':
            self.cut = rest[0]
        elif name in self.network:
            self.network[name] = {None: rest[1]} if rest[0] is None else {**self.network[name], rest[0]: rest[1]}
        elif name in ('lose', 'twice', 'late'):
            self.named.append(rest[0])
        elif rest[0] not in self.dead and rest[0] not in self.paused:
            self.take(f'client {rest[0]} {self.now} {rest[1]}', rest[0])

    def run(self) -> list[str]:
        events = iter(self.scenario.events)
        event = next(events, None)
        while True:
            copies, timer = self.next_copies(), self.next_timer()
            times = [(it[0], place) for place, it in enumerate([event, self.wire[0] if self.wire else None, copies, timer]) if it]
            if not times or max(self.now, min(times)[0]) > self.scenario.until:
                return self.schedule
            time, place = min(times)
            self.now = max(self.now, time)
            if place == 0:
                self.act(*event[1:])
                event = next(events, None)
            elif place == 1:
                self.deliver(heapq.heappop(self.wire)[2])
            elif place == 2:
                self.put_all(self.copying.rests(self.now, copies[1]))
            else:
                self.take(f'timer {timer[1]} {timer[2]} {self.now}', timer[1])


def read_schedule(octets: bytes) -> tuple[list[str], dict[int, list[str]]]:
    """The lines of a schedule, or of a scenario's schedule, and the changes of its network by the number of the event that follows. Raises Refused."""
    try:
        return lines_of(octets), {}
    except Refused as why:
        if not re.search(rb'^until ', octets, re.MULTILINE):
            raise
        try:
            simulation = Simulation(Scenario(octets.decode('utf-8', 'surrogateescape').split('\n')))
            return simulation.run(), simulation.marks
        except Faulty as other:
            raise Refused(f'this is neither a schedule ({why}) nor a scenario ({other})') from None
