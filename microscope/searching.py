"""A search for an unsafe run under a changed rule: random runs that go on from an opening.

There are two kinds of runs. A *walk* delivers, drops and doubles messages, fires timers, restarts monitors, and asks commands, all at random. In a run of
*parts* a majority of the monitors is cut off from the others until one of them leads. That leader takes a value, and some of its messages arrive. Then
another majority is cut off. In this way the new leader meets the values of the one before.
"""
from __future__ import annotations

import itertools
import random
import time
from typing import Callable, Iterator, NamedTuple

from played import TIMERS, Play
import loaded
import safety
from judging import epoch_of
from texts import NAMES

LEADS = 'Active', 'Updating'
# The kinds of messages in a quorum. In a walk one of them is slow.
SLOW = 'BEGIN', 'ACCEPT', 'COMMIT', 'LEASE', 'LEASE_ACK'
# The number of steps of a walk, and the most events of a part.
STEPS, PART = 45, 160


class Course:
    """A run that goes on at random: its lines, the messages that have not arrived, and the time."""

    def __init__(self, header: str):
        self.play, self.lines, self.now, self.waiting, self.asked = Play(header), [header], 0, [], 0

    def copy(self) -> Course:
        other = Course.__new__(Course)
        other.play, other.lines, other.now, other.waiting, other.asked = self.play.copy(), list(self.lines), self.now, list(self.waiting), self.asked
        return other

    def take(self, line: str) -> list[str]:
        """Goes on by an event, and returns its lines in the trace. Raises LookupError if a number runs out, which no search reaches."""
        at, seen = len(self.play.trace), len(self.messages())
        if not self.play.take(line):
            raise LookupError(line)
        self.lines.append(line)
        self.waiting += [(number, it.message.from_, it.to, NAMES[it.message.body.name])
                         for number, it in enumerate(self.messages()[seen:], seen + 1)]
        return self.play.trace[at:]

    def messages(self):
        return self.play.world.messages

    def state(self, rank: int):
        return self.play.state(rank)

    def up(self) -> list[int]:
        return [rank for rank in range(self.play.n) if self.state(rank) is not None]

    def leaders(self) -> list[int]:
        return [rank for rank in self.up() if self.state(rank).phase.name in LEADS]

    def timers(self, ranks) -> list[tuple[int, int, str]]:
        """The end, rank and name of each timer of these monitors."""
        return sorted((timer.args[0], rank, name) for rank in ranks if self.state(rank) is not None
                      for name, timer in zip(TIMERS, self.state(rank).timers) if timer.args)

    def deliver(self, place: int) -> list[str]:
        return self.take(f'deliver {self.waiting.pop(place)[0]} {self.now}')

    def ask(self, rank: int, command: str) -> list[str]:
        self.asked += 1
        return self.take(f'client {rank} {self.now} 1 {self.asked} {command}')

    def write(self, rank: int) -> list[str]:
        return self.ask(rank, f'set k v{self.asked + 1}')


# ---- parts

def part(course: Course, group: tuple[int, ...], restarted: tuple[int, ...], still: tuple[int, ...] = ()) -> int | None:
    """The monitors of a group hear only each other, until one of them leads. Returns the leader, or None if none leads. Some are restarted first. The timers of
    the monitors in `still` don't fire."""
    course.waiting.clear()
    course.now += 1
    for rank in group:
        if rank in restarted or course.state(rank) is None:
            course.take(f'start {rank} {course.now}')
    before = epochs(course)
    for _ in range(PART):
        leading = [rank for rank in course.leaders() if rank in group and is_of(course, rank, group) and epochs(course)[rank] > before[rank]]
        if leading:
            return leading[0]
        within(course, group)
        if course.waiting:
            course.deliver(0)
            continue
        due = course.timers([rank for rank in group if rank not in still])
        if not due:
            return None
        course.now = max(course.now, due[0][0])
        course.take(f'timer {due[0][1]} {due[0][2]} {course.now}')
    return None


def within(course: Course, group: tuple[int, ...]):
    """Drops all waiting messages except those between members of the group."""
    course.waiting = [it for it in course.waiting if it[1] in group and it[2] in group]


def epochs(course: Course) -> list[int]:
    return [epoch_of(course.play.world.store(rank)) for rank in range(course.play.n)]


def is_of(course: Course, rank: int, group: tuple[int, ...]) -> bool:
    quorum = course.state(rank).leader.quorum
    return all(member in group for member, is_in in enumerate(quorum) if is_in)


def write_in(course: Course, leader: int, group: tuple[int, ...], delivered: int):
    """The leader is asked for a write, and then this number of messages is delivered within the group."""
    course.waiting.clear()
    course.write(leader)
    within(course, group)
    for _ in range(delivered):
        if not course.waiting:
            return
        course.deliver(0)
        within(course, group)


def majorities(monitors: int) -> list[tuple[int, ...]]:
    return [group for count in range(monitors // 2 + 1, monitors + 1) for group in itertools.combinations(range(monitors), count)]


def parts(course: Course, chance: random.Random) -> Iterator[Course]:
    """A run of parts. It yields the run at each state that is worth judging."""
    groups, last = majorities(course.play.n), None
    for _ in range(4):
        group = chance.choice([it for it in groups if it != last])
        last = group
        leader = part(course, group, tuple(rank for rank in group if chance.random() < 0.6))
        yield course
        if leader is None:
            continue
        if chance.random() < 0.85:
            write_in(course, leader, group, chance.choice([0, len(group) - 1, len(group) - 1, 2 * len(group)]))
        else:
            course.ask(leader, 'show kv')
        yield course


# ---- walks

def walk(course: Course, chance: random.Random, is_calm: bool = True) -> Iterator[Course]:
    """A walk. It yields the run at each state that is worth judging. One kind of message to one monitor is slow, and other messages are rarely slow. If the
    walk is calm, no monitor is restarted, and only the timers that renew leases fire."""
    slow = chance.choice(SLOW if is_calm else [*SLOW, 'PROPOSE', 'ACK', 'VICTORY', 'COLLECT', 'LAST']), chance.randrange(course.play.n)
    for _ in range(STEPS):
        trace = step(course, chance, is_calm, slow)
        if any(line.startswith(('  reply', '  is active')) for line in trace):
            yield course
        if any(' done ' in line for line in trace):
            yield from readers(course)
    yield course


def readers(course: Course) -> Iterator[Course]:
    """The runs in which a client now reads at one of the monitors."""
    for rank in course.up():
        other = course.copy()
        other.ask(rank, 'show kv')
        yield other


def wild(course: Course, chance: random.Random) -> Iterator[Course]:
    return walk(course, chance, False)


def next_of(course: Course, chance: random.Random, slow: tuple[str, int]) -> int:
    """The place of the next message in the list of those that wait."""
    quick = [place for place, it in enumerate(course.waiting) if (it[3], it[2]) != slow]
    return chance.randrange(len(course.waiting)) if chance.random() < 0.15 or not quick else quick[0]


def step(course: Course, chance: random.Random, is_calm: bool, slow: tuple[str, int]) -> list[str]:
    """A step of a walk. The likelier events keep a quorum at work."""
    draw, up = chance.random(), course.up()
    course.now += chance.choice([0, 1, 1, 5])
    if draw < 0.70 and course.waiting:
        place = next_of(course, chance, slow)
        if chance.random() < 0.03:
            course.waiting.append(course.waiting[place])
        return course.deliver(place)
    if draw < 0.72 and course.waiting:
        course.waiting.pop(next_of(course, chance, slow))
        return []
    if draw < 0.88:
        idle = [rank for rank in course.leaders() if course.state(rank).phase.name == 'Active']
        return course.write(chance.choice(idle)) if idle else []
    if draw < 0.91 and up:
        return course.ask(chance.choice(up), 'show kv')
    timers = [it for it in course.timers(up) if not is_calm or it[2] == 'renew']
    if draw < 0.98 and timers:
        end, rank, name = chance.choice(timers)
        # A timer may fire early. For `renew` that keeps the leases valid.
        course.now = course.now if name == 'renew' else max(course.now, end)
        return course.take(f'timer {rank} {name} {course.now}')
    return [] if is_calm else course.take(f'start {chance.randrange(course.play.n)} {course.now}')


# ---- openings

def elections(course: Course):
    """All monitors start, and each gets the first messages of the others."""
    for rank in range(course.play.n):
        course.take(f'start {rank} 0')
    for _ in range(2 * course.play.n):
        course.deliver(0)


def quorum(course: Course):
    """All monitors are in one quorum, and a write is acknowledged."""
    group = tuple(range(course.play.n))
    leader = part(course, group, group)
    write_in(course, leader, group, 40)


def rival(course: Course):
    """The leader leads a majority anew, and stores a value that nobody else hears of."""
    quorum(course)
    group = tuple(range(course.play.n // 2 + 1))
    write_in(course, part(course, group, (0,)), group, 0)


def copied(course: Course):
    """The last monitor misses writes, and the others trim just those that it lacks. It still promises a number to a leader, which then stores a value that
    nobody else hears of."""
    quorum(course)
    leader = part(course, (0, 1), (0,))
    for _ in range(4):
        write_in(course, leader, (0, 1), 40)
    write_in(course, part(course, (1, 2), (1,), still=(2,)), (1, 2), 0)


OPENINGS: dict[str, tuple[Callable[[Course], None], list]] = {
    'quorum': (quorum, [walk]), 'election': (elections, [wild]), 'rival': (rival, [parts]), 'copied': (copied, [parts]), 'any': (quorum, [walk, parts, wild]),
}


class Found(NamedTuple):
    """A schedule after which a clause of `Safe` doesn't hold: its lines up to the first such event, that clause, and what is wrong."""
    lines: list[str]
    clause: str
    what: str


class Searched(NamedTuple):
    """A search: its opening and the events of that, its seed, how many runs it took and how many events they had after the opening, the seconds of a
    processor, and what it found, or None."""
    opening: str
    begin: int
    seed: int
    runs: int
    events: int
    seconds: float
    found: Found | None

    def __str__(self):
        return (f'seed {self.seed}: {self.runs:,} runs of {self.events:,} events, from the opening `{self.opening}` of {self.begin} events, '
                f'in {self.seconds:.0f} seconds of a processor')


def search(opening: str, seed: int, seconds: float, header: str = 'monitors 3 classic') -> Searched:
    """Searches for an unsafe run for at most this number of seconds of processor time."""
    begin, kinds = OPENINGS[opening]
    base, begun, events = Course(header), time.process_time(), 0
    begin(base)
    for number in itertools.count(1):
        chance, course = random.Random(f'{seed} {number}'), base.copy()
        for reached in kinds[number % len(kinds)](course, chance):
            broken, spent = safety.broken(reached.play), time.process_time() - begun
            if broken or spent > seconds:
                found = first_of(reached.lines, broken) if broken else None
                return Searched(opening, base.play.events, seed, number, events + course.play.events - base.play.events, spent, found)
        events += course.play.events - base.play.events
        loaded.forget()
    raise AssertionError


def first_of(lines: list[str], broken: dict[str, str]) -> Found:
    """The shortest prefix of a schedule that isn't safe."""
    play = Play(lines[0])
    for at, line in enumerate(lines[1:], 2):
        play.take(line)
        if early := safety.broken(play):
            lines, broken = lines[:at], early
            break
    clause, what = next(iter(broken.items()))
    return Found(lines, clause, what)
