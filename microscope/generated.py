"""Generated schedules: that of a number, as docs/FORMATS.md specifies it. This module shares no code with the program."""
from __future__ import annotations

import argparse
import itertools
from typing import Iterator

from schedules import MOST_NUMBER, TIMERS

MOST_MADE = 100_000
WORD, LONG, MULTIPLIER, SEED_STEP = 2**32 - 1, 2**64 - 1, 6364136223846793005, 11634580027462260723


def output(state: int) -> int:
    """The output of PCG XSH RR 64/32 at a state."""
    mixed, turn = (((state >> 18) ^ state) >> 27) & WORD, state >> 59
    return ((mixed >> turn) | (mixed << (-turn & 31))) & WORD


def draws(number: int) -> Iterator[int]:
    """The numbers that the generator draws from its seed."""
    seed = 0
    for place in range(4):
        number = (number * MULTIPLIER + SEED_STEP) & LONG
        seed |= output(number) << (32 * place)
    state, step = seed & LONG, seed >> 64 | 1
    state = ((state + step) * MULTIPLIER + step) & LONG
    while True:
        yield output(state)
        state = (state * MULTIPLIER + step) & LONG


def events(number: int) -> Iterator[str]:
    """The events, without end. The first 33 make a quorum of three. With an even number writes and reads follow, with an odd one events of any kind."""
    yield from (f'start {rank} 0' for rank in range(3))
    yield from (f'deliver {message} 0' for message in range(1, 31))
    drawn = draws(number)
    yield from writes(drawn) if number % 2 == 0 else anything(drawn)


def writes(drawn: Iterator[int]) -> Iterator[str]:
    for turn in itertools.count():
        time, (kind, key, value, rank, late) = 1000 * (turn + 1), itertools.islice(drawn, 5)
        yield f'client 0 {time} 1 {turn + 1} ' + (f'set k{key % 20} v{value}' if kind % 4 < 3 else f'log t{value}')
        yield from (f'deliver {message} {time}' for message in range(31 + 10 * turn, 41 + 10 * turn))
        yield f'client {rank % 3} {time} 2 {turn + 1} show kv'
        yield f'deliver {35 + 10 * turn + late % 2} {time}'


def anything(drawn: Iterator[int]) -> Iterator[str]:
    message = 31
    for event in itertools.count(34):
        time, kind = 10 * event, next(drawn) % 16
        if kind <= 9:
            yield f'deliver {message} {time}'
            message += 1
        elif kind <= 11:
            yield f'deliver {1 + next(drawn) % (message - 1)} {time}'
        elif kind <= 13:
            rank, key, value = itertools.islice(drawn, 3)
            yield f'client {rank % 3} {time} 3 {event} set k{key % 20} v{value}'
        elif kind == 14:
            rank, timer = itertools.islice(drawn, 2)
            yield f'timer {rank % 3} {TIMERS[timer % 11]} {time}'
        else:
            yield f'start {next(drawn) % 3} {time}'


def within(least: int, most: int):
    """A function that reads an argument: a number within these bounds."""
    def read(argument: str) -> int:
        if not (argument.isascii() and argument.isdigit()) or not least <= int(argument) <= most:
            raise argparse.ArgumentTypeError(f"'{argument}' is no number from {least} to {most}")
        return int(argument)
    return read


def add_arguments(parser: argparse.ArgumentParser):
    """Adds the arguments NUMBER and EVENTS."""
    parser.add_argument('number', type=within(0, MOST_NUMBER), metavar='NUMBER', help='0 to 2^62')
    parser.add_argument('events', type=within(1, MOST_MADE), metavar='EVENTS', help=f'1 to {MOST_MADE}')


def schedule_of(number: int, count: int) -> list[str]:
    """The lines of the schedule of a number, with this many events."""
    return ['monitors 3 classic', *itertools.islice(events(number), count)]
