"""What the comparison needs of the proved definitions: values, and the reaction of a monitor to an input by `react` of Protocol/Table.antt.

No other module of this folder knows how definitions are evaluated.
"""
from __future__ import annotations

import functools
import os
import sys
from typing import Any, NamedTuple

sys.path.insert(0, os.path.dirname(os.path.dirname(os.path.abspath(__file__))))
import played  # noqa: E402
import rules  # noqa: E402
import loaded  # noqa: E402
import natives  # noqa: E402
import texts  # noqa: E402
from antt import NONE, Made, Map, changed, record, single, some  # noqa: E402
from played import Drop  # noqa: E402

Value = Any
MOST = 15
__all__ = ['MOST', 'NONE', 'RULES', 'Reaction', 'Refused', 'Value', 'applied', 'booting', 'changed', 'con', 'identity', 'inside', 'members', 'number',
           'phase_of', 'ranks', 'react', 'record', 'rule_of', 'some', 'take_rule', 'text_of', 'timer', 'value_of', 'why_dropped']


class Reaction(NamedTuple):
    """What the table says: the operations on the store, the messages as (kind, receiver, epoch, arguments of the body), the next state, and how many clients
    are answered. `refusal` is set instead if a number runs out."""
    operations: tuple
    sends: list[tuple[str, int, int, tuple]]
    state: Value
    refusal: str = ''
    answers: int = 0


def con(name: str, *arguments: Value) -> Value:
    """A value of an enumeration."""
    return Made(name, *arguments) if arguments else single(name)


def inside(value: Value) -> Value | None:
    """What an option has, or None."""
    return value.args[0] if value.name == 'Some' else None


def ranks(members) -> tuple[bool, ...]:
    """A set of ranks."""
    return tuple(rank in members for rank in range(MOST))


def members(bits: Value) -> tuple[int, ...]:
    return tuple(rank for rank, is_in in enumerate(bits) if is_in)


@functools.lru_cache(maxsize=4096)
def value_of(version: int) -> Value:
    """A value for a version. The logs don't show its contents, so it is only the same everywhere."""
    return (Made('Put', b'x', b'v%d' % version, b''),)


@functools.lru_cache(maxsize=4096)
def text_of(version: int) -> bytes:
    """The record of that value in a store."""
    return natives.transaction_text(value_of(version))


def number(value: int) -> bytes:
    return value.to_bytes(8, 'little')


def booting(rank: int) -> Value:
    return loaded.fn(loaded.PROTOCOL + 'State', 'booting')(rank)


def rule_of(text: str) -> Value:
    """The rule of elections: classic, disallow=RANKS or connectivity=RANKS."""
    return texts.rule_of(text)


def identity(rank: int, monitors: int, rule: str) -> Value:
    return record(member=record(rank=rank, monitors=monitors), rule=rule_of(rule))


def phase_of(state: Value) -> str:
    return texts.PHASE[state.phase.name]


def timer(name: str) -> Value:
    return con('Timer', single(texts.TIMER[name]))


def react(me: Value, now: int, store: dict, state: Value, came: Value) -> Reaction:
    """What a monitor does with an input at a time in milliseconds."""
    loaded.drops().clear()
    found = loaded.reaction(me, now, Map(dict(store)), state, came)
    if found.name == 'Err':
        return Reaction((), [], state, str(found.args[0]))
    done = found.args[0]
    sends = [(texts.NAMES[message.body.name], to, message.epoch, message.body.args)
             for to, message in (send.args for send in done.sends if send.name == 'Message')]
    return Reaction(done.transaction, sends, done.state, answers=len(done.sends) - len(sends))


def applied(operations: tuple, store: dict) -> dict:
    """A store after these operations."""
    return dict(natives.apply(operations, Map(dict(store))).entries)


def why_dropped() -> list[str]:
    """Why rows dropped the last input, or did no more with it."""
    return [str(Drop(*drop)) for drop in dict.fromkeys(loaded.drops())]


def take_rule(name: str | None):
    """Reads the definitions anew under a changed rule of microscope/break, or under the true ones. Raises played.Refused if there is no such rule."""
    value_of.cache_clear()
    text_of.cache_clear()
    if name is None:
        loaded.load()
    else:
        rule = rules.named(name)
        loaded.load(rule.changes, rule.constants)


Refused = played.Refused
RULES = [rule.name for rule in rules.RULES]
