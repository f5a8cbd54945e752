"""Judges whether a run is safe: which clauses of `Safe` (crates/quorum_model/specs/Safe.antt) hold of the world after an event."""
from __future__ import annotations

from typing import NamedTuple

from played import Play
from judging import unsafe


class Clause(NamedTuple):
    """A clause of `Safe`: its name there, its name in the documents, what it says, and the names of its parts in bench/definitions."""
    name: str
    title: str
    says: str
    parts: tuple[str, ...]


CLAUSES = [
    Clause('agree', 'Agreement', "All monitors commit one log. Each entry is the value of a client's command.", ('agree', 'asked')),
    Clause('kept', 'Durability', 'An acknowledged write is in the log, and each later leader has it.', ('kept', 'answered')),
    Clause('shown', 'Reads', "A map that a client gets is the log's, up to the monitor's last version.", ('shown', 'since')),
    Clause('fence', 'Fresh reads', 'In the epoch of an acknowledged write, each later read is of a log with it.', ('fence',)),
    Clause('one_active', 'One leader', 'No epoch has two active leaders.', ('one active',)),
    Clause('held', 'Storage', "A store is the result of its monitor's transactions, in order.", ('held', 'whole')),
]
# The sentence for each part that fails. {} is the number that the failure names.
SAYS = {
    'agree': "the store of monitor {} isn't what the log leaves",
    'asked': 'the entry of version {} of the log is the value of no command that a client asked',
    'kept': "version {} was acknowledged, and isn't in the log or not at an active leader",
    'answered': 'a client got the reply that its command is done in version {}, which nobody acknowledged for it',
    'shown': "event {} shows a map that isn't the log's",
    'since': "event {} returns changes that aren't the log's",
    'fence': 'event {} shows a map without a version that was acknowledged before, in the same epoch',
    'one active': 'epoch {} has two active leaders',
    'held': "the store of monitor {} isn't what its transactions leave",
    'whole': 'the transactions of monitor {} are not those of its events',
}


def said(part: str, number: int) -> str:
    return SAYS[part].format(number + (part == 'asked'))


def broken(play: Play) -> dict[str, str]:
    """The clauses that don't hold after a run, each with the first thing that is wrong."""
    found = {}
    for part, number in unsafe(play.world, play.n, play.writes):
        found.setdefault(next(clause.name for clause in CLAUSES if part in clause.parts), said(part, number))
    return found


def acknowledged(play: Play) -> list[tuple[int, int]]:
    """The acknowledged versions, each with its epoch."""
    return [(it.what.version, it.what.epoch) for it in play.world.acknowledged]


def said_of(play: Play) -> str:
    """Whether a run is safe, as text."""
    found = broken(play)
    return 'the run is safe' if not found else 'the run is UNSAFE: ' + '; '.join(f'{name}: {what}' for name, what in found.items())
