"""What changes a map: each change with the version of its service that it makes."""
from __future__ import annotations

from dataclasses import dataclass
from typing import Any, Iterator, Union


@dataclass(frozen=True)
class Set:
    """A key got this value."""
    version: int
    key: str
    value: str


@dataclass(frozen=True)
class Removed:
    """A key was removed."""
    version: int
    key: str


@dataclass(frozen=True)
class Logged:
    """The cluster log got a text, which the monitor of this rank was asked to add."""
    version: int
    monitor: int
    text: str


@dataclass(frozen=True)
class Whole:
    """The whole map at this version: the first of a watch, and again whenever the monitors no longer keep the changes in between. It is the log's as of
    version `paxos` of the log of all changes. `map` is a dictionary of the keys, or the list of the ranks and texts of the cluster log."""
    version: int
    paxos: int
    map: Any


Change = Union[Set, Removed, Logged, Whole]


def whole_of(fields: dict[str, Any]) -> Whole:
    """The map in the fields of a Shown."""
    return Whole(fields['version'], fields['paxos'], fields['map'])


def changes_of(fields: dict[str, Any]) -> Iterator[Change]:
    """The changes in the fields of a Since."""
    for version, change in enumerate(fields['changes'], fields['from'] + 1):
        if isinstance(change, list):
            yield Logged(version, *change)
        elif 'set' in change:
            yield Set(version, change['set'], change['value'])
        else:
            yield Removed(version, change['remove'])
