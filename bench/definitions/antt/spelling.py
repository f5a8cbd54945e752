"""What each language writes in its own way: values, operations and statements. `Writer` does the rest."""
from __future__ import annotations

from abc import ABC, abstractmethod
from typing import List, Sequence, Tuple


class Lines:
    """Lines of text that are indented."""

    def __init__(self, depth: int = 0):
        self.lines: List[str] = []
        self.depth = depth

    def add(self, text: str) -> None:
        self.lines.append('    ' * self.depth + text)

    def __str__(self) -> str:
        return '\n'.join(self.lines)


class Spelling(ABC):
    """The texts of a language. Each argument is a text that is an expression of the language, and so is each result."""

    # ---- values

    @abstractmethod
    def number(self, value: int) -> str: ...

    @abstractmethod
    def octets(self, value: bytes) -> str:
        """A list of bytes."""

    @abstractmethod
    def words(self, value: str) -> str:
        """A text that is shown."""

    @abstractmethod
    def truth(self, value: bool) -> str: ...

    @abstractmethod
    def list(self, items: Sequence[str]) -> str: ...

    @abstractmethod
    def pair(self, items: Sequence[str]) -> str: ...

    @abstractmethod
    def make(self, constructor: str, arguments: Sequence[str]) -> str: ...

    @abstractmethod
    def record(self, fields: Sequence[Tuple[str, str]]) -> str: ...

    @abstractmethod
    def changed(self, base: str, fields: Sequence[Tuple[str, str]]) -> str: ...

    # ---- parts and tests

    @abstractmethod
    def item(self, base: str, number: int) -> str: ...

    @abstractmethod
    def rest(self, base: str) -> str: ...

    @abstractmethod
    def field(self, base: str, name: str) -> str: ...

    @abstractmethod
    def argument(self, base: str, number: int) -> str: ...

    @abstractmethod
    def is_made(self, base: str, constructor: str) -> str: ...

    @abstractmethod
    def is_empty(self, base: str) -> str: ...

    @abstractmethod
    def is_filled(self, base: str) -> str: ...

    def is_positive(self, base: str) -> str:
        return f'{base} > 0'

    # ---- operations

    @abstractmethod
    def both(self, tests: Sequence[str]) -> str: ...

    @abstractmethod
    def either(self, left: str, right: str) -> str: ...

    @abstractmethod
    def negated(self, test: str) -> str: ...

    @abstractmethod
    def equal(self, left: str, right: str) -> str: ...

    @abstractmethod
    def choice(self, test: str, then: str, other: str) -> str: ...

    @abstractmethod
    def sum(self, left: str, right: str) -> str: ...

    @abstractmethod
    def difference(self, left: str, right: str) -> str: ...

    @abstractmethod
    def product(self, left: str, right: str) -> str: ...

    @abstractmethod
    def quotient(self, left: str, right: str) -> str: ...

    @abstractmethod
    def remainder(self, left: str, right: str) -> str: ...

    @abstractmethod
    def power(self, left: str, right: str) -> str: ...

    # ---- functions

    @staticmethod
    @abstractmethod
    def host(name: str) -> str:
        """A function of the language's own part."""

    @abstractmethod
    def value(self, name: str) -> str:
        """A definition without arguments."""

    @abstractmethod
    def call(self, function: str, arguments: Sequence[str]) -> str: ...

    @abstractmethod
    def apply(self, function: str, argument: str) -> str:
        """A value that is a function of one argument."""

    @abstractmethod
    def lambda_(self, names: Sequence[str], body: str) -> str:
        """A function of one argument after the other."""

    @abstractmethod
    def with_values(self, names: Sequence[Tuple[str, str]], body: str) -> str:
        """An expression in which names have these values."""

    # ---- statements

    @abstractmethod
    def begin(self, name: str, parameters: Sequence[str], lines: Lines) -> None: ...

    @abstractmethod
    def begin_if(self, test: str, lines: Lines) -> None: ...

    @abstractmethod
    def close(self, lines: Lines) -> None: ...

    @abstractmethod
    def assign(self, name: str, value: str, lines: Lines) -> None: ...

    @abstractmethod
    def give(self, value: str, lines: Lines) -> None: ...

    @abstractmethod
    def do(self, call: str, lines: Lines) -> None: ...

    @abstractmethod
    def fail(self, what: str, lines: Lines) -> None: ...
