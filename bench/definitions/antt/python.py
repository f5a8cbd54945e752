"""Definitions as Python."""
from __future__ import annotations

import builtins
import keyword
from typing import Sequence, Tuple

from .spelling import Lines
from .values import attribute, change, shape, single
from .writing import Writer

# Functions of the standard library that are written in place.
INLINE = {'std_not': '(not {})', 'std_length': 'len({})', 'std_nat_le': '({} <= {})', 'std_nat_lt': '({} < {})', 'std_codes': '{}'}


class PythonWriter(Writer):
    """Writes definitions as Python, for the names that `program.Program` gives them."""
    RESERVED = {*keyword.kwlist, *dir(builtins)}

    def number(self, value: int) -> str:
        return str(value)

    def octets(self, value: bytes) -> str:
        return repr(value)

    def words(self, value: str) -> str:
        return repr(value)

    def truth(self, value: bool) -> str:
        return str(value)

    def list(self, items: Sequence[str]) -> str:
        return f'({", ".join(items)}{"," * (len(items) == 1)})'

    def pair(self, items: Sequence[str]) -> str:
        return self.list(items)

    def make(self, constructor: str, arguments: Sequence[str]) -> str:
        if arguments:
            return f'Made({", ".join([repr(constructor), *arguments])})'
        self.values[f'made_{constructor}'] = single(constructor)
        return f'made_{constructor}'

    def record(self, fields: Sequence[Tuple[str, str]]) -> str:
        made, given = shape(tuple(name for name, _ in fields)), dict(fields)
        name = 'record_of_' + '_and_'.join(sorted(given))
        self.values[name] = made
        return f'{name}({", ".join(given[field] for field in made.FIELDS)})'

    def changed(self, base: str, fields: Sequence[Tuple[str, str]]) -> str:
        return f'{base}.{change(tuple(name for name, _ in fields))}({", ".join(value for _, value in fields)})'

    def item(self, base: str, number: int) -> str:
        return f'{base}[{number}]'

    def rest(self, base: str) -> str:
        return f'{base}[1:]'

    def field(self, base: str, name: str) -> str:
        return f'{base}.{attribute(name)}'

    def argument(self, base: str, number: int) -> str:
        return f'{base}.args[{number}]'

    def is_made(self, base: str, constructor: str) -> str:
        return f'{base}.name == {constructor!r}'

    def is_empty(self, base: str) -> str:
        return f'not {base}'

    def is_filled(self, base: str) -> str:
        return base

    def both(self, tests: Sequence[str]) -> str:
        return tests[0] if len(tests) == 1 else f'({" and ".join(tests)})'

    def either(self, left: str, right: str) -> str:
        return f'({left} or {right})'

    def negated(self, test: str) -> str:
        return f'(not {test})'

    def equal(self, left: str, right: str) -> str:
        return f'({left} == {right})'

    def choice(self, test: str, then: str, other: str) -> str:
        return f'({then} if {test} else {other})'

    def sum(self, left: str, right: str) -> str:
        return f'({left} + {right})'

    def difference(self, left: str, right: str) -> str:
        return f'max(0, {left} - {right})'

    def product(self, left: str, right: str) -> str:
        return f'({left} * {right})'

    def quotient(self, left: str, right: str) -> str:
        return f'({left} // {right})'

    def remainder(self, left: str, right: str) -> str:
        return f'({left} % {right})'

    def power(self, left: str, right: str) -> str:
        return f'({left} ** {right})'

    @staticmethod
    def host(name: str) -> str:
        return f'std_{name}'.replace('-', '_')

    def value(self, name: str) -> str:
        return name

    def call(self, function: str, arguments: Sequence[str]) -> str:
        form = INLINE.get(function)
        return form.format(*arguments) if form else f'{function}({", ".join(arguments)})'

    def apply(self, function: str, argument: str) -> str:
        return f'{function}({argument})'

    def lambda_(self, names: Sequence[str], body: str) -> str:
        return f'({"".join(f"lambda {name}: " for name in names)}{body})'

    def with_values(self, names: Sequence[Tuple[str, str]], body: str) -> str:
        return f'(lambda {", ".join(name for name, _ in names)}: {body})({", ".join(value for _, value in names)})'

    def begin(self, name: str, parameters: Sequence[str], lines: Lines) -> None:
        lines.add(f'def {name}({", ".join(parameters)}):')
        lines.depth += 1

    def begin_if(self, test: str, lines: Lines) -> None:
        lines.add(f'if {test}:')
        lines.depth += 1

    def close(self, lines: Lines) -> None:
        lines.depth -= 1

    def assign(self, name: str, value: str, lines: Lines) -> None:
        lines.add(f'{name} = {value}')

    def give(self, value: str, lines: Lines) -> None:
        lines.add(f'return {value}')

    def do(self, call: str, lines: Lines) -> None:
        lines.add(call)

    def fail(self, what: str, lines: Lines) -> None:
        lines.add(f'raise NoCase({what!r})')
