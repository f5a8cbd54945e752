"""Definitions as JavaScript, over the functions of runtime.js."""
from __future__ import annotations

import json
from typing import Sequence, Tuple

from .spelling import Lines
from .writing import Writer

RESERVED = '''arguments await break case catch class const continue debugger default delete do else enum eval export extends false finally for function if
implements import in instanceof interface let new null package private protected public return static super switch this throw true try typeof undefined var
void while with yield NaN Infinity'''

# Functions of the standard library that are written in place.
INLINE = {'$not': '!({})', '$length': '{}.length', '$nat_le': '({} <= {})', '$nat_lt': '({} < {})', '$codes': '{}'}


class JavaScriptWriter(Writer):
    """Writes definitions as JavaScript. A list of bytes is a text whose characters are the bytes, and a list is an array. A number above 2^53 - 1 is a
    BigInt. The names of the language's own part begin with $."""
    RESERVED = set(RESERVED.split())

    def number(self, value: int) -> str:
        return str(value) if value < 2**53 else f'{value}n'

    def octets(self, value: bytes) -> str:
        return json.dumps(value.decode('latin-1'))

    def words(self, value: str) -> str:
        return json.dumps(value, ensure_ascii=False)

    def truth(self, value: bool) -> str:
        return 'true' if value else 'false'

    def list(self, items: Sequence[str]) -> str:
        return f'[{", ".join(items)}]' if items else '$nil'

    def pair(self, items: Sequence[str]) -> str:
        return f'[{", ".join(items)}]'

    def make(self, constructor: str, arguments: Sequence[str]) -> str:
        if arguments:
            return f'$made({json.dumps(constructor)}, [{", ".join(arguments)}])'
        self.values[f'made_{constructor}'] = constructor
        return f'made_{constructor}'

    def record(self, fields: Sequence[Tuple[str, str]]) -> str:
        return '{' + ', '.join(f'{name}: {value}' for name, value in fields) + '}'

    def changed(self, base: str, fields: Sequence[Tuple[str, str]]) -> str:
        return '{...' + base + ', ' + ', '.join(f'{name}: {value}' for name, value in fields) + '}'

    def item(self, base: str, number: int) -> str:
        return f'$item({base}, {number})'

    def rest(self, base: str) -> str:
        return f'{base}.slice(1)'

    def field(self, base: str, name: str) -> str:
        return f'{base}.{name}'

    def argument(self, base: str, number: int) -> str:
        return f'{base}.args[{number}]'

    def is_made(self, base: str, constructor: str) -> str:
        return f'{base}.name === {json.dumps(constructor)}'

    def is_empty(self, base: str) -> str:
        return f'{base}.length === 0'

    def is_filled(self, base: str) -> str:
        return f'{base}.length > 0'

    def both(self, tests: Sequence[str]) -> str:
        return tests[0] if len(tests) == 1 else f'({" && ".join(tests)})'

    def either(self, left: str, right: str) -> str:
        return f'({left} || {right})'

    def negated(self, test: str) -> str:
        return f'!({test})'

    def equal(self, left: str, right: str) -> str:
        return f'({left} === {right})'

    def choice(self, test: str, then: str, other: str) -> str:
        return f'({test} ? {then} : {other})'

    def sum(self, left: str, right: str) -> str:
        return f'$sum({left}, {right})'

    def difference(self, left: str, right: str) -> str:
        return f'$difference({left}, {right})'

    def product(self, left: str, right: str) -> str:
        return f'$product({left}, {right})'

    def quotient(self, left: str, right: str) -> str:
        return f'$quotient({left}, {right})'

    def remainder(self, left: str, right: str) -> str:
        return f'$remainder({left}, {right})'

    def power(self, left: str, right: str) -> str:
        return f'$power({left}, {right})'

    @staticmethod
    def host(name: str) -> str:
        return f'${name}'.replace('-', '_')

    def value(self, name: str) -> str:
        return name if name.startswith('$') else f'{name}()'

    def call(self, function: str, arguments: Sequence[str]) -> str:
        form = INLINE.get(function)
        return form.format(*arguments) if form else f'{function}({", ".join(arguments)})'

    def apply(self, function: str, argument: str) -> str:
        return f'$apply({function}, {argument})'

    def lambda_(self, names: Sequence[str], body: str) -> str:
        return f'({"".join(f"{name} => " for name in names)}{"(" + body + ")" if body.startswith("{") else body})'

    def with_values(self, names: Sequence[Tuple[str, str]], body: str) -> str:
        return f'(({", ".join(name for name, _ in names)}) => {body})({", ".join(value for _, value in names)})'

    def begin(self, name: str, parameters: Sequence[str], lines: Lines) -> None:
        lines.add(f'function {name}({", ".join(parameters)}) {{')
        lines.depth += 1

    def begin_if(self, test: str, lines: Lines) -> None:
        lines.add(f'if ({test}) {{')
        lines.depth += 1

    def close(self, lines: Lines) -> None:
        lines.depth -= 1
        lines.add('}')

    def assign(self, name: str, value: str, lines: Lines) -> None:
        lines.add(f'const {name} = {value};')

    def give(self, value: str, lines: Lines) -> None:
        lines.add(f'return {value};')

    def do(self, call: str, lines: Lines) -> None:
        lines.add(f'{call};')

    def fail(self, what: str, lines: Lines) -> None:
        lines.add(f'throw new $NoCase({json.dumps(what)});')
