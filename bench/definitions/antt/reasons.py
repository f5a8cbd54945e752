"""Tests of rows as text: why a row drops its input."""
from __future__ import annotations

from typing import Dict, Iterator, List, Tuple

from . import nodes
from .modules import Module
from .nodes import Expression

# The steps that do nothing with an input, or nothing more.
IDLE = 'dropped', 'nothing_more'


def shown(node: Expression, is_inner: bool = False) -> str:
    """The text of an expression, as far as a test can have it."""
    if isinstance(node, nodes.Number):
        return str(node.value)
    if isinstance(node, nodes.Name):
        return node.name
    if isinstance(node, nodes.Nil):
        return '[]'
    if isinstance(node, nodes.Dot):
        return f'{shown(node.base, True)}.{node.part}'
    if isinstance(node, nodes.Apply):
        text = ' '.join(shown(part, True) for part in (node.function, *node.arguments))
    elif isinstance(node, nodes.Operator):
        text = f'{shown(node.left, True)} {node.sign} {shown(node.right, True)}'
    else:
        return '..'
    return f'({text})' if is_inner else text


def compared_in(test: Expression) -> Tuple[Expression, ...]:
    """The two sides of a comparison of numbers, or nothing."""
    if isinstance(test, nodes.Operator) and test.sign == '==':
        return test.left, test.right
    is_comparison = isinstance(test, nodes.Apply) and test.function in (nodes.Name(0, 'nat_lt'), nodes.Name(0, 'nat_le'))
    return test.arguments if is_comparison and isinstance(test, nodes.Apply) and len(test.arguments) == 2 else ()


def is_idle(node: Expression) -> bool:
    """Whether an expression does nothing with its input, or nothing more."""
    return isinstance(node, nodes.Apply) and isinstance(node.function, nodes.Name) and node.function.name in IDLE


def parts(test: Expression, holds: bool, lets: Dict[str, Expression]) -> List[Tuple[str, bool]]:
    """The parts of a test that may decide whether it holds, each with whether it holds then."""
    if isinstance(test, nodes.Apply) and test.function == nodes.Name(0, 'not'):
        return parts(test.arguments[0], not holds, lets)
    if isinstance(test, nodes.Name) and test.name in lets:
        return parts(lets[test.name], holds, lets)
    if isinstance(test, nodes.Operator) and test.sign in ('&&', '||') and holds == (test.sign == '||'):
        return parts(test.left, holds, lets) + parts(test.right, holds, lets)
    return [(shown(test), holds)]


def idle_in(node: object, lets: Dict[str, Expression], row: str) -> Iterator[Tuple[str, str, bool]]:
    """For each branch below a node that does nothing: the row, a part of its test that may decide so, and whether that part holds then."""
    if isinstance(node, nodes.Let):
        yield from idle_in(node.value, lets, row)
        yield from idle_in(node.body, {**lets, node.name: node.value}, row)
        return
    if isinstance(node, nodes.If):
        for holds, branch in ((True, node.then), (False, node.other)):
            if is_idle(branch):
                yield from ((row, *part) for part in parts(node.test, holds, lets))
    for part in nodes.below(node):
        yield from idle_in(part, lets, row)


def idle_tests(module: Module) -> List[Tuple[str, str, bool]]:
    """Each row of a module that does nothing with its input, or nothing more, with each part of a test that may decide so and whether it holds then. These
    are what a watched row notes, without the numbers that are compared."""
    return [it for made in module.definitions()[0] for clause in made.clauses for it in idle_in(clause.body, {}, made.name)]
