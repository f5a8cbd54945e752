"""The forms of the language: expressions, patterns and clauses, as they are read from a file. Each has the line on which it begins."""
from __future__ import annotations

from dataclasses import dataclass, field
from typing import Dict, Iterator, List, Optional, Set, Tuple


class Fault(Exception):
    """A text that isn't a definition, or a name that isn't there, with its file and line."""

    def __init__(self, file: str, line: int, what: str):
        super().__init__(f'{file}:{line}: {what}')
        self.file, self.line, self.what = file, line, what


@dataclass(frozen=True)
class Node:
    line: int = field(compare=False, repr=False)


# ---- patterns

@dataclass(frozen=True)
class Pattern(Node):
    pass


@dataclass(frozen=True)
class Binds(Pattern):
    """Any value, under a name. The name `_` binds nothing."""
    name: str


@dataclass(frozen=True)
class IsNil(Pattern):
    """The empty list."""


@dataclass(frozen=True)
class IsCons(Pattern):
    """A list with a first item."""
    head: Pattern
    tail: Pattern


@dataclass(frozen=True)
class IsPair(Pattern):
    items: Tuple[Pattern, ...]


@dataclass(frozen=True)
class IsMade(Pattern):
    """A value of this constructor. `true`, `false`, `zero` and `suc` count as constructors."""
    name: str
    arguments: Tuple[Pattern, ...]


# ---- expressions

@dataclass(frozen=True)
class Expression(Node):
    pass


@dataclass(frozen=True)
class Number(Expression):
    value: int


@dataclass(frozen=True)
class Text(Expression):
    """A text in quotation marks."""
    value: str


@dataclass(frozen=True)
class Nil(Expression):
    """The empty list."""


@dataclass(frozen=True)
class Name(Expression):
    name: str


@dataclass(frozen=True)
class Dot(Expression):
    """A field of a record, an item of a pair by its number, or a name of a module or of a type under its short name."""
    base: Expression
    part: str


@dataclass(frozen=True)
class Apply(Expression):
    function: Expression
    arguments: Tuple[Expression, ...]


@dataclass(frozen=True)
class Pair(Expression):
    items: Tuple[Expression, ...]


@dataclass(frozen=True)
class Lambda(Expression):
    parameters: Tuple[str, ...]
    body: Expression


@dataclass(frozen=True)
class If(Expression):
    test: Expression
    then: Expression
    other: Expression


@dataclass(frozen=True)
class Let(Expression):
    name: str
    value: Expression
    body: Expression


@dataclass(frozen=True)
class Step(Node):
    """A step of a `do`: a result that must be `Ok`, and the name of its value."""
    name: str
    value: Expression


@dataclass(frozen=True)
class Do(Expression):
    steps: Tuple[Step, ...]
    result: Expression


@dataclass(frozen=True)
class Case(Node):
    pattern: Pattern
    body: Expression


@dataclass(frozen=True)
class Elim(Expression):
    value: Expression
    cases: Tuple[Case, ...]


@dataclass(frozen=True)
class Record(Expression):
    """A record of these fields, or another record with these fields changed."""
    base: Optional[Expression]
    fields: Tuple[Tuple[str, Expression], ...]


@dataclass(frozen=True)
class Operator(Expression):
    sign: str
    left: Expression
    right: Expression


# ---- definitions

@dataclass(frozen=True)
class Clause(Node):
    patterns: Tuple[Pattern, ...]
    body: Expression
    locals: 'Dict[str, Definition]' = field(default_factory=dict)


@dataclass(frozen=True)
class Block:
    """A `module _` block: its parameters. The definitions in it take them first."""
    parameters: Tuple[str, ...]
    outer: Optional[Block] = None

    def all(self) -> Tuple[str, ...]:
        return (self.outer.all() if self.outer else ()) + self.parameters

    def holds(self, other: Optional[Block]) -> bool:
        """Whether the other block is this one, or within it."""
        while other is not None:
            if other is self:
                return True
            other = other.outer
        return False


@dataclass(frozen=True)
class Definition(Node):
    name: str
    block: Optional[Block]
    clauses: Tuple[Clause, ...]

    def given(self) -> Tuple[str, ...]:
        """The parameters of its block."""
        return self.block.all() if self.block else ()

    def arity(self) -> int:
        return len(self.given()) + len(self.clauses[0].patterns)


def below(node: object) -> Iterator[Node]:
    """The nodes of which a node is made, but not those below them."""
    if isinstance(node, (tuple, list)):
        for part in node:
            yield from below(part) if isinstance(part, (tuple, list)) else [part] if isinstance(part, Node) else []
    elif isinstance(node, Node):
        yield from below([getattr(node, name) for name in node.__dataclass_fields__])


def names_in(node: object) -> Set[str]:
    """The names in an expression, local or not."""
    found: Set[str] = set()
    left: List[object] = [node]
    while left:
        it = left.pop()
        if isinstance(it, (tuple, list)):
            left += it
        elif isinstance(it, Node):
            if isinstance(it, Name):
                found.add(it.name)
            left += [getattr(it, name) for name in it.__dataclass_fields__]
    return found
