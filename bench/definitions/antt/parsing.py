"""Reads expressions, patterns and clauses from tokens.

A declaration ends before the next line that isn't indented further than its own, and so does an expression. Within parentheses, brackets and braces lines are
free.
"""
from __future__ import annotations

from typing import Callable, Dict, List, Optional, Tuple, TypeVar

from . import nodes
from .nodes import Expression, Fault, Pattern
from .tokens import Token

# How tightly each operator binds, and on which side it associates; `n` is neither.
BINDS = {
    '▸': (1, 'l'), '>>=': (1, 'l'), '||': (2, 'r'), '&&': (3, 'r'), '==': (4, 'n'), '≡': (4, 'n'), '≤': (4, 'n'), '<': (4, 'n'), '∷': (5, 'r'),
    '++': (5, 'r'), '+': (6, 'l'), '-': (6, 'l'), '*': (7, 'l'), '/': (7, 'l'), '%': (7, 'l'), '^': (8, 'r'), '×': (0, 'r'), '→': (0, 'r'), '⊎': (0, 'r'),
}
KEYWORDS = {'where', 'then', 'else', 'in', 'as', 'do', 'use', 'module', 'pub', 'abbrev', 'unfoldable', 'of', 'infixl', 'infixr'}
# The names that are constructors although they begin with a small letter.
SMALL = 'true', 'false', 'zero', 'suc', 'tt'
NOTHING = Token('end', '', 0, -1, True, -1, -1)
ANYWHERE = -1
Item = TypeVar('Item')


def is_constructor(name: str) -> bool:
    return name[:1].isupper() or name in SMALL


class Parser:
    """Reads one clause. `columns` has the column beyond which each of the layouts that are open goes on."""

    def __init__(self, tokens: List[Token], file: str, at: int = 0):
        self.tokens, self.file, self.at, self.columns = tokens, file, at, [ANYWHERE]

    # ---- tokens

    def here(self) -> Token:
        """The next token, or one of the kind `end` if the layout ends before it."""
        if self.at >= len(self.tokens):
            return NOTHING
        token = self.tokens[self.at]
        return NOTHING._replace(line=token.line) if token.is_first and token.column <= self.columns[-1] else token

    def next(self) -> Token:
        token = self.here()
        if token.kind == 'end':
            raise self.fault('the declaration ends too early', self.tokens[self.at - 1])
        self.at += 1
        return token

    def fault(self, what: str, token: Optional[Token] = None) -> Fault:
        last = self.tokens[min(self.at, len(self.tokens) - 1)] if self.tokens else NOTHING
        return Fault(self.file, (token or last).line or last.line, what)

    def is_at(self, *texts: str) -> bool:
        token = self.here()
        return token.text in texts and token.kind in ('sign', 'name')

    def eat(self, text: str) -> Token:
        if self.here().kind == 'end':
            raise self.fault(f"expected '{text}', and the declaration ends", self.tokens[self.at - 1])
        token = self.next()
        if token.text != text:
            raise self.fault(f"expected '{text}', and '{token.text}' is there", token)
        return token

    def name(self) -> str:
        token = self.next()
        if token.kind != 'name' or token.text in KEYWORDS:
            raise self.fault(f"expected a name, and '{token.text}' is there", token)
        return token.text

    def freely(self, read: Callable[[], None], close: str) -> None:
        """Reads something in which lines are free, and what closes it."""
        self.columns.append(ANYWHERE)
        read()
        self.eat(close)
        self.columns.pop()

    # ---- expressions

    def expression(self, least: int = 0) -> Expression:
        """An expression whose operators bind at least this tightly."""
        token = self.here()
        form = {'λ': self.lambda_, 'if': self.if_, 'let': self.let, 'do': self.do, 'elim': self.elim}.get(token.text)
        if form is not None and token.kind in ('sign', 'name'):
            self.next()
            return form(token.line)
        left = self.application()
        while True:
            token = self.here()
            if token.kind != 'sign' or token.text not in BINDS:
                return left
            tightness, side = BINDS[token.text]
            if tightness < least:
                return left
            self.next()
            left = nodes.Operator(token.line, token.text, left, self.expression(tightness + (side != 'r')))

    def lambda_(self, line: int) -> Expression:
        names: List[str] = []
        while not self.is_at('.'):
            names.append(self.typed_name() if self.is_at('(') else self.name())
        self.eat('.')
        return nodes.Lambda(line, tuple(names), self.expression())

    def typed_name(self) -> str:
        self.eat('(')
        name = self.name()
        self.eat(':')
        self.freely(lambda: void(self.expression()), ')')
        return name

    def if_(self, line: int) -> Expression:
        test = self.expression()
        self.eat('then')
        then = self.expression()
        self.eat('else')
        return nodes.If(line, test, then, self.expression())

    def let(self, line: int) -> Expression:
        name = self.name()
        if self.is_at(':'):
            self.next()
            self.expression()
        self.eat('=')
        value = self.expression()
        self.eat('in')
        return nodes.Let(line, name, value, self.expression())

    def elim(self, line: int) -> Expression:
        value, cases = self.atom(), []
        if self.is_at('as'):
            self.next()
            self.atom()
        self.eat('[')

        def read() -> None:
            while not self.is_at(']'):
                if self.is_at('|'):
                    self.next()
                begin, pattern = self.here().line, self.pattern()
                self.eat('↦')
                cases.append(nodes.Case(begin, pattern, self.expression()))
        self.freely(read, ']')
        return nodes.Elim(line, value, tuple(cases))

    def do(self, line: int) -> Expression:
        """Steps, each of which begins at one column. The last one has no name: it is the result."""
        steps: List[nodes.Step] = []
        column = self.tokens[self.at].column if self.at < len(self.tokens) else 0
        while True:
            token = self.tokens[self.at] if self.at < len(self.tokens) else NOTHING
            if token.column != column:
                raise self.fault('a `do` ends with its result', token)
            self.columns.append(ANYWHERE)
            is_step = self.at + 1 < len(self.tokens) and self.tokens[self.at + 1].text == '←'
            name = self.name() if is_step else ''
            if is_step:
                self.eat('←')
            value = self.indented(column)
            self.columns.pop()
            if not is_step:
                return nodes.Do(line, tuple(steps), value)
            steps.append(nodes.Step(token.line, name, value))

    def indented(self, column: int) -> Expression:
        """An expression that goes on beyond this column. Its first token may be at the column itself."""
        token = self.tokens[self.at] if self.at < len(self.tokens) else NOTHING
        if token.column == column and self.at < len(self.tokens):
            self.tokens[self.at] = token._replace(is_first=False)
        self.columns[-1] = column
        return self.expression()

    def starts_atom(self) -> bool:
        token = self.here()
        if token.kind == 'name':
            return token.text not in KEYWORDS
        return token.kind in ('number', 'text') or token.kind == 'sign' and token.text in '([{?'

    def application(self) -> Expression:
        line, function, arguments = self.here().line, self.atom(), []
        while self.starts_atom():
            if self.is_at('{'):
                self.implicit()
            else:
                arguments.append(self.atom())
        return nodes.Apply(line, function, tuple(arguments)) if arguments else function

    def implicit(self) -> None:
        """An argument in braces, which is a type or a proof."""
        def read() -> None:
            while not self.is_at('}'):
                self.next()
        self.eat('{')
        self.freely(read, '}')

    def atom(self) -> Expression:
        token = self.next()
        found = self.literal(token)
        while True:
            dot, part = self.here(), self.tokens[self.at + 1] if self.at + 1 < len(self.tokens) else NOTHING
            is_part = dot.kind == 'sign' and dot.text == '.' and self.tokens[self.at - 1].stop == dot.start and part.start == dot.stop
            if not is_part or part.kind not in ('name', 'number'):
                return found
            self.at += 2
            found = nodes.Dot(dot.line, found, part.text)

    def literal(self, token: Token) -> Expression:
        if token.kind == 'number':
            return nodes.Number(token.line, int(token.text))
        if token.kind == 'text':
            return nodes.Text(token.line, token.text[1:-1])
        if token.text == 'record':
            return self.record(token.line)
        if token.kind == 'name' and token.text not in KEYWORDS:
            return nodes.Name(token.line, token.text)
        if token.text == '[':
            self.eat(']')
            return nodes.Nil(token.line)
        if token.text != '(':
            raise self.fault(f"no expression begins with '{token.text}'", token)
        items = self.several(self.expression)
        return items[0] if len(items) == 1 else nodes.Pair(token.line, tuple(items))

    def several(self, read_one: Callable[[], Item]) -> List[Item]:
        """One or more items between commas, and the parenthesis that closes them."""
        items: List[Item] = []

        def read() -> None:
            items.append(read_one())
            while self.is_at(','):
                self.next()
                items.append(read_one())
        self.freely(read, ')')
        return items

    def record(self, line: int) -> Expression:
        base, fields = None if self.is_at('{') else self.atom(), []

        def read() -> None:
            while not self.is_at('}'):
                name = self.name()
                self.eat('=')
                fields.append((name, self.expression()))
                if self.is_at(';'):
                    self.next()
        self.eat('{')
        self.freely(read, '}')
        return nodes.Record(line, base, tuple(fields))

    # ---- patterns

    def pattern(self) -> Pattern:
        line, left = self.here().line, self.made_pattern()
        if not self.is_at('∷'):
            return left
        self.next()
        return nodes.IsCons(line, left, self.pattern())

    def made_pattern(self) -> Pattern:
        """A constructor with its arguments, or another pattern."""
        line = self.here().line
        if not self.names_constructor():
            return self.simple_pattern()
        name, arguments = self.qualified(), []
        while self.starts_pattern():
            arguments.append(self.simple_pattern())
        return nodes.IsMade(line, name, tuple(arguments))

    def starts_pattern(self) -> bool:
        token = self.here()
        return token.kind == 'name' and token.text not in KEYWORDS or self.is_at('(', '[')

    def names_constructor(self) -> bool:
        if self.here().kind != 'name':
            return False
        at = self.at
        while at + 2 < len(self.tokens) and self.tokens[at + 1].text == '.' and self.tokens[at + 1].start == self.tokens[at].stop:
            at += 2
        return is_constructor(self.tokens[at].text)

    def qualified(self) -> str:
        """The last part of a name with dots."""
        name = self.name()
        while self.is_at('.') and self.here().start == self.tokens[self.at - 1].stop:
            self.next()
            name = self.name()
        return name

    def simple_pattern(self) -> Pattern:
        token = self.here()
        if token.kind == 'name':
            return nodes.IsMade(token.line, self.qualified(), ()) if self.names_constructor() else nodes.Binds(token.line, self.name())
        if self.is_at('['):
            self.next()
            self.eat(']')
            return nodes.IsNil(token.line)
        if not self.is_at('('):
            raise self.fault(f"no pattern begins with '{token.text}'", token)
        self.next()
        items = self.several(self.pattern)
        return items[0] if len(items) == 1 else nodes.IsPair(token.line, tuple(items))

    # ---- clauses

    def clause(self, column: int, read_locals: 'Callable[[Parser, int], Tuple[Dict[str, nodes.Definition], int]]') -> nodes.Clause:
        """A clause that begins at this column: its name, patterns, body, and the definitions of its `where`, which `read_locals` reads."""
        line, patterns = self.tokens[self.at].line, []
        local: Dict[str, nodes.Definition] = {}
        self.columns.append(column)
        self.at += 1
        while not self.is_at('='):
            patterns.append(self.simple_pattern())
        self.eat('=')
        body = self.expression()
        if self.is_at('where'):
            self.next()
            local, self.at = read_locals(self, self.at)
        if self.here().kind != 'end':
            raise self.fault(f"'{self.here().text}' is left over")
        self.columns.pop()
        return nodes.Clause(line, tuple(patterns), body, local)


def void(_: object) -> None:
    """Forgets what was read."""
