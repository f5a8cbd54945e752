"""Writes definitions as functions of another language: one method for each form of the language, and a few that Python and JavaScript write differently.

An expression becomes a text. A form that needs statements becomes a function of its own, which is written before the statement that calls it. The body of a
function is written by `ends`, whose forms end in `return`.
"""
from __future__ import annotations

import re
from typing import Callable, Dict, Iterable, List, NamedTuple, Optional, Sequence, Set, Tuple, Union

from . import nodes
from .modules import Constant, Constructor, Global, Library, Meaning, Module, Native, Primitive
from .nodes import Definition, Expression, Fault, Pattern, names_in
from .reasons import compared_in, is_idle, shown
from .spelling import Lines, Spelling


class Local(NamedTuple):
    """A name within a definition: its text, and what it is if that is known from a `let`."""
    text: str
    let: Optional[Expression] = None
    scope: 'Optional[Scope]' = None


class LocalFunction(NamedTuple):
    """A definition of a `where`: the name of its function, and how many arguments that takes."""
    text: str
    arity: int


Scope = Dict[str, Union[Local, LocalFunction]]


class Case(NamedTuple):
    """A pattern at a place: the tests that a value must pass, and the places of the names that it binds."""
    tests: List[str]
    names: List[Tuple[str, str]]


class Unit(NamedTuple):
    """A definition that was written: its text, whether it is a value and no function, the definitions and natives that it names, and values of the host that
    its text names."""
    name: str
    text: str
    is_value: bool
    needs: List[Meaning]
    values: Dict[str, object]


class Writer(Spelling):
    """Writes one definition of a module. With `is_watched`, each row that drops its input notes why."""
    RESERVED: Set[str] = set()

    def __init__(self, library: Library, module: Module, definition: Definition, is_watched: bool):
        self.library, self.module, self.definition, self.is_watched = library, module, definition, is_watched
        self.used: Set[str] = set()
        self.needs: Dict[str, Meaning] = {}
        self.values: Dict[str, object] = {}

    def unit(self) -> Unit:
        lines, definition = Lines(), self.definition
        name = self.global_name(f'{self.module.path}.{definition.name}')
        given = tuple(self.fresh(parameter) for parameter in definition.given())
        scope: Scope = {parameter: Local(text) for parameter, text in zip(definition.given(), given)}
        self.function(name, given, definition, scope, lines)
        return Unit(name, str(lines), definition.arity() == 0, list(self.needs.values()), self.values)

    def fault(self, node: nodes.Node, what: str) -> Fault:
        return Fault(self.module.file, node.line, what)

    # ---- names

    def fresh(self, name: str) -> str:
        """A name that isn't used in this definition yet."""
        base = re.sub(r'\W', '_', name.replace("'", '_')) or 'it'
        found, number = base, 1
        while found in self.used or found in self.RESERVED:
            number += 1
            found = f'{base}_{number}'
        self.used.add(found)
        return found

    @staticmethod
    def global_name(key: str) -> str:
        """The name of a definition's function: mon_msg__Protocol__Table__react."""
        return re.sub(r'\W', '_', key.replace('.specs.', '.').replace('.', '__'))

    def meaning(self, name: str, node: nodes.Node) -> Meaning:
        found = self.library.meaning_in(self.module, name)
        return self.known(found, name, node)

    def known(self, found: Optional[Meaning], name: str, node: nodes.Node) -> Meaning:
        if found is None:
            raise self.fault(node, f'{name} is not known')
        if isinstance(found, (Global, Native)):
            self.needs[found.key] = found
        return found

    def meaning_of(self, node: Expression, scope: Scope) -> Optional[Meaning]:
        """What a name that is no local one means, or a name after a dot; None of any other expression."""
        if isinstance(node, nodes.Name):
            return None if node.name in scope else self.meaning(node.name, node)
        if isinstance(node, nodes.Dot) and isinstance(node.base, nodes.Name) and not node.part.isdigit():
            short = node.base.name
            if short not in scope and short in self.module.short:
                base = self.module.short[short]
                return self.known(self.library.meaning(base, node.part), f'{short}.{node.part}', node)
        return None

    # ---- functions

    def function(self, name: str, given: Sequence[str], definition: Definition, scope: Scope, lines: Lines) -> None:
        """Writes the function of a definition, with these parameters before those of its patterns."""
        first = definition.clauses[0]
        parameters = [self.fresh(p.name if isinstance(p, nodes.Binds) and p.name != '_' else 'it') for p in first.patterns]
        self.begin(name, [*given, *parameters], lines)
        for clause in definition.clauses:
            case = self.case_of(zip(clause.patterns, parameters))
            inner = self.begin_case(case, clause.body, clause.locals, scope, lines)
            self.define_locals(clause.locals, inner, lines)
            self.ends(clause.body, inner, lines)
            if not case.tests:
                break
            self.close(lines)
        else:
            self.fail(f'no clause of {self.module.path}.{definition.name} takes these arguments', lines)
        self.close(lines)

    def define_locals(self, local: Dict[str, Definition], scope: Scope, lines: Lines) -> None:
        for name, definition in local.items():
            scope[name] = LocalFunction(self.fresh(name), definition.arity())
        for name, definition in local.items():
            self.function(scope[name].text, (), definition, scope, lines)

    def case_of(self, patterns: Iterable[Tuple[Pattern, str]]) -> Case:
        case = Case([], [])
        for pattern, place in patterns:
            self.match(pattern, place, case)
        return case

    def begin_case(self, case: Case, body: Expression, local: Dict[str, Definition], scope: Scope, lines: Lines) -> Scope:
        """Writes the test of a case, and gives its names. Returns the scope within it."""
        if case.tests:
            self.begin_if(self.both(case.tests), lines)
        inner, asked = dict(scope), names_in(body) | {name for it in local.values() for clause in it.clauses for name in names_in(clause.body)}
        for name, place in case.names:
            if name not in asked:
                inner[name] = Local(place)
            elif re.fullmatch(r'\w+', place):
                inner[name] = Local(place)
            else:
                inner[name] = Local(self.fresh(name))
                self.assign(inner[name].text, place, lines)
        return inner

    def match(self, pattern: Pattern, place: str, case: Case) -> None:
        if isinstance(pattern, nodes.Binds):
            if pattern.name != '_':
                case.names.append((pattern.name, place))
        elif isinstance(pattern, nodes.IsNil):
            case.tests.append(self.is_empty(place))
        elif isinstance(pattern, nodes.IsCons):
            case.tests.append(self.is_filled(place))
            self.match(pattern.head, self.item(place, 0), case)
            self.match(pattern.tail, self.rest(place), case)
        elif isinstance(pattern, nodes.IsPair):
            for number, item in enumerate(pattern.items):
                self.match(item, self.item(place, number), case)
        elif isinstance(pattern, nodes.IsMade):
            self.match_made(pattern, place, case)
        else:
            raise self.fault(pattern, f'{pattern!r} is no pattern')

    def match_made(self, pattern: nodes.IsMade, place: str, case: Case) -> None:
        if pattern.name in ('true', 'false'):
            case.tests.append(place if pattern.name == 'true' else self.negated(place))
        elif pattern.name == 'zero':
            case.tests.append(self.equal(place, self.number(0)))
        elif pattern.name == 'suc':
            case.tests.append(self.is_positive(place))
            self.match(pattern.arguments[0], self.difference(place, self.number(1)), case)
        else:
            case.tests.append(self.is_made(place, pattern.name))
            for number, argument in enumerate(pattern.arguments):
                self.match(argument, self.argument(place, number), case)

    # ---- expressions that end a function

    def ends(self, node: Expression, scope: Scope, lines: Lines) -> None:
        """Writes statements that return the value of an expression."""
        self.ENDS.get(type(node), type(self).ends_plainly)(self, node, scope, lines)

    def ends_plainly(self, node: Expression, scope: Scope, lines: Lines) -> None:
        self.give(self.expression(node, scope, lines), lines)

    def ends_if(self, node: nodes.If, scope: Scope, lines: Lines) -> None:
        self.begin_if(self.expression(node.test, scope, lines), lines)
        self.note(node.test, True, node.then, scope, lines)
        self.ends(node.then, scope, lines)
        self.close(lines)
        self.note(node.test, False, node.other, scope, lines)
        self.ends(node.other, scope, lines)

    def ends_let(self, node: nodes.Let, scope: Scope, lines: Lines) -> None:
        value = self.expression(node.value, scope, lines)
        text = self.fresh(node.name)
        self.assign(text, value, lines)
        self.ends(node.body, {**scope, node.name: Local(text, node.value, scope)}, lines)

    def ends_do(self, node: nodes.Do, scope: Scope, lines: Lines) -> None:
        for step in node.steps:
            scope = self.step(step.name, self.expression(step.value, scope, lines), scope, lines)
        self.ends(node.result, scope, lines)

    def step(self, name: str, value: str, scope: Scope, lines: Lines) -> Scope:
        """Writes that an error is returned, and that another result's value has this name."""
        result, text = self.fresh('result'), self.fresh(name)
        self.assign(result, value, lines)
        self.begin_if(self.is_made(result, 'Err'), lines)
        self.give(result, lines)
        self.close(lines)
        self.assign(text, self.argument(result, 0), lines)
        return {**scope, name: Local(text)}

    def ends_operator(self, node: nodes.Operator, scope: Scope, lines: Lines) -> None:
        if node.sign != '>>=':
            self.ends_plainly(node, scope, lines)
            return
        inner = self.step("it'", self.expression(node.left, scope, lines), scope, lines)
        self.ends(nodes.Apply(node.line, node.right, (nodes.Name(node.line, "it'"),)), inner, lines)

    def ends_elim(self, node: nodes.Elim, scope: Scope, lines: Lines) -> None:
        value = self.fresh('value')
        self.assign(value, self.expression(node.value, scope, lines), lines)
        for case in node.cases:
            found = self.case_of([(case.pattern, value)])
            self.ends(case.body, self.begin_case(found, case.body, {}, scope, lines), lines)
            if not found.tests:
                return
            self.close(lines)
        self.fail(f'no case of {self.module.path}, line {node.line}, takes this value', lines)

    # ---- why a row drops its input

    def note(self, test: Expression, holds: bool, branch: Expression, scope: Scope, lines: Lines) -> None:
        """If definitions are watched and a branch drops its input, writes that this is noted, with the part of the test that decides it."""
        if self.is_watched and is_idle(branch):
            how = branch.function.name  # type: ignore[attr-defined]
            texts = [self.words(self.definition.name), self.words(how), self.why(test, holds, scope, lines)]
            self.do(self.call(self.host('note'), texts), lines)

    def why(self, test: Expression, holds: bool, scope: Scope, lines: Lines) -> str:
        """The part of a test that decides whether it holds, as its text and whether that part holds."""
        if isinstance(test, nodes.Apply) and test.function == nodes.Name(0, 'not') and len(test.arguments) == 1:
            return self.why(test.arguments[0], not holds, scope, lines)
        if isinstance(test, nodes.Name) and test.name in scope:
            local = scope[test.name]
            if isinstance(local, Local) and local.let is not None and local.scope is not None:
                return self.why(local.let, holds, local.scope, lines)
        if isinstance(test, nodes.Operator) and test.sign in ('&&', '||'):
            if holds != (test.sign == '||'):
                return self.pair([self.words(shown(test)), self.truth(holds)])
            left = self.expression(test.left, scope, lines)
            sides = [self.why(side, holds, scope, lines) for side in (test.left, test.right)]
            return self.choice(left if holds else self.negated(left), *sides)
        compared = [self.expression(side, scope, lines) for side in compared_in(test)]
        return self.pair([self.call(self.host('with_numbers'), [self.words(shown(test)), *compared]), self.truth(holds)])

    # ---- expressions

    def expression(self, node: Expression, scope: Scope, lines: Lines) -> str:
        """The text of an expression. Functions that it needs are written first."""
        form = self.FORMS.get(type(node))
        if form is None:
            raise self.fault(node, f'{node!r} is no expression')
        return form(self, node, scope, lines)

    def of_number(self, node: nodes.Number, scope: Scope, lines: Lines) -> str:
        return self.number(node.value)

    def of_text(self, node: nodes.Text, scope: Scope, lines: Lines) -> str:
        return self.octets(node.value.encode())

    def of_nil(self, node: nodes.Nil, scope: Scope, lines: Lines) -> str:
        return self.list([])

    def of_pair(self, node: nodes.Pair, scope: Scope, lines: Lines) -> str:
        return self.pair([self.expression(item, scope, lines) for item in node.items])

    def of_name(self, node: nodes.Name, scope: Scope, lines: Lines) -> str:
        if node.name not in scope:
            return self.applied(self.meaning(node.name, node), [], node)
        local = scope[node.name]
        return local.text if isinstance(local, Local) else self.partial(local.text, local.arity, [])

    def of_dot(self, node: nodes.Dot, scope: Scope, lines: Lines) -> str:
        found = self.meaning_of(node, scope)
        if found is not None:
            return self.applied(found, [], node)
        base = self.expression(node.base, scope, lines)
        return self.item(base, int(node.part)) if node.part.isdigit() else self.field(base, node.part)

    def of_apply(self, node: nodes.Apply, scope: Scope, lines: Lines) -> str:
        function: Expression = node.function
        arguments = list(node.arguments)
        while isinstance(function, nodes.Apply):
            arguments = [*function.arguments, *arguments]
            function = function.function
        texts = [self.expression(argument, scope, lines) for argument in arguments]
        found = self.meaning_of(function, scope)
        if found is not None:
            return self.applied(found, texts, function)
        local = scope.get(function.name) if isinstance(function, nodes.Name) else None
        if isinstance(local, LocalFunction):
            return self.saturated(local.text, local.arity, texts)
        return self.onward(self.expression(function, scope, lines), texts)

    def of_lambda(self, node: nodes.Lambda, scope: Scope, lines: Lines) -> str:
        texts = [self.fresh(name) for name in node.parameters]
        inner = {**scope, **{name: Local(text) for name, text in zip(node.parameters, texts)}}
        within = Lines(lines.depth + 1)
        self.ends(node.body, inner, within)
        if len(within.lines) == 1 and (body := self.given_by(within.lines[0])):
            return self.lambda_(texts, body)
        name = self.fresh('function')
        self.begin(name, texts, lines)
        lines.lines += within.lines
        self.close(lines)
        return self.partial(name, len(texts), [])

    @staticmethod
    def given_by(line: str) -> str:
        """The expression that a statement returns, or an empty text if it does anything else."""
        return line.strip()[len('return '):].rstrip(';') if line.strip().startswith('return ') else ''

    def of_if(self, node: nodes.If, scope: Scope, lines: Lines) -> str:
        if self.is_watched and (is_idle(node.then) or is_idle(node.other)):
            return self.apart(node, scope, lines)
        return self.choice(*(self.expression(part, scope, lines) for part in (node.test, node.then, node.other)))

    def apart(self, node: Expression, scope: Scope, lines: Lines) -> str:
        """The value of an expression that needs statements: a call of a function that is written for it."""
        name = self.fresh('part')
        self.begin(name, [], lines)
        self.ends(node, scope, lines)
        self.close(lines)
        return self.call(name, [])

    def of_record(self, node: nodes.Record, scope: Scope, lines: Lines) -> str:
        fields = [(name, self.expression(value, scope, lines)) for name, value in node.fields]
        if node.base is None:
            return self.record(fields)
        return self.changed(self.expression(node.base, scope, lines), sorted(fields))

    def of_operator(self, node: nodes.Operator, scope: Scope, lines: Lines) -> str:
        if node.sign == '▸':
            return self.of_apply(nodes.Apply(node.line, node.right, (node.left,)), scope, lines)
        if node.sign == '>>=':
            return self.apart(node, scope, lines)
        if node.sign == '∷':
            return self.of_cons(node, scope, lines)
        if node.sign not in self.SIGNS:
            raise self.fault(node, f'{node.sign} makes a type, which has no value')
        left, right = (self.expression(side, scope, lines) for side in (node.left, node.right))
        return self.SIGNS[node.sign](self, left, right)

    def of_cons(self, node: nodes.Operator, scope: Scope, lines: Lines) -> str:
        items, tail = [], node
        while isinstance(tail, nodes.Operator) and tail.sign == '∷':
            items.append(self.expression(tail.left, scope, lines))
            tail = tail.right  # type: ignore[assignment]
        if isinstance(tail, nodes.Nil):
            return self.list(items)
        text = self.expression(tail, scope, lines)
        for item in reversed(items):
            text = self.call(self.host('cons'), [item, text])
        return text

    # ---- names that are applied

    def applied(self, found: Meaning, arguments: List[str], node: nodes.Node) -> str:
        """A meaning with these arguments."""
        if isinstance(found, Constructor):
            return self.made(found.name, arguments, node)
        if isinstance(found, Constant):
            value = found.value
            return self.number(value) if isinstance(value, int) else self.list([self.make(name, []) for name in value])
        if isinstance(found, Primitive):
            return self.saturated(self.host(found.name), self.library.primitives[found.name], arguments)
        if isinstance(found, Native):
            return self.saturated(self.global_name(found.key), self.library.natives[found.key], arguments)
        block, own = found.definition.block, self.definition.block
        implicit = list(found.definition.given()) if found.module is self.module and block is not None and block.holds(own) else []
        return self.saturated(self.global_name(found.key), found.definition.arity(), [*implicit, *arguments])

    def made(self, name: str, arguments: List[str], node: nodes.Node) -> str:
        if name in ('true', 'false'):
            return self.truth(name == 'true')
        if name == 'zero':
            return self.number(0)
        if name == 'suc':
            return self.sum(arguments[0], self.number(1)) if arguments else self.lambda_(['n_'], self.sum('n_', self.number(1)))
        return self.make(name, arguments)

    def saturated(self, function: str, arity: int, arguments: List[str]) -> str:
        """A function that takes this number of arguments, with more, as many or fewer of them."""
        if arity == 0:
            return self.onward(self.value(function), arguments)
        if len(arguments) < arity:
            return self.partial(function, arity, arguments)
        return self.onward(self.call(function, arguments[:arity]), arguments[arity:])

    def partial(self, function: str, arity: int, arguments: List[str]) -> str:
        """A function of one argument after the other, which takes those that are lacking."""
        if arity == 0:
            return self.call(function, [])
        if arity == 1:
            return function
        names = [f'p{number}_' for number in range(arity)]
        plain = [re.fullmatch(r'[\w.]+', text) is not None for text in arguments]
        inner = self.lambda_(names[len(arguments):], self.call(function, [a if is_plain else name for a, is_plain, name in zip(arguments, plain, names)]
                                                               + names[len(arguments):]))
        first = [(name, a) for name, a, is_plain in zip(names, arguments, plain) if not is_plain]
        return self.with_values(first, inner) if first else inner

    def onward(self, function: str, arguments: List[str]) -> str:
        """A value that is a function, with one argument after the other."""
        for argument in arguments:
            function = self.apply(function, argument)
        return function

    FORMS: Dict[type, Callable[..., str]] = {
        nodes.Number: of_number, nodes.Text: of_text, nodes.Nil: of_nil, nodes.Pair: of_pair, nodes.Name: of_name, nodes.Dot: of_dot,
        nodes.Apply: of_apply, nodes.Lambda: of_lambda, nodes.If: of_if, nodes.Let: apart, nodes.Do: apart, nodes.Elim: apart,
        nodes.Record: of_record, nodes.Operator: of_operator,
    }
    # The forms that need statements. In FORMS such a form is `apart`.
    ENDS: Dict[type, Callable[..., None]] = {
        nodes.If: ends_if, nodes.Let: ends_let, nodes.Do: ends_do, nodes.Elim: ends_elim, nodes.Operator: ends_operator,
    }
    SIGNS: Dict[str, 'Callable[[Writer, str, str], str]'] = {
        '&&': lambda self, a, b: self.both([a, b]), '||': lambda self, a, b: self.either(a, b), '==': lambda self, a, b: self.equal(a, b),
        '++': lambda self, a, b: self.call(self.host('joined'), [a, b]), '+': lambda self, a, b: self.sum(a, b),
        '-': lambda self, a, b: self.difference(a, b), '*': lambda self, a, b: self.product(a, b), '/': lambda self, a, b: self.quotient(a, b),
        '%': lambda self, a, b: self.remainder(a, b), '^': lambda self, a, b: self.power(a, b),
    }
