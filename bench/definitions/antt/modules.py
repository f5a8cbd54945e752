"""The files of definitions, and what a name of one of them means.

A module is a file crates/CRATE/specs/..antt. Its declarations are found when it is read. A definition is parsed when it is asked for, so a declaration that is
no definition, such as a type, doesn't matter until then.
"""
from __future__ import annotations

import functools
import os
import re
from typing import Dict, List, Mapping, NamedTuple, Optional, Sequence, Set, Tuple, Union

from .nodes import Block, Definition, Fault
from .parsing import Parser, is_constructor
from .tokens import Token, tokens_of

USE = re.compile(r'^(?:pub )?use Rattle\.([\w.]+?)(?:\.\{([^}]*)\})?(?: as (\w+))?\n', re.MULTILINE)
PASSED_ON = re.compile(r'^pub use Rattle\.([\w.]+?)(?: as (\w+))?$', re.MULTILINE)
SKIPPED = {'use', 'infixl', 'infixr', 'data', 'open', 'unfolding'}
ADJECTIVES = {'abbrev', 'unfoldable', 'pub'}
# Pairs of a text, which a module's file has once, and the text in its place; by the module's path.
Changes = Mapping[str, Sequence[Tuple[str, str]]]


class Declared(NamedTuple):
    """A name that is declared: its block, its column, and the places of its clauses among the tokens."""
    block: Optional[Block]
    column: int
    starts: List[int]


class Global(NamedTuple):
    """A definition of a module."""
    module: 'Module'
    definition: Definition

    @property
    def key(self) -> str:
        return f'{self.module.path}.{self.definition.name}'


class Native(NamedTuple):
    """A function of the host that takes the place of a definition."""
    key: str


class Primitive(NamedTuple):
    """A function or value of the standard library."""
    name: str


class Constructor(NamedTuple):
    name: str


class Constant(NamedTuple):
    """A constant of a crate's code: a number, or a list of the names of variants."""
    value: Union[int, Tuple[str, ...]]


Meaning = Union[Global, Native, Primitive, Constructor, Constant]


class Scanner:
    """Finds the declarations among tokens."""

    def __init__(self, tokens: List[Token]):
        self.tokens = tokens
        self.declared: Dict[str, Declared] = {}
        self.constructors: Set[str] = set()

    def text(self, at: int) -> str:
        return self.tokens[at].text if at < len(self.tokens) else ''

    def after(self, at: int, column: int) -> int:
        """The place of the next line that isn't indented beyond a column."""
        while at < len(self.tokens) and not (self.tokens[at].is_first and self.tokens[at].column <= column):
            at += 1
        return at

    def scan(self, at: int, column: int, block: Optional[Block]) -> int:
        """Finds the declarations at a column, from a place on, and returns the place of what follows them."""
        last = ''
        while at < len(self.tokens) and self.tokens[at].column >= column:
            token = self.tokens[at]
            if token.column > column:
                at = self.after(at, column)
            elif token.text == 'module':
                at, last = self.module(at, block), ''
            elif token.text in SKIPPED or token.text == 'pub' and self.text(at + 1) in ('data', 'record', 'mod', 'use'):
                at, last = self.skipped(at, column), ''
            elif token.text in ADJECTIVES:
                while self.text(at) in ADJECTIVES:
                    at += 1
                at, last = self.after(at + 1, column), self.text(at)
            elif self.text(at + 1) == ':':
                at, last = self.after(at + 1, column), token.text
            else:
                if token.text == last and '◌' not in last:
                    self.declared.setdefault(last, Declared(block, column, [])).starts.append(at)
                at = self.after(at + 1, column)
        return at

    def skipped(self, at: int, column: int) -> int:
        """Passes a declaration. The constructors of a `data` are noted."""
        is_data, end = 'data' in (self.text(at), self.text(at + 1)), self.after(at + 1, column)
        if is_data:
            self.constructors |= {self.text(place) for place in range(at, end) if self.tokens[place].is_first and is_constructor(self.text(place))}
        return end

    def module(self, at: int, block: Optional[Block]) -> int:
        """A block `module _ (NAME .. : TYPE) .. where`, and the declarations in it."""
        names: List[str] = []
        at += 2
        while self.text(at) != 'where':
            depth = 1
            at += 1
            while self.text(at) != ':':
                names.append(self.text(at))
                at += 1
            while depth:
                at += 1
                depth += (self.text(at) == '(') - (self.text(at) == ')')
            at += 1
        return self.scan(at + 1, self.tokens[at + 1].column, Block(tuple(names), block))


class Module:
    """A file of definitions."""

    def __init__(self, path: str, file: str, source: str):
        self.path, self.file = path, file
        self.imports: Dict[str, Tuple[str, str]] = {}
        self.short: Dict[str, str] = {}
        for match in USE.finditer(source):
            self.take_use(*match.groups())
        self.tokens = tokens_of(source, file)
        scanner = Scanner(self.tokens)
        scanner.scan(0, 0, None)
        self.declared, self.constructors = scanner.declared, scanner.constructors
        self.read: Dict[str, Definition] = {}

    def take_use(self, base: str, items: Optional[str], short: Optional[str]) -> None:
        if items is None:
            if short:
                self.short[short] = base
            return
        for item in items.split(','):
            name, _, other = item.strip().partition(' as ')
            self.imports[(other or name).strip()] = base, name.strip()

    def definition(self, name: str) -> Definition:
        """The definition of a name that is declared here. Raises Fault if it can't be read: a type, for example."""
        if name not in self.read:
            self.read[name] = self.parsed(name, self.declared[name])
        return self.read[name]

    def parsed(self, name: str, declared: Declared) -> Definition:
        parser, clauses = Parser(list(self.tokens), self.file), []
        for start in declared.starts:
            parser.at = start
            clauses.append(parser.clause(declared.column, locals_of))
        line = self.tokens[declared.starts[0]].line
        found = Definition(line, name, declared.block, tuple(clauses))
        if len({len(clause.patterns) for clause in clauses}) > 1:
            raise Fault(self.file, line, f'the clauses of {name} take different numbers of arguments')
        return found

    def definitions(self) -> Tuple[List[Definition], List[Tuple[str, Fault]]]:
        """All definitions, and each name that is none, with its fault."""
        found, faults = [], []
        for name in self.declared:
            try:
                found.append(self.definition(name))
            except Fault as fault:
                faults.append((name, fault))
        return found, faults


@functools.lru_cache(maxsize=1024)
def module_of(path: str, file: str, source: str) -> Module:
    """The module of a text. Programs under different rules share those that no rule changes."""
    return Module(path, file, source)


def locals_of(parser: Parser, at: int) -> Tuple[Dict[str, Definition], int]:
    """The definitions of a `where`, and the place after them."""
    scanner = Scanner(parser.tokens)
    column = parser.tokens[at].column
    end, found = scanner.scan(at, column, None), {}
    for name, declared in scanner.declared.items():
        clauses = []
        for start in declared.starts:
            parser.at = start
            clauses.append(parser.clause(column, locals_of))
        found[name] = Definition(parser.tokens[declared.starts[0]].line, name, None, tuple(clauses))
    return found, end


class Library:
    """The modules below a folder of crates, read as they are needed: under changed rules, and with other numbers in place of constants of the code."""

    def __init__(self, root: str, natives: Mapping[str, int], primitives: Mapping[str, int], changes: Changes, constants: Mapping[str, int]):
        self.root, self.natives, self.primitives, self.changes, self.constants = root, natives, primitives, changes, constants
        self.modules: Dict[str, Optional[Module]] = {}
        self.known_constants: Dict[Tuple[str, str], Constant] = {}

    def file_of(self, path: str) -> str:
        return os.path.join(self.root, *path.split('.')) + '.antt'

    def module(self, path: str) -> Optional[Module]:
        """The module of a path such as mon_msg.specs.Protocol.Table, or None if there is no such file."""
        if path not in self.modules:
            self.modules[path] = self.module_read(path) if os.path.exists(self.file_of(path)) else self.module_passed_on(path)
        return self.modules[path]

    def module_read(self, path: str) -> Module:
        file = self.file_of(path)
        with open(file, encoding='utf-8') as opened:
            source = opened.read()
        for old, new in self.changes.get(path, ()):
            if source.count(old) != 1:
                raise Fault(file, 0, f'it has {source.count(old)} times {old!r}')
            source = source.replace(old, new)
        return module_of(path, file, source)

    def module_passed_on(self, path: str) -> Optional[Module]:
        """A module under the name that its parent gives it: `pub use Rattle.CRATE.specs.NAME`, or `.. as OTHER`."""
        parent, _, last = path.rpartition('.')
        if not parent or not os.path.exists(self.file_of(parent)):
            return None
        with open(self.file_of(parent), encoding='utf-8') as opened:
            for match in PASSED_ON.finditer(opened.read()):
                if (match[2] or match[1].rpartition('.')[2]) == last:
                    return self.module(match[1])
        return None

    # ---- names

    def same(self, found: Meaning) -> Optional[Meaning]:
        """What a meaning of another library is here, or None if it is there with another number of arguments, or isn't there."""
        if not isinstance(found, Global):
            return found if isinstance(found, Native) and found.key in self.natives else None
        module = self.module(found.module.path)
        if module is None or found.definition.name not in module.declared:
            return None
        definition = module.definition(found.definition.name)
        return Global(module, definition) if definition.arity() == found.definition.arity() else None

    def meaning_in(self, module: Module, name: str) -> Optional[Meaning]:
        """What a name means in a module, or None if it means nothing there."""
        key = f'{module.path}.{name}'
        if key in self.natives:
            return Native(key)
        if name in module.declared:
            return Global(module, module.definition(name))
        if name in module.imports:
            return self.meaning(*module.imports[name])
        return Constructor(name) if name in module.constructors or name in ('true', 'false', 'zero', 'suc', 'tt') else None

    def meaning(self, base: str, name: str) -> Optional[Meaning]:
        """What a name of a module, of a type's variants or of the constants of a crate means, or None."""
        if f'{base}.{name}' in self.natives:
            return Native(f'{base}.{name}')
        if base.startswith('std.'):
            return Primitive(name) if name in self.primitives else Constructor(name) if is_constructor(name) else None
        if '.TheConstants' in base:
            return self.constant(base.split('.')[0], name)
        if '.declared.' in base:
            return Constructor(name) if is_constructor(name) else None
        module = self.module(base)
        return None if module is None else self.meaning_in(module, name)

    # ---- constants of the code

    def constant(self, crate: str, name: str) -> Optional[Constant]:
        if name in self.constants:
            return Constant(self.constants[name])
        if (crate, name) not in self.known_constants:
            folder = os.path.join(self.root, crate, 'src')
            for file in sorted(os.listdir(folder)):
                with open(os.path.join(folder, file), encoding='utf-8') as opened:
                    found = self.constant_in(opened.read(), crate, name)
                if found is not None:
                    self.known_constants[crate, name] = found
                    break
        return self.known_constants.get((crate, name))

    def constant_in(self, code: str, crate: str, name: str) -> Optional[Constant]:
        """`const NAME: u64 = OTHER + 65_536;` or `const NAME: [Timer; ..] = [Timer::Probe, ..];` in a file of a crate's code."""
        if match := re.search(rf'const {name}: \w+ = ([\w +]+);', code):
            return Constant(sum(self.addend(crate, word) for word in match[1].split(' + ')))
        if re.search(rf'const {name}: u64 = u64::MAX;', code):
            return Constant(2**64 - 1)
        if match := re.search(rf'const {name}: \[(\w+); [\w:]+\] = \[(.*?)\];', code, re.DOTALL):
            return Constant(tuple(re.findall(rf'\b{match[1]}::(\w+)', match[2])))
        return None

    def addend(self, crate: str, word: str) -> int:
        if word[0].isdigit():
            return int(word, 0)
        found = self.constant(crate, word)
        if found is None or not isinstance(found.value, int):
            raise Fault(os.path.join(self.root, crate, 'src'), 0, f'{word} is no constant')
        return found.value
