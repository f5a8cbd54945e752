"""Definitions that can be called from Python, and the same definitions as JavaScript."""
from __future__ import annotations

import json
import os
import sys
from typing import Any, Callable, Dict, Iterator, List, Mapping, NamedTuple, Optional, Sequence, Tuple, Type

from . import primitives
from .javascript import JavaScriptWriter
from .modules import Changes, Constant, Constructor, Global, Library, Native
from .nodes import Fault
from .python import PythonWriter
from .values import Made, single
from .writing import Unit, Writer

CRATES = os.path.join(os.path.dirname(os.path.abspath(__file__)), '..', '..', '..', 'crates')
# Definitions that call themselves for each entry of a log go deep.
DEEP = 200_000


class NoCase(Exception):
    """No clause of a definition takes its arguments."""


class Drop(NamedTuple):
    """A row that did nothing with its input, or nothing more: its name, how it ended, the part of its test that decided so, and whether that part holds."""
    row: str
    how: str
    test: str
    holds: bool


class Host(NamedTuple):
    """What the host puts in place of definitions: for the path of each, its function, which takes all arguments at once. `kept` has the paths of definitions
    whose values are kept, each with how many."""
    natives: Mapping[str, Callable]
    kept: Mapping[str, int]

    def arities(self) -> Dict[str, int]:
        return {key: function.__code__.co_argcount for key, function in self.natives.items()}


NO_HOST = Host({}, {})


class Program:
    """The definitions below a folder of crates, as Python functions. They are compiled when they are asked for.

    `changes` and `constants` change rules and numbers. If it `is_watched`, each row that does nothing with its input is added to `drops`."""

    def __init__(self, host: Host = NO_HOST, root: str = CRATES, changes: Optional[Changes] = None, constants: Optional[Mapping[str, int]] = None,
                 is_watched: bool = False):
        sys.setrecursionlimit(max(DEEP, sys.getrecursionlimit()))
        self.host, self.is_watched = host, is_watched
        self.library = Library(root, host.arities(), primitives.ARITIES, changes or {}, constants or {})
        self.drops: List[Drop] = []
        self.caches: List[Dict[Any, Any]] = []
        self.loaded: Dict[str, str] = {}
        self.found: Dict[Tuple[str, str], Any] = {}
        self.names = self.first_names()

    def first_names(self) -> Dict[str, Any]:
        """What the text of definitions names: the standard library and the host's functions."""
        names: Dict[str, Any] = {'Made': Made, 'NoCase': NoCase, 'std_note': self.note, 'std_with_numbers': with_numbers}
        names.update({PythonWriter.host(name): it for name, it in {**primitives.PRIMITIVES, **primitives.VALUES}.items()})
        names.update({'std_cons': primitives.cons, 'std_joined': primitives.joined})
        names.update({Writer.global_name(key): self.kept(key, function) for key, function in self.host.natives.items()})
        return names

    def note(self, row: str, how: str, why: Tuple[str, bool]) -> None:
        self.drops.append(Drop(row, how, *why))

    # ---- calls

    def __call__(self, module: str, name: str) -> Any:
        """The value of a definition of a module, such as ('mon_msg.specs.Protocol.Table', 'react'). One with arguments is a function of all of them."""
        key = module, name
        if key not in self.found:
            self.found[key] = self.value_of(module, name)
        return self.found[key]

    def value_of(self, path: str, name: str) -> Any:
        found = self.library.meaning(path, name)
        if found is None:
            raise Fault(self.library.file_of(path), 0, f'{path}.{name} is not known')
        if isinstance(found, Global):
            self.load(found)
            return self.names[self.loaded[found.key]]
        if isinstance(found, Constant):
            return found.value if isinstance(found.value, int) else tuple(map(single, found.value))
        if isinstance(found, Constructor):
            return single(found.name)
        return self.names[Writer.global_name(found.key) if isinstance(found, Native) else PythonWriter.host(found.name)]

    def load(self, wanted: Global) -> None:
        """Compiles a definition and all that it needs, as far as that isn't done yet."""
        units = [(it, unit) for it, unit in units_of(wanted, PythonWriter, self.library, self.is_watched) if it.key not in self.loaded]
        for it, unit in units:
            self.loaded[it.key] = unit.name
            self.names.update(unit.values)
        text = '\n'.join(unit.text for _, unit in units)
        exec(compile(text, f'<{wanted.key}>', 'exec'), self.names)
        for it, unit in units:
            if unit.is_value:
                self.names[unit.name] = self.names[unit.name]()
            elif it.key in self.host.kept:
                self.names[unit.name] = self.kept(it.key, self.names[unit.name])

    # ---- values that are kept

    def kept(self, key: str, function: Callable) -> Callable:
        """A function that keeps its values, if the host wants that: by its arguments if they are numbers or bytes, and else by their identity."""
        if key not in self.host.kept:
            return function
        most = self.host.kept[key]
        values: Dict[Any, Any] = {}
        self.caches.append(values)

        def keeping(*arguments: Any) -> Any:
            place = tuple([it if type(it) is int or type(it) is bytes else id(it) for it in arguments])
            known = values.get(place)
            if known is None:
                if len(values) >= most:
                    values.clear()
                known = values[place] = function(*arguments), arguments
            return known[0]
        return keeping

    def forget(self) -> None:
        """Empties the caches."""
        for values in self.caches:
            values.clear()


def with_numbers(text: str, *values: Any) -> str:
    """The text of a test, with the numbers that it compares."""
    return f'{text} ({values[0]} and {values[1]})' if values and all(type(value) is int for value in values) else text


# The units that were written, by writer, definition, whether it is watched, and constants.
UNITS: Dict[Tuple[Any, ...], Unit] = {}
MOST_UNITS = 50_000


def unit_of(it: Global, writer: Type[Writer], library: Library, is_watched: bool) -> Unit:
    """A definition that is written. One that another library wrote before is taken if it means the same here: what it needs takes as many arguments."""
    key = writer, it.module, it.definition.name, is_watched, tuple(library.constants.items())
    known = UNITS.get(key)
    if known is not None:
        needs = [library.same(need) for need in known.needs]
        if None not in needs:
            return known._replace(needs=list(filter(None, needs)))
    if len(UNITS) >= MOST_UNITS:
        UNITS.clear()
    UNITS[key] = writer(library, it.module, it.definition, is_watched).unit()
    return UNITS[key]


def units_of(wanted: Global, writer: Type[Writer], library: Library, is_watched: bool) -> Iterator[Tuple[Global, Unit]]:
    """A definition and those that it needs, each after those that it needs itself."""
    done: Dict[str, Unit] = {}

    def visit(it: Global) -> Iterator[Tuple[Global, Unit]]:
        unit = done[it.key] = unit_of(it, writer, library, is_watched)
        for needed in unit.needs:
            if isinstance(needed, Global) and needed.key not in done:
                yield from visit(needed)
        yield it, unit
    yield from visit(wanted)


def javascript(wanted: Sequence[Tuple[str, str]], library: Library, is_watched: bool, kept: Mapping[str, int]) -> Dict[str, str]:
    """The definitions of these modules and names, and all that they need, as JavaScript: by the name of each, the text that defines it. `kept` has the paths
    of definitions whose values are kept, each with how many."""
    found: Dict[str, str] = {}
    for path, name in wanted:
        it = library.meaning(path, name)
        if not isinstance(it, Global):
            if isinstance(it, Native):
                continue
            raise Fault(library.file_of(path), 0, f'{path}.{name} is no definition')
        for made, unit in units_of(it, JavaScriptWriter, library, is_watched):
            found.update((name, f'const {name} = $single({json.dumps(constructor)});') for name, constructor in unit.values.items())
            found[unit.name] = declared(unit, kept.get(made.key))
    return found


def declared(unit: Unit, kept: Optional[int]) -> str:
    """The text that defines a definition in JavaScript."""
    if unit.is_value:
        return f'const {unit.name} = $lazy({unit.text});'
    return unit.text if kept is None else f'const {unit.name} = $kept({kept}, {unit.text});'
