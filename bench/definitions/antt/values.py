"""The values of definitions, as Python has them.

A number is an int, a Bool a bool, a list a tuple, a list of bytes often bytes, and a pair a tuple. A function is a function of one argument: f(x)(y). A value
of a constructor is a `Made`, with its name and arguments. A record is an object with its fields as attributes; records with the same fields have one class. A
map is a `Map`. All are immutable.
"""
from __future__ import annotations

import keyword
from typing import Any, Dict, Iterator, List, Optional, Sequence, Set, Tuple, Type


class Made:
    """A value of a constructor. One that lacks arguments is a function."""
    __slots__ = 'name', 'args'

    def __init__(self, name: str, *args: Any):
        self.name, self.args = name, args

    def __call__(self, argument: Any) -> Made:
        return Made(self.name, *self.args, argument)

    def __eq__(self, other: object) -> bool:
        return self is other or isinstance(other, Made) and self.name == other.name and self.args == other.args

    def __hash__(self) -> int:
        return hash((self.name, self.args))

    def __repr__(self) -> str:
        return f'{self.name}({", ".join(map(repr, self.args))})' if self.args else self.name


SINGLE: Dict[str, Made] = {}


def single(name: str) -> Made:
    """The value of a constructor without arguments."""
    if name not in SINGLE:
        SINGLE[name] = Made(name)
    return SINGLE[name]


NONE, TT = single('None'), single('tt')


def some(value: Any) -> Made:
    return Made('Some', value)


def okay(value: Any) -> Made:
    return Made('Ok', value)


def error(value: Any) -> Made:
    return Made('Err', value)


# ---- records

class Record:
    """A record. Its class is made by `shape`, with a slot for each field."""
    __slots__ = ()
    FIELDS: Tuple[str, ...] = ()

    def __eq__(self, other: object) -> bool:
        return self is other or isinstance(other, Record) and type(self) is type(other) and parts(self) == parts(other)

    def __hash__(self) -> int:
        return hash(parts(self))

    def __repr__(self) -> str:
        return '{' + '; '.join(f'{name}={value!r}' for name, value in fields_of(self)) + '}'


def parts(made: Record) -> Tuple[Any, ...]:
    slots: Tuple[str, ...] = made.__slots__
    return tuple(getattr(made, name) for name in slots)


def fields_of(made: Record) -> Iterator[Tuple[str, Any]]:
    """The names and values of a record's fields."""
    return zip(made.FIELDS, parts(made))


def attribute(field: str) -> str:
    """The name of the attribute that has a field's value: `from_` for `from`."""
    return f'{field}_' if keyword.iskeyword(field) else field


CLASS = '''class R(Record):
    __slots__ = {slots!r}
    FIELDS = {fields!r}
    def __init__(self, {names}):
        {sets}
'''
CHANGED = '''def changed(self, {names}):
    return R({values})
'''
SHAPES: Dict[frozenset, Type[Record]] = {}
CHANGES: Set[Tuple[str, ...]] = set()


def shape(fields: Tuple[str, ...]) -> Type[Record]:
    """The class of the records with these fields. It is made from Python, so that each field is an attribute of its own."""
    key = frozenset(fields)
    if key not in SHAPES:
        slots = tuple(map(attribute, fields))
        scope: Dict[str, Any] = {'Record': Record}
        sets = '; '.join(f'self.{name} = {name}' for name in slots)
        exec(CLASS.format(fields=fields, slots=slots, names=', '.join(slots), sets=sets), scope)
        SHAPES[key] = scope['R']
        for changed in CHANGES:
            add_change(scope['R'], changed)
    return SHAPES[key]


def change(names: Tuple[str, ...]) -> str:
    """The name of the method of records that changes these fields."""
    if names not in CHANGES:
        CHANGES.add(names)
        for made in list(SHAPES.values()):
            add_change(made, names)
    return 'with_' + '_and_'.join(names)


def add_change(made: Any, names: Tuple[str, ...]) -> None:
    if set(names) <= set(made.FIELDS):
        scope: Dict[str, Any] = {'R': made}
        values = ', '.join(('' if name in names else 'self.') + attribute(name) for name in made.FIELDS)
        exec(CHANGED.format(names=', '.join(map(attribute, names)), values=values), scope)
        setattr(made, 'with_' + '_and_'.join(names), scope['changed'])


def record(**fields: Any) -> Any:
    """A record of these fields, each under the name of its attribute."""
    given = {name.rstrip('_'): value for name, value in fields.items()}
    made: Any = shape(tuple(given))
    return made(*(given[name] for name in made.FIELDS))


def changed(made: Any, **values: Any) -> Any:
    """A record with other values of some fields, which are given in the order of their names."""
    return getattr(made, change(tuple(values)))(*values.values())


# ---- lists and maps that grow

class Long(Sequence[Any]):
    """A long list to which items are added at its end. Lists that come of one another share their items, so to add one copies nothing."""
    __slots__ = 'shared', 'length'

    def __init__(self, shared: List[Any], length: int):
        self.shared, self.length = shared, length

    def __len__(self) -> int:
        return self.length

    def __getitem__(self, place: Any) -> Any:
        if isinstance(place, slice):
            return tuple(self.shared[:self.length][place] if self.length < len(self.shared) else self.shared[place])
        return self.shared[place if place >= 0 else place + self.length]

    def __iter__(self) -> Iterator[Any]:
        return iter(self.shared if self.length == len(self.shared) else self.shared[:self.length])

    def __eq__(self, other: object) -> bool:
        return isinstance(other, (tuple, Long)) and tuple(self) == tuple(other)

    def __hash__(self) -> int:
        return hash(tuple(self))

    def __add__(self, items: Any) -> Long:
        shared = self.shared if self.length == len(self.shared) else self.shared[:self.length]
        shared.extend(items)
        return Long(shared, len(shared))


class Map:
    """A finite map. Its keys are bytes or pairs of bytes, in the order of their bytes. `size` is the size of a store, once it is known.

    Maps that come of one another share their entries. The newest map that was used has them. Each other one has what differs from a newer one, and takes
    them back when it is used."""
    __slots__ = 'own', 'size', 'newer', 'olds'

    def __init__(self, entries: Dict[Any, bytes], size: int = -1):
        self.own, self.size = entries, size
        self.newer: Optional[Map] = None
        self.olds: Dict[Any, Optional[bytes]] = {}

    @property
    def entries(self) -> Dict[Any, bytes]:
        if self.newer is not None:
            self.take_back()
        return self.own

    def take_back(self) -> None:
        older, at = [], self
        while at.newer is not None:
            older.append(at)
            at = at.newer
        while older:
            it = older.pop()
            entries, olds = at.own, {key: at.own.get(key) for key in it.olds}
            put_all(entries, it.olds)
            at.own, at.newer, at.olds = {}, it, olds
            it.own, it.newer, it.olds = entries, None, {}
            at = it

    def changed(self, changes: Dict[Any, Optional[bytes]], size: int = -1) -> Map:
        """The map after changes: a value for each key that changes, or None if the key goes."""
        entries = self.entries
        if not entries:
            return Map({key: value for key, value in changes.items() if value is not None}, size)
        olds = {key: entries.get(key) for key in changes}
        put_all(entries, changes)
        found = Map(entries, size)
        self.own, self.newer, self.olds = {}, found, olds
        return found

    def __eq__(self, other: object) -> bool:
        return self is other or isinstance(other, Map) and dict(self.entries) == other.entries

    def __hash__(self) -> int:
        return hash(tuple(self.sorted()))

    def __repr__(self) -> str:
        return f'Map({self.entries!r})'

    def sorted(self) -> List[Tuple[Any, bytes]]:
        return sorted(self.entries.items())


def put_all(entries: Dict[Any, bytes], changes: Dict[Any, Optional[bytes]]) -> None:
    for key, value in changes.items():
        if value is None:
            entries.pop(key, None)
        else:
            entries[key] = value


def octets(value: Any) -> bytes:
    """A list of bytes as bytes."""
    return value if type(value) is bytes else bytes(value)
