"""The part of the standard library that definitions use, as Python functions. A function that is an argument takes one argument: f(x)(y)."""
from __future__ import annotations

from typing import Any, Callable, Dict

from .values import NONE, TT, Long, Made, Map, octets, some

EMPTY = Map({})
# The most items of a list that is copied when others are added.
MOST_SHORT = 64


def cons(head: Any, tail: Any) -> Any:
    if type(tail) is bytes and tail and type(head) is int and head < 256:
        return bytes((head,)) + tail
    return (head,) + tuple(tail)


def joined(first: Any, second: Any) -> Any:
    if not first:
        return second
    if not second:
        return first
    if type(first) is bytes and type(second) is bytes or type(first) is Long:
        return first + second
    if len(first) + len(second) < MOST_SHORT:
        return (*first, *second)
    items = [*first, *second]
    return Long(items, len(items))


def compared(a: Any, b: Any) -> int:
    return int(a > b) - int(a < b)


def replaced(items: Any, index: int, value: Any) -> Any:
    return (*items[:index], value, *items[index + 1:]) if index < len(items) else items


def first_of(test: Callable, items: Any) -> Made:
    for item in items:
        if test(item):
            return some(item)
    return NONE


def place_of(key: Any) -> Any:
    if type(key) is tuple and len(key) == 2 and type(key[0]) is bytes and type(key[1]) is bytes:
        return key
    return (octets(key[0]), octets(key[1])) if type(key) is tuple and key and type(key[0]) is not int else octets(key)


def got(entries: Map, key: Any) -> Made:
    value = entries.entries.get(place_of(key))
    return NONE if value is None else some(value)


def inserted(entries: Map, key: Any, value: Any) -> Map:
    return entries.changed({octets(key): octets(value)})


def removed(entries: Map, key: Any) -> Map:
    return entries.changed({octets(key): None})


def mapped(f: Callable, value: Made) -> Made:
    return some(f(value.args[0])) if value.args else value


def then_compared(f: Callable, g: Callable, a: Any, b: Any) -> Any:
    return f(a)(b) or g(a)(b)


PRIMITIVES: Dict[str, Callable] = {
    'not': lambda a: not a,
    'nat_le': lambda a, b: a <= b,
    'nat_lt': lambda a, b: a < b,
    'min': lambda a, b: a if a <= b else b,
    'max': lambda a, b: a if a >= b else b,
    'div_ceil': lambda a, b: -(-a // b),
    'abs_diff': lambda a, b: abs(a - b),
    'cond': lambda test, a, b: a if test else b,
    # lists
    'length': lambda items: len(items),
    'filter': lambda f, items: tuple([item for item in items if f(item)]),
    'map': lambda f, items: tuple([f(item) for item in items]),
    'flat_map': lambda f, items: tuple([part for item in items for part in f(item)]),
    'filter_map': lambda f, items: tuple([value.args[0] for value in map(f, items) if value.args]),
    'replicate': lambda count, item: (item,) * count,
    'take': lambda count, items: items[:count],
    'drop': lambda count, items: items[count:],
    'sum_by': lambda f, items: sum(map(f, items)),
    'count_by': lambda f, items: sum(map(bool, map(f, items))),
    'slice_index_or': lambda items, index, other: items[index] if index < len(items) else other,
    'get_or': lambda items, index, other: items[index] if index < len(items) else other,
    'slice_index': lambda items, index: items[index],
    'slice_get': lambda items, index: some(items[index]) if index < len(items) else NONE,
    'slice_set': replaced,
    'range_with_len': lambda first, count: tuple(range(first, first + count)),
    'list_all': lambda f, items: all(map(f, items)),
    'list_any': lambda f, items: any(map(f, items)),
    'zip': lambda a, b: tuple(zip(a, b)),
    'enumerate_from': lambda first, items: tuple(enumerate(items, first)),
    'last_or': lambda other, items: some(items[-1]) if items else other,
    'find': first_of,
    # options and results
    'is_some': lambda value: bool(value.args),
    'is_err': lambda value: value.name == 'Err',
    'is_ok': lambda value: value.name == 'Ok',
    'unwrap_or': lambda value, other: value.args[0] if value.args else other,
    'option_map': mapped,
    'option_and_then': lambda f, value: f(value.args[0]) if value.args else value,
    'option_map_or': lambda f, value, other: f(value.args[0]) if value.args else other,
    # orderings: a number below, at or above 0
    'nat_cmp': compared,
    'bool_cmp': compared,
    'is_lt': lambda order: order < 0,
    'then_cmp': then_compared,
    'ordering_then': lambda first, second: first or second,
    'on': lambda key, f, a, b: f(key(a))(key(b)),
    'flip_args': lambda f, a, b: f(b)(a),
    'slice_cmp': lambda f, a, b: compared(octets(a), octets(b)),
    'eq_by_cmp': lambda f, a, b: f(a)(b) == 0,
    # proofs, of which none is looked at
    'ltb-true': lambda a, b, proof: TT,
    # texts
    'codes': lambda text: text,
    'decimal': lambda number: b'%d' % number,
    'bytes_eq': lambda a, b: octets(a) == octets(b),
    'digits_value': lambda base, digits: int(octets(digits).decode(), base),
    # maps
    'get': got,
    'insert': inserted,
    'remove': removed,
    'contains_key': lambda entries, key: octets(key) in entries.entries,
    'entries': lambda entries: tuple(entries.sorted()),
    'retain_keys': lambda entries, f: Map({key: value for key, value in entries.entries.items() if f(key)}),
}
# The primitives that take no argument.
VALUES: Dict[str, Any] = {'empty': EMPTY, 'refl': TT}
ARITIES: Dict[str, int] = {**{name: f.__code__.co_argcount for name, f in PRIMITIVES.items()}, **{name: 0 for name in VALUES}}
