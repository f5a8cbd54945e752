"""What Python computes in place of definitions: the encodings of transactions, maps and incrementals, and what changes do to a map.

A fault of these definitions isn't seen when definitions are executed. natives.js has the same for JavaScript.
"""
from __future__ import annotations

import os
import struct
import sys
from typing import Any, Callable, Dict, Iterable, List, Optional, Tuple

sys.path[:0] = [os.path.dirname(os.path.abspath(__file__)), os.path.dirname(os.path.dirname(os.path.abspath(__file__)))]
import antt  # noqa: E402
from antt import Made, Map, octets, record  # noqa: E402
from fields import At, Fields, changes_of  # noqa: E402

FAULTY = antt.error(antt.single('Faulty'))
# The most transactions whose encoding and decoding are kept.
MOST_KEPT = 100_000


def u32(number: int) -> bytes:
    return struct.pack('<I', number)


def u64(number: int) -> bytes:
    return struct.pack('<Q', number)


def word(text: Any) -> bytes:
    return bytes((len(text),)) + octets(text)


def counted(text: Any) -> bytes:
    return u32(len(text)) + octets(text)


# ---- transactions

# The texts of changes and of transactions, by identity: one change is in several transactions, and each is encoded often.
CHANGE_TEXTS: Dict[int, Tuple[bytes, Made]] = {}
TEXTS: Dict[int, Tuple[bytes, Any]] = {}


def change_text(change: Made) -> bytes:
    known = CHANGE_TEXTS.get(id(change))
    if known is None:
        if len(CHANGE_TEXTS) >= MOST_KEPT:
            CHANGE_TEXTS.clear()
        known = CHANGE_TEXTS[id(change)] = encoded_change(change), change
    return known[0]


def encoded_change(change: Made) -> bytes:
    name, args = change.name, change.args
    if name == 'Put':
        return b'\x01' + word(args[0]) + word(args[1]) + counted(args[2])
    if name == 'Erase':
        return b'\x02' + word(args[0]) + word(args[1])
    if name == 'ErasePrefix':
        return b'\x03' + word(args[0])
    return b'\x04' + word(args[0]) + u64(args[1]) + u64(args[2])


def transaction_text(changes: Any) -> bytes:
    """The bytes of a transaction."""
    known = TEXTS.get(id(changes))
    if known is None:
        if len(TEXTS) >= MOST_KEPT:
            TEXTS.clear()
        form = 2 if any(change.name == 'EraseRange' for change in changes) else 1
        known = TEXTS[id(changes)] = bytes((form,)) + u32(len(changes)) + b''.join(map(change_text, changes)), changes
    return known[0]


DECODED: Dict[bytes, Made] = {}


def transaction_of(text: Any) -> Made:
    """The transaction that bytes encode, or an error."""
    key = octets(text)
    found = DECODED.get(key)
    if found is None:
        if len(DECODED) >= MOST_KEPT:
            DECODED.clear()
        try:
            found = antt.okay(tuple(Made(name, *fields) for name, *fields in changes_of(key)))
        except At:
            found = FAULTY
        DECODED[key] = found
    return found


# ---- the map of a store

def is_within(first: int, end: int, key: Any) -> bool:
    text = octets(key)
    return text.isdigit() and (text[:1] != b'0' or text == b'0') and first <= int(text) < end


def entry_size(prefix: bytes, key: bytes, value: bytes) -> int:
    return len(prefix) + len(key) + len(value) + 16


def size_of(store: Map) -> int:
    """The size of a store, as it counts against the most that a store keeps."""
    if store.size < 0:
        store.size = sum(entry_size(prefix, key, value) for (prefix, key), value in store.entries.items())
    return store.size


def erased(change: Made, places: Iterable[Any]) -> List[Any]:
    """The places that a change erases, of these."""
    args, prefix = change.args, octets(change.args[0])
    if change.name == 'Erase':
        return [(prefix, octets(args[1]))]
    within = [place for place in places if place[0] == prefix]
    return within if change.name == 'ErasePrefix' else [place for place in within if is_within(args[1], args[2], place[1])]


def applied(changes: Any, store: Map) -> Map:
    """A map after changes."""
    if not changes:
        return store
    entries, size = store.entries, size_of(store)
    made: Dict[Any, Optional[bytes]] = {}
    for change in changes:
        if change.name == 'Put':
            prefix, key, value = map(octets, change.args)
            made[prefix, key] = value
        else:
            made.update(dict.fromkeys(erased(change, {**entries, **made} if change.name != 'Erase' else ())))
    for place, now in made.items():
        old = entries.get(place)
        size += (0 if now is None else entry_size(*place, now)) - (0 if old is None else entry_size(*place, old))
    return store.changed(made, size)


# The last transaction that was applied, since the map after it is asked for several times.
LAST: List[Any] = [None, None, None]


def apply(changes: Any, store: Map) -> Map:
    if LAST[0] is not changes or LAST[1] is not store:
        LAST[:] = changes, store, applied(changes, store)
    return LAST[2]  # type: ignore[no-any-return]


def apply_one(change: Made, store: Map) -> Map:
    return applied((change,), store)


def number_in(cell: Made) -> int:
    if not cell.args or len(cell.args[0]) != 8:
        return 0
    number = int.from_bytes(octets(cell.args[0]), 'little')
    return number if number <= 2**62 else 0


def place_cmp(a: Any, b: Any) -> int:
    if a == b:
        return 0
    left, right = (octets(a[0]), octets(a[1])), (octets(b[0]), octets(b[1]))
    return (left > right) - (left < right)


# ---- the maps of services

def utf8(text: bytes) -> bytes:
    try:
        text.decode()
        return text
    except UnicodeDecodeError:
        raise At(0) from None


def decoder(read: Callable[[Fields], Any]) -> Callable[[Any], Made]:
    def decoded(text: Any) -> Made:
        try:
            fields = Fields(octets(text))
            found = read(fields)
            fields.end()
            return antt.okay(found)
        except At:
            return FAULTY
    return decoded


def kv_change(fields: Fields) -> Made:
    kind, name = fields.unsigned(1, 1, 2), fields.word(255)
    return Made('Set', name, utf8(fields.counted())) if kind == 1 else Made('Remove', name)


def kv_map(fields: Fields) -> Map:
    found: Dict[bytes, bytes] = {}
    last = b''
    for _ in range(fields.unsigned(4)):
        key = fields.word(255)
        if not last < key:
            raise At(fields.at)
        last, found[key] = key, utf8(fields.counted())
    return Map(found)


def kv_change_text(change: Made) -> bytes:
    return b'\x01' + word(change.args[0]) + counted(change.args[1]) if change.name == 'Set' else b'\x02' + word(change.args[0])


def kv_map_text(entries: Map) -> bytes:
    return u32(len(entries.entries)) + b''.join(word(key) + counted(value) for key, value in entries.sorted())


def log_change(fields: Fields) -> Any:
    rank = fields.unsigned(1, 0, 14)
    return record(rank=rank, text=utf8(fields.counted()))


def log_map(fields: Fields) -> Any:
    return tuple(log_change(fields) for _ in range(fields.unsigned(4)))


def log_change_text(change: Any) -> bytes:
    return bytes((change.rank,)) + counted(change.text)


def log_map_text(changes: Any) -> bytes:
    return u32(len(changes)) + b''.join(map(log_change_text, changes))


NATIVES: Dict[str, Callable] = {
    'byteorder.specs.Endian.little_number': lambda size, text: int.from_bytes(octets(text[:size]), 'little'),
    'byteorder.specs.Endian.little_bytes': lambda size, number: (number % 256**size).to_bytes(size, 'little'),
    'mon_tx.specs.Text.text': transaction_text,
    'mon_tx.specs.Decode.transaction_of': transaction_of,
    'mon_tx.specs.Map.apply': apply,
    'mon_tx.specs.Map.apply_op': apply_one,
    'mon_tx.specs.Map.number_bytes': u64,
    'mon_tx.specs.Map.number_in': number_in,
    'mon_tx.specs.Map.is_within': is_within,
    'mon_tx.specs.Map.place_cmp': place_cmp,
    'mon_tx.specs.Keys.decimal_text': lambda number: b'%d' % number,
    'mon_kv.specs.Readers.size_of': size_of,
    'map_kv.specs.Text.inc_text': kv_change_text,
    'map_kv.specs.Text.map_text': kv_map_text,
    'map_kv.specs.Decode.inc_of': decoder(kv_change),
    'map_kv.specs.Decode.map_of': decoder(kv_map),
    'map_log.specs.Text.inc_text': log_change_text,
    'map_log.specs.Text.map_text': log_map_text,
    'map_log.specs.Decode.inc_of': decoder(log_change),
    'map_log.specs.Decode.map_of': decoder(log_map),
}
