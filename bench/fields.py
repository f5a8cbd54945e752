"""Reads fields and transactions from bytes, as docs/FORMATS.md specifies them: for the checks, the benches and the executed definitions.

tools/cephmon/wire.py has another reader, for what operators use. The two share no code: the checks judge the tools, too, so a fault of one reader must not be a
fault of the other.
"""
from __future__ import annotations

MOST_NUMBER, MOST_TRANSACTION = 2**62, 4_194_304


class At(Exception):
    """The bytes are refused at this place."""

    def __init__(self, at: int):
        super().__init__(at)
        self.at = at


class Fields:
    """Reads fields from bytes, from a place on. A field that doesn't fit, or is malformed, raises At with the place of its first byte."""

    def __init__(self, octets: bytes, at: int = 0):
        self.octets, self.at = octets, at

    def take(self, count: int, is_so=lambda field: True) -> bytes:
        field = self.octets[self.at:self.at + count]
        if len(field) < count or not is_so(field):
            raise At(self.at)
        self.at += count
        return field

    def unsigned(self, size: int, least: int = 0, most: int = 2**64) -> int:
        return int.from_bytes(self.take(size, lambda field: least <= int.from_bytes(field, 'little') <= most), 'little')

    def word(self, most: int) -> bytes:
        """A prefix or a key, of at most this number of bytes."""
        return self.take(self.unsigned(1, 1, most), lambda field: all(0x21 <= octet <= 0x7E for octet in field))

    def counted(self) -> bytes:
        return self.take(self.unsigned(4))

    def end(self):
        if self.at < len(self.octets):
            raise At(self.at)


def changes_of(octets: bytes) -> list[tuple]:
    """The changes of a transaction, each as its name in `mon_tx` and its fields. Raises At if the bytes aren't a transaction."""
    if len(octets) > MOST_TRANSACTION:
        raise At(MOST_TRANSACTION)
    fields = Fields(octets)
    form = fields.unsigned(1, 1, 2)
    found = [change_in(fields, form) for _ in range(fields.unsigned(4))]
    fields.end()
    if form == 2 and not any(change[0] == 'EraseRange' for change in found):
        raise At(0)
    return found


def change_in(fields: Fields, form: int) -> tuple:
    kind, prefix = fields.unsigned(1, 1, 2 + form), fields.word(32)
    if kind == 1:
        return 'Put', prefix, fields.word(255), fields.counted()
    if kind == 2:
        return 'Erase', prefix, fields.word(255)
    if kind == 3:
        return 'ErasePrefix', prefix
    first = fields.unsigned(8, 0, MOST_NUMBER)
    return 'EraseRange', prefix, first, fields.unsigned(8, first + 1, MOST_NUMBER)
