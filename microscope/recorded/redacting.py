"""Replaces the keys, values and texts of a schedule by others of the same lengths."""
from __future__ import annotations

import hashlib
import re

REQUEST = re.compile(r'(.*\bclient \d+ \d+ \d+ \d+ )(set|remove|log) (.*)')
# The bytes of replacements: those that keys may have.
LETTERS = 'abcdefghijklmnopqrstuvwxyzABCDEFGHIJKLMNOPQRSTUVWXYZ0123456789'


class Redaction:
    """Replacements of texts. Different texts of one kind have different ones, as long as there are enough of that length."""

    def __init__(self) -> None:
        self.by_text: dict[tuple[str, str], str] = {}
        self.taken: set[tuple[str, str]] = set()

    def of(self, kind: str, text: str) -> str:
        if (kind, text) not in self.by_text:
            self.by_text[kind, text] = self.free(kind, text)
        return self.by_text[kind, text]

    def free(self, kind: str, text: str) -> str:
        """A replacement that no other text has; any, if there is none that is free."""
        for number in range(len(LETTERS) ** min(len(text), 2) * 16):
            found = letters(f'{kind} {number} {text}', len(text))
            if (kind, found) not in self.taken:
                break
        self.taken.add((kind, found))
        return found

    def line(self, line: str) -> str:
        """A line of a schedule with its key, value or text replaced."""
        match = REQUEST.fullmatch(line)
        if not match:
            return line
        front, kind, rest = match.groups()
        if kind == 'log':
            return f'{front}log {self.of("text", rest)}'
        key, space, value = rest.partition(' ')
        return f'{front}{kind} {self.of("key", key)}{space}{self.of("value", value)}'


def letters(seed: str, count: int) -> str:
    """This many letters that a text determines."""
    drawn = b''
    while len(drawn) < count:
        drawn += hashlib.sha256(f'{seed} {len(drawn)}'.encode()).digest()
    return ''.join(LETTERS[octet % len(LETTERS)] for octet in drawn[:count])


def redacted(lines: list[str]) -> list[str]:
    """The lines of a schedule with every key, value and text replaced."""
    redaction = Redaction()
    return [redaction.line(line) for line in lines]
