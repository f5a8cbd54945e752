"""The tokens of a file of definitions."""
from __future__ import annotations

import re
from typing import List, NamedTuple

from .nodes import Fault

SPACE = r'[ \t]*(?:--[^\n]*)?'
# A token, or the end of a line, with the spaces and the comment before it.
TOKEN = re.compile(SPACE + r'''(?:
    (?P<end>\n) |
    (?P<text>"[^"\n]*") |
    (?P<number>[0-9]+(?![A-Za-z_])) |
    (?P<name>[A-Za-z_ℕ◌⊥«»][A-Za-z0-9_'◌»]*(?:-[A-Za-z][A-Za-z0-9_']*)*) |
    (?P<sign>>>=|&&|\|\||==|\+\+|[▸∷+\-*/%^≡≢≤<×⊎↔→←↦=λ.(){}\[\];,|:¬⊗?])
)''', re.VERBOSE)


class Token(NamedTuple):
    """A token: its kind (name, number, text, sign or end), its text, its line and column, whether it is the first of its line, and the places in the text
    at which it begins and ends."""
    kind: str
    text: str
    line: int
    column: int
    is_first: bool
    start: int
    stop: int


def tokens_of(source: str, file: str) -> List[Token]:
    """The tokens of a text, without spaces and comments. Raises Fault at a character that begins none."""
    found: List[Token] = []
    at, line, begin, is_first = 0, 1, 0, True
    for token in TOKEN.finditer(source + '\n'):
        if token.start() != at:
            break
        kind, at = token.lastgroup or '', token.end()
        if kind == 'end':
            line, begin, is_first = line + 1, at, True
        else:
            start = token.start(kind)
            found.append(Token(kind, token[kind], line, start - begin, is_first, start, at))
            is_first = False
    if at <= len(source):
        rest = re.sub(SPACE, '', source[at:], count=1)
        raise Fault(file, line, f'{rest[:20]!r} begins no token')
    return found
