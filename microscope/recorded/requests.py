"""The words of requests in a schedule, of their bytes."""
from __future__ import annotations

from fields import Fields, changes_of

HEADER = 12
REQUESTS = {1: 'set', 2: 'remove', 3: 'log', 4: 'show', 5: 'since'}
SERVICES = {1: 'kv', 2: 'log'}


class Unwritable(Exception):
    """A request that no line of a schedule has."""


def command_in(fields: Fields) -> str:
    """The words of a command. Raises Unwritable if its value or text isn't printable ASCII."""
    kind = REQUESTS[fields.unsigned(1)]
    if kind in ('show', 'since'):
        service = SERVICES[fields.unsigned(1)]
        return f'{kind} {service}' + (f' {fields.unsigned(8)}' if kind == 'since' else '')
    parts = [fields.word(255)] if kind != 'log' else []
    parts += [fields.counted()] if kind != 'remove' else []
    if any(not 0x20 <= octet <= 0x7e for part in parts for octet in part):
        raise Unwritable(f'a {kind} with a value or text that isn\'t printable ASCII')
    return ' '.join([kind, *(part.decode('ascii') for part in parts)])


def command_words(octets: bytes) -> tuple[int, str]:
    """The number of a request, or of a forwarded command, and its words."""
    fields = Fields(octets, HEADER)
    return fields.unsigned(8), command_in(fields)


def begun_words(octets: bytes, rank: int) -> tuple[int, str] | None:
    """The version that a BEGIN is for, and the words of the command whose value it has; None if that is none, or a text that another monitor was asked."""
    fields = Fields(octets, HEADER + 8)
    version, changes = fields.unsigned(8), changes_of(fields.counted())
    for kind, prefix, *more in changes:
        if kind == 'Put' and more[0].isdigit() and prefix == b'kv':
            return version, command_in(Fields(more[1]))
        if kind == 'Put' and more[0].isdigit() and prefix == b'logm' and more[1][0] == rank:
            return version, command_in(Fields(b'\3' + more[1][1:]))
    return None


def request_words(octets: bytes) -> str:
    """The words of a client's request, beginning with its ID."""
    number, words = command_words(octets)
    return f'{number} {words}'
