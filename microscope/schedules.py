"""The form of a schedule, as docs/FORMATS.md specifies it: which field of a line is at fault, and what may stand there.

It shares no code with the program. checks/microscope compares its verdicts with those of a second implementation.
"""
from __future__ import annotations

import re
from typing import Callable, Iterator, NamedTuple

MOST_SCHEDULE, MOST_EVENTS = 16_777_216, 200_000
MOST_NUMBER, MOST_MESSAGE_NUMBER, MOST_CLIENT, MOST_MONITORS = 2**62, 2**64 - 1, 2**32 - 1, 15
# The kinds of timers, in the order in which the definitions list them.
TIMERS = 'probe election collect accept renew leaseack lease sync step propose ping'.split()
RULES = 'classic', 'disallow', 'connectivity'
SERVICES = 'kv', 'log'
# The start of a line that delivers a message, up to its number, and the rest of the line.
DELIVERY = re.compile(r'((?:(?:crash|fail) [ab] \d+ \d )?deliver )(\d+)( \d+)')


class Fault(NamedTuple):
    """A fault of a schedule: its line, from 1; its kind; the places in the line at which it begins and ends; the field's name, if one is at fault; and what
    may stand there."""
    line: int
    kind: str
    start: int
    end: int
    field: str | None
    allowed: str


class Field(NamedTuple):
    """A field: its name, what may stand there, and the kind of fault that a text of it has, if any."""
    name: str
    allowed: str
    kind_of: Callable[[str], str | None]


def is_decimal(text: str) -> bool:
    return re.fullmatch(r'0|[1-9][0-9]*', text) is not None


def is_within(text: str, least: int, most: int) -> bool:
    """Whether a decimal number is within these bounds. A number of more than 20 digits is above all bounds, so it isn't converted."""
    return len(text) <= 20 and least <= int(text) <= most


def number(name: str, what: str, least: int, most: int) -> Field:
    def kind_of(text):
        return None if is_decimal(text) and is_within(text, least, most) else 'Number'
    return Field(name, f'{what}, a decimal number from {least} to {most} without a leading zero', kind_of)


def word(name: str, *words: str) -> Field:
    return Field(name, 'one of ' + ', '.join(words) if len(words) > 1 else words[0], lambda text: None if text in words else 'Word')


def rank(monitors: int) -> Field:
    def kind_of(text):
        return 'Number' if not is_decimal(text) else None if is_within(text, 0, monitors - 1) else 'Rank'
    return Field('R', 'the rank of a monitor, ' + (f'0 to {monitors - 1}' if monitors > 1 else '0'), kind_of)


TIME = number('T', 'a time in milliseconds', 0, MOST_NUMBER)
SERVICE = word('SERVICE', *SERVICES)
KEY = Field('KEY', 'a key, of 1 to 255 bytes without a space', lambda text: None if 1 <= len(text) <= 255 else 'Word')
# The rest of a line, which may be empty.
REST = 'VALUE', 'TEXT'
VALUE, TEXT = (Field(name, 'a space, and then the rest of the line, which may be empty', lambda _: None) for name in REST)
COMMANDS = {'set': [KEY, VALUE], 'remove': [KEY], 'log': [TEXT], 'show': [SERVICE], 'since': [SERVICE, number('V', 'a version', 0, MOST_NUMBER)]}
PLAIN = 'start', 'deliver', 'timer', 'client'
# The number of images: of what a disk may keep of a write after a crash.
IMAGES = 4
UPSET = [word('DISK', 'a', 'b'), number('CALL', 'the number of a write or sync', 1, 1_000), number('IMAGE', 'what is kept of a write', 0, IMAGES - 1)]


def fields_after(first: str, monitors: int) -> list[Field]:
    """The fields after the first word of an event, up to the next word that decides what follows."""
    return {
        'start': [rank(monitors), TIME],
        'deliver': [number('K', 'the number of a sent message', 1, MOST_MESSAGE_NUMBER), TIME],
        'timer': [rank(monitors), word('KIND', *TIMERS), TIME],
        'client': [rank(monitors), TIME, number('C', 'the number of a client', 0, MOST_CLIENT), number('ID', 'the ID of a request', 0, MOST_NUMBER),
                   word('COMMAND', *COMMANDS)],
        'crash': [*UPSET, word('EVENT', *PLAIN)],
        'fail': [*UPSET, word('EVENT', *PLAIN)],
        **COMMANDS,
    }[first]


def fault_of_event(at_line: int, line: str, monitors: int) -> Fault | None:
    """The first fault of an event's line."""
    for at, letter in enumerate(line):
        if not ' ' <= letter <= '~':
            return Fault(at_line, 'Word', at, at + 1, None, 'bytes from 0x20 (space) to 0x7E (~)')
    due, at, last = [word('EVENT', *PLAIN, 'crash', 'fail')], 0, None
    while due:
        field = due.pop(0)
        if at > len(line):
            return Fault(at_line, 'Word', len(line), len(line) + 1, field.name, field.allowed)
        end = len(line) if field.name in REST or ' ' not in line[at:] else line.index(' ', at)
        if kind := ('Word' if end == at and field.name not in REST else field.kind_of(line[at:end])):
            return Fault(at_line, kind, at, max(end, at + 1), field.name, field.allowed)
        last, at = line[at:end], end + 1
        if field.name in ('EVENT', 'COMMAND'):
            due += fields_after(last, monitors)
    return None if at > len(line) else Fault(at_line, 'Word', at - 1, len(line), None, 'nothing more: the line ends here')


def fault_of_header(line: str) -> Fault | None:
    """The fault of the first line, whose kind is always the same."""
    def fault(start, end, field, allowed):
        return Fault(1, 'Header', start, max(end, start + 1), field, allowed)

    words = line.split(' ')
    if words[0] != 'monitors':
        return fault(0, len(words[0]), None, 'monitors N RULE')
    at = len('monitors ')
    count = words[1] if len(words) > 1 else ''
    if not (is_decimal(count) and is_within(count, 1, MOST_MONITORS)):
        return fault(at, at + len(count), 'N', 'the number of monitors, 1 to 15, without a leading zero')
    at += len(count) + 1
    name, sign, ranks = ' '.join(words[2:]).partition('=')
    allowed = f'classic, disallow=R,.., connectivity or connectivity=R,.., with ranks below {count} in ascending order, joined by commas'
    if name not in RULES or bool(sign) and name == 'classic' or not sign and name == 'disallow':
        return fault(at, len(line), 'RULE', allowed)
    found = ranks.split(',') if sign else []
    known = [int(text) for text in found if is_decimal(text) and is_within(text, 0, int(count) - 1)]
    return None if len(known) == len(found) and known == sorted(set(known)) else fault(at, len(line), 'RULE', allowed)


def allows_nobody(header: str) -> bool:
    """Whether the rule of a first line without a fault lets no monitor lead."""
    _, monitors, rule = header.split(' ')
    return '=' in rule and len(rule.partition('=')[2].split(',')) == int(monitors)


def faults_of(octets: bytes) -> Iterator[Fault]:
    """The faults of a schedule, at most one per line. The program refuses the schedule at the first one."""
    if len(octets) > MOST_SCHEDULE:
        yield Fault(0, 'TooLong', 0, 0, None, f'at most {MOST_SCHEDULE} bytes')
        return
    *lines, rest = octets.decode('latin-1').split('\n')
    no_end = Fault(len(lines) + 1, 'End', len(rest), len(rest) + 1, None, 'a line feed at the end of the last line')
    if not lines:
        yield no_end if rest else fault_of_header(rest)
        return
    if fault := fault_of_header(lines[0]):
        yield fault
        return
    monitors = int(lines[0].split(' ')[1])
    for at, line in enumerate(lines[1:MOST_EVENTS + 1], 2):
        if fault := fault_of_event(at, line, monitors):
            yield fault
    if len(lines) > MOST_EVENTS + 1:
        yield Fault(MOST_EVENTS + 2, 'TooMany', 0, 1, None, f'at most {MOST_EVENTS} events')
    elif rest:
        yield no_end
