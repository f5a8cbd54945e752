"""The file that describes a quorum, which clients and tools read.

It is an INI file with one section, `quorum`:

    [quorum]
    name = lab
    rule = classic
    addresses = 10.0.0.1:4000, 10.0.0.2:4000, 10.0.0.3:4000
    folder = /var/lib/cephmon/{rank}
    program = /usr/local/lib/cephmon/cephmon
    record = /var/lib/cephmon/{rank}/record

or a JSON object with the same names, in which `addresses` may be a list. `name` is the quorum's: monitors of quorums with different names don't
hear each other, whatever their addresses. `addresses` are those of all monitors in order of rank. `rule` is `classic` if it isn't given. `folder` holds
the files `a` and `b` of a monitor's store. If `record` is given, a monitor records there what it is given. `{rank}` in both is replaced by the monitor's rank.
If there is no `{rank}`, the monitors must be on different machines. `folder`, `program` and `record` are for the tools that start a monitor or read its store.
"""
from __future__ import annotations

import configparser
import json
import os
import re
import socket
from typing import Any, NamedTuple

from cephmon.wire import MOST_MONITORS, MOST_QUORUM_NAME

# The longest argument of the program, in bytes.
MOST_ARGUMENT = 4_096
# The file that is taken if none is named: that of an installed quorum, unless this variable of the environment names another one.
CONFIG, INSTALLED = 'CEPHMON_CONFIG', '/etc/cephmon/quorum.ini'
NAMES = ['addresses', 'name', 'rule', 'folder', 'program', 'record']
# The environment variable from which the program takes the name of its quorum. Without it the name is empty.
VARIABLE = 'CEPHMON_QUORUM'
# The one from which it takes the name of its record. Without it nothing is recorded.
RECORD = 'CEPHMON_RECORD'
RULE = re.compile(r'(classic|connectivity)|(disallow|connectivity)=(.*)')


class Faulty(Exception):
    """What is wrong with the file, each fault a sentence in `faults`."""

    def __init__(self, faults: list[str]):
        self.faults = faults
        super().__init__('; '.join(faults))


class QuorumFile(NamedTuple):
    """What the file says, with the numeric addresses of all monitors in order of rank."""
    addresses: list[tuple[str, int]]
    name: str | None
    rule: str
    folder: str | None
    program: str | None
    record: str | None

    def listed(self) -> str:
        """The addresses as the program takes them."""
        return ','.join(f'{host}:{port}' for host, port in self.addresses)


def default() -> str:
    """The file that is taken if none is named."""
    return os.environ.get(CONFIG) or INSTALLED


def fields_of(path: str) -> dict[str, Any]:
    """The fields of the file, not yet checked."""
    try:
        with open(path, encoding='utf-8') as file:
            text = file.read()
    except OSError as why:
        raise Faulty([f'it cannot be read: {why.strerror}']) from None
    except UnicodeDecodeError:
        raise Faulty(['it is not UTF-8']) from None
    if text.lstrip().startswith('{'):
        try:
            found: dict[str, Any] = json.loads(text)
        except ValueError as why:
            raise Faulty([f'it is no JSON: {why}']) from None
    else:
        parser = configparser.ConfigParser(interpolation=None)
        try:
            parser.read_string(text)
        except configparser.MissingSectionHeaderError as why:
            raise Faulty([f'line {why.lineno} is before any section, and the file must begin with [quorum]']) from None
        except configparser.Error as why:
            raise Faulty([f'it is no INI file: {" ".join(why.message.split())}']) from None
        if parser.sections() != ['quorum']:
            raise Faulty([f'it must have one section, [quorum], and has {parser.sections() or "none"}'])
        found = dict(parser['quorum'])
    return found


def fault_of_name(name: str) -> str | None:
    """What is wrong with the name of a quorum, if anything is."""
    if len(name.encode('utf-8', 'surrogatepass')) > MOST_QUORUM_NAME:
        return f'name: it has more than {MOST_QUORUM_NAME} bytes'
    if not name.isprintable() or name != name.strip():
        return 'name: it has characters that are not printed, or begins or ends with a space'
    return None


def fault_of_rule(rule: str, monitors: int) -> str | None:
    """What is wrong with a rule for this many monitors, if anything is."""
    match = RULE.fullmatch(rule)
    if not match:
        return f"rule: '{rule}' is none of classic, disallow=RANKS, connectivity and connectivity=RANKS"
    if match[1]:
        return None
    ranks = match[3].split(',')
    if not all(re.fullmatch('0|[1-9][0-9]?', rank) for rank in ranks):
        return f"rule: '{match[3]}' is no list of ranks joined by commas, such as 0,2"
    numbers = [int(rank) for rank in ranks]
    if any(number >= monitors for number in numbers):
        return f'rule: it names rank {max(numbers)}, and the ranks are 0 to {monitors - 1}'
    if any(one >= other for one, other in zip(numbers, numbers[1:])):
        return f"rule: the ranks '{match[3]}' must be ascending"
    if len(numbers) == monitors:
        return f"rule: it names all {monitors} ranks, so no monitor may lead"
    return None


def resolved(rank: int, address: str, faults: list[str]) -> tuple[str, int]:
    """The numeric address of a monitor. What is wrong is added to the faults."""
    host, _, port = address.rpartition(':')
    if not host or not re.fullmatch('[1-9][0-9]{0,4}', port) or int(port) > 65_535:
        faults.append(f"addresses: monitor {rank} has '{address}', which is no HOST:PORT with a port from 1 to 65535")
        return '', 0
    if ':' in host:
        faults.append(f"addresses: monitor {rank} has '{address}', and monitors have IPv4 addresses alone")
        return '', 0
    try:
        number = socket.gethostbyname(host)
    except (OSError, UnicodeError) as why:
        faults.append(f"addresses: monitor {rank} has the host '{host}', which cannot be resolved: {getattr(why, 'strerror', None) or why}")
        return '', 0
    if number in ('0.0.0.0', '255.255.255.255') or 224 <= int(number.split('.')[0]) <= 239:
        faults.append(f'addresses: monitor {rank} has {number}, which is the address of no single machine')
    return number, int(port)


def addresses_in(found: Any, faults: list[str]) -> list[tuple[str, int]]:
    """The numeric addresses in this field. What is wrong is added to the faults."""
    words = found.split(',') if isinstance(found, str) else found
    if not isinstance(words, list) or not all(isinstance(word, str) for word in words):
        faults.append('addresses: it must be a text or a list of texts')
        return []
    words = [word.strip() for word in words]
    if not 1 <= len(words) <= MOST_MONITORS:
        faults.append(f'addresses: there are {len(words)}, and a quorum has 1 to {MOST_MONITORS} monitors')
        return []
    addresses = [resolved(rank, word, faults) for rank, word in enumerate(words)]
    for rank, address in enumerate(addresses):
        if address[1] and address in addresses[:rank]:
            faults.append(f'addresses: monitors {addresses.index(address)} and {rank} have the same, {address[0]}:{address[1]}')
    return addresses


def read(path: str) -> QuorumFile:
    """Reads a file. Raises Faulty, with all that is wrong with it."""
    found = fields_of(path)
    faults = [f'{name}: there is no such name; the names are {", ".join(NAMES)}' for name in found if name not in NAMES]
    for name in NAMES[1:]:
        if name in found and not (isinstance(found[name], str) and found[name]):
            faults.append(f'{name}: it must be a text that is not empty')
    if 'addresses' not in found:
        raise Faulty([*faults, 'addresses: they are missing'])
    addresses = addresses_in(found['addresses'], faults)
    quorum, rule = found.get('name'), found.get('rule', 'classic')
    if isinstance(quorum, str) and quorum:
        faults += [fault for fault in [fault_of_name(quorum)] if fault]
    if addresses and isinstance(rule, str) and rule:
        faults += [fault for fault in [fault_of_rule(rule, len(addresses))] if fault]
    if faults:
        raise Faulty(faults)
    return QuorumFile(addresses, quorum, rule, *(found.get(name) for name in ('folder', 'program', 'record')))
