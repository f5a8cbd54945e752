"""The bytes that a client of monitors sends and receives: requests, replies and hellos, as docs/FORMATS.md specifies them. Also the frame of datagrams
between monitors, for tools that see those.

Nothing here sends or receives. A function that encodes raises ValueError for what has no encoding; a function that reads bytes raises Malformed.
"""
from __future__ import annotations

import hashlib
import secrets
import socket
import struct
from typing import Any, Callable, NamedTuple

MOST_DATAGRAM, PIECE, PIECE_HEADER = 60_000, 59_000, 28
MOST_MESSAGE = 1_048_576
MOST_NUMBER = 2**62
REQUEST, REPLY = 24, 25
SET, REMOVE, LOG, SHOW, SINCE = range(1, 6)
# The requests that change a map.
CHANGES = SET, REMOVE, LOG
SERVICES = {'kv': 1, 'log': 2}
# The most incomplete messages that are kept.
MOST_PARTIAL = 16
# The first bytes of a framed datagram, of a hello and of the answer to one; the bytes of a frame; and the most bytes of a quorum's name and of a program's version.
FRAME, HELLO, HELLO_ANSWER = 3, 4, 6
FRAME_HEADER = 9
MOST_QUORUM_NAME, MOST_VERSION, MOST_MONITORS = 255, 32, 15
LENGTH = struct.Struct('<I')
RULES = ['classic', 'disallow', 'connectivity']
RULES_BY_CODE = dict(enumerate(RULES))


class Malformed(Exception):
    """The bytes aren't of their form."""


class Reader:
    """Reads fields from bytes, one after the other. The checks have a reader of their own, bench/fields.py."""

    def __init__(self, octets: bytes):
        self.octets, self.at = octets, 0

    def take(self, count: int) -> bytes:
        if len(self.octets) - self.at < count:
            raise Malformed(f'cut at {self.at}')
        self.at += count
        return self.octets[self.at - count:self.at]

    def unsigned(self, size: int) -> int:
        return int.from_bytes(self.take(size), 'little')

    def number(self) -> int:
        found = self.unsigned(8)
        if found > MOST_NUMBER:
            raise Malformed(f'a number above 2^62 before {self.at}')
        return found

    def choice(self, choices: Any) -> Any:
        """The next byte, decoded by a table of choices."""
        code = self.unsigned(1)
        if code not in choices:
            raise Malformed(f'a byte {code} before {self.at}')
        return choices[code]

    def key(self) -> str:
        return self.decoded(self.take(self.unsigned(1)), 'ascii')

    def text(self) -> str:
        return self.decoded(self.counted(), 'utf-8')

    def counted(self) -> bytes:
        return self.take(self.unsigned(4))

    def decoded(self, octets: bytes, how: str) -> str:
        try:
            return octets.decode(how)
        except UnicodeDecodeError:
            raise Malformed(f'no {how} before {self.at}') from None

    def end(self) -> None:
        if self.at < len(self.octets):
            raise Malformed(f'more after {self.at}')


def encoded(text: str | bytes) -> bytes:
    """The UTF-8 bytes of a text, which may also be given as bytes."""
    try:
        octets = text.encode('utf-8') if isinstance(text, str) else bytes(text)
        octets.decode('utf-8')
    except UnicodeError:
        raise ValueError('keys, values and texts have to be UTF-8') from None
    return octets


def key_field(key: str | bytes) -> bytes:
    octets = encoded(key)
    if not 1 <= len(octets) <= 255 or any(not 0x21 <= octet <= 0x7e for octet in octets):
        raise ValueError('a key has 1 to 255 printable ASCII characters, and no blank')
    return bytes([len(octets)]) + octets


def text_field(text: str | bytes) -> bytes:
    octets = encoded(text)
    return struct.pack('<I', len(octets)) + octets


def number_field(number: int) -> bytes:
    if not 0 <= number <= MOST_NUMBER:
        raise ValueError('a number is 0 to 2^62')
    return struct.pack('<Q', number)


def service_field(service: str) -> bytes:
    if service not in SERVICES:
        raise ValueError('a service is kv or log')
    return bytes([SERVICES[service]])


def new_number() -> int:
    """A random number for a request or a long message. Nobody can guess it, so only who sees the request can forge a reply to it."""
    return secrets.randbelow(MOST_NUMBER)


def request_message(monitors: int, number: int, request: bytes) -> bytes:
    return struct.pack('<4BQ', 1, REQUEST, 0, monitors, 0) + number_field(number) + request


def datagrams(message: bytes, boot: int, seq: int) -> list[bytes]:
    """The datagrams of a message: the message itself, or its pieces. The pair of `boot` and `seq` must differ for each long message of the sender."""
    if len(message) <= MOST_DATAGRAM:
        return [message]
    head = b'\2\0\0\0' + number_field(boot) + number_field(seq) + struct.pack('<I', len(message))
    return [head + struct.pack('<I', place) + message[place:place + PIECE] for place in range(0, len(message), PIECE)]


def rule_field(rule: str) -> bytes:
    """A rule, encoded: a byte for its kind, and except for `classic` two bytes in which bit r is set if rank r never leads."""
    kind, _, ranks = rule.partition('=')
    if kind not in RULES:
        raise ValueError(f'a rule is {", ".join(RULES)}')
    never = sum(1 << int(rank) for rank in ranks.split(',') if rank)
    return bytes([RULES.index(kind)]) + (b'' if kind == 'classic' else struct.pack('<H', never))


def quorum_field(name: str, monitors: int, rule: str) -> bytes:
    """The bytes that identify a quorum: its name, its number of monitors, and its rule."""
    octets = encoded(name)
    if len(octets) > MOST_QUORUM_NAME:
        raise ValueError(f'the name of a quorum has at most {MOST_QUORUM_NAME} bytes')
    return bytes([len(octets)]) + octets + bytes([monitors]) + rule_field(rule)


def tag_of(name: str, monitors: int, rule: str) -> bytes:
    """The tag in the frame of this quorum's datagrams."""
    return hashlib.sha256(quorum_field(name, monitors, rule)).digest()[:FRAME_HEADER - 1]


def framed(datagram: bytes, tag: bytes | None) -> bytes:
    """A datagram as one monitor sends it to another: in a frame with this tag, or without a frame if the tag is None."""
    return datagram if tag is None else bytes([FRAME]) + tag + datagram


def unframed(datagram: bytes) -> tuple[bytes | None, bytes]:
    """The tag and the content of a framed datagram between monitors; None and the datagram itself if it has no frame."""
    if datagram[:1] != bytes([FRAME]) or len(datagram) < FRAME_HEADER:
        return None, datagram
    return datagram[1:FRAME_HEADER], datagram[FRAME_HEADER:]


class Hello(NamedTuple):
    """What a monitor says of itself: the version of its program, its quorum, its rank, and the addresses that it has for all monitors."""
    version: str
    name: str
    monitors: int
    rule: str
    rank: int
    addresses: list[tuple[str, int]]

    def encode(self, mark: int = HELLO) -> bytes:
        version = encoded(self.version)
        head = bytes([mark, len(version)]) + version + quorum_field(self.name, self.monitors, self.rule) + bytes([self.rank])
        return head + b''.join(socket.inet_aton(host) + struct.pack('<H', port) for host, port in self.addresses)


def greeting(addresses: list[tuple[str, int]]) -> bytes:
    """The hello with which a client asks a monitor for its own. The monitor ignores what this one says of a quorum."""
    return Hello('client', '', len(addresses), 'classic', 0, addresses).encode()


def rule_of(reader: Reader) -> str:
    kind = reader.choice(RULES_BY_CODE)
    if kind == 'classic':
        return str(kind)
    never = reader.unsigned(2)
    if never >> MOST_MONITORS:
        raise Malformed(f'a rank above {MOST_MONITORS - 1} before {reader.at}')
    ranks = ','.join(str(rank) for rank in range(MOST_MONITORS) if never >> rank & 1)
    return f'{kind}={ranks}' if ranks else str(kind)


def is_hello(datagram: bytes) -> bool:
    """Whether a datagram begins as a hello or the answer to one does."""
    return datagram[:1] in (bytes([HELLO]), bytes([HELLO_ANSWER]))


def hello_of(datagram: bytes) -> Hello:
    """The hello that is this datagram, which may be an answer. Raises Malformed if it is none."""
    reader = Reader(datagram)
    if not is_hello(reader.take(1)):
        raise Malformed('no hello')
    version, octets = reader.key(), reader.take(reader.unsigned(1))
    name = reader.decoded(octets, 'utf-8')
    monitors, rule, rank = reader.unsigned(1), rule_of(reader), reader.unsigned(1)
    if not 1 <= len(version) <= MOST_VERSION or not all('!' <= letter <= '~' for letter in version) or not rank < monitors <= MOST_MONITORS:
        raise Malformed(f'{version!r}, {rank} of {monitors}')
    if len(octets) > MOST_QUORUM_NAME:
        raise Malformed(f'a name of {len(octets)} bytes')
    addresses = [(socket.inet_ntoa(reader.take(4)), reader.unsigned(2)) for _ in range(monitors)]
    reader.end()
    return Hello(version, name, monitors, rule, rank, addresses)


class Assembly:
    """Joins the pieces of messages. They may arrive in any order, and some may never arrive."""

    def __init__(self) -> None:
        self.partial: dict[Any, dict[int, bytes]] = {}

    def take(self, peer: Any, datagram: bytes) -> bytes | None:
        """The message that this datagram completes, if it completes one."""
        if datagram[:1] != b'\2':
            return datagram
        if not PIECE_HEADER < len(datagram) <= MOST_DATAGRAM:
            return None
        mark, boot, seq, total, place = struct.unpack_from('<IQQII', datagram)
        piece = datagram[PIECE_HEADER:]
        if mark != 2 or not MOST_DATAGRAM < total <= MOST_MESSAGE or place % PIECE or len(piece) != min(PIECE, total - place):
            return None
        name = peer, boot, seq, total
        pieces = self.partial.setdefault(name, {})
        pieces[place] = piece
        if sum(map(len, pieces.values())) == total:
            del self.partial[name]
            return b''.join(pieces[place] for place in sorted(pieces))
        if len(self.partial) > MOST_PARTIAL:
            del self.partial[next(iter(self.partial))]
        return None


def log_entry(reader: Reader) -> list[Any]:
    """An entry of the cluster log: the rank of the monitor that was asked, and the text."""
    return [reader.unsigned(1), reader.text()]


def keys_of(octets: bytes) -> dict[str, str]:
    """The map of `kv` from its bytes. A long map has thousands of fields, so they are read here and not by a Reader, which takes three times as long."""
    found, at = {}, 4
    try:
        for _ in range(int.from_bytes(octets[:at], 'little')):
            key = at + 1 + octets[at]
            value = key + 4 + LENGTH.unpack_from(octets, key)[0]
            found[octets[at + 1:key].decode('ascii')] = octets[key + 4:value].decode('utf-8')
            at = value
    except (IndexError, struct.error):
        raise Malformed(f'cut after {at}') from None
    except UnicodeDecodeError:
        raise Malformed(f'no text after {at}') from None
    if at != len(octets):
        raise Malformed(f'{len(octets)} bytes, and not {at}')
    return found


def map_of(service: str, octets: bytes) -> dict[str, str] | list[Any]:
    """A map from its bytes: of `kv` a dictionary, of `log` the list of its entries, the oldest first."""
    if service == 'kv':
        return keys_of(octets)
    reader = Reader(octets)
    found = [log_entry(reader) for _ in range(reader.unsigned(4))]
    reader.end()
    return found


def change_of(service: str, octets: bytes) -> dict[str, str] | list[Any]:
    reader = Reader(octets)
    found: dict[str, str] | list[Any]
    if service == 'log':
        found = log_entry(reader)
    elif reader.choice({1: True, 2: False}):
        found = {'set': reader.key(), 'value': reader.text()}
    else:
        found = {'remove': reader.key()}
    reader.end()
    return found


def shown(reader: Reader) -> dict[str, Any]:
    service = reader.choice({code: name for name, code in SERVICES.items()})
    return {'service': service, 'paxos': reader.number(), 'version': reader.number(), 'map': map_of(service, reader.counted())}


def since(reader: Reader) -> dict[str, Any]:
    service = reader.choice({code: name for name, code in SERVICES.items()})
    start, more = reader.number(), reader.choice([False, True])
    changes = [change_of(service, reader.counted()) for _ in range(reader.unsigned(2))]
    return {'service': service, 'from': start, 'to': start + len(changes), 'more': more, 'changes': changes}


def numbers(*names: str) -> Callable[[Reader], dict[str, Any]]:
    """A function that reads as many numbers as there are names, into a dictionary."""
    return lambda reader: {name: reader.number() for name in names}


def not_readable(reader: Reader) -> dict[str, Any]:
    return {'has': reader.number(), 'lease': reader.choice([False, True])}


REPLIES: dict[int, tuple[str, Callable[[Reader], dict[str, Any]]]] = {
    1: ('Done', numbers('version')),
    2: ('Shown', shown),
    3: ('Since', since),
    4: ('NoSuch', numbers()),
    5: ('TooLong', numbers('len', 'most')),
    6: ('MapFull', numbers('would_be')),
    7: ('Unavailable', numbers()),
    8: ('NotReadable', not_readable),
    9: ('Busy', numbers('waiting')),
}


class Reply(NamedTuple):
    """A REPLY: the ID of the request that it answers, the name of its kind, its fields, and the rank and epoch of the monitor."""
    number: int
    kind: str
    fields: dict[str, Any]
    rank: int
    epoch: int

    def version(self) -> int | None:
        """The version of the log of all changes that a map is of or a change has, and None for other replies."""
        return self.fields.get({'Shown': 'paxos', 'Done': 'version'}.get(self.kind, ''))


def reply_of(message: bytes, monitors: int) -> Reply:
    """The REPLY of a monitor of this number of monitors. Raises Malformed if the message is none."""
    reader = Reader(message)
    if reader.take(2) != bytes([1, REPLY]):
        raise Malformed('no REPLY')
    rank, of = reader.unsigned(1), reader.unsigned(1)
    if of != monitors or rank >= of:
        raise Malformed(f'from {rank} of {of}')
    epoch, number = reader.number(), reader.number()
    kind, fields = reader.choice(REPLIES)
    found = fields(reader)
    reader.end()
    return Reply(number, kind, found, rank, epoch)
