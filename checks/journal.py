"""Makes the bytes of a store's two files, as docs/FORMATS.md describes them. It shares no code with the program."""
import struct

import checking  # noqa: F401, adds the folder of the next one
from store import ROOM

NEW = b'CEPHMON2'
# The length of the file of a new store of a single monitor, in bytes.
HEADER = 26
# The bytes of a record beyond its payload: the commit byte and the length.
HEAD = 5


def number(n):
    return struct.pack('<Q', n)


def word(text):
    return bytes([len(text)]) + text


def put(prefix, key, value):
    return b'\1' + word(prefix) + word(key) + struct.pack('<I', len(value)) + value


def erase_prefix(prefix):
    return b'\3' + word(prefix)


def erase_range(prefix, first, end):
    return b'\4' + word(prefix) + number(first) + number(end)


def transaction(*ops, version=1):
    return bytes([version]) + struct.pack('<I', len(ops)) + b''.join(ops)


def checkpoint(*entries):
    """The payload of a checkpoint: the entries of the map, in order of their keys."""
    return b'\x80' + struct.pack('<I', len(entries)) + b''.join(word(prefix) + word(key) + struct.pack('<I', len(value)) + value
                                                               for prefix, key, value in entries)


def record(payload):
    return b'\1' + struct.pack('<I', len(payload)) + payload


def file(*payloads, rank=0, monitors=1, generation=1, mark=NEW):
    """An open file with these records, and a commit byte of 0 after them."""
    return b'\1' + mark + bytes([rank, monitors]) + bytes(6) + number(generation) + b''.join(map(record, payloads)) + b'\0'


def longer(octets):
    """An open file that got longer to hold these bytes: zeros follow them."""
    return octets + bytes(ROOM - len(octets) % ROOM)
