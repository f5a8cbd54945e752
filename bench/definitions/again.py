"""The link that sends again, by its definitions in crates/mon_resend/specs: which datagrams it keeps, and which it sends again.

A `Link` belongs to one monitor. Its datagrams are bytes, as they go between monitors, without the frame of a quorum. Its times are milliseconds. The
definitions read each datagram themselves. `cases` returns the cases of the link's tests, and `wrong_step` plays one.
"""
import os
import re
import sys

sys.path.insert(0, os.path.dirname(os.path.abspath(__file__)))
import loaded
from antt import Made, octets, single
from loaded import fn

WORLD, SENDING = 'mon_resend.specs.World', 'mon_resend.specs.Sending'
NEVER = 2 ** 64 - 1
IDLE = single('Idle')


def part_of(datagram):
    """Which part of its message a datagram is, or None: a constructor Whole, First or Later, the first two with the message's header."""
    return fn('mon_resend.specs.Datagrams', 'part_of')(datagram)


class Link:
    """A monitor's link: the copies that it keeps, and its steps."""

    def __init__(self):
        self.copies, self.run = fn(WORLD, 'fresh'), 0

    def sent(self, now, to, datagram):
        """The monitor sends a datagram to another one. Returns whether it goes on the wire now."""
        goes = fn(WORLD, 'is_sent_now')(to, datagram, now, self.copies)
        self.copies = fn(WORLD, 'sent')(True, to, datagram, now, self.copies)
        return goes

    def arrived(self, now, sender, datagram):
        """A datagram arrives from a monitor. Returns whether it is handed up, and what is sent then, as pairs of a monitor and a datagram."""
        return self.took(now, Made('Datagram', Made('Monitor', sender), datagram))

    def rested(self, now):
        """Nothing arrives. Returns what is sent then."""
        return self.took(now, IDLE)[1]

    def took(self, now, got):
        is_kept = fn(SENDING, 'isnt_handed_up')(got, now, self.copies)
        again = fn(SENDING, 'may_go')(got, self.run)
        after = fn(SENDING, 'with_got')(True, got, now, self.copies)
        going = fn(WORLD, 'all_due_copies')(again, now, after)
        self.copies = fn(WORLD, 'all_passed')(again, now, after)
        self.run = fn(SENDING, 'run_after')(got, self.run)
        return got.name == 'Datagram' and not is_kept, [(out.to.args[0], octets(out.bytes)) for out in going]

    def due(self):
        """The time of the next copy, or None."""
        due = fn(WORLD, 'due_of')(self.copies)
        return None if due == NEVER else due

    def kept(self, rank):
        """The datagrams that are kept for a monitor, each with its note."""
        shelf = fn(WORLD, 'box_of')(rank, self.copies).shelf
        return [(octets(kept.out.bytes), kept.note) for kept in shelf]


# ---- the cases of the tests, in crates/link_tests/src

BYTE = re.compile(r'const (\w+): u8 = (\d+);')
CASE = re.compile(r'const (\w+): &\[Step\] = &\[\n(.*?)^\];', re.M | re.S)
STEP = re.compile(r'\((\w+), (Sends|SendsToAnother|Hears|Rests), (\w+), (\w+), (\w+), (\w+), (true|false)\)')


def cases():
    """The cases of the tests: for each its name and its steps. A step has a time, what is done, a message's kind, epoch and number, how many datagrams are sent
    then, and whether a datagram that arrives is handed up."""
    texts = [open(os.path.join(loaded.ROOT, 'link_tests', 'src', name)).read() for name in ('again.rt', 'again_calls.rt', 'again_copies.rt', 'again_rows.rt')]
    bytes_of = {name: int(byte) for text in texts for name, byte in BYTE.findall(text)}

    def number(word):
        return bytes_of[word] if word in bytes_of else int(word.replace('_', '').replace('u64', '').replace('usize', ''))

    found = {}
    for text in texts:
        for name, steps in CASE.findall(text):
            read = STEP.findall(steps)
            if len(read) != steps.count('\n'):
                raise ValueError(f'{name} has {steps.count(chr(10))} lines, and {len(read)} of them are steps')
            found[name] = [(number(time), does, *map(number, numbers), is_up == 'true') for time, does, *numbers, is_up in read]
    return found


# These aren't kinds of messages: the second and the third piece of a long message.
PIECES, PART, LONG = {101: 1, 102: 2}, 59_000, 118_001


def message(kind, epoch, number):
    """The first bytes of a message of monitor 0 of 3, whose body begins with this number twice; or a piece of a message with this number."""
    if kind in PIECES:
        place = PIECES[kind] * PART
        head = bytes([2, 0, 0, 0]) + number.to_bytes(8, 'little') * 2 + LONG.to_bytes(4, 'little') + place.to_bytes(4, 'little')
        return head + bytes(min(PART, LONG - place))
    return bytes([1, kind, 0, 3]) + b''.join(part.to_bytes(8, 'little') for part in (epoch, number, number))


def wrong_step(steps):
    """The first step of a case at which the definitions differ from it, with the number of datagrams that they send and whether they hand up; or None."""
    link = Link()
    for step in steps:
        time, does, kind, epoch, number, sent, is_up = step
        if does == 'Rests':
            found = len(link.rested(time)), False
        elif does == 'Hears':
            handed_up, going = link.arrived(time, 1, message(kind, epoch, number))
            found = len(going), handed_up
        else:
            found = int(link.sent(time, 2 if does == 'SendsToAnother' else 1, message(kind, epoch, number))), False
        if found != (sent, is_up):
            return step, found
    return None
