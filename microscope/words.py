"""A run in sentences: what happened in an event, and why a row dropped its input, with the row's paragraph of docs/PROTOCOL.md."""
from __future__ import annotations

import functools
import os
import re
from typing import NamedTuple

from played import TOP, Drop, Step

# How the paragraph of each row begins in docs/PROTOCOL.md.
ROWS = {
    'deliver': '- A message from the own rank',
    'take_timer': "- A timer that isn't armed",
    'hear_probe': '**PROBE** from f', 'hear_probe_reply': '**PROBE_REPLY** from f', 'copy_again': '**PROBE_REPLY** from f',
    'hear_propose': '**PROPOSE** from f', 'hear_earlier': '**PROPOSE** from f', 'weigh': '**PROPOSE** from f',
    'hear_ack': '**ACK** from f', 'election_ends': '**`election`**', 'hear_victory': '**VICTORY** from f',
    'hear_collect': '**COLLECT** with a number', 'hear_last': '**LAST** from f',
    'hear_begin': '**BEGIN** with a number', 'hear_accept': '**ACCEPT** from f', 'hear_commit': '**COMMIT** from a version',
    'hear_lease': '**LEASE** with a last', 'hear_lease_ack': '**LEASE_ACK** from f', 'renew': '**`renew`**',
    'hear_forward': '**FORWARD** from f', 'hear_route': '**ROUTE** with a seq', 'propose_due': '**`propose`**',
    'hear_get_cookie_full': '**GET_COOKIE_FULL** and', 'hear_get_cookie_recent': '**GET_COOKIE_FULL** and', 'hear_get_chunk': '**GET_CHUNK** from f',
    'hear_cookie': '**COOKIE** from the provider', 'hear_no_cookie': '**NO_COOKIE** from the provider',
    'hear_chunk': '**CHUNK and LAST_CHUNK**', 'hear_last_chunk': '**CHUNK and LAST_CHUNK**', 'replay_step': '**`step`**',
}
# The points of a row's paragraph that say why the row drops something, if they aren't all of its points.
POINTS = {'hear_propose': (), 'hear_earlier': (1,), 'weigh': (4, 5), 'copy_again': (1,), 'hear_probe_reply': (), 'hear_collect': (), 'hear_last': (2,),
          'hear_get_chunk': (1,), 'hear_chunk': (), 'hear_last_chunk': ()}
# What it means that a part of a test decided: the beginning of that part's text, whether the part holds, and the meaning. It has to be true of each row
# that has a test with this beginning.
TESTS = [
    ('of_leader ', False, "the message isn't from the leader that the monitor follows, or is of another epoch"),
    ('of_member ', False, "the message isn't from a member of its quorum in this epoch, or comes in a phase that doesn't take it"),
    ('votes ', False, 'the monitor neither takes part in an election nor is in a quorum'),
    ('is_even e', True, 'the message is of an even epoch, in which there is no election'),
    ('is_even e', False, 'the message is of an odd epoch, in which nobody wins'),
    ('is_even (epoch_of', False, "the message is of an older epoch, and the monitor isn't in a quorum"),
    ('has (quorum_of', True, 'the message is of an older epoch, and its sender is in the quorum'),
    ('nat_lt e (epoch_of', True, "the message is of an older epoch than the monitor's"),
    ('nat_le e (epoch_of', True, "the message's epoch isn't newer than the monitor's"),
    ('x.state.elector.candidate', False, 'the monitor is no candidate any more: it voted for another one'),
    ('elector.candidate', True, 'the monitor outranks the sender, and is a candidate itself'),
    ('is_some elector.deferred', True, 'the monitor outranks the sender, and voted for another one'),
    ('may_defer ', False, "the monitor voted for one that outranks the sender"),
    ('has q me.member.rank', False, "the monitor isn't in the quorum that the message names"),
    ('has q f', False, "the sender isn't in the quorum that it names"),
    ('is_majority ', False, 'the quorum is no majority'),
    ('pn == (promise_of', False, "the proposal number isn't the one that the monitor promised"),
    ('pn == leader.pn', False, "the proposal number isn't the leader's own"),
    ('nat_lt pn leader.pn', True, "the answer is to an older proposal number than the leader's"),
    ('v == (suc', False, "the value isn't for the next version"),
    ('last == x.readings.last', False, "the message names another last version than the monitor's"),
    ('is_some (pending', True, 'the monitor accepted a value that it has not committed yet'),
    ('nat_lt (suc last) from', True, 'the values begin after the next version: one before is missing'),
    ('nat_lt (slice_index_or clients.taken', False, 'a request of this or a later number was taken before'),
    ('may_propose ', False, "the leader isn't active, or has no valid lease"),
    ('is_armed ', False, "the timer isn't set"),
    ('is_heard ', False, "the message is its own, of another number of monitors, or doesn't fit the rule"),
    ('same_phase x.state.phase phase.Probing', False, 'the monitor is past probing'),
    ('same_phase x.state.phase phase.Electing', False, 'no election is going on here'),
    ('same_phase x.state.phase phase.Active', False, "the leader isn't active"),
    ('same_phase x.state.phase phase.Synchronizing', False, 'the monitor copies nothing'),
    ('w.marked', True, 'the monitor takes a full copy, and has no usable store meanwhile'),
    ('x.readings.marked', True, 'the monitor takes a full copy, and has no usable store meanwhile'),
    ('nat_le 1 last', False, 'the sender has nothing to copy'),
    ('nat_le x.readings.floor last', False, 'the sender is behind what the copy must reach'),
    ('full && (nat_lt last x.readings.floor', True, 'the sender is behind what the copy must reach'),
    ('is_ours', False, "the message isn't the answer that the copy waits for"),
    ('of_provider', False, "the message isn't from the monitor that is copied"),
    ('awaits_cookie', False, 'no cookie is awaited'),
    ('same_flag full', False, 'the cookie is for the other kind of copy, full or recent'),
    ('is_cookie', False, "the message is of another copy"),
]
# Values of a starting monitor that are left out.
PLAIN = '-', '0', '{}', '[]', 'no', 'off'
SEND = re.compile(r'  send (\d+) (\d+)>(\d+) (\S+) e=(\d+) ?(.*)')
UPSET = re.compile(r'(crash|fail) ([ab]) (\d+) (\d) (.*)')
IMAGES = ['nothing', 'all', 'the first half', 'other bytes']


class Sent(NamedTuple):
    """A message: its number, who sent it to whom, its kind, epoch and other fields, and the event and time at which it was sent."""
    number: int
    sender: int
    receiver: int
    kind: str
    epoch: int
    fields: str
    event: int
    time: int


def time_of(line: str) -> int:
    """The time of a schedule's line."""
    words = line.split(' ')
    words = words[4:] if words[0] in ('crash', 'fail') else words
    return int(words[3 if words[0] == 'timer' else 2])


def sends_of(step: Step) -> list[Sent]:
    time = time_of(step.lines[0].split(' ', 1)[1])
    return [Sent(int(it[1]), int(it[2]), int(it[3]), it[4], int(it[5]), it[6], step.number, time) for it in map(SEND.fullmatch, step.lines) if it]


def meaning_of(test: str, holds: bool) -> str | None:
    """What it means that this part of a test holds, or fails."""
    return next((words for begin, it_holds, words in TESTS if test.lstrip('(').startswith(begin) and it_holds is holds), None)


def why(drop: Drop) -> str:
    """A sentence on why a row dropped its input."""
    return meaning_of(drop.test, drop.holds) or f'{drop.test} {"holds" if drop.holds else "fails"}'


@functools.lru_cache(maxsize=None)
def paragraph_of(row: str) -> tuple[str, str]:
    """The section of docs/PROTOCOL.md that a row is in, and the row's paragraph, with the points of its list on which it drops something."""
    begin, section = ROWS[row], ''
    with open(os.path.join(TOP, 'docs', 'PROTOCOL.md'), encoding='utf-8') as file:
        blocks = re.split(r'\n\n|\n(?=- |\d+\. )', file.read())
    for at, block in enumerate(blocks):
        if block.startswith('## '):
            section = block[3:]
        if block.startswith(begin):
            points = []
            for more in blocks[at + 1:]:
                if not re.match(r'- |\d+\. ', more) or begin.startswith('- '):
                    break
                points.append(more)
            chosen = POINTS.get(row)
            points = [more for at, more in enumerate(points, 1) if (re.search(r'[Dd]rop', more) if chosen is None else at in chosen)]
            return section, ' '.join(' '.join([block, *points]).split()).replace('*', '').replace('`', '')
    raise LookupError(f'docs/PROTOCOL.md has no paragraph that begins with {begin}')


def changes_of(step: Step) -> list[str]:
    """What an event changed, one line per part. All that a starting monitor begins with is one line, and so is all that a crashed one forgets."""
    began = {rank for rank, part, _, after in step.changes if (part, after) == ('up', 'yes')}
    ended = {rank for rank, part, _, after in step.changes if (part, after) == ('up', 'no')}
    lines = []
    for rank in sorted(began):
        values = [f'{part} {after}' for of, part, before, after in step.changes
                  if of == rank and before == '-' and part != 'up' and not part.startswith('store ') and not is_plain(after)]
        lines.append(f'monitor {rank} begins with: {", ".join(values)}')
    lines += [f'monitor {rank} forgets all but its store' for rank in sorted(ended)]
    for rank, part, before, after in step.changes:
        if not (rank in began | ended and (part == 'up' or not part.startswith('store '))):
            lines.append(f'monitor {rank}: {part}: {before} -> {after}')
    return lines


def is_plain(value: str) -> bool:
    """Whether a first value is left out: it is one of PLAIN, or a list of such values."""
    return value in PLAIN or value.startswith('[') and all(part in PLAIN for part in value[1:-1].split(', '))


class Story:
    """What was sent and delivered so far, from which each event gets its sentence."""

    def __init__(self):
        self.sent: dict[int, Sent] = {}
        self.got: dict[int, list[int]] = {}

    def take(self, step: Step) -> str:
        """The sentence of the next event."""
        said = self.said(step)
        words = step.lines[0].split(' ', 1)[1]
        words = UPSET.sub(r'\5', words).split(' ')
        if words[0] == 'deliver' and int(words[1]) in self.sent:
            self.got.setdefault(int(words[1]), []).append(step.number)
        self.sent.update((it.number, it) for it in sends_of(step))
        return said

    def said(self, step: Step) -> str:
        line = step.lines[0].split(' ', 1)[1]
        upset = UPSET.fullmatch(line)
        if not upset:
            return self.plain(line.split(' '), line) + (', and is down: it is lost' if step.lines[1:] == ['  down'] else '')
        words = upset[5].split(' ')
        kept = [it.split()[1] for it in step.lines[1:] if it.startswith(('  crashed', '  failed'))]
        if words[0] == 'timer' and upset[1] == 'crash' and kept and (int(words[1]), 'up', 'yes', 'no') in step.changes and 'store' not in str(step.changes):
            return f'monitor {words[1]} is killed'
        what = f'disk {upset[2]} {"fails" if upset[1] == "fail" else "is cut off"} at call {upset[3]}, and keeps {IMAGES[int(upset[4])]} of what was not synced'
        end = f'; the transaction is {kept[0]}, and the monitor is down' if kept else ''
        return f'{self.plain(words, upset[5])}, and in that {what}{end}'

    def plain(self, words: list[str], line: str) -> str:
        if words[0] == 'start':
            return f'monitor {words[1]} starts'
        if words[0] == 'timer':
            return f'timer {words[2]} of monitor {words[1]} fires'
        if words[0] == 'client':
            return f'client {words[3]} asks monitor {words[1]}: {" ".join(line.split(" ")[5:])}'
        message = self.sent.get(int(words[1]))
        if message is None:
            return f'message {words[1]} is delivered, which nobody sent'
        again = ' again' if self.got.get(message.number) else ''
        return f'monitor {message.receiver} gets {message.kind} of monitor {message.sender}{again}, sent in event {message.event}'
