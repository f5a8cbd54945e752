"""Named changes of the protocol's rules, each of which breaks a clause of `Safe`. They show what the proofs exclude. A change replaces a text of a
definition."""
from __future__ import annotations

import glob
import os
from typing import NamedTuple

from played import TOP, Refused
import loaded
from antt import Fault

PROTOCOL = 'mon_msg.specs.Protocol.'
# A log that is trimmed after three versions. The program keeps 500 to 750.
SHORT_LOG = {'PAXOS_DUE': 2, 'PAXOS_KEEPS': 1, 'PAXOS_GOES': 1}


class Rule(NamedTuple):
    """A changed rule: its name, what it changes, what the true rule says, why that matters, and pairs of an old and a new text by their module. `constants` are
    smaller than the program's, also when the true rule is tried. `opening` is the name of how a search begins."""
    name: str
    changed: str
    true: str
    why: str
    changes: dict[str, list[tuple[str, str]]]
    constants: dict[str, int] = {}
    opening: str = 'quorum'


RULES = [
    Rule('majority', 'a leader commits a value when a majority accepted it', 'all of the quorum must accept it',
         'A peon that has not accepted the value still has a lease, and shows the older map. Textbook Paxos has no leases, so a majority is enough there.',
         {PROTOCOL + 'Leader': [('if all_accepted me y then', 'if is_majority me.member.monitors y.state.leader.accepted then'),
                                ('Ranks.{has, with_rank}', 'Ranks.{has, with_rank, is_majority}')]}),
    Rule('pending_lease', 'a peon takes a lease while it has a pending value', 'a LEASE is dropped if there is a pending value',
         'A LEASE that was sent before the value comes after it. The peon then shows the older map, though it accepted the newer value.',
         {PROTOCOL + 'Peon': [(' || is_some (pending x.readings) then', ' then')]}),
    Rule('kept_lease', 'a peon keeps its lease when it accepts a value', 'BEGIN cancels the lease',
         'The value may be committed and acknowledged while the peon shows the older map.',
         {PROTOCOL + 'Peon': [('▸ change (Vote v pn value) ▸ cancel ▸', '▸ change (Vote v pn value) ▸')]}),
    Rule('early_answer', 'a leader answers the client when it sends the value', 'the client is answered after the commit',
         'Nobody else has the value yet: if the leader stops, it may be lost.',
         {PROTOCOL + 'Leading': [('      ▸ arm now timer.Accept\n', '      ▸ arm now timer.Accept\n      ▸ answer_any me o (reply.Done v)\n')]}),
    Rule('any_votes', 'a candidate wins when its time is over, whatever votes it has', 'it needs a majority',
         'Two candidates win one epoch, each alone.',
         {PROTOCOL + 'Elections': [(' && is_majority me.member.monitors elector.acked in', ' in')]}, opening='election'),
    Rule('first_reported', 'a leader that collects keeps the first value that it finds', 'the value of the greatest version and number replaces it',
         'An older value that nobody else accepted takes the place of one that was acknowledged.',
         {PROTOCOL + 'Found': [('= nat_lt found.version v || (v == found.version && nat_lt found.pn pn)', '= false'), ('Bool, true,', 'Bool, true, false,')]},
         opening='rival'),
    Rule('rival', 'a proposal number only passes the last one that the monitor made', 'it passes the number that it promised, too',
         'A later leader uses a lower number, so an older value under a greater one wins over the acknowledged value.',
         {PROTOCOL + 'Collecting': [('(max (promise_of x.readings) above)', 'above')]}, opening='rival'),
    Rule('forgotten_promise', 'a full copy forgets the promise', 'the promise is put back',
         'The monitor then promises a lower number, although it had promised a greater one to a leader that has begun a value.',
         {PROTOCOL + 'Changes': [('(put_back key.LastPn last_pn ++ put_back key.AcceptedPn promise)', 'put_back key.LastPn last_pn')]},
         SHORT_LOG, opening='copied'),
]


def named(name: str) -> Rule:
    found = next((rule for rule in RULES if rule.name == name), None)
    if found is None:
        raise Refused(f"there is no rule '{name}': {', '.join(rule.name for rule in RULES)}")
    return found


def of_patch(path: str) -> Rule:
    """The changed rule of a file with lines `file: crates/..antt`, `old: TEXT` and `new: TEXT`, as those of bench/edits. \\n is a line's end. A line
    `constant: NAME NUMBER` takes another number for a constant of the code, also when the true rule is tried."""
    changes, constants, module, old = {}, {}, None, None
    with open(path, encoding='utf-8') as file:
        for line in file.read().splitlines():
            word, _, text = line.partition(':')
            text = text.strip(' ') if word in ('file', 'constant') else text.lstrip(' ').replace('\\n', '\n')
            if word == 'file':
                module = os.path.normpath(text).removeprefix('crates/').removesuffix('.antt').replace('/', '.')
            elif word == 'constant':
                constants.update([constant_of(path, text)])
            elif word == 'old':
                old = text
            elif word == 'new' and module and old:
                changes.setdefault(module, []).append((old, text))
            elif line and not line.startswith('#'):
                raise Refused(f"{path}: '{line[:40]}' is none of constant:, file:, old: and new:, in this order")
    if not changes and not constants:
        raise Refused(f'{path} changes nothing')
    return Rule(os.path.basename(path), 'as the file says', 'the definitions as they are', '', changes, constants, opening='any')


def constant_of(path: str, text: str) -> tuple[str, int]:
    """The name and the number of a constant of the code."""
    name, _, number = text.partition(' ')
    if not number.isdecimal() or not any(f'pub const {name}: ' in line for file in glob.glob(os.path.join(TOP, 'crates', '*', 'src', '*.rt')) for line in open(file)):
        raise Refused(f"{path}: '{text}' isn't the name of a constant of the code and a number")
    return name, int(number)


def add_arguments(parser):
    """Adds the arguments that name a changed rule to a tool's parser."""
    changes = parser.add_mutually_exclusive_group()
    changes.add_argument('--rule', metavar='NAME', help='the changed rule of microscope/break with this name')
    changes.add_argument('--patch', metavar='FILE', help='the changed rule in this file')


def asked_for(asked) -> Rule | None:
    """The changed rule that the arguments name, or None. Raises Refused if there is no such rule or its file is faulty."""
    try:
        return named(asked.rule) if asked.rule else of_patch(asked.patch) if asked.patch else None
    except OSError as why:
        raise Refused(f'{asked.patch}: {why.strerror}') from None


def take(rule: Rule | None, is_true: bool = False):
    """Reads the definitions anew, under a changed rule. With `is_true` they are the true ones, with the constants of that rule."""
    loaded.load({} if rule is None or is_true else rule.changes, {} if rule is None else rule.constants)
    if rule is not None and not is_true:
        for module in rule.changes:
            library = loaded.Loaded.program.library
            file = library.file_of(module)
            if not os.path.isfile(file):
                raise Refused(f'{file} is not there')
            try:
                library.module(module)
            except Fault as why:
                raise Refused(f'{os.path.relpath(why.file, TOP)}: {why.what}') from None
