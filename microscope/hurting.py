"""What hurts the clients of a run, as its trace shows it: an election, a refused request, or a time in which no change is done."""
from __future__ import annotations

import re

DONE = r'^  reply \d+ \S+ done \d+'
# What follows a change that is done: a candidate has won an election among several monitors, or a request is refused.
ELECTION = re.compile(DONE + r'$.*^  is collecting ', re.MULTILINE | re.DOTALL)
REFUSED = re.compile(DONE + r'$.*^  reply \d+ \S+ (?:unavailable|notreadable|busy)\b', re.MULTILINE | re.DOTALL)
# An event with its time, and whether it asks for a change; or a change that is done.
EVENT = r'^\d+ (?:(?:crash|fail) [ab] \d+ \d )?(?:(?:start|deliver|client) \d+|timer \d+ \w+) (\d+)(?: \d+ \d+ (set|remove|log)\b)?'
LINE = re.compile(f'{EVENT}|{DONE}', re.MULTILINE)


def has_election(trace: str) -> bool:
    """Whether a monitor wins an election after a change was done."""
    return ELECTION.search(trace) is not None


def has_refusal(trace: str) -> bool:
    """Whether a request is refused after a change was done."""
    return REFUSED.search(trace) is not None


def longest_gap(trace: str) -> int:
    """The longest time from a change that is asked to the next one that is done, in milliseconds, after a first one was done."""
    longest, now, asked, is_begun = 0, 0, None, False
    for match in LINE.finditer(trace):
        if match[1] is None:
            longest = max(longest, now - asked) if is_begun and asked is not None else longest
            asked, is_begun = None, True
        else:
            now = int(match[1])
            asked = now if match[2] and asked is None else asked
    return longest
