"""The clauses of safety that logs can show, each with the clause of `Safe` or the section of docs/PROTOCOL.md that it is of."""
from __future__ import annotations

from .events import Event


class Clause:
    """A clause: how often it was tested, and where it fails."""

    def __init__(self, title: str, says: str, of: str):
        self.title, self.says, self.of = title, says, of
        self.tested = 0
        self.failed: list[tuple[str, Event | None]] = []

    def test(self, holds: bool, text: str, event: Event | None):
        self.tested += 1
        if not holds:
            self.failed.append((text, event))

    def result(self) -> str:
        return 'not seen' if not self.tested else f'FAILS {len(self.failed)} times' if self.failed else 'holds'


TEXTS = {
    'one_leader': ('One leader', 'No epoch has two leaders.', 'Safe.one_active'),
    'epochs': ('Epochs', 'A quorum has an even epoch, an election an odd one, and the epoch of a monitor never falls.', 'PROTOCOL: What a monitor keeps'),
    'majority': ('Majority', 'A leader has the votes of a majority, and each voter sent its vote.', 'PROTOCOL: Elections'),
    'agreement': ('Agreement', 'Each version has one value: its size is the same wherever it is proposed, committed or shared, and each peon gets as many bytes.',
                  'Safe.agree'),
    'all_accept': ('All accept', 'A version is committed after each member of the quorum accepted it under the same number.', 'PROTOCOL: Values'),
    'promises': ('Promises', 'What a monitor promised never falls, and it accepts a value under the promised number only.', 'PROTOCOL: Collecting, Values'),
    'numbers': ('Numbers', 'Proposal numbers belong to their rank, and each new one is greater.', 'PROTOCOL: Numbers and majorities'),
    'leases': ('Leases', 'Only the leader of the epoch extends leases, and a peon takes one from its leader, for its own last version, without a pending value.',
               'Safe.fence; PROTOCOL: Leases'),
    'growth': ('Growth', 'The last version of a monitor never falls, except during a full synchronization, and grows one by one.', 'Safe.agree, Safe.kept'),
    'durability': ('Durability', 'A leader that becomes active has each version that was committed before.', 'Safe.kept'),
    'old_leaders': ('Old leaders', 'What a leader sent in an earlier epoch changes nothing at a member of a later quorum.', 'Safe.one_active, Safe.fence'),
    'floor': ('Synchronization', 'A full copy ends at its floor or above it.', 'PROTOCOL: Taking copies'),
}


def new_clauses() -> dict[str, Clause]:
    return {name: Clause(*texts) for name, texts in TEXTS.items()}
