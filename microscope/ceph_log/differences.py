"""The known differences of ceph-mon from the protocol's table: how one is recognized, and which row of docs/CEPH.md has it."""
from __future__ import annotations

from typing import NamedTuple

from .events import Event
from .verdict import Verdict


class Difference(NamedTuple):
    """A known difference. `row` is the beginning of the row of docs/CEPH.md that has it; it is empty for a step that the log cuts."""
    name: str
    says: str
    row: str


DIFFERENCES = {difference.name: difference for difference in [
    Difference('epoch-again', 'An election that is called again has a new odd epoch.', 'an election that is called again stays in its odd epoch'),
    Difference('deferred-kept', 'In a later epoch ceph-mon remembers to whom it deferred: it neither gives another vote nor stands.',
               'in a later epoch a monitor forgets to whom it deferred'),
    Difference('scores', 'Under connectivity ceph-mon compares its own scores, and ignores what changes little.',
               'candidates are compared by the scores that the PROPOSE carries'),
    Difference('never-joined', 'The election timer of a monitor that was never part of an active quorum makes it probe. It doesn\'t call an election.',
               'an election timer without a majority always calls the election again'),
    Difference('lag-at-once', 'Members that lag get their COMMIT at once, and again at each LAST of another member.',
               'members that lag get their COMMIT after all answered'),
    Difference('learns-first', 'The values of a LAST are stored before its number is compared, so also those of one with another number.',
               'the number of a LAST is compared first'),
    Difference('pending-hidden', 'A peon whose last version is below that of the COLLECT doesn\'t report its pending value.',
               'a whole LAST carries the pending value, if there is one'),
    Difference('copied-pending', 'After a full copy the monitor reports the pending value that the provider had accepted.',
               "a full copy keeps the monitor's own numbers"),
    Difference('later-epoch', 'A message of Paxos of a later epoch makes the monitor probe. After a start its epoch counts as 0 until an election.',
               'a message that comes late, twice, in another order or from another epoch is dropped'),
    Difference('commit-later', 'What all accepted is committed after a write in the background. An election in between waits for that write.',
               'a transaction is synced before the next input'),
    Difference('monmap', 'A version that changes the monmap or the strategy ends the quorum.', '1 to 15 monitors, fixed'),
    Difference('alone-odd', 'A monitor that is alone in its map leads the next epoch, be it even or odd.',
               'a monitor that is alone in its map leads an even epoch'),
    Difference('marked-answers', 'A monitor in a full synchronization answers a PROBE, with no versions.', "a marked monitor doesn't answer PROBE"),
    Difference('cut', 'The monitor was killed within this step, or its log ends there.', ''),
]}
ELECTION = ('PROPOSE', 'ACK', 'VICTORY')
PAXOS = ('COLLECT', 'LAST', 'BEGIN', 'ACCEPT', 'COMMIT', 'LEASE', 'LEASE_ACK')


def whole_of(event: Event, classes: set[str], ends_quorum: bool, is_cut: bool) -> str | None:
    """The difference that explains a step by itself."""
    if is_cut and all(name.startswith('-') or name == 'epoch' or ' not ' in name for name in classes):
        return 'cut'
    if event.kind == 'timer' and event.timer == 'election' and event.has('bootstrap'):
        return 'never-joined'
    if event.has('win_standalone') and classes <= {'epoch'}:
        return 'alone-odd'
    if event.is_message('PROBE') and event.before.state == 'synchronizing' and classes == {'+PROBE_REPLY'}:
        return 'marked-answers'
    if ends_quorum and event.is_message('ACCEPT', 'COMMIT'):
        return 'monmap'
    if event.is_message(*PAXOS) and is_of_later_epoch(event) and classes <= {'+PROBE', f'probing not {event.before.phase()}'}:
        return 'later-epoch'
    if is_again(event, classes):
        return 'epoch-again'
    return None


def is_of_later_epoch(event: Event) -> bool:
    """Whether a monitor probes since a message is of a later epoch. The own one is 0 between a start and an election."""
    return event.has('bootstrap') and (event.before.epoch == 0 or event.sending_epoch() > event.before.epoch)


def is_again(event: Event, classes: set[str]) -> bool:
    return classes <= {'PROPOSE.e', 'epoch'} and event.has('init_epoch')


def parts_of(event: Event, classes: set[str], is_copied: bool) -> dict[str, set[str]]:
    """The differences that explain a part of a step each, and which classes they explain."""
    found = {}
    if classes & {'-ACK', '-PROPOSE'} and event.has('already_acked'):
        found['deferred-kept'] = {'-ACK', '-PROPOSE'}
    if classes & {'COLLECT.last', 'last'} and event.has('stores') and event.has('higher_pn', 'old_pn'):
        found['learns-first'] = {'COLLECT.first', 'COLLECT.last', 'last'}  # they may trim the log, too
    if '+COMMIT' in classes and event.is_message('LAST') and event.has('sends_commit'):
        found['lag-at-once'] = {'+COMMIT'}
    if 'LAST.pending' in classes and event.is_message('COLLECT') and event.message.fields['last'] > event.before.last:
        found['pending-hidden'] = {'LAST.pending'}
    if 'LAST.pending' in classes and is_copied and event.has('shares_uncommitted'):
        found['copied-pending'] = {'LAST.pending'}
    return found


def names_of(event: Event, verdict: Verdict, is_connected: bool, ends_quorum: bool, is_cut: bool) -> list[str]:
    """The known differences that explain a verdict, or none if something isn't explained."""
    classes = set(verdict.classes)
    whole = whole_of(event, classes, ends_quorum, is_cut)
    if whole is not None:
        return [whole]
    parts = parts_of(event, classes, verdict.is_copied)
    found, left = list(parts), classes.difference(*parts.values())
    if left and is_connected and (event.kind == 'timer' and event.timer == 'election' or event.is_message(*ELECTION)):
        return [*found, 'scores']
    if left and verdict.crosses_commit:
        return [*found, 'commit-later']
    if left and is_again(event, left):
        return [*found, 'epoch-again']
    return [] if left else found
