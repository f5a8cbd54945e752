"""From when on a monitor's state is known if it ran already when its log began: from its first complete state on, not only from the next election."""
from __future__ import annotations

from .events import Event, Known
from .quorum import Quorum


def is_complete(event: Event) -> bool:
    """Whether an event leaves a state that the log has shown: a new leader or peon, a monitor that begins to probe, or a member of a steady quorum."""
    after = event.after
    if event.has('win', 'lose') or after.state == 'probing' and after.epoch and event.has('bootstrap'):
        return True
    return bool(after.epoch) and not after.epoch % 2 and is_steady(event)


def is_steady(event: Event) -> bool:
    """Whether an event of a steady quorum shows whom a monitor follows or leads: a lease that it gave or got, without a value in progress."""
    if event.after.paxos != 'active':
        return False
    if event.after.state == 'leader':
        return event.kind == 'timer' and event.timer == 'renew' and any(message.kind == 'LEASE' for message in event.sends)
    return event.after.state == 'peon' and event.is_message('LEASE') and event.has('lease')


def state_of(q: Quorum, event: Event) -> Known:
    """The state that an event leaves, with the leader and the quorum that its lease shows."""
    known = event.after
    if known.quorum:
        return known
    if known.state == 'leader':
        return known._replace(leader=event.rank, quorum=quorum_of(event))
    if event.is_message('LEASE'):
        giver = event.sent.event if event.sent is not None else None
        quorum = quorum_of(giver) if giver is not None else tuple(range(q.count))
        return known._replace(leader=event.message.sender, quorum=quorum)
    return known


def quorum_of(giver: Event) -> tuple[int, ...]:
    """The leader that gives leases, and those to which it gives them."""
    return tuple(sorted({giver.rank, *(message.receiver for message in giver.sends if message.kind == 'LEASE' and message.receiver is not None)}))
