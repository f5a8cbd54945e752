"""A *card*: a short summary of what a monitor remembers and has in its store after an event."""
from __future__ import annotations

from typing import Any

from played import TIMERS, Play
from antt import NONE, Record, octets, single
from judging import epoch_of
from loaded import PROTOCOL, fn
from natives import NATIVES

LEADING = 'Collecting', 'Previous', 'Active', 'Updating'
VOTES = {'Electing': ('elector', 'acked'), 'Collecting': ('leader', 'answered'), 'Previous': ('leader', 'accepted'), 'Updating': ('leader', 'accepted'),
         'Active': ('leader', 'acks')}
# What the votes of a phase are.
VOTES_OF = {'Electing': 'voted for it', 'Collecting': 'answered', 'Previous': 'accepted', 'Updating': 'accepted', 'Active': 'took the lease'}


def ranks(bits: Any) -> str:
    return ','.join(str(rank) for rank, is_in in enumerate(bits) if is_in) or '-'


def value_of(changes: Any) -> str:
    """The command whose value this is, as a client asks it."""
    for change in changes:
        if change.name != 'Put' or not octets(change.args[1]).isdigit():
            continue
        kind = {b'kv': 'map_kv', b'logm': 'map_log'}.get(octets(change.args[0]))
        found = NATIVES[f'{kind}.specs.Decode.inc_of'](change.args[2]) if kind else None
        if found and found.name == 'Ok':
            return command_of(found.args[0])
    return 'a value'


def text_of(value: Any) -> str:
    return octets(value).decode('utf-8', 'replace')


def command_of(incremental: Any) -> str:
    if isinstance(incremental, Record):
        return f'log {text_of(incremental.text)}'
    return ' '.join([incremental.name.lower(), *map(text_of, incremental.args)])


def shortened(text: str, most: int = 60) -> str:
    return text if len(text) <= most else text[:most - 1] + '…'


def card(play: Play, rank: int, now: int) -> dict:
    """The card of a monitor: its fields by name. A field that doesn't apply is None."""
    store, state = play.world.store(rank), play.state(rank)
    view = fn(f'{PROTOCOL}Readings', 'readings_of')(store)
    pending = fn(f'{PROTOCOL}Records', 'pending')(view)
    found = {
        'up': state is not None, 'phase': 'down', 'epoch': epoch_of(store), 'last': view.last,
        'promise': fn(f'{PROTOCOL}Readings', 'promise_of')(view), 'pending': None, 'map': map_of(view), 'marked': view.marked,
        'leader': None, 'quorum': None, 'votes': None, 'votes_of': None, 'lease': None, 'valid': False, 'queue': 0, 'timers': [], 'leads': False,
    }
    if pending.args:
        value = pending.args[0]
        found['pending'] = {'text': shortened(value_of(value.value)), 'version': value.version, 'pn': value.pn}
    if state is not None:
        found.update(memory(state, rank, now))
    return found


def memory(state: Any, rank: int, now: int) -> dict:
    """The fields of a running monitor's card that aren't in its store."""
    phase = state.phase.name
    leads, is_peon = phase in LEADING, phase == 'Peon'
    role = state.leader if leads else state.peon
    lease = role.lease if leads or is_peon else NONE
    found = {'phase': phase.lower(), 'leads': leads, 'leader': rank if leads else role.leader if is_peon else None,
             'quorum': ranks(role.quorum) if leads or is_peon else None}
    if phase in VOTES:
        part, field = VOTES[phase]
        found.update(votes=ranks(getattr(getattr(state, part), field)), votes_of=VOTES_OF[phase])
    if phase == 'Electing' and state.elector.deferred.args:
        found.update(votes=str(state.elector.deferred.args[0]), votes_of='it voted for')
    if lease.args:
        found.update(lease=lease.args[0], valid=now < lease.args[0])
    found['queue'] = len(state.clients.queue)
    found['timers'] = [[name, timer.args[0]] for name, timer in zip(TIMERS, state.timers) if timer.args]
    return found


def map_of(view: Any) -> str:
    """Both maps, in at most 80 letters."""
    pairs, texts = (fn(f'{PROTOCOL}Services', 'read_map')(view, single(name)).args[0] for name in ('Kv', 'Log'))
    found = [f'{key.decode()}={text_of(value)}' for key, value in pairs.sorted()]
    found += [f'"{text_of(entry.text)}"' for entry in texts]
    return shortened(', '.join(found), 80)
