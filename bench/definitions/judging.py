"""What the definitions call safe, asked of computed worlds."""
from __future__ import annotations

from typing import Any, Dict, List, Optional, Tuple

import loaded
from antt import NONE, Made, Map, octets, some
from loaded import PROTOCOL, fn
from natives import number_in, transaction_text

MODEL = 'quorum_model.specs.'
# A part of Safe that fails, and a number: of a version, a monitor, an event or an epoch.
Fault = Tuple[str, int]


def last_of(store: Map) -> int:
    last: int = fn(f'{MODEL}Growth', 'last_of')(store)
    return last


def epoch_of(store: Map) -> int:
    epoch: int = fn(f'{PROTOCOL}Readings', 'epoch_of')(fn(f'{PROTOCOL}Readings', 'readings_of')(store))
    return epoch


def shared(store: Map) -> Map:
    entries: Map = fn('mon_tx.specs.Keys', 'shared')(store)
    return entries


def folded(log: Tuple[bytes, ...], version: int) -> Map:
    entries: Map = fn('mon_msg.specs.Fold', 'fold')(log, version)
    return entries


def entry(log: Tuple[bytes, ...], version: int) -> bytes:
    return octets(fn('mon_msg.specs.Fold', 'entry')(log, version))


# The encoded values of commands after logs.
VALUES: Dict[Tuple[Any, Made, int], Optional[bytes]] = {}
MOST_VALUES = 20_000
loaded.FORGOTTEN.append(VALUES.clear)


def encoded_value(log: Tuple[bytes, ...], command: Made, rank: int) -> Optional[bytes]:
    """The encoded value of a command that a monitor is asked when it has this log, or None if the command is refused."""
    key = log, command, rank
    if key not in VALUES:
        if len(VALUES) >= MOST_VALUES:
            VALUES.clear()
        view = fn('log_model.specs.LogOfValues', 'view_at')(log, len(log))
        value = fn(f'{PROTOCOL}Value', 'value')(view, command, rank)
        VALUES[key] = transaction_text(value.args[0]) if value.name == 'Ok' else None
    return VALUES[key]


class Judge:
    """The parts of Safe that fail in a world of n monitors. `writes` are the transactions that the monitors' events wrote, if they are known."""

    def __init__(self, world: Any, n: int, writes: Optional[List[List[Any]]]):
        self.world, self.n, self.log, self.writes = world, n, world.log, writes
        self.stores = [world.store(rank) for rank in range(n)]
        self.lasts = list(map(last_of, self.stores))
        self.acknowledged = [(it.event, it.what) for it in world.acknowledged]

    def faults(self) -> List[Fault]:
        return self.agree() + self.asked() + self.kept() + self.replied() + self.held() + self.one_active()

    def agree(self) -> List[Fault]:
        return [('agree', rank) for rank in range(self.n)
                if not fn('mon_kv.specs.Readers', 'is_marked')(self.stores[rank]) and not self.agrees(self.stores[rank], self.lasts[rank])]

    def agrees(self, store: Map, last: int) -> bool:
        """Whether a store is what the log leaves, up to its last version."""
        if last > len(self.log) or shared(store) != folded(self.log, last):
            return False
        found = store.entries.get((b'paxos', b'first_committed'))
        first = max(1, number_in(NONE if found is None else some(found)))
        return all(store.entries.get((b'paxos', b'%d' % version)) == entry(self.log, version) for version in range(first, last + 1))

    def commands(self) -> List[Tuple[Made, int, bytes]]:
        """The commands that clients asked, each with the monitor that was asked, and its incremental."""
        found: Dict[Any, Tuple[Made, int, bytes]] = {}
        for it in self.world.asked:
            command = fn(f'{MODEL}Clients', 'command_of')(it.request)
            if command.args:
                made = command.args[0]
                incremental = octets(fn(f'{MODEL}Clients', 'incremental_of')(it.rank, made))
                found[made, it.rank if made.name == 'Log' else 0] = made, it.rank, incremental
        return list(found.values())

    def asked(self) -> List[Fault]:
        bad, commands = [], self.commands()
        for place in range(len(self.log)):
            encoded = entry(self.log, place + 1)
            # Commands whose change is in the entry come first.
            tried = sorted(commands, key=lambda it: it[2] not in encoded)
            if not any(encoded_value(self.log[:place], command, rank) == encoded for command, rank, _ in tried):
                bad.append(('asked', place))
        return bad

    def put_in(self, service: Made, version: int) -> List[bytes]:
        changes = fn('mon_tx.specs.Decode', 'ops_in')(entry(self.log, version))
        return list(map(octets, fn('mon_msg.specs.Fold', 'put_in')(service, changes)))

    def kept(self) -> List[Fault]:
        bad, seen = [], set()
        for _, it in self.acknowledged:
            is_in = 1 <= it.version <= len(self.log) and octets(it.incremental) in self.put_in(it.service, it.version)
            if it.version in seen or not is_in or any(self.lacks(rank, it) for rank in range(self.n)):
                bad.append(('kept', it.version))
            seen.add(it.version)
        return bad

    def lacks(self, rank: int, acknowledged: Any) -> bool:
        """Whether a monitor is an active leader after an acknowledgement, and lacks its version."""
        state = self.world.state(rank)
        return bool(state.args and fn(f'{MODEL}Happens', 'is_active')(state.args[0].phase) and acknowledged.pn <= state.args[0].leader.pn
                    and self.lasts[rank] < acknowledged.version)

    def replied(self) -> List[Fault]:
        forms = {'Done': self.done, 'Shown': self.shown, 'Since': self.since}
        return [fault for it in self.world.replied if it.reply.name in forms for fault in forms[it.reply.name](it)]

    def done(self, it: Any) -> List[Fault]:
        version, made = it.reply.args[0], fn(f'{MODEL}Clients', 'made_by')
        asked = [made(one.rank, one.request) for one in self.world.asked if one.rank == it.rank and one.session == it.session]
        answers = any(some((what.service, what.incremental)) in asked for event, what in self.acknowledged
                      if what.version == version and event <= it.event)
        return [] if answers else [('answered', version)]

    def incrementals(self, service: Made, version: int) -> Tuple[Any, ...]:
        found: Tuple[Any, ...] = fn('mon_msg.specs.Fold', 'incrementals')(service, self.log, version)
        return found

    def shown(self, it: Any) -> List[Fault]:
        service, paxos, version, shown = it.reply.args
        is_so = paxos == it.last and version == len(self.incrementals(service, paxos))
        is_so = is_so and shown == fn('mon_msg.specs.Fold', 'map_of_log')(service, self.log, paxos)
        return [('shown', it.event)] * (not is_so) + self.fence(it)

    def since(self, it: Any) -> List[Fault]:
        service, at, changes, more = it.reply.args
        others = self.incrementals(service, it.last)[at:]
        is_so = list(map(octets, changes)) == list(map(octets, others[:len(changes)])) and more == (len(changes) < len(others))
        return [('since', it.event)] * (not is_so) + self.fence(it)

    def fence(self, it: Any) -> List[Fault]:
        return [('fence', it.event) for event, what in self.acknowledged if event < it.event and what.epoch == it.epoch and it.last < what.version]

    def held(self) -> List[Fault]:
        bad, transactions = [], [self.world.transactions(rank) for rank in range(self.n)]
        for rank, store in enumerate(self.stores):
            if fn(f'{MODEL}Safe', 'after_transactions')(transactions[rank], Map({})) != store:
                bad.append(('held', rank))
            if self.writes is not None and list(transactions[rank]) != self.writes[rank]:
                bad.append(('whole', rank))
        return bad

    def one_active(self) -> List[Fault]:
        leaders: Dict[int, int] = {}
        return [('one active', epoch) for epoch, rank in self.world.active if leaders.setdefault(epoch, rank) != rank]


def unsafe(world: Any, n: int, writes: Optional[List[List[Any]]]) -> List[Fault]:
    """The parts of Safe that fail in a world in which the monitors' events wrote these transactions, each with a number."""
    return Judge(world, n, writes).faults()
