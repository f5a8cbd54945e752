"""Calm runs: what the definitions say of them, asked of computed runs."""
from __future__ import annotations

from typing import Any, List, Sequence, Tuple

from antt import TT, Made, octets, record, single
from judging import MODEL, epoch_of, folded, last_of, shared, unsafe
from loaded import PROTOCOL, fn

# A monitor that is asked, and a command.
Order = Tuple[int, Made]


def orders_of(n: int) -> List[Order]:
    """Five commands, each with the rank that is asked, of n monitors."""
    def put(number: int) -> Made:
        return Made('Set', b'k%d' % number, b'v')
    commands = [(0, put(1)), (1, Made('Log', b'text')), (2, Made('Remove', b'none')), (1, Made('Remove', b'k1')), (0, put(2))]
    return [(rank % n, command) for rank, command in commands]


class Run:
    """The run of events in which these commands were asked, of n monitors."""

    def __init__(self, monitors: Any, orders: Sequence[Order], events: Any):
        self.n, self.orders, self.events = monitors.count, tuple(orders), events
        self.ran = fn(f'{MODEL}Runs', 'ran')(monitors, events)
        self.world, self.log = self.ran.world, self.ran.world.log

    def faults(self) -> List[Any]:
        """The parts of Calm that fail."""
        world, orders = self.world, self.orders
        delivered = tuple(fn(f'{MODEL}CalmSchedule', 'numbers_delivered')(self.events))
        answers = fn(f'{MODEL}CalmRun', 'answers')(world), fn(f'{MODEL}CalmRun', 'answers_of')(1, (), orders)
        log = tuple(map(octets, fn(f'{MODEL}CalmRun', 'log_of')((), orders)))
        holds = {
            'stop': self.ran.stop.name == 'None',
            'once': delivered == tuple(range(1, len(world.messages) + 1)),
            'log': tuple(map(octets, self.log)) == log,
            'done': sum(it.reply.name == 'Done' for it in world.replied) == len(self.log),
            'answered': answers[0] == answers[1],
        }
        return [name for name, is_so in holds.items() if not is_so] + [rank for rank in range(self.n) if not self.rests(rank)]

    def is_everyone(self, quorum: Any) -> bool:
        return tuple(quorum) == tuple(rank < self.n for rank in range(15))

    def rests(self, rank: int) -> bool:
        """Whether a monitor rests as calm runs leave it."""
        state, store = self.world.state(rank).args[0], self.world.store(rank)
        readings = fn(f'{PROTOCOL}Readings', 'readings_of')(store)
        promise = fn(f'{PROTOCOL}Readings', 'promise_of')(readings)
        return (
            (self.leads(state) if rank == 0 else self.follows(rank, state)) and epoch_of(store) == 2 and promise == 100
            and fn('mon_kv.specs.Readers', 'pending')(store).name == 'None' and last_of(store) == len(self.log)
            and shared(store) == folded(self.log, len(self.log)) and len(state.clients.sessions) == 0
        )

    def leads(self, state: Any) -> bool:
        leader = state.leader
        return (state.phase.name == 'Active' and self.is_everyone(leader.quorum) and leader.pn == 100
                and fn('mon_lease.specs.Lease', 'stands')(leader.lease, 0) and leader.acks == leader.quorum and len(state.clients.queue) == 0)

    def follows(self, rank: int, state: Any) -> bool:
        peon, taken = state.peon, self.world.state(0).args[0].clients.taken[rank]
        return (state.phase.name == 'Peon' and peon.leader == 0 and self.is_everyone(peon.quorum)
                and fn('mon_lease.specs.Lease', 'stands')(peon.lease, 0) and taken + 1 == state.clients.next_seq)


def calm(n: int, orders: Sequence[Order]) -> bool:
    """Prints what isn't safe or calm in the calm run of n monitors and these commands. Returns whether all is."""
    monitors, orders = record(count=n, most=TT, rule=single('Classic')), tuple(orders)
    events = fn(f'{MODEL}CalmSchedule', 'starts')(monitors)
    bad = Run(monitors, (), events).faults()
    for number, order in enumerate(orders, 1):
        events = fn(f'{MODEL}CalmSchedule', 'asks_all')(monitors, number, events, (order,))
        bad += Run(monitors, orders[:number], events).faults()
    whole = fn(f'{MODEL}CalmSchedule', 'calm_schedule')(n, TT, orders)
    if whole[:len(events)] != events or len(whole) != len(events) + 2 * n:
        bad.append('schedule')
    ran = fn(f'{MODEL}Runs', 'ran')(monitors, whole)
    world = ran.world
    bad += unsafe(world, n, None)
    if ran.stop.name != 'None':
        bad.append('stop')
    shown = fn(f'{MODEL}CalmRun', 'answers_shown')(len(orders) + 1, n, world.log)
    if fn(f'{MODEL}CalmRun', 'answers')(world) != fn(f'{MODEL}CalmRun', 'answers_of')(1, (), orders) + shown:
        bad.append('shown')
    print('calm', n, 'messages', len(world.messages), 'log', len(world.log), 'acknowledged', len(world.acknowledged), bad or 'all holds')
    return not bad
