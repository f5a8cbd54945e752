"""The scenarios: what is done to a quorum of real monitors. Each function is one, and its first line says what happens."""
from __future__ import annotations

from typing import Callable, NamedTuple

from monitors import Monitors

# Logs and services that are trimmed soon, and copies in small parts.
SMALL = 'paxos_min = 20\npaxos_trim_min = 10\npaxos_trim_max = 50\npaxos_service_trim_min = 10\npaxos_service_trim_max = 50\n'
PARTS = 'mon_inject_sync_get_chunk_delay = 4\nmon_sync_max_payload_keys = 40\n'
LEVELS_10 = 'debug_mon = 10\ndebug_paxos = 10\n'


def first(q: Monitors):
    """Three empty monitors become a quorum; a peon forwards a change."""
    begin(q, 3)
    q.sets(3)
    q.wait(4)
    q.ask('b', prefix='config-key set', key='by_a_peon', val='x')
    q.ask('b', prefix='config-key get', key='by_a_peon')
    q.wait(4)


def begin(q: Monitors, seconds: float, sets: int = 0):
    q.start(q.names)
    q.until_quorum()
    q.wait(seconds)
    if sets:
        q.sets(sets)


def calm(q: Monitors):
    """A quorum to which nothing is done."""
    begin(q, 10, 3)
    q.wait(20)
    q.sets(3)
    q.wait(10)


def leader_killed(q: Monitors):
    """The leader is killed, and comes back."""
    begin(q, 8, 2)
    q.kill('a')
    client, number = q.set_only('after_kill')
    q.until_quorum(2)
    client.answer(number)
    q.wait(4)
    q.start('a')
    q.until_quorum()
    q.wait(6)


def behind(q: Monitors, versions: int, more: int = 0):
    """mon.c is killed, and is started again after this many changes."""
    begin(q, 6)
    q.kill('c')
    q.until_quorum(2)
    q.wait(3)
    q.sets(versions)
    if more:
        q.wait(8)
        q.sets(more)
    q.start('c')


def recent_sync(q: Monitors):
    """A monitor lacks twenty versions, and copies them."""
    behind(q, 20)
    q.until_quorum()
    q.wait(6)


def full_sync(q: Monitors):
    """A monitor lacks versions that were trimmed, and copies the whole store."""
    behind(q, 70, 5)
    q.until_quorum()
    q.wait(6)


def sync_killed(q: Monitors):
    """A monitor is killed within a full synchronization, and begins it again."""
    behind(q, 70, 5)
    q.wait(1.8)
    q.kill('c')
    q.wait(2)
    q.start('c')
    q.wait(14)
    q.until_quorum()
    q.wait(6)


def sync_probe(q: Monitors):
    """A monitor probes one that is in a full synchronization."""
    behind(q, 70, 5)
    q.wait(3)
    q.kill('b')
    q.wait(1)
    q.start('b')
    q.wait(30)
    q.until_quorum()
    q.wait(6)


def sync_again(q: Monitors):
    """A monitor in a full synchronization is killed again and again."""
    behind(q, 70, 5)
    for _ in range(3):
        q.wait(4)
        q.kill('c')
        q.wait(1)
        q.start('c')
    q.wait(20)
    q.until_quorum()
    q.wait(4)


def few_behind(q: Monitors):
    """A peon, and then the leader, lack few versions, which a COMMIT or a LAST carries."""
    behind(q, 3)
    q.until_quorum()
    q.wait(5)
    q.kill('a')
    q.until_quorum(2)
    q.wait(3)
    q.sets(3)
    q.start('a')
    q.until_quorum()
    q.wait(6)


def stopped_leader(q: Monitors):
    """The leader is paused for 15 seconds, and goes on as a stale leader."""
    begin(q, 6, 1)
    q.pause('a')
    client, number = q.set_only('while_paused')
    q.wait(15)
    q.resume('a')
    q.wait(12)
    q.until_quorum()
    client.answer(number)
    q.wait(5)


def uncommitted(q: Monitors):
    """One peon accepted a value, the other one was paused, and the leader is killed: the next leader recovers the value."""
    begin(q, 8, 1)
    q.client('a')
    q.pause('c')
    client, number = q.set_only('uncommitted', 'a')
    q.wait(4)
    q.kill('a')
    q.wait(1)
    q.resume('c')
    q.wait(10)
    q.until_quorum(2)
    q.wait(3)
    q.start('a')
    q.until_quorum()
    q.wait(5)


def stopped_peon(q: Monitors):
    """A peon is paused while a value is in progress."""
    begin(q, 8, 1)
    q.pause('c')
    q.set_only('needs_c')
    q.wait(22)
    q.resume('c')
    q.until_quorum()
    q.wait(6)


def idle_peon(q: Monitors):
    """A peon is paused and nothing is written: the leader steps down for lack of acknowledgements."""
    begin(q, 12)
    q.pause('c')
    q.wait(22)
    q.resume('c')
    q.wait(8)
    q.until_quorum()
    q.wait(4)


def both_stopped(q: Monitors):
    """Both peons are paused."""
    begin(q, 8, 1)
    q.client('a')
    q.pause('bc')
    q.set_only('needs_both')
    q.wait(14)
    q.resume('bc')
    q.wait(6)
    q.until_quorum()
    q.wait(4)


def accept_timeout(q: Monitors):
    """Both peons are paused, and the client asks the leader itself: its accept timer fires."""
    begin(q, 8)
    q.sets(1, 'a')
    q.wait(2)
    q.pause('bc')
    q.set_only('needs_both', 'a')
    q.wait(15)
    q.resume('bc')
    q.wait(6)
    q.until_quorum()
    q.wait(4)


def collect_timeout(q: Monitors):
    """A peon is paused between its vote and its LAST: the new leader's collect timer fires."""
    begin(q, 6, 1)
    q.hold(('c', 'b'))
    q.kill('a')
    q.wait(12)
    q.free(('c', 'b'))
    q.wait(3.3)
    q.hold(('c', 'b'))
    q.wait(16)
    q.free(('c', 'b'))
    q.until_quorum(2)
    q.start('a')
    q.until_quorum()
    q.wait(4)


def pending_read(q: Monitors):
    """A client reads at a peon that accepted a value which the other peon didn't: it has to wait."""
    begin(q, 8)
    q.sets(1, 'a')
    q.ask('b', prefix='config-key get', key='k0')
    q.wait(2)
    q.pause('c')
    q.set_only('needs_c')
    q.wait(1)
    q.ask_only('b', prefix='config-key get', key='k0')
    q.wait(3)
    q.resume('c')
    q.wait(5)
    q.until_quorum()


def late_lease(q: Monitors):
    """What the leader sends to a peon arrives late, so that a lease comes close to a value, while a client reads there."""
    begin(q, 8)
    q.sets(1, 'a')
    q.client('b')
    q.delay(1.5, ('a', 'b'))
    for number in range(8):
        q.set_only(f'late{number}', 'a')
        q.wait(0.7)
        q.ask_only('b', prefix='config-key get', key='k0')
    q.wait(8)
    q.delay(0, ('a', 'b'))
    q.wait(8)
    q.until_quorum()


def two_values(q: Monitors):
    """Two monitors have different uncommitted values of one version, and a leader hears of both."""
    begin(q, 8)
    q.sets(1, 'a')
    q.pause('bc')
    q.set_only('of_a', 'a')       # only mon.a has it: what was sent to the others is gone when they are killed
    q.wait(1)
    q.kill('abc')
    q.start('bc')
    q.until_quorum(2)
    q.leave('a')
    q.client('b')
    q.wait(3)
    q.pause('c')
    q.set_only('of_the_second', 'b')       # only mon.b has it, under a greater number
    q.wait(2)
    q.kill('bc')
    q.start('abc')
    q.until_quorum()
    q.wait(6)


def five(q: Monitors):
    """Of five monitors two are killed and come back, and one is paused."""
    begin(q, 8, 2)
    q.kill('ae')
    q.until_quorum(3)
    q.wait(3)
    q.sets(2)
    q.start('a')
    q.until_quorum(4)
    q.wait(3)
    q.sets(1)
    q.start('e')
    q.until_quorum()
    q.wait(4)
    q.pause('b')
    q.wait(15)
    q.resume('b')
    q.wait(8)
    q.until_quorum()
    q.wait(5)


def lossy(q: Monitors):
    """Connections break again and again."""
    begin(q, 6, 40)
    q.wait(30)


def strategies(q: Monitors):
    """The strategy of elections changes, and a leader is disallowed."""
    begin(q, 4)
    q.ask(prefix='mon set election_strategy', strategy='connectivity')
    q.wait(12)
    q.kill('a')
    q.until_quorum(2)
    q.wait(6)
    q.start('a')
    q.until_quorum()
    q.wait(6)
    q.ask(prefix='mon set election_strategy', strategy='disallow')
    q.wait(12)
    q.ask(prefix='mon add disallowed_leader', name='a')
    q.wait(12)
    q.until_quorum()
    q.sets(2)
    q.ask(prefix='mon rm disallowed_leader', name='a')
    q.wait(12)
    q.ask(prefix='mon set election_strategy', strategy='classic')
    q.wait(10)
    q.until_quorum()


def alone(q: Monitors):
    """A cluster of one monitor."""
    q.start('a')
    q.wait(6)
    q.sets(2)
    q.wait(2)
    q.kill('a')
    q.wait(1)
    q.start('a')
    q.wait(4)
    q.sets(1)
    q.wait(2)


def default_levels(q: Monitors):
    """Several failures, as the logs of Ceph's default levels show them."""
    begin(q, 6, 2)
    q.kill('a')
    q.until_quorum(2)
    q.wait(3)
    q.sets(3)
    q.start('a')
    q.until_quorum()
    q.wait(4)
    q.kill('c')
    q.until_quorum(2)
    q.wait(3)
    q.sets(70)
    q.wait(8)
    q.sets(5)
    q.start('c')
    q.until_quorum()
    q.wait(5)
    q.pause('a')
    q.wait(15)
    q.resume('a')
    q.wait(12)
    q.until_quorum()
    q.wait(5)


def one_way(q: Monitors):
    """mon.c hears nothing of the leader, which hears mon.c: it calls elections again and again."""
    begin(q, 8, 1)
    q.hold(('a', 'c'))
    q.wait(75)
    q.free(('a', 'c'))
    q.wait(10)
    q.until_quorum()


def flapping(q: Monitors):
    """mon.c is paused for 12 seconds again and again."""
    begin(q, 8, 1)
    for _ in range(4):
        q.pause('c')
        q.wait(16)
        q.resume('c')
        q.wait(6)
    q.until_quorum()


def slow_link(q: Monitors):
    """What mon.c sends to the leader arrives 0.4 seconds late."""
    begin(q, 6, 2)
    q.delay(0.4, ('c', 'a'))
    q.sets(12)
    q.wait(4)


def slow_disk(q: Monitors):
    """Each sync of mon.b takes 300 milliseconds longer."""
    begin(q, 6, 2)
    q.slow('b', 300)
    q.sets(8)
    q.wait(6)


def one_from_lost(q: Monitors):
    """One of three monitors is killed and stays so."""
    begin(q, 8, 2)
    q.kill('c')
    q.until_quorum(2)
    q.sets(3)
    q.wait(30)


class Scenario(NamedTuple):
    """A scenario, and how its monitors are made."""
    act: Callable[[Monitors], None]
    made: dict = {}


APART = {'apart': True}
SCENARIOS = {
    'calm': Scenario(calm), 'first': Scenario(first), 'leader_killed': Scenario(leader_killed), 'recent_sync': Scenario(recent_sync),
    'full_sync': Scenario(full_sync, {'more': SMALL}), 'sync_killed': Scenario(sync_killed, {'more': SMALL + PARTS}),
    'sync_probe': Scenario(sync_probe, {'more': SMALL + PARTS}), 'sync_again': Scenario(sync_again, {'more': SMALL + PARTS}),
    'few_behind': Scenario(few_behind), 'stopped_leader': Scenario(stopped_leader), 'uncommitted': Scenario(uncommitted),
    'stopped_peon': Scenario(stopped_peon), 'idle_peon': Scenario(idle_peon), 'both_stopped': Scenario(both_stopped),
    'accept_timeout': Scenario(accept_timeout), 'collect_timeout': Scenario(collect_timeout, APART), 'pending_read': Scenario(pending_read),
    'late_lease': Scenario(late_lease, APART), 'two_values': Scenario(two_values), 'five': Scenario(five, {'count': 5}),
    'lossy': Scenario(lossy, {'more': 'ms_inject_socket_failures = 60\n'}), 'strategies': Scenario(strategies), 'alone': Scenario(alone, {'count': 1}),
    'msgr2': Scenario(leader_killed, {'second': True}), 'default_levels': Scenario(default_levels, {'levels': '', 'more': SMALL}),
    'levels_10': Scenario(default_levels, {'levels': LEVELS_10, 'more': SMALL}), 'one_way': Scenario(one_way, APART), 'flapping': Scenario(flapping),
    'slow_link': Scenario(slow_link, APART), 'slow_disk': Scenario(slow_disk, APART), 'one_from_lost': Scenario(one_from_lost),
}
