"""What can be wrong with a quorum: each condition with its meaning, what to do, and a link."""
from __future__ import annotations

from typing import NamedTuple

OPTIONS = 'https://docs.ceph.com/en/latest/rados/configuration/mon-config-ref/'
TROUBLE = 'https://docs.ceph.com/en/latest/rados/troubleshooting/troubleshooting-mon/'
STRATEGIES = 'https://docs.ceph.com/en/latest/rados/operations/change-mon-elections/'


class Condition(NamedTuple):
    """A named condition."""
    name: str
    means: str
    do: str
    link: str


CONDITIONS = {condition.name: condition for condition in [
    Condition('repeated elections', 'Elections follow one another, and while one lasts nothing is written.',
              'Find why the monitor that calls them does so: the lines below say it. A monitor that only disturbs can be stopped until it is repaired.', TROUBLE),
    Condition('flapping monitor', 'A monitor leaves the quorum and comes back again and again, and each time costs an election or two.',
              'Look at its host: a process that is stopped or starved, a link that breaks, a restart loop. Stop it until that is repaired.', TROUBLE),
    Condition('deaf monitor', 'A monitor hears nothing from its leader for 10 seconds while other members do, so it calls elections.',
              'Test the network from the leader to it in this direction: firewalls, routes, MTU. It hears the others, and they hear it.', TROUBLE),
    Condition('tied elections', 'The time of elections is over again and again and nobody has won: too few monitors hear one another.',
              'Test that a majority of the monitors reach each other in both directions.', TROUBLE),
    Condition('leader without answers', 'A leader steps down, since a member of its quorum didn\'t answer for 10 seconds.',
              'Look at the member that is named: its process, its disk, and the network between the two.', OPTIONS + '#confval-mon_lease_ack_timeout_factor'),
    Condition('peon without leases', 'A peon had no lease for 10 seconds, and gave its leader up: the leader stopped, stood still, or can\'t reach it.',
              'Look at the leader of that time: was it killed, paused or starved, or is its network down?', OPTIONS + '#confval-mon_lease'),
    Condition('slow accepts', 'Each member of the quorum has to accept a value, and one does so late: every write waits for it.',
              'If the member is slow itself, look at its disk; if its messages arrive late, at the network.', OPTIONS + '#confval-mon_accept_timeout_factor'),
    Condition('slow store', 'A monitor takes long to sync its store, and every write waits for it.',
              'Look at the disk of the monitor: latency of syncs, other load on it, a store that is compacted or too large.', TROUBLE),
    Condition('clocks differ', 'The clocks of two hosts differ by more than mon_clock_drift_allowed (0.05 s): leases end too early or too late.',
              'Run chrony or ntpd on all hosts, and look whether they are in step.', OPTIONS + '#confval-mon_clock_drift_allowed'),
    Condition('repeated synchronization', 'A monitor begins a synchronization again and again, and stays out of the quorum for so long.',
              'Look at why it ends: its provider, its restarts, its disk. paxos_min and mon_sync_timeout say how much time it has.',
              OPTIONS + '#confval-mon_sync_timeout'),
    Condition('stale leader', 'A leader didn\'t notice that another one has a later epoch, and acted for a while as if it led.',
              'Nothing is lost: what it sends is dropped. Look at why its process stood still or was cut off.', TROUBLE),
    Condition('passed over', 'A member of the quorum doesn\'t lead though its rank is the lowest: it may not lead, or its connection score is bad.',
              '`ceph mon dump` names the disallowed leaders and the strategy; `ceph daemon mon.ID connection scores dump` has the scores.', STRATEGIES),
    Condition('one failure from loss', 'The quorum is the least majority: without one more of its members nothing can be written or read.',
              'Bring the missing monitors back before anything else is restarted.', TROUBLE),
    Condition('no quorum', 'No monitor leads for half a minute or longer: nothing is written or read.',
              'Find which monitors are down or cut off, and bring a majority back. docs/OPERATING.md has the way for Cephmon.', TROUBLE),
]}
