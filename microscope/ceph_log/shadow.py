"""A shadow of a real monitor: a state and a store of the proved definitions, which get the monitor's inputs and are then set to what its log shows."""
from __future__ import annotations

from . import definitions as proved
from .definitions import NONE, Value
from .events import Known

TIMERS = {'probe': 2_000, 'election': 5_000, 'collect': 10_000, 'accept': 10_000, 'renew': 3_000, 'leaseack': 10_000, 'lease': 10_000, 'sync': 60_000,
          'step': 0, 'propose': 0, 'ping': 2_000}
RUNNING = {'probing': ['probe'], 'electing': ['election'], 'collecting': ['collect'], 'previous': ['accept'], 'updating': ['accept'],
           'active': ['renew', 'leaseack'], 'peon': ['lease'], 'synchronizing': ['sync']}
LEADS = ('collecting', 'previous', 'active', 'updating')
# How long a lease is valid, in milliseconds.
LEASE = 5_000
PAXOS = b'paxos'


class Shadow:
    """The shadow of one monitor. It is known once the log has shown the whole state."""

    def __init__(self, rank: int, count: int):
        self.rank, self.count = rank, count
        self.me = proved.identity(rank, count, 'classic')
        self.state: Value = proved.booting(rank)
        self.store: dict = {}
        self.is_known = self.are_numbers_known = False

    def is_connected(self) -> bool:
        """Whether its rule of elections compares scores."""
        return self.me.rule.name == 'Connectivity'

    # -- the store

    def put(self, prefix: bytes, key: bytes, number: int):
        self.store[prefix, key] = proved.number(number)

    def number(self, prefix: bytes, key: bytes) -> int:
        return int.from_bytes(self.store.get((prefix, key), b''), 'little')

    @property
    def epoch(self) -> int:
        return self.number(b'monitor', b'election_epoch') or 1

    @property
    def last(self) -> int:
        return self.number(PAXOS, b'last_committed')

    @property
    def first(self) -> int:
        return self.number(PAXOS, b'first_committed')

    def records(self, first: int, last: int):
        for version in range(max(1, first), last + 1):
            self.store.setdefault((PAXOS, b'%d' % version), proved.text_of(version))

    def open(self, made: int, promise: int, last: int, first: int):
        """The store of a monitor that starts with these numbers and versions."""
        self.state, self.store = proved.booting(self.rank), {}
        for key, number in ((b'last_pn', made), (b'accepted_pn', promise)):
            if number:
                self.put(PAXOS, key, number)
        self.put(PAXOS, b'last_committed', last)
        self.put(PAXOS, b'first_committed', first)
        self.records(first, last)

    # -- a step

    def react(self, now: int, came: Value) -> proved.Reaction:
        return proved.react(self.me, now, self.store, self.state, came)

    def take(self, reaction: proved.Reaction):
        self.store, self.state = proved.applied(reaction.operations, self.store), reaction.state

    def phase(self) -> str:
        return proved.phase_of(self.state)

    def lease(self) -> int | None:
        """When its lease ends, in milliseconds."""
        phase = self.phase()
        part = 'peon' if phase == 'peon' else 'leader' if phase in LEADS else None
        return proved.inside(getattr(self.state, part).lease) if part else None

    # -- what the log shows

    def set_to(self, known: Known, now: int):
        """Sets the shadow to the state that the log shows."""
        if known.epoch and known.epoch != self.epoch:
            self.put(b'monitor', b'election_epoch', known.epoch)
        if (known.first, known.last) != (self.first, self.last):
            self.set_versions(known.first, known.last)
        for key, number in ((b'accepted_pn', known.promise), (b'last_pn', known.made)):
            if number is not None and number != self.number(PAXOS, key):
                self.put(PAXOS, key, number)
        self.set_pending(known)
        phase = known.phase()
        if phase != 'down' and phase != self.phase() or self.follows_another(known) or self.leads_others(known):
            self.enter(phase, known, now)
        self.is_known = True

    def set_versions(self, first: int, last: int):
        if last < self.last:
            self.store = {key: value for key, value in self.store.items() if key[0] != PAXOS or not key[1].isdigit()}
        self.put(PAXOS, b'last_committed', last)
        self.put(PAXOS, b'first_committed', first)
        self.records(first, last)

    def set_pending(self, known: Known):
        if not known.pending or known.pending[0] != self.last + 1 or known.phase() not in ('peon', 'updating', 'previous'):
            return
        version, number = known.pending[0], known.pending[1] or 0
        if (self.number(PAXOS, b'pending_v'), self.number(PAXOS, b'pending_pn')) != (version, number):
            self.put_pending(version, number)

    def put_pending(self, version: int, number: int):
        self.store[PAXOS, b'%d' % version] = proved.text_of(version)
        self.put(PAXOS, b'pending_v', version)
        self.put(PAXOS, b'pending_pn', number)

    def follows_another(self, known: Known) -> bool:
        if self.phase() != 'peon' or known.phase() != 'peon' or known.leader is None or not known.quorum:
            return False
        peon = self.state.peon
        return peon.leader != known.leader or proved.members(peon.quorum) != known.quorum

    def leads_others(self, known: Known) -> bool:
        return bool(known.quorum) and self.phase() in LEADS and known.phase() in LEADS and proved.members(self.state.leader.quorum) != known.quorum

    def enter(self, phase: str, known: Known, now: int):
        """Puts the shadow into a phase, as far as a log shows what belongs to it."""
        state, quorum = self.state, proved.ranks(known.quorum or range(self.count))
        timers = tuple(proved.some(now + length) if name in RUNNING.get(phase, ()) else NONE for name, length in TIMERS.items())
        state = proved.changed(state, phase=proved.con(phase.capitalize()), timers=timers)
        if phase == 'probing':
            state = proved.changed(state, prober=proved.record(outside=proved.ranks([self.rank])))
        elif phase == 'electing':
            elector = proved.changed(state.elector, candidate=True, acked=proved.ranks([self.rank]), deferred=NONE)
            state = proved.changed(state, elector=elector)
        elif phase == 'peon':
            state = proved.changed(state, peon=proved.record(leader=known.leader or 0, quorum=quorum, lease=NONE))
        elif phase in LEADS:
            state = proved.changed(state, leader=self.leader(state.leader, phase, quorum, known, now))
        self.state = state

    def take_lease(self, now: int):
        """Gives a peon a lease from now on."""
        self.state = proved.changed(self.state, peon=proved.changed(self.state.peon, lease=proved.some(now + LEASE)))

    def leader(self, old: Value, phase: str, quorum: tuple, known: Known, now: int) -> Value:
        own = proved.ranks([self.rank])
        value = proved.some(proved.value_of(self.last + 1)) if phase in ('previous', 'updating') else NONE
        lease = proved.some(now + LEASE) if phase in ('active', 'updating') else NONE
        return proved.changed(old, quorum=quorum, pn=known.made or self.number(PAXOS, b'last_pn'), stage=proved.con(phase.capitalize()),
                              answered=own if phase == 'collecting' else quorum, lasts=(self.last,) * proved.MOST,
                              found=self.pending() if phase == 'collecting' else NONE, accepted=own, value=value, origin=NONE, lease=lease, acks=own)

    def pending(self) -> Value:
        """The pending value in its store, as a leader that begins to collect finds it."""
        version = self.number(PAXOS, b'pending_v')
        return proved.some(proved.record(version=version, pn=self.number(PAXOS, b'pending_pn'), value=proved.value_of(version))) if version == self.last + 1 else NONE
