"""What one monitor did, event by event, from the lines of its logs."""
from __future__ import annotations

from typing import Iterable

from .events import Event, Fact, Known, learned
from .lines import Line
from .messages import message_of
from .opening import opening
from .patterns import CAME, LOGIC, MEMBER, MEMBERS, MON, PAXOS_STATE, STARTING, WENT, name_of

OWN = ('mon', 'paxos', 'elector', 'logic')
ANSWER = 'mon_command_ack('


class Monitor:
    """The events of one monitor. Lines of different threads are kept apart: a message belongs to the thread that handles it."""

    def __init__(self, lines: Iterable[Line], name: str | None = None):
        self.name, self.rank, self.release = name, None, ''
        self.addresses: dict[str, int] = {}
        self.names: dict[int, str] = {}
        self.fsids: dict[str, str] = {}
        self.levels: dict[str, int] = {}
        self.sizes: dict[int, int] = {}
        self.ranks: list[tuple[str, int, int]] = []
        self.events: list[Event] = []
        self.unknown = self.others = self.count = 0
        self.first_at: int | None = None
        self.last_at = 0
        self.known = Known()
        self.current: dict[str, Event] = {}
        self.latest: Event | None = None
        self.has_messages = self.is_committing = False
        self.waiting: set[int] = set()  # events whose messages came while a commit was under way: it is handled before them
        for index, line in enumerate(lines, 1):
            self.take(line, index)
        self.close()

    # -- lines

    def take(self, line: Line, index: int):
        self.count = index
        self.first_at = line.at if self.first_at is None else self.first_at
        self.last_at = line.at
        if line.text.startswith('-- '):
            if line.level == 1:
                self.levels['ms'] = 1
                self.take_message(line, index)
            return
        part, rest, shows_state = self.prefix(line)
        if part is None:
            return
        event = self.current.get(line.thread)
        if shows_state and event is not None and event is not self.latest and not event.order:
            # The first line of another event shows the state that the one before left.
            self.ended()
            event.before, event.order, self.latest = event.before or self.known, index, event
        if event is not None:
            event.last_at = line.at
        if part in OWN:
            key = 'paxos' if part == 'paxos' else 'mon'
            self.levels[key] = max(self.levels.get(key, 0), line.level)
        found = name_of(part, rest)
        if found is None:
            self.unknown += part in OWN
        elif found[0] != 'readable' or event is not None:
            self.take_fact(Fact(found[0], found[1], line.file, line.number, line.at), event, line, index)

    def take_fact(self, fact: Fact, event: Event | None, line: Line, index: int):
        opened = opening(fact, event, self.known, self.rank, self.has_messages)
        if opened is None and event is None:
            opened = {'kind': 'other'}  # no known cause: an event of its own
        if opened is not None:
            self.ended()
            event = Event(self.rank, line=line, index=index, **opened)
            if event.kind == 'start':
                self.known, self.release = Known(), fact.args[0]
            event.before, event.order = self.known, index
            self.current[line.thread] = self.latest = event
            self.events.append(event)
        assert event is not None
        event.facts.append(fact)
        self.is_committing = fact.name == 'commit_start' or self.is_committing and event.kind != 'commit'
        if fact.name == 'begins':
            self.sizes[int(fact.args[0])] = int(fact.args[1])
        elif fact.name == 'rank' and int(fact.args[1]) >= 0:
            self.ranks.append((fact.where, int(fact.args[1]), int(fact.args[0])))
        elif fact.name == 'says_leads':
            self.names.update(zip(map(int, fact.args[2].split(',')), fact.args[1].split(',')))
        self.known = learned(self.known, fact, (self.rank, self.name))

    def ended(self):
        if self.latest is not None and self.latest.after is None:
            self.latest.after = self.known

    def close(self):
        """Puts the events in their order, each with what is known before and after it. An event that no line handles stays where its message came."""
        self.ended()
        self.events.sort(key=lambda event: event.order or event.index)
        before = Known()
        for event in self.events:
            event.before = event.before or before
            event.after = before = event.after or event.before
            if event.rank is None or event.rank < 0:
                event.rank = self.rank
        self.current.clear()
        self.latest = None

    # -- prefixes

    def prefix(self, line: Line) -> tuple[str | None, str, bool]:
        """The part of the monitor that writes a line, the rest of the line, and whether it shows a state."""
        text = line.text
        found = MON.match(text) if text.startswith('mon.') else None
        if found is not None:
            return self.prefix_of_monitor(found)
        found = LOGIC.match(text) if text.startswith('paxos.') else None
        if found is not None:
            if int(found[2]) and int(found[2]) != self.known.epoch:
                self.known = self.known._replace(epoch=int(found[2]))
            return 'logic', found[3], False
        if text.startswith('starting mon.') and (found := STARTING.match(text)):
            self.fsids.setdefault(found[4], line.where)
            if int(found[2]) >= 0:
                self.addresses[found[3]] = self.rank = int(found[2])
        elif 'monmap e' in text and (members := MEMBERS.search(text)):
            self.see_members(members[2])
        return 'daemon', text, False

    def prefix_of_monitor(self, found) -> tuple[str | None, str, bool]:
        name, rank, state, part, inner, _, rest = found.groups()
        if self.name is None:
            self.name = name
        elif name != self.name:
            self.others += 1
            return None, '', False
        if int(rank) >= 0:
            self.rank = int(rank)
        if state != '???' and state != self.known.state:
            self.known = self.known._replace(state=state)
        if part == 'paxos':
            self.see_paxos(inner or '')
        elif part == 'elector':
            if inner and inner.isdigit() and int(inner) and int(inner) != self.known.epoch:
                self.known = self.known._replace(epoch=int(inner))
        elif part is None:
            part = 'mon'
            if 'monmap' in rest and (members := MEMBERS.search(rest)):
                self.see_members(members[2])
        else:
            part = 'service'
        return part, rest, True

    def see_paxos(self, inner: str):
        state = PAXOS_STATE.match(inner)
        if state is not None:
            paxos, first, last = state[1], int(state[2]), int(state[3])
            if (paxos, first, last) != (self.known.paxos, self.known.first, self.known.last):
                self.known = self.known._replace(paxos=paxos, first=first, last=last)

    def see_members(self, text: str):
        for rank, (name, address) in enumerate(MEMBER.findall(text)):
            self.addresses[address.strip()] = rank
            self.names[rank] = name.lstrip(',')

    # -- messages

    def take_message(self, line: Line, index: int):
        found = CAME.match(line.text)
        if found is not None:
            self.has_messages = True
            before = self.current.get(line.thread)
            if before is not None and id(before) in self.waiting and not before.order:
                before.order = index  # no line shows how it was handled
            event = self.came(found, line, index)
            if event is None:
                self.current.pop(line.thread, None)
            else:
                self.events.append(event)
                self.current[line.thread] = event
                if self.is_committing:
                    self.waiting.add(id(event))
            return
        found = WENT.match(line.text)
        if found is not None:
            self.went(found, line, index)

    def came(self, found, line: Line, index: int) -> Event | None:
        _, what, who, address, _, text, front, middle, data = found.groups()[:9]
        message = message_of(text)
        if what == 'mon' and who.isdigit():
            if int(who) == self.rank:
                return None
            self.addresses.setdefault(address.strip(), int(who))
            message.sender = int(who)
        if message.fields.get('fsid'):
            self.fsids.setdefault(message.fields['fsid'], line.where)
        message.receiver, message.at, message.where = self.rank, line.at, line.where
        message.size = int(front) + int(middle) + int(data)
        return Event(self.rank, 'deliver', line, message=message, index=index)

    def went(self, found, line: Line, index: int):
        own, to, text = found.groups()
        if to.strip() == own.strip():
            return
        receiver, message, event = self.addresses.get(to.strip()), message_of(text), self.current.get(line.thread)
        if receiver is None and message.kind in ('OTHER', 'ROUTE'):
            if event is not None and text.startswith(ANSWER):
                event.answers += 1
            return
        message.sender, message.receiver, message.at, message.where, message.address = self.rank, receiver, line.at, line.where, to.strip()
        if event is None:
            if message.kind == 'OTHER':
                return
            event = Event(self.rank, 'other', line, index=index)
            event.order = index
            self.events.append(event)
        message.event = event
        event.sends.append(message)
