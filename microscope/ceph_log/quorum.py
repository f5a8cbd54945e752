"""The logs of a quorum together: which message arrived where, how the hosts' clocks differ, and all events in one order."""
from __future__ import annotations

from collections import defaultdict
from typing import Iterable

from .events import Event
from .lines import WHOLE, Window
from .files import Logs, Refused
from .messages import MATCHED, Message
from .monitor import Monitor

MOST = 15
# Clocks that differ by more than this, in microseconds, are corrected.
SKEW = 50_000
# How many sendings after the last one that arrived are looked at, and how much earlier than its sending a message may arrive by coarse clocks.
AHEAD, COARSE = 400, 2_000
PINGS = ('PING', 'PING_REPLY')


class Quorum:
    """The monitors by rank, and their events in one order."""

    def __init__(self, paths: list[str], window: Window = WHOLE):
        self.logs = Logs(paths, window)
        self.monitors: dict[int, Monitor] = {}
        self.names: dict[int, str] = {}
        self.window = window
        addresses = self.join(self.logs.monitors)
        self.count = max([*self.names, *self.monitors, *addresses.values(), 0]) + 1
        self.ahead: dict[int, int] = {}
        self.skewed: dict[int, int] = {}
        self.match()
        self.measure_clocks()
        if self.arrives_too_early():
            self.match()  # now that the clocks are known
        self.order()

    def join(self, monitors: list[Monitor]) -> dict[str, int]:
        addresses: dict[str, int] = {}
        for monitor in monitors:
            for address, rank in monitor.addresses.items():
                addresses.setdefault(address, rank)
            self.names.update(monitor.names)
        for monitor in monitors:
            if monitor.rank is None or monitor.rank < 0:
                continue
            if monitor.rank in self.monitors:
                raise Refused(f'mon.{self.monitors[monitor.rank].name} and mon.{monitor.name} have the same rank {monitor.rank}: the monmap changed between '
                              f'their logs, or they are of two clusters')
            self.monitors[monitor.rank] = monitor
            self.names[monitor.rank] = monitor.name or str(monitor.rank)
            for event in monitor.events:
                for message in event.sends:
                    if message.receiver is None:
                        message.receiver = addresses.get(message.address)
        return addresses

    def changed_ranks(self) -> list[str]:
        """The places where a rank changed: from there on a number means another monitor."""
        return [f'mon.{monitor.name} has rank {now} after rank {was} ({where})' for monitor in self.monitors.values() for where, was, now in monitor.ranks
                if now != was and now >= 0]

    def one_map(self):
        """Raises Refused unless the ranks mean the same monitors throughout, of which the definitions have at most 15."""
        changed = self.changed_ranks()
        if changed:
            raise Refused(f'ranks change within these logs, so they are no run of a fixed quorum: {changed[0]}. --from and --to choose a part')
        if self.count > MOST:
            raise Refused(f'these logs are of {self.count} monitors, and the definitions are of at most {MOST}')

    # -- messages

    def match(self):
        """Finds which sending arrived as which event: in the order of each connection, by the same text. What has no partner was lost, or one of the two logs
        is missing."""
        sends: dict[tuple, list[Message]] = defaultdict(list)
        comes: dict[tuple, list[Event]] = defaultdict(list)
        for rank, monitor in self.monitors.items():
            for event in monitor.events:
                for message in event.sends:
                    if message.kind in MATCHED and message.receiver is not None and message.receiver != rank:
                        message.is_delivered = False
                        sends[rank, message.receiver].append(message)
                if event.message is not None and event.message.sender is not None and event.message.kind in MATCHED:
                    comes[event.message.sender, rank].append(event)
        self.unmatched = 0
        self.pairs: dict[tuple, list[tuple[int, int]]] = defaultdict(list)
        self.stamped: dict[tuple, list[int]] = defaultdict(list)
        for pair, events in comes.items():
            self.match_pair(pair, sorted(events, key=lambda event: event.at), sorted(sends.get(pair, []), key=lambda message: message.at))
        self.lost = [message for pair, sent in sends.items() for message in sent if not message.is_delivered and pair[1] in self.monitors]

    def match_pair(self, pair: tuple, events: list[Event], sent: list[Message]):
        at, known = 0, pair[0] in self.ahead and pair[1] in self.ahead
        between = self.ahead[pair[1]] - self.ahead[pair[0]] if known else 0
        for event in events:
            latest = event.at + COARSE - between if known else None
            text = event.message.text
            found = next((k for k in range(at, min(at + AHEAD, len(sent))) if sent[k].text == text and not sent[k].is_delivered
                          and (latest is None or sent[k].at <= latest)), None)
            if found is None:
                self.unmatched += pair[0] in self.monitors
                continue
            message = sent[found]
            message.is_delivered, event.sent = True, message
            self.pairs[pair].append((message.at, event.at))
            if message.kind in PINGS:
                self.stamped[pair].append(event.at - message.at)  # its text has a time, so this is that very message
            else:
                at = found + 1

    # -- clocks

    def measure_clocks(self):
        """How far each host's clock is ahead of that of the first one, in microseconds: half of the difference of the least delays in both directions."""
        self.least = {pair: min(self.stamped[pair] or [b - a for a, b in times]) for pair, times in self.pairs.items() if times}
        self.ahead = {}
        for root in sorted(self.monitors):
            if root not in self.ahead:
                self.measure_from(root)
        self.skewed = {rank: ahead for rank, ahead in self.ahead.items() if abs(ahead) > SKEW}
        for rank, monitor in self.monitors.items():
            shift = self.skewed.get(rank, 0)
            for event in monitor.events:
                event.moment = event.at - shift
                for message in event.sends:
                    message.moment = message.at - shift

    def measure_from(self, root: int):
        """Measures the clocks of those that exchange messages with a monitor, over the pairs with the shortest ways there and back."""
        least, reached = self.least, {root: (0, 0)}
        while reached:
            a = min(reached, key=lambda rank: reached[rank])
            way, self.ahead[a] = reached.pop(a)
            for b in self.monitors:
                if b not in self.ahead and (a, b) in least and (b, a) in least:
                    longer = way + least[a, b] + least[b, a]
                    if b not in reached or longer < reached[b][0]:
                        reached[b] = longer, self.ahead[a] + (least[a, b] - least[b, a]) // 2

    def arrives_too_early(self) -> bool:
        """Whether a message would have arrived before it was sent, by the clocks as they are known now."""
        return any(b - a + COARSE < self.ahead.get(pair[1], 0) - self.ahead.get(pair[0], 0) for pair, times in self.pairs.items() for a, b in times)

    # -- order

    def order(self):
        """Puts all events in one order: each monitor's own, a message after its sending, and otherwise by time."""
        lists = {rank: monitor.events for rank, monitor in self.monitors.items()}
        place = dict.fromkeys(lists, 0)
        done: set[int] = set()
        self.events: list[Event] = []
        while True:
            heads = sorted((lists[rank][at].moment, rank) for rank, at in place.items() if at < len(lists[rank]))
            if not heads:
                break
            waits = (rank for _, rank in heads if (sent := lists[rank][place[rank]].sent) is None or id(sent.event) in done)
            pick = next(waits, heads[0][1])
            event = lists[pick][place[pick]]
            place[pick] += 1
            done.add(id(event))
            self.events.append(event)
            event.number = len(self.events)
        self.begin = min((event.moment for event in self.events), default=0)
        for number, message in enumerate((message for event in self.events for message in event.sends), 1):
            message.number = number

    # -- names and levels

    def who(self, rank: int | None) -> str:
        return 'an unknown monitor' if rank is None else f'mon.{self.names.get(rank, rank)}'

    def those(self, ranks: Iterable[int]) -> str:
        return ', '.join(map(self.who, ranks)) or 'nobody'

    def rank_at(self, address: str) -> int | None:
        return next((monitor.addresses[address] for monitor in self.monitors.values() if address in monitor.addresses), None)

    def levels(self) -> dict[str, int]:
        """The greatest levels that were seen of `mon`, `paxos` and `ms`."""
        found: dict[str, int] = {}
        for monitor in self.monitors.values():
            for part, level in monitor.levels.items():
                found[part] = max(found.get(part, 0), level)
        return found
