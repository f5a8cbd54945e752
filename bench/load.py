"""Clients that send requests to the monitors of a quorum without end and record the replies, and a judge of these records. bench/kills, the scripts of
bench/hostile, checks/lossy and checks/stale_leader use it."""
from __future__ import annotations

import bisect
import collections
import threading
import time

from cephmon import NotServed, Refused

# A change that was answered: its version, its key, the number that the key was set to or after which it was removed, whether it was removed, whether it was
# sent only once (`sure`), and when the request began and ended.
Answered = collections.namedtuple('Answered', 'version key number removed sure began ended')


class Setter(threading.Thread):
    """A client that sets its own keys to rising numbers. If the load removes, a key is removed after each set. If the outcome of a change isn't known, or it may
    be made twice, its key is never used again."""

    def __init__(self, load: Load, number: int):
        super().__init__(daemon=True)
        self.load, self.number, self.answered, self.unserved = load, number, [], 0
        self.generation, self.is_there = [0] * load.keys, [False] * load.keys
        # The keys that aren't used any more, each with whether its last change was a removal; and refusals of changes that had to be done.
        self.left, self.wrong = {}, []

    def run(self):
        load, number = self.load, 0
        asked = self.number if load.asked is None else load.asked
        with load.quorum.client(first=asked % len(load.quorum.addresses), timeout=load.timeout, patience=load.patience, once=load.once) as client:
            while load.goes_on():
                number += 1
                self.change(client, number % load.keys, number)
                if load.asked is not None:
                    client.asker.asked = load.asked

    def change(self, client, slot: int, number: int):
        key, removed, began = self.key(slot), self.load.removes and self.is_there[slot], time.monotonic()
        try:
            version = client.remove(key) if removed else client.set(key, str(number).ljust(self.load.octets, '.'))
        except (NotServed, Refused) as why:
            if removed and isinstance(why, Refused) and client.tries == 1:
                self.wrong.append(f'LOST: {key} was set, and can not be removed: {why}')
            self.unserved += 1
            self.leave(slot, removed)
            time.sleep(0.05)
            return
        self.answered.append(Answered(version, key, number, removed, client.tries == 1, began, time.monotonic()))
        self.is_there[slot] = not removed
        if client.tries > 1:
            self.leave(slot, removed)
        self.load.count()
        time.sleep(self.load.pause)

    def key(self, slot: int) -> str:
        return f'{self.load.name}{self.number}.{slot}.{self.generation[slot]}'

    def leave(self, slot: int, removed: bool):
        self.left[self.key(slot)] = removed
        self.generation[slot] += 1
        self.is_there[slot] = False


class Looker(threading.Thread):
    """A client that reads the map of one monitor again and again."""

    def __init__(self, load, rank):
        super().__init__(daemon=True)
        self.load, self.rank, self.maps = load, rank, []

    def run(self):
        with self.load.quorum.client(monitor=self.rank, timeout=0.5, patience=0.5, once=True, onward=False) as client:
            while not self.load.ends.wait(self.load.look):
                began = time.monotonic()
                try:
                    found = client.show('kv')
                except NotServed:
                    continue
                self.maps.append((began, time.monotonic(), found['paxos'], found['map']))


class FreshReader(threading.Thread):
    """A client that makes fresh reads without end. It makes a change of its own, a mark, and then reads `times` times, each time beginning with the next
    monitor or always with `first`."""

    def __init__(self, load: Load, pause: float, first: int | None, times: int):
        super().__init__(daemon=True)
        # When each mark was asked for and answered, and its version; when the mark of each read was asked for and when the read ended, the version that it
        # showed, and its map.
        self.load, self.pause, self.first, self.times, self.marks, self.maps = load, pause, first, times, [], []

    def run(self):
        ranks = len(self.load.quorum.addresses)
        with self.load.quorum.client(timeout=self.load.timeout, patience=self.load.patience) as client:
            while self.load.goes_on() and not self.load.ends.wait(self.pause):
                try:
                    self.read(client, ranks)
                except (NotServed, Refused):
                    pass

    def read(self, client, ranks: int):
        began = time.monotonic()
        client.settings.monitor = self.load.asked
        client.asker.asked = client.asker.asked if self.load.asked is None else self.load.asked
        version = client.fresh()
        self.marks.append((began, time.monotonic(), version))
        client.settings.monitor = None
        for _ in range(self.times):
            client.asker.asked = len(self.maps) % ranks if self.first is None else self.first
            found = client.show('kv')
            self.maps.append((began, time.monotonic(), found['paxos'], found['map']))


class Load:
    """Setters, each of which pauses after an answer; a looker for each monitor, which reads every `look` seconds; and `fresh` clients that make fresh reads. If
    `asked` is a rank, all changes are asked of that monitor. With `once` each change is sent once; without it a change is sent to the next monitor after
    `patience` seconds, until `timeout`."""

    def __init__(self, quorum, clients=3, pause=0.01, octets=0, patience=3.0, asked=None, most=None, seconds=None, name='c', keys=6, removes=False, once=True,
                 timeout=None, look=0.1, fresh=1, fresh_pause=1.0, fresh_first=None, fresh_times=1):
        self.quorum, self.pause, self.octets, self.patience, self.asked, self.name = quorum, pause, octets, patience, asked, name
        self.keys, self.removes, self.once, self.timeout, self.look = keys, removes, once, timeout or patience, look
        self.left, self.lock, self.ends = most, threading.Lock(), threading.Event()
        self.end = None if seconds is None else time.monotonic() + seconds
        self.setters = [Setter(self, number) for number in range(clients)]
        self.lookers = [Looker(self, rank) for rank in quorum.ranks()]
        self.readers = [FreshReader(self, fresh_pause, fresh_first, fresh_times) for _ in range(fresh)]
        self.began = time.monotonic()
        for each in self.setters + self.lookers + self.readers:
            each.start()

    def goes_on(self):
        return not self.ends.is_set() and (self.left is None or self.left > 0) and (self.end is None or time.monotonic() < self.end)

    def count(self):
        with self.lock:
            if self.left is not None:
                self.left -= 1

    def wait(self):
        for each in self.setters:
            each.join()

    def stop(self):
        self.ends.set()
        for each in self.setters + self.lookers + self.readers:
            each.join()

    def answered(self):
        return sorted(change for setter in self.setters for change in setter.answered)

    def rate(self, began, ended):
        return sum(began <= change.ended < ended for change in self.answered()) / max(ended - began, 0.001)

    def gap(self, began, ended):
        """The longest time without an answer."""
        moments = [began, *sorted(change.ended for change in self.answered() if began <= change.ended <= ended), ended]
        return max(later - earlier for earlier, later in zip(moments, moments[1:]))

    def first(self, began):
        """The time from `began` until the first answer to a change that was asked after it."""
        return min((change.ended - began for change in self.answered() if change.began >= began), default=None)


def number_of(value):
    return int(value.rstrip('.'))


class Judge:
    """Judges what clients saw. `wrong` has one line per fault."""

    def __init__(self, load, final=None):
        self.wrong = [line for setter in load.setters for line in setter.wrong]
        self.answered = load.answered()
        self.left = {key: removed for setter in load.setters for key, removed in setter.left.items()}
        self.known = collections.defaultdict(list)
        # By key, the last version of each number. With it the time to judge a long history grows only with its maps.
        self.made = collections.defaultdict(dict)
        for change in self.answered:
            self.known[change.key].append((change.version, change.number, change.removed))
            if change.sure and not change.removed:
                self.made[change.key][change.number] = max(change.version, self.made[change.key].get(change.number, 0))
        self.order(load)
        self.maps([(f'monitor {looker.rank}', paxos, shown) for looker in load.lookers for _, _, paxos, shown in looker.maps])
        self.maps([('a fresh read', paxos, shown) for reader in load.readers for _, _, paxos, shown in reader.maps])
        self.rises(load.lookers)
        if final is not None:
            self.end(final)

    def order(self, load):
        """Changes and fresh reads are linearizable, in whatever epochs and at whichever monitors: each takes effect after all that was answered before it was
        asked for. A change takes effect at its version, which is the reply to no other one, and a read after the version that it shows."""
        changes = [(change.began, change.ended, change.version) for change in self.answered] + [mark for reader in load.readers for mark in reader.marks]
        fresh = [(began, ended, paxos) for reader in load.readers for began, ended, paxos, _ in reader.maps]
        shown = [(began, ended, paxos) for looker in load.lookers for began, ended, paxos, _ in looker.maps]
        versions = collections.Counter(version for _, _, version in changes)
        self.wrong += [f'version {version} is the reply to {count} changes' for version, count in versions.items() if count > 1]
        # The places in the log: those of changes are even, and those of reads odd.
        asked = [(began, 1, 2 * version) for began, _, version in changes] + [(began, 1, 2 * paxos + 1) for began, _, paxos in fresh]
        answered = [(ended, 0, 2 * version) for _, ended, version in changes] + [(ended, 0, 2 * paxos + 1) for _, ended, paxos in fresh + shown]
        greatest = 0
        for _, begins, place in sorted(asked + answered):
            if begins and place < greatest:
                what = 'a map of version' if place % 2 else 'version'
                self.wrong.append(f'{what} {place // 2} was asked for after {greatest // 2} was {"shown" if greatest % 2 else "answered"}')
            greatest = greatest if begins else max(greatest, place)

    def maps(self, seen):
        """Each version has one map, with all changes that were answered up to it and nothing older."""
        one = {}
        for where, paxos, shown in seen:
            if one.setdefault(paxos, shown) != shown:
                self.wrong.append(f'{where}: version {paxos} has two maps')
        for paxos, shown in one.items():
            for key, changes in self.known.items():
                place = bisect.bisect_right(changes, (paxos, float('inf')))
                value = number_of(shown[key]) if key in shown else None
                if place and not self.may_follow(value, key, changes, place):
                    _, number, removed = changes[place - 1]
                    self.wrong.append(f'LOST: {key} is {value} at {paxos}, and {"its removal after " * removed}{number} was answered')
                if value is not None and self.made[key].get(value, paxos) > paxos:
                    self.wrong.append(f'{key} is {value} at {paxos}, before its version')

    def may_follow(self, value, key, changes, place) -> bool:
        """Whether a key may have this value, or none, after this number of its answered changes: the value of the last one, or of an unanswered later one."""
        _, number, removed = changes[place - 1]
        if value is None:
            return removed or place == len(changes) and self.left.get(key, False)
        return value >= number

    def rises(self, lookers):
        """The versions that a monitor shows don't fall."""
        for looker in lookers:
            greatest, ends = 0, collections.deque()
            for began, ended, paxos, _ in looker.maps:
                while ends and ends[0][0] < began:
                    greatest = max(greatest, ends.popleft()[1])
                if paxos < greatest:
                    self.wrong.append(f'monitor {looker.rank} showed {paxos} after {greatest}')
                ends.append((ended, paxos))

    def end(self, final):
        if not final:
            self.wrong.append('the monitors show no common map at the end')
            return
        if any(keys['map'] != final[0][0]['map'] or log['map'] != final[0][1]['map'] for keys, log in final):
            self.wrong.append('maps differ at the end')
        self.maps([('the end', final[0][0]['paxos'], final[0][0]['map'])])
        if self.answered and final[0][0]['paxos'] < self.answered[-1].version:
            self.wrong.append('LOST: the last version at the end is below one that was answered')


