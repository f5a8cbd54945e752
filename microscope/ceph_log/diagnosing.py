"""Finds what is wrong with a quorum, with the lines that show it."""
from __future__ import annotations

from collections import Counter, defaultdict
from typing import Iterator, NamedTuple

from .conditions import CONDITIONS, Condition
from .delays import Delays, is_bad, median, said, stood_still, worst
from .directions import silent_directions
from .events import Event
from .levels import DEFAULTS, level_of
from .lines import SECOND
from .quorum import SKEW, Quorum
from .timeline import Call, Reign, Timeline

# Elections that follow one another: this many leaders within this time. What else repeats does so OFTEN.
STORM, OFTEN, WITHIN = 5, 3, 120 * SECOND
# A leader that acts this long after another one won is stale.
STALE = SECOND // 2
LONE, LEADERLESS, SILENCE = 20 * SECOND, 30 * SECOND, 4 * SECOND
# The most places that are printed for a condition.
MOST = 6


class Finding(NamedTuple):
    """A condition that was found: what the logs show of it, and the events that show it."""
    condition: Condition
    text: str
    events: list[Event]


def found(name: str, text: str, events: list[Event]) -> Finding:
    return Finding(CONDITIONS[name], text, events)


def seconds(microseconds: int) -> str:
    return f'{microseconds / SECOND:.1f} s' if microseconds >= SECOND // 10 else f'{microseconds / 1000:.0f} ms'


def crowded(moments: list[int]) -> tuple[int, int]:
    """The most of these times that lie within WITHIN of one another: how many, and which is the first."""
    best, first, begin = 0, 0, 0
    for end, moment in enumerate(moments):
        while moments[begin] < moment - WITHIN:
            begin += 1
        if end - begin + 1 > best:
            best, first = end - begin + 1, begin
    return best, first


class Diagnosis:
    """The findings of a quorum, in the order of CONDITIONS."""

    def __init__(self, q: Quorum):
        self.q, self.time, self.delays = q, Timeline(q), Delays(q)
        self.calls = [call for call in self.time.calls if call.moment > self.time.settled]
        self.reigns = [reign for reign in self.time.reigns if reign.begin > self.time.settled]
        finders = (self.elections, self.flapping, self.deaf, self.tied, self.without_answers, self.without_leases, self.slow_accepts, self.slow_stores,
                   self.clocks, self.synchronizations, self.stale, self.passed_over, self.one_from_loss, self.no_quorum)
        self.findings: list[Finding] = [finding for finder in finders for finding in finder()]

    # -- elections

    def elections(self) -> Iterator[Finding]:
        count, first = crowded([reign.begin for reign in self.reigns])
        calls, first_call = crowded([call.moment for call in self.calls])
        if count < STORM and calls < STORM * self.q.count:
            return
        chosen = self.calls[first_call:first_call + calls]
        by = Counter(call.rank for call in chosen if self.is_first_call(call))
        whom = ', '.join(f'{self.q.who(rank)} {times} times first' for rank, times in by.most_common())
        why = '; '.join(f'{text} ({times})' for text, times in Counter(f'{self.q.who(call.rank)}: {call.why}' for call in chosen).most_common(4))
        yield found('repeated elections', f'{count} leaders within {WITHIN // SECOND} s. Elections were called by {whom}. Causes: {why}.',
                    [call.event for call in chosen if self.is_first_call(call)])

    def is_first_call(self, call: Call) -> bool:
        """Whether nobody else called an election in the 2 seconds before."""
        return not any(call.moment - 2 * SECOND < other.moment < call.moment for other in self.time.calls)

    def absences(self) -> dict[int, list[Event]]:
        """The times that a monitor came back to a quorum: quorums with it after quorums without it."""
        back: dict[int, list[Event]] = defaultdict(list)
        was_out: set[int] = set()
        for reign in self.time.reigns:
            for rank in range(self.q.count):
                if rank in reign.quorum and rank in was_out:
                    was_out.discard(rank)
                    if reign.begin > self.time.settled:
                        back[rank].append(reign.event)
                elif rank not in reign.quorum and reign.begin > self.time.settled:
                    was_out.add(rank)
        return back

    def flapping(self) -> Iterator[Finding]:
        for rank, events in self.absences().items():
            count, first = crowded([event.moment for event in events])
            if count >= OFTEN:
                yield found('flapping monitor', f'{self.q.who(rank)} was out of the quorum and came back {count} times within {WITHIN // SECOND} s.',
                            events[first:first + count])

    def deaf(self) -> Iterator[Finding]:
        """Monitors that hear nothing of another one, which hears them; without the messenger's lines, those whose timers fire while another one leads."""
        directions = silent_directions(self.q)
        for silent in directions:
            who, other = self.q.who(silent.receiver), self.q.who(silent.sender)
            yield found('deaf monitor', f'{who} heard nothing from {other} for {seconds(silent.end - silent.begin)} ({silent.count} messages), while {other} heard '
                        f'{who}.', silent.events)
        if directions or self.q.levels().get('ms'):
            return
        by_rank: dict[int, list[Event]] = defaultdict(list)
        for event in self.lost('election'):
            if self.is_led(event):
                by_rank[event.rank].append(event)
        for rank, events in by_rank.items():
            if len(events) >= OFTEN:
                yield found('deaf monitor', f'The time of elections was over at {self.q.who(rank)} {len(events)} times while another one led: it doesn\'t hear that '
                            f'one, or isn\'t heard.', events)

    def is_led(self, event: Event) -> bool:
        """Whether another monitor led when an event happened."""
        return any(reign.begin < event.moment <= reign.end and reign.leader != event.rank for reign in self.time.reigns)

    def leader_went_on(self, event: Event) -> bool:
        """Whether the leader of a peon that lost its lease sent leases in the 5 seconds before."""
        reign = self.time.leader_at(event.moment)
        leader = self.q.monitors.get(reign.leader) if reign else None
        if leader is None:
            return False
        near = [other for other in leader.events if event.moment - 5 * SECOND < other.moment < event.moment]
        return any(other.has('extends') for other in near) if leader.levels.get('paxos', 0) >= 7 else any(other.kind == 'timer' for other in near)

    def tied(self) -> Iterator[Finding]:
        over = [event for event in self.lost('election') if not event.has('win') and not self.is_led(event)]
        count, first = crowded([event.moment for event in over])
        if count >= OFTEN:
            who = ', '.join(f'{self.q.who(rank)} {times} times' for rank, times in Counter(event.rank for event in over[first:first + count]).most_common())
            yield found('tied elections', f'Nobody had won when the time of the election was over: {who}.', over[first:first + count])

    # -- leases and answers

    def lost(self, *timers: str) -> list[Event]:
        return [event for event in self.time.timers if event.timer in timers and event.moment > self.time.settled]

    def without_answers(self) -> Iterator[Finding]:
        texts = {'leaseack': 'acknowledge a lease', 'accept': 'accept a value', 'collect': 'answer a COLLECT'}
        for event in self.lost(*texts):
            silent = self.silent(event, event.before.quorum)
            whom = f' It had no answer of {self.q.those(silent)}.' if silent else ''
            yield found('leader without answers', f'{self.q.who(event.rank)} steps down: a member didn\'t {texts[event.timer]} for 10 s.{whom}', [event])

    def silent(self, event: Event, quorum: tuple[int, ...]) -> list[int]:
        """The members of a quorum from which its leader got no message in the SILENCE before."""
        heard = {other.message.sender for other in self.q.monitors[event.rank].events
                 if other.kind == 'deliver' and other.message.sender is not None and event.moment - SILENCE < other.moment < event.moment}
        return [rank for rank in quorum if rank != event.rank and rank not in heard] if heard else []

    def without_leases(self) -> Iterator[Finding]:
        lost = [event for event in self.lost('lease') if not self.leader_went_on(event)]
        groups: list[list[Event]] = []
        for event in lost:
            if groups and event.moment - groups[-1][0].moment < 8 * SECOND:
                groups[-1].append(event)
            else:
                groups.append([event])
        for events in groups:
            yield found('peon without leases', f'{self.q.those(dict.fromkeys(event.rank for event in events))} had no lease for 10 s. '
                        f'{self.what_became_of(events[0])}', events)

    def what_became_of(self, event: Event) -> str:
        """What the log of the leader shows of the time in which its leases were missing."""
        reign = self.time.leader_at(event.moment)
        if reign is None:
            return 'Its leader isn\'t shown.'
        who, leader = self.q.who(reign.leader), self.q.monitors.get(reign.leader)
        if leader is None:
            return f'Its leader {who} has no log here.'
        started = next((start for start in self.time.starts[reign.leader] if reign.end < start.moment), None)
        stopped = next((stop for stop in self.time.stops[reign.leader] if event.moment - 15 * SECOND < stop.moment < event.moment), None)
        near = [other for other in leader.events if event.moment - 9 * SECOND < other.moment < event.moment]
        if stopped is not None:
            return f'The leader {who} had stopped [{stopped.where}].'
        if started is not None and reign.end < event.moment - SECOND and not any(reign.end < other.moment for other in near):
            return f'The leader {who} was killed or stopped without a word, and started again [{started.where}].'
        before = next((other for other in reversed(leader.events) if other.moment < event.moment), None)
        if not near or before is not None and self.q.levels().get('ms') and event.moment - before.moment > SILENCE:     # It gets a ping each second.
            after = next((other for other in leader.events if other.moment >= event.moment), None)
            return f'The leader {who} wrote nothing: it stood still' + (f' until its next line [{after.where}].' if after else ', or its log ends.')
        if near[-1].after.phase() in ('collecting', 'previous', 'updating'):
            silent = [rank for rank in self.silent(near[-1], reign.quorum) if rank != reign.leader]
            return f'The leader {who} waited for answers, and gives no lease meanwhile.' + f' It heard nothing of {self.q.those(silent)}.' * bool(silent)
        return f'The leader {who} ran: look at the network from it.'

    # -- delays

    def slow_accepts(self) -> Iterator[Finding]:
        for rank, delays in sorted(self.delays.accepts.items()):
            if not is_bad(delays):
                continue
            own, there = self.delays.own.get(rank, []), self.delays.there.get(rank, [])
            cause = ('it wrote nothing in the worst case: it stood still' if stood_still(self.q, rank, worst(delays)) else
                     f'it takes as long itself ({said(own)})' if own and median(own) >= median(delays) / 3 else
                     "the leader's messages to it arrive late" if there and median(there) > median(delays) / 2 else 'its messages arrive late')
            yield found('slow accepts', f'{self.q.who(rank)} accepts late: {said(delays)}; {cause}.', [worst(delays).event])

    def slow_stores(self) -> Iterator[Finding]:
        for rank in sorted({*self.delays.own, *self.delays.commits}):
            for what, delays in (('between a BEGIN and its ACCEPT', self.delays.own.get(rank, [])), ('to commit', self.delays.commits.get(rank, []))):
                if is_bad(delays):
                    yield found('slow store', f'{self.q.who(rank)} takes long {what}: {said(delays)}.', [worst(delays).event])
                    break

    def clocks(self) -> Iterator[Finding]:
        skewed = {rank: ahead for rank, ahead in self.q.ahead.items() if abs(ahead) > SKEW}
        warned = [event for event in self.q.events if event.has('future', 'future_lease') or any('MON_CLOCK_SKEW' in fact.args for fact in event.all('health'))]
        if skewed or warned:
            text = ', '.join(f'{self.q.who(rank)} {ahead / SECOND:+.3f} s' for rank, ahead in skewed.items())
            yield found('clocks differ', (f'Beside {self.q.who(min(self.q.ahead))}, as messages there and back show: {text}. ' if text else '')
                        + (f'Monitors warned {len(warned)} times.' if warned else ''), warned)

    # -- copies

    def synchronizations(self) -> Iterator[Finding]:
        for rank, monitor in self.q.monitors.items():
            begun = [event for event in monitor.events if event.has('sync_start', 'sync_timeout') or event.kind == 'copies']
            done = sum(event.has('sync_finish') for event in monitor.events)
            if len(begun) >= 3 and len(begun) > done + 1:
                yield found('repeated synchronization', f'{self.q.who(rank)} began {len(begun)} synchronizations and ended {done}.', begun)

    # -- leaders

    def stale(self) -> Iterator[Finding]:
        for at, reign in enumerate(self.time.reigns):
            later = next((other for other in self.time.reigns[at + 1:at + 4] if other.leader != reign.leader and other.begin < reign.end
                          and (not reign.epoch or other.epoch > reign.epoch)), None)
            acts = self.last_act(reign, later) if later is not None else []
            is_shown = level_of(self.q.monitors[reign.leader].levels) != DEFAULTS
            if later is not None and is_shown and (acts or reign.end - later.begin > STALE):
                yield found('stale leader', f'{self.q.who(reign.leader)} led epoch {reign.epoch} for {seconds(reign.end - later.begin)} after '
                            f'{self.q.who(later.leader)} led epoch {later.epoch}' + (', and sent something to its old quorum.' if acts else '.'),
                            [later.event, *acts])

    def last_act(self, reign: Reign, later: Reign) -> list[Event]:
        """What an old leader sent after another one had won."""
        return [event for event in self.q.monitors[reign.leader].events if later.begin < event.moment < reign.end
                and any(message.kind in ('BEGIN', 'LEASE', 'COLLECT', 'COMMIT') for message in event.sends)][:MOST]

    def passed_over(self) -> Iterator[Finding]:
        passed = [reign for reign in self.time.reigns if min(reign.quorum) < reign.leader]
        if passed:
            ranks = sorted({rank for reign in passed for rank in reign.quorum if rank < reign.leader})
            scores = next((event for event in self.q.events if event.has('scores')), None)
            yield found('passed over', f'{self.q.those(ranks)} was in the quorum and didn\'t lead, {len(passed)} times' + ('; scores are compared.' if scores else '.'),
                        [reign.event for reign in passed])

    def one_from_loss(self) -> Iterator[Finding]:
        least, reigns = self.q.count // 2 + 1, self.time.reigns
        for at, reign in enumerate(reigns):
            end = reigns[at + 1].begin if at + 1 < len(reigns) else self.time.end
            if self.q.count > 1 and len(reign.quorum) == least < self.q.count and end - reign.begin > LONE and reign.begin > self.time.settled - SECOND:
                missing = [rank for rank in range(self.q.count) if rank not in reign.quorum]
                yield found('one failure from loss', f'The quorum was {self.q.those(reign.quorum)} of {self.q.count} for {seconds(end - reign.begin)}: '
                            f'{self.q.those(missing)} was missing.', [reign.event])

    def no_quorum(self) -> Iterator[Finding]:
        reigns = [reign for reign in self.time.reigns]
        ends = [(reign.end, reign.event) for reign in reigns]
        for at, (end, event) in enumerate(ends):
            begin = reigns[at + 1].begin if at + 1 < len(reigns) else self.time.end
            running = not any(stop.moment <= end + SECOND for stop in self.time.stops[reigns[at].leader] if stop.moment >= end - SECOND) or at + 1 < len(reigns)
            if begin - end > LEADERLESS and running:
                yield found('no quorum', f'Nobody led for {seconds(begin - end)} after {self.q.who(reigns[at].leader)}.', [event])


def diagnosed(q: Quorum) -> list[Finding]:
    """What is wrong with a quorum."""
    return Diagnosis(q).findings


def report(q: Quorum, findings: list[Finding]) -> list[str]:
    """The findings as lines, those of one condition together."""
    if not findings:
        return ['No condition is named: as far as these logs show it, the quorum is well.']
    lines: list[str] = []
    for condition in dict.fromkeys(finding.condition for finding in findings):
        lines += [f'{condition.name.upper()}: {condition.means}']
        for finding in [finding for finding in findings if finding.condition is condition][:MOST]:
            places = ' '.join(f'[{event.where}]' for event in finding.events[:MOST])
            lines.append(f'    {finding.text} {places}'.rstrip())
        count = sum(finding.condition is condition for finding in findings)
        if count > MOST:
            lines.append(f'    .. and {count - MOST} more times.')
        lines += [f'    To do: {condition.do}', f'    See {condition.link}']
    return lines
