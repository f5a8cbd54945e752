"""The input of the proved definitions that an event of a real monitor is."""
from __future__ import annotations

from typing import Mapping

from . import definitions as proved
from .definitions import NONE, Value
from .events import Event, ranks_of
from .shadow import Shadow

FIRST_COOKIE = {'boot': 1, 'seq': 1}


class Inputs:
    """Makes inputs. What a log doesn't show of a message comes from its sending, if that is in the logs, and from the sender's shadow."""

    def __init__(self, shadows: Mapping[int, Shadow], count: int):
        self.shadows, self.count = shadows, count
        self.cookies: dict[str, Value] = {}

    def of(self, event: Event, shadow: Shadow) -> tuple[Value, str]:
        """The input and its name."""
        if event.kind == 'start':
            return proved.con('Start'), 'a start'
        if event.kind == 'timer':
            return proved.timer(event.timer or ''), f'timer {event.timer}'
        if event.kind == 'propose':
            request = proved.con('Set', b'k', b'v')
            return proved.con('Client', proved.record(client=1, id=event.number), request), 'a proposal'
        message = event.message
        came = proved.record(**{'from': message.sender}, monitors=self.count, epoch=self.epoch(event, shadow.epoch), body=self.body(event, shadow))
        return proved.con('Deliver', came), message.kind

    @staticmethod
    def epoch(event: Event, own: int) -> int:
        """The epoch that the message carries. Ceph prints it only of messages of elections: otherwise it is the sender's, or as a last resort the own one."""
        written = event.message.fields.get('e')
        return written if written is not None else event.sending_epoch() or own

    def body(self, event: Event, shadow: Shadow) -> Value:
        kind, fields = event.message.kind, event.message.fields
        form = getattr(self, 'of_' + kind.lower(), None)
        if form is not None:
            return form(event, fields, shadow)
        numbers = {'COLLECT': ('Collect', 'pn', 'first', 'last'), 'ACCEPT': ('Accept', 'pn', 'v'), 'LEASE': ('Lease', 'last'), 'LEASE_ACK': ('LeaseAck', 'last'),
                   'PROBE': ('Probe',), 'ACK': ('Ack',), 'GET_COOKIE_FULL': ('GetCookieFull',), 'GET_COOKIE_RECENT': ('GetCookieRecent', 'last')}[kind]
        return proved.con(numbers[0], *(fields[name] or 0 for name in numbers[1:]))

    # -- elections

    def of_probe_reply(self, event: Event, fields: dict, shadow: Shadow) -> Value:
        quorum = () if fields['quorum'] == '-' else ranks_of(fields['quorum'])
        return proved.con('ProbeReply', proved.ranks(quorum), fields['first'], fields['last'])

    def of_propose(self, event: Event, fields: dict, shadow: Shadow) -> Value:
        if not shadow.is_connected():
            return proved.con('Propose', NONE)
        sender = self.shadows.get(event.message.sender, shadow)
        return proved.con('Propose', proved.some(sender.state.elector.scores))

    def of_victory(self, event: Event, fields: dict, shadow: Shadow) -> Value:
        win = event.sent.event.get('win') if event.sent is not None and event.sent.event is not None else None
        lose = event.get('lose')
        quorum = ranks_of(win.args[1]) if win else ranks_of(lose.args[2]) if lose else tuple(range(self.count))
        fields['quorum'] = ','.join(map(str, quorum))
        return proved.con('Victory', proved.ranks(quorum))

    # -- values

    def of_last(self, event: Event, fields: dict, shadow: Shadow) -> Value:
        values, start, stored = (), shadow.last + 1, event.get('stores')
        if stored:
            start, end = map(int, stored.args)
            values = tuple(map(proved.value_of, range(start, end + 1)))
        pending = NONE
        if fields.get('pending'):
            pending = proved.some(proved.record(pn=fields['pending'], value=proved.value_of(fields['last'] + 1)))
        fields['values'] = len(values)
        return proved.con('Last', fields['pn'], fields['first'], fields['last'], True, start, values, pending)

    def of_begin(self, event: Event, fields: dict, shadow: Shadow) -> Value:
        return proved.con('Begin', fields['pn'], fields['v'], proved.value_of(fields['v']))

    def of_commit(self, event: Event, fields: dict, shadow: Shadow) -> Value:
        first = last = fields['v']
        stored = event.get('stores')
        if stored:
            first, last = map(int, stored.args)
        elif event.sent is not None and event.sent.event is not None:
            shared = [int(fact.args[0]) for fact in event.sent.event.all('shares_version')]
            first = min([*shared, last])
        return proved.con('Commit', first, tuple(map(proved.value_of, range(first, last + 1))))

    # -- copies

    def cookie(self, fields: dict) -> Value:
        return self.cookies.get(fields.get('cookie') or '', proved.record(**FIRST_COOKIE))

    def of_cookie(self, event: Event, fields: dict, shadow: Shadow) -> Value:
        return proved.con('Cookie', shadow.state.requester.full, self.cookie(fields), fields['last'] or 0)

    def of_get_chunk(self, event: Event, fields: dict, shadow: Shadow) -> Value:
        theirs = self.shadows.get(event.message.sender)
        place = theirs.state.requester.place if theirs else proved.record(version=0, key=proved.con('Start'))
        return proved.con('GetChunk', self.cookie(fields), place)

    def records(self, fields: dict, shadow: Shadow) -> tuple[Value, tuple]:
        place = shadow.state.requester.place
        return place, tuple(map(proved.value_of, range(place.version + 1, (fields['last'] or 0) + 1)))

    def of_chunk(self, event: Event, fields: dict, shadow: Shadow) -> Value:
        place, records = self.records(fields, shadow)
        return proved.con('Chunk', self.cookie(fields), place, records, (), False)

    def of_last_chunk(self, event: Event, fields: dict, shadow: Shadow) -> Value:
        place, records = self.records(fields, shadow)
        return proved.con('LastChunk', self.cookie(fields), place, records, (), fields['last'] or 0)

    def of_no_cookie(self, event: Event, fields: dict, shadow: Shadow) -> Value:
        return proved.con('NoCookie', self.cookie(fields))
