"""Which rule of elections the monitors follow: it is named at first, and changes with commands that the logs show."""
from __future__ import annotations

from . import definitions as proved
from .events import Event
from .shadow import Shadow

STRATEGIES = ('classic', 'disallow', 'connectivity')


class Strategy:
    """The rule that the last command asked for. A monitor follows it once it has the version of the monmap with it."""

    def __init__(self, text: str, names: dict[int, str]):
        self.name, _, listed = text.partition('=')
        self.disallowed = {int(rank) for rank in listed.split(',') if rank}
        self.names = names

    def hear(self, event: Event):
        command = event.get('command')
        if command is None:
            return
        text = command.args[0]
        if 'set election_strategy' in text:
            self.name = next((name for name in STRATEGIES if f'"{name}"' in text or f'strategy={name}' in text), self.name)
        for word in ('add', 'rm'):
            if f'mon {word} disallowed_leader' in text:
                rest = text.split('disallowed_leader')[1]
                named = {rank for rank, name in self.names.items() if f'"{name}"' in rest or f'name={name}' in rest}
                self.disallowed = self.disallowed | named if word == 'add' else self.disallowed - named

    def give(self, shadow: Shadow):
        listed = '=' + ','.join(map(str, sorted(self.disallowed))) if self.disallowed and self.name != 'classic' else ''
        shadow.me = proved.identity(shadow.rank, shadow.count, self.name + listed)
