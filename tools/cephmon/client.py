"""A client that blocks until it has an answer."""
from __future__ import annotations

import math
import socket
import time
from typing import Any, Iterator, Optional, Sequence, TypeVar, Union, overload

from cephmon import operations, quorum_file
from cephmon.asking import PATIENCE, SETTLED, Asker, Heard, Rest, Send, Settings, Steps
from cephmon.changes import Change
from cephmon.closed import Address, Closed, closed, keep_errors
from cephmon.errors import NotServed, Refused
from cephmon.operations import Watch
from cephmon.wire import MOST_MESSAGE, Reply

# Seconds for a request unless others are given, and between two requests for changes.
TIMEOUT, LOOK = 30.0, 0.25

T = TypeVar('T')
D = TypeVar('D')


def settings_of(addresses: Sequence[Address] | None, config: str | None, name: str | None, monitor: int | None, patience: float, once: bool,
                onward: bool) -> Settings:
    """The settings of a client, whose quorum is that of the addresses or that of a file. Raises quorum_file.Faulty, and OSError if a host has no address."""
    if addresses is None:
        file = quorum_file.read(config or quorum_file.default())
        addresses, name = file.addresses, file.name if name is None else name
    elif config is not None:
        raise ValueError('a client has either addresses or a config')
    found = [(socket.gethostbyname(host), port) for host, port in addresses]
    if monitor is not None and not 0 <= monitor < len(found):
        raise ValueError(f'the monitor is {monitor}, and there are the monitors 0 to {len(found) - 1}')
    return Settings(found, name, monitor, patience, once, onward)


def ended_at(timeout: float | None, usual: float) -> float:
    """When a request ends that takes at most these seconds. Raises ValueError if they aren't above 0."""
    seconds = usual if timeout is None else timeout
    if not 0 < seconds < math.inf:
        raise ValueError(f'a timeout is a number of seconds above 0, and not {seconds}')
    return time.monotonic() + seconds


class Client:
    """Asks the monitors, one after the other until one serves the request.

    Every request raises an Error of `cephmon.errors` that says whether a change was made, and ValueError before anything is sent if it has no encoding.
    It takes at most `timeout` seconds. `seen` is the greatest version of the log of all changes that the client saw, and no map that it reads is older,
    at whichever monitor. `tries` says how often the last request was sent, `silent` how many of these tries had no answer, each of which may make a
    change once more, and `reply` is the last reply to it, or None. A client is for one thread; give each thread its own."""

    def __init__(self, addresses: Sequence[Address] | None = None, monitor: int | None = None, first: int = 0, timeout: float = TIMEOUT,
                 patience: float = PATIENCE, once: bool = False, onward: bool = True, *, config: str | None = None, name: str | None = None):
        """The quorum is that of the file `config`, or else of the file that CEPHMON_CONFIG names, or else of /etc/cephmon/quorum.ini; or `addresses` are
        pairs of a host and a port, of all monitors in order of rank. If the file or `name` names the quorum, monitors of another one aren't asked.

        If `monitor` is given, that one alone is asked; otherwise `first` is the one that is asked first. Each try waits `patience` seconds. With `once` a
        request is sent once. Without `onward` maps may go back, if a monitor shows an older one than another did before."""
        self.settings = settings_of(addresses, config, name, monitor, patience, once, onward)
        self.asker, self.timeout = Asker(self.settings, first), timeout
        ended_at(None, timeout)
        self.socket = socket.socket(socket.AF_INET, socket.SOCK_DGRAM)
        # The pieces of the longest reply come all at once.
        self.socket.setsockopt(socket.SOL_SOCKET, socket.SO_RCVBUF, 4 * MOST_MESSAGE)
        keep_errors(self.socket)
        self.closed: list[Closed] = []

    def __enter__(self) -> Client:
        return self

    def __exit__(self, *_: object) -> None:
        self.close()

    def close(self) -> None:
        """Closes the socket."""
        self.socket.close()

    def copy(self, timeout: float | None = None) -> Client:
        """Another client of the same monitors, for another thread. No map that it reads is older than what this one saw."""
        own = self.settings
        other = Client(own.addresses, own.monitor, self.asker.asked, timeout or self.timeout, own.patience, own.once, own.onward, name=own.name)
        other.asker.seen = self.seen
        return other

    @property
    def seen(self) -> int:
        return self.asker.seen

    @property
    def tries(self) -> int:
        return self.asker.last.tries

    @property
    def silent(self) -> int:
        return self.asker.last.silent

    @property
    def reply(self) -> Reply | None:
        return self.asker.last.reply

    def set(self, key: str | bytes, value: str | bytes, *, timeout: float | None = None) -> int:
        """Sets a key, and returns the log's version of this change. A value has at most 65,536 bytes of UTF-8."""
        return self.run(operations.set_key(self.asker, key, value, self.end(timeout)))

    def remove(self, key: str | bytes, *, timeout: float | None = None) -> int:
        """Removes a key, and returns the log's version of this change. It is refused if there is no such key."""
        return self.run(operations.remove_key(self.asker, key, self.end(timeout)))

    def log(self, text: str | bytes, *, timeout: float | None = None) -> int:
        """Adds a text of at most 1,024 bytes to the cluster log, and returns the version of this change in the log of all changes."""
        return self.run(operations.log_text(self.asker, text, self.end(timeout)))

    def fresh(self, *, timeout: float | None = None) -> int:
        """Returns a version of the log of all changes with every change that was acknowledged before this call. A map of at least this version has them, and
        so has each map that this client reads from now on. It sets a new key of its own, and removes it. If no monitor removes it in time, it stays."""
        return self.run(operations.mark(self.asker, self.end(timeout)))

    def settled(self, *, timeout: float = SETTLED) -> bool:
        """Waits until each try of the last request was answered, so that none of them makes its change once more. Returns whether all were in time."""
        return self.run(self.asker.last.settled(self.end(timeout)))

    @overload
    def get(self, key: str | bytes, *, fresh: bool = ..., at_least: int = ..., timeout: float | None = ...) -> str: ...

    @overload
    def get(self, key: str | bytes, default: D, /, *, fresh: bool = ..., at_least: int = ..., timeout: float | None = ...) -> Union[str, D]: ...

    def get(self, key: str | bytes, *default: Any, fresh: bool = False, at_least: int = 0, timeout: float | None = None) -> Any:
        """The value of a key. If there is no such key it is `default`, and without a default Refused is raised. The whole map is asked for, since
        monitors show nothing less. With `fresh` it has every change that was acknowledged before this call, and with `at_least` that version of the log
        of all changes or a later one."""
        try:
            return self.run(operations.get(self.asker, key, at_least, fresh, self.end(timeout)))
        except Refused as why:
            if not default or why.kind != 'NoSuch':
                raise
            return default[0]

    def keys(self, prefix: str = '', *, fresh: bool = False, at_least: int = 0, timeout: float | None = None) -> list[str]:
        """The names of the keys with this prefix, in ascending order."""
        return self.run(operations.keys(self.asker, prefix, at_least, fresh, self.end(timeout)))

    def show(self, service: str, at_least: int = 0, *, fresh: bool = False, timeout: float | None = None) -> dict[str, Any]:
        """The `map` of a service, kv or log, at its `version`, as of version `paxos` of the log of all changes, which isn't below `at_least`."""
        return self.run(operations.show(self.asker, service, at_least, fresh, self.end(timeout)))

    def since(self, service: str, version: int, *, timeout: float | None = None) -> dict[str, Any]:
        """The `changes` of a service's map `from` a version `to` another, and whether there are `more`. If the monitor no longer has all
        of them, the result is what `show` returns."""
        return self.run(operations.since(self.asker, service, version, self.end(timeout)))

    def watch(self, service: str = 'kv', version: int | None = None, *, pause: float = LOOK, timeout: float | None = None) -> Iterator[Change]:
        """Yields each change of a service's map after this version of it, without end and without a gap. That is no version of the log, as `set` returns it:
        `Whole.version` and each change have it. Without a version it begins with the whole map, and it yields one again if the monitors no longer have the
        changes in between. The monitors are asked every `pause` seconds, and more often while there are more changes. Raises NotServed if none answers
        within the timeout of one request; a new watch can go on after the last version."""
        for changes in self.batches(service, version, pause=pause, timeout=timeout):
            yield from changes

    def batches(self, service: str = 'kv', version: int | None = None, *, pause: float = LOOK, timeout: float | None = None) -> Iterator[list[Change]]:
        """Yields the changes of each request of a watch, so also an empty list if a monitor had none."""
        self.end(timeout)
        watch = Watch(self.asker, service, version, pause, self.timeout if timeout is None else timeout)
        while True:
            yield self.run(watch.changes())

    def end(self, timeout: float | None) -> float:
        return ended_at(timeout, self.timeout)

    def run(self, steps: Steps[T]) -> T:
        """Does each step, and returns what the steps return."""
        heard: Optional[Heard] = None
        while True:
            try:
                step = steps.send(heard)
            except StopIteration as ended:
                found: T = ended.value
                return found
            heard = None
            if isinstance(step, Send):
                self.send(step)
            elif isinstance(step, Rest):
                time.sleep(max(0.0, step.until - time.monotonic()))
            else:
                heard = self.heard(step.until)

    def send(self, step: Send) -> None:
        for datagram in step.datagrams:
            # An error of an earlier datagram is raised by this call, which then sends nothing.
            if not self.sends(datagram, step.address) and not self.sends(datagram, step.address):
                return

    def sends(self, datagram: bytes, address: Address) -> bool:
        """Sends a datagram, if no error was pending."""
        try:
            self.socket.sendto(datagram, address)
        except OSError:
            self.closed += closed(self.socket)
            return False
        return True

    def heard(self, until: float) -> Heard | None:
        """What the next datagrams complete, if one completes anything in time."""
        while (left := until - time.monotonic()) > 0:
            if self.closed:
                return self.closed.pop(0)
            self.socket.settimeout(left)
            try:
                datagram, peer = self.socket.recvfrom(65_536)
            except OSError:
                self.closed += closed(self.socket)
                continue
            if found := self.asker.inbox.take(datagram, peer):
                return found
        return None
