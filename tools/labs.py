"""A quorum in a folder of this machine, for `lab`: its files, its processes, and the network between its monitors."""
from __future__ import annotations

import contextlib
import fcntl
import itertools
import json
import os
import shlex
import signal
import subprocess
import sys
import time
from typing import Iterator

import built
from cephmon import Client, NotServed, quorum_file
from cephmon.wire import MOST_MONITORS
from network import Network
from quorum import answers, free_ports, is_free

HERE = os.path.dirname(os.path.realpath(__file__))
PREVIEW = os.path.join(os.path.dirname(HERE), 'preview')
FAILED, FAULTY = 1, 2
# Seconds within which a quorum must serve after its start, a write must be made without a monitor, and a process must begin or end. A free machine
# takes some three, fifteen, and less than one, and a loaded one many times as long.
SERVES, WRITES, SOON = 300.0, 300.0, 300.0


class Fault(Exception):
    """Why a command wasn't done, and the status to end with."""

    def __init__(self, text: str, status: int = FAULTY):
        super().__init__(text)
        self.status = status


def quoted(text: str) -> str:
    return shlex.quote(text)


def beside(tool: str) -> str:
    """How a user calls another tool."""
    path = os.path.join(os.path.dirname(sys.argv[0]), f'{tool}.py')
    return path if os.path.exists(path) else f'cephmon-{tool}'


def program_of(named: str | None, is_preview: bool) -> str:
    """The program that is named, one without proofs, or the proved one. Raises Fault if there is none."""
    if is_preview:
        if not os.path.exists(PREVIEW):
            raise Fault('--preview: ./preview is only in the repository')
        done = subprocess.run([PREVIEW, '--program'], stdin=subprocess.DEVNULL, stdout=subprocess.PIPE)
        named = done.stdout.decode().strip()
        if done.returncode or not named:
            raise Fault('--preview: ./preview built no program')
    found = os.path.abspath(named or built.place())
    if not named and not os.path.exists(found):
        raise Fault('there is no program: `./cephmon replay < examples/first.schedule` proves and builds it, in 20 to 60 minutes; '
                    '`up --preview` takes one without proofs, in two to five')
    if not (os.path.isfile(found) and os.access(found, os.X_OK)):
        raise Fault(f"the program '{found}' can't be executed")
    if os.path.realpath(found) != os.path.realpath(built.place()):
        print(f'lab: NOT PROVED: {found} is not the program that ./cephmon proves and builds', file=sys.stderr)
    return found


def write(path: str, text: str):
    """Replaces a file in one step."""
    with open(f'{path}.new', 'w', encoding='utf-8') as file:
        file.write(text)
    os.replace(f'{path}.new', path)


def read(path: str) -> str:
    try:
        with open(path, encoding='utf-8', errors='replace') as file:
            return file.read()
    except FileNotFoundError:
        return ''


class Process:
    """A process in the background, which is known by its ID and by the time at which it began, since IDs are used again."""

    def __init__(self, path: str):
        self.path = path

    def note(self, pid: int):
        write(self.path, f'{pid} {self.begin_of(pid)}\n')

    @staticmethod
    def begin_of(pid: int) -> str | None:
        """When a process began, in the system's clock ticks; None if there is none, or if it has ended."""
        fields = read(f'/proc/{pid}/stat').rpartition(')')[2].split()
        return fields[19] if fields and fields[0] not in 'ZX' else None

    def pid(self) -> int | None:
        """The ID, if the process runs."""
        pid, _, begin = read(self.path).strip().partition(' ')
        return int(pid) if pid.isdigit() and begin and self.begin_of(int(pid)) == begin else None

    def kill(self):
        """Kills the process, if it runs, and waits for its end."""
        if (pid := self.pid()) is not None:
            with contextlib.suppress(ProcessLookupError):
                os.kill(pid, signal.SIGKILL)
            wait_until(lambda: self.pid() is None, f'process {pid} does not end')


def wait_until(holds, what: str, seconds: float = SOON):
    end = time.monotonic() + seconds
    while not holds():
        if time.monotonic() > end:
            raise Fault(what, FAILED)
        time.sleep(0.02)


class Lab:
    """A lab in a folder. What it is made of is in `lab.json` there; what the network does, in `network.json`."""

    def __init__(self, folder: str):
        self.folder, self.config, self.file = folder, os.path.join(folder, 'quorum.ini'), os.path.join(folder, 'lab.json')

    def path(self, *names: str) -> str:
        return os.path.join(self.folder, *names)

    @contextlib.contextmanager
    def locked(self, is_new: bool) -> Iterator[None]:
        """Only one command at a time changes a lab."""
        if not os.path.exists(self.file):
            found = sorted(set(os.listdir(self.folder)) - {'lab.lock'}) if os.path.isdir(self.folder) else []
            if not is_new or found:
                has = f', and has {", ".join(found[:4])}' if found else ''
                raise Fault(f"'{self.folder}' is no lab{has}" + ('; name another folder, or remove this one' if is_new else '; `up` makes one'))
            os.makedirs(self.folder, exist_ok=True)
        with open(self.path('lab.lock'), 'w', encoding='ascii') as lock:
            try:
                fcntl.flock(lock, fcntl.LOCK_EX | fcntl.LOCK_NB)
            except BlockingIOError:
                raise Fault(f"another command works on '{self.folder}'") from None
            yield

    def read(self):
        """Reads what the lab is made of. Raises Fault if it can't be."""
        if not os.path.exists(self.file):
            raise Fault(f"'{self.folder}' is no lab; `up` makes one")
        try:
            found = json.loads(read(self.file))
            self.name, self.program, self.ports, self.between = found['name'], found['program'], found['ports'], found['between']
        except (ValueError, KeyError, TypeError):
            raise Fault(f"'{self.file}' was changed, and says nothing of a lab; remove '{self.folder}'") from None
        self.count = len(self.ports)
        self.monitors = [Process(self.path(f'{rank}.pid')) for rank in range(self.count)]
        self.network_process = Process(self.path('network.pid'))

    def make(self, count: int, program: str, first_port: int | None):
        """Makes the files of a new lab. lab.json comes last, so a folder without it is no lab."""
        many = count + count * count
        ports = list(range(first_port, first_port + many)) if first_port else free_ports(many)
        if taken := [port for port in ports if not is_free(port)]:
            raise Fault(f'port {taken[0]} of 127.0.0.1 is in use, and a lab of {count} has the {many} from {ports[0]}')
        between = [ports[count * (rank + 1):count * (rank + 2)] for rank in range(count)]
        made = {'name': f'lab-{os.urandom(4).hex()}', 'program': program, 'ports': ports[:count], 'between': between}
        for rank in range(count):
            os.makedirs(self.path(str(rank)), exist_ok=True)
            own = [ports[rank] if rank == other else between[rank][other] for other in range(count)]
            write(self.monitor_config(rank), self.described(made['name'], program, own))
        write(self.config, self.described(made['name'], program, made['ports']))
        write(self.file, json.dumps(made))

    def described(self, name: str, program: str, ports: list[int]) -> str:
        """The text of a quorum's file."""
        addresses = ', '.join(f'127.0.0.1:{port}' for port in ports)
        return f'[quorum]\nname = {name}\nrule = classic\naddresses = {addresses}\nfolder = {self.folder}/{{rank}}\nprogram = {program}\n'

    def monitor_config(self, rank: int) -> str:
        """The file of one monitor: the others' addresses in it are those of the network."""
        return self.path(f'{rank}.ini')

    def up(self, count: int | None, program: str | None, is_preview: bool, first_port: int | None) -> float:
        """Makes the lab unless there is one, starts what doesn't run, and returns the seconds until the quorum serves."""
        if not 1 <= (3 if count is None else count) <= MOST_MONITORS:
            raise Fault(f'MONITORS is {count}, and a quorum has 1 to {MOST_MONITORS}')
        if not os.path.exists(self.file):
            self.make(3 if count is None else count, program_of(program, is_preview), first_port)
        elif program or is_preview or first_port:
            raise Fault(f"'{self.folder}' is a lab already, with its program and ports: leave the options out, or name another folder")
        self.read()
        if count not in (None, self.count):
            raise Fault(f"'{self.folder}' is a lab of {self.count} monitors: name another folder for one of {count}")
        began = time.monotonic()
        self.start_network()
        for rank in range(self.count):
            if self.monitors[rank].pid() is None:
                self.begin(rank)
        self.serve()
        return time.monotonic() - began

    def client(self, **how) -> Client:
        return Client([('127.0.0.1', port) for port in self.ports], **how)

    def serve(self):
        """Waits until a change is made, which needs the quorum."""
        end = time.monotonic() + SERVES
        with self.client(timeout=1.0, patience=0.25) as client:
            while True:
                try:
                    client.log('the lab is up')
                    return
                except NotServed as why:
                    if ended := [rank for rank in range(self.count) if self.monitors[rank].pid() is None]:
                        raise Fault(f'monitor {ended[0]} has ended: {self.last_line(ended[0])}', FAILED) from None
                    if time.monotonic() > end:
                        raise Fault(f'the quorum does not serve after {SERVES:g} s: {why}', FAILED) from None

    def last_line(self, rank: int) -> str:
        return (read(self.path(f'{rank}.log')).splitlines() or ['it wrote nothing'])[-1]

    # ---- processes

    def background(self, process: Process, command: list[str], log: str, **how) -> subprocess.Popen:
        environment = {name: value for name, value in os.environ.items() if name != quorum_file.VARIABLE}
        with open(log, 'ab') as file:
            how = {'stdout': file, **how}
            begun = subprocess.Popen(command, stdin=subprocess.DEVNULL, stderr=file, start_new_session=True, cwd=self.folder, env=environment, **how)
        process.note(begun.pid)
        return begun

    def begin(self, rank: int):
        """Starts a monitor by the tool `monitor`, which checks its store and address first."""
        if not is_free(self.ports[rank]):
            raise Fault(f'port {self.ports[rank]} of 127.0.0.1, of monitor {rank}, is in use by another program')
        command = [sys.executable, os.path.join(HERE, 'monitor'), '--config', self.monitor_config(rank), str(rank)]
        self.background(self.monitors[rank], command, self.path(f'{rank}.log'))

    def start_network(self):
        if self.network_process.pid() is not None:
            return
        if taken := [port for ports in self.between for port in ports if not is_free(port)]:
            raise Fault(f'port {taken[0]} of 127.0.0.1, of the network, is in use by another program')
        command = [sys.executable, os.path.join(HERE, 'lab'), '--folder', self.folder, 'network']
        begun = self.background(self.network_process, command, self.path('network.log'), stdout=subprocess.PIPE)
        if not begun.stdout.readline():
            raise Fault(f'the network has ended: {(read(self.path("network.log")).splitlines() or ["it wrote nothing"])[-1]}', FAILED)

    def network(self):
        """Is the network, until the lab is removed or this process is killed. A line on standard output says that it can be used."""
        network, seen = Network(self.count, 0, self.between), []

        def goes_on() -> bool:
            now = read(self.path('network.json'))
            if seen != [now]:
                self.set_up(network, now)
                done.seek(0)
                done.truncate()
                done.write(now)
                done.flush()
            if not seen:
                print('ready', flush=True)
            seen[:] = [now]
            return os.path.exists(self.file)

        with open(self.path('network.done'), 'w', encoding='utf-8') as done:
            network.run(self.ports, goes_on)

    # ---- the network

    def asked(self, text: str | None = None) -> dict:
        """What the network is to do: the monitors that are cut off, and the milliseconds that the messages of monitors take."""
        return {'cut': [], 'milliseconds': 0, 'slow': [], **json.loads((read(self.path('network.json')) if text is None else text) or '{}')}

    def set_up(self, network: Network, text: str):
        asked = self.asked(text)
        network.heal()
        network.part(asked['cut'])
        network.each([way for way in network.ways() if {*way} & {*asked['slow']}], delay=asked['milliseconds'] / 1000)

    def ask(self, **settings):
        """Changes what the network does. Returns when it does that, or at once if it doesn't run: then it does that from its next start on."""
        text = json.dumps({**self.asked(), **settings})
        write(self.path('network.json'), text)
        wait_until(lambda: self.network_process.pid() is None or read(self.path('network.done')) == text,
                   f'the network does not do what was asked after {SOON:g} s: `down` and `up` start it again')

    def known(self, ranks: list[int]) -> list[int]:
        """The ranks in order. Raises Fault at one that there isn't."""
        if strange := [rank for rank in ranks if rank >= self.count]:
            raise Fault(f'there is no monitor {strange[0]}: the ranks are 0 to {self.count - 1}')
        return sorted({*ranks})

    def cut(self, ranks: list[int]):
        self.ask(cut=self.known(ranks))

    def slow(self, milliseconds: int, ranks: list[int]):
        self.ask(milliseconds=milliseconds, slow=self.known(ranks or list(range(self.count))))

    def heal(self):
        self.ask(cut=[], milliseconds=0, slow=[])

    # ---- commands

    def kill(self, rank: int) -> str:
        self.known([rank])
        if self.monitors[rank].pid() is None:
            raise Fault(f'monitor {rank} does not run')
        self.monitors[rank].kill()
        return f'monitor {rank} is killed'

    def start(self, rank: int) -> str:
        self.known([rank])
        process = self.monitors[rank]
        if process.pid() is not None:
            raise Fault(f'monitor {rank} runs already')
        self.start_network()
        self.begin(rank)
        wait_until(lambda: process.pid() is None or answers([('127.0.0.1', port) for port in self.ports], rank), f'monitor {rank} does not answer after {SOON:g} s')
        if process.pid() is None:
            raise Fault(f'monitor {rank} has ended: {self.last_line(rank)}', FAILED)
        return f'monitor {rank} runs'

    def wipe(self, rank: int) -> str:
        """Lets a monitor come back as an empty one, which is safe only after the others made a write without it."""
        self.known([rank])
        others = [other for other in range(self.count) if other != rank and self.monitors[other].pid() is not None]
        if 2 * len(others) <= self.count:
            raise Fault(f'{len(others)} other monitors run, which are no majority of {self.count}: without one nothing is left to copy')
        self.monitors[rank].kill()
        print(f'monitor {rank} is stopped; the others elect and make a write without it', flush=True)
        try:
            with self.client(timeout=WRITES) as client:
                client.log(f'monitor {rank} is without its store')
            self.empty(rank)
            print(f'its files are empty; it starts, and copies the store of another one: {self.start(rank)}', flush=True)
            with self.client(monitor=rank, timeout=WRITES) as client:
                version = client.show('kv')['paxos']
        except NotServed as why:
            raise Fault(f'{why}; see `status` and `log {rank}`', FAILED) from None
        return f'monitor {rank} serves, with version {version}'

    def empty(self, rank: int):
        """Moves the files of a store away, and makes empty ones in their place."""
        away = next(path for number in itertools.count(1) if not os.path.exists(path := self.path(str(rank), f'lost.{number}')))
        os.makedirs(away)
        for side in 'ab':
            file = self.path(str(rank), side)
            if os.path.lexists(file):
                os.replace(file, os.path.join(away, side))
            os.close(os.open(file, os.O_WRONLY | os.O_CREAT, 0o600))

    def status(self) -> int:
        """Prints the status of the quorum, and what the lab does to it."""
        done = subprocess.run([sys.executable, os.path.join(HERE, 'status'), '--translated', '--config', self.config], stdin=subprocess.DEVNULL)
        for rank, process in enumerate(self.monitors):
            if process.pid() is None:
                print(f'monitor {rank} does not run: start {rank}')
        asked = self.asked()
        if asked['cut']:
            print(f'the network cuts off {",".join(map(str, asked["cut"]))}: heal ends it')
        if asked['milliseconds']:
            print(f'messages of {",".join(map(str, asked["slow"]))} take {asked["milliseconds"]} ms: heal ends it')
        return done.returncode

    def log(self, rank: int | None) -> str:
        ranks = range(self.count) if rank is None else self.known([rank])
        return ''.join(f'{each}: {line}\n' if rank is None else f'{line}\n' for each in ranks for line in read(self.path(f'{each}.log')).splitlines())

    def down(self):
        for process in [*self.monitors, self.network_process]:
            process.kill()
        print(f'all are stopped; {self.folder} stays, with the stores')
