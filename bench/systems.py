"""Three members each of Cephmon, etcd and Ceph's monitors on this machine, and what bench/peers asks of them."""
from __future__ import annotations

import concurrent.futures
import json
import os
import shutil
import subprocess
import sys
import time

from asking import KEYS, Calls, Datagrams, Refused, many, waits
from quorum import Quorum

PATIENCE, PATIENT = 0.5, 60
FSID = '7e0d5a2e-1111-4222-8333-444455556666'
CEPH = """[global]
fsid = {fsid}
auth_cluster_required = none
auth_service_required = none
auth_client_required = none
mon_host = {hosts}
mon_initial_members = a,b,c
ms_bind_msgr2 = false
log_file = {folder}/$name.log
admin_socket = {folder}/$name.asok
run_dir = {folder}
pid_file = {folder}/$name.pid
"""


class System:
    """Three members, each with a folder, and a client of the leader."""

    def measure_change(self, number: int) -> float:
        return waits(self.client, self.client.change, number)

    def measure_read(self, number: int) -> float:
        return waits(self.client, self.client.read, number)

    def many(self, count: int, seconds: float) -> list[float]:
        """How long changes take that this number of clients make for so long."""
        clients = [self.client_of(self.leader, 20) for _ in range(count)]
        try:
            return many(clients, seconds)
        finally:
            for client in clients:
                client.socket.close()

    def change_anywhere(self, number: int):
        """Makes a change, by any member that serves."""
        end, member = time.monotonic() + PATIENT, self.leader
        while True:
            try:
                client = self.client_of(member, PATIENCE)
                try:
                    waits(client, client.change, number)
                    return
                finally:
                    client.socket.close()
            except (OSError, Refused):
                member = (member + 1) % 3
                if time.monotonic() > end:
                    raise
                time.sleep(0.01)

    def ask_leader(self):
        """Finds the leader, and makes its client."""
        if self.client is not None:
            self.client.socket.close()
        self.leader = self.found()
        self.client = self.client_of(self.leader, 20)


class Apart(Quorum):
    """Monitors whose files are in folders of their own."""

    def __init__(self, program: str, folders: list[str]):
        super().__init__(program, folders[0])
        self.folders = folders

    def files(self, rank: int) -> list[str]:
        return [os.path.join(self.folders[rank], f'store{rank}.{side}') for side in 'ab']


class Cephmon(System):
    name, reads = 'cephmon', 'the whole map'

    def __init__(self, folders: list[str], program: str):
        self.quorum, self.client, self.leader = Apart(program, folders), None, 0
        self.quorum.start_all()
        self.change_anywhere(0)
        self.ask_leader()

    @staticmethod
    def lacks() -> str | None:
        return None

    def client_of(self, member: int, patience: float) -> Datagrams:
        return Datagrams(self.quorum.addresses[member], patience)

    def found(self) -> int:
        """The leader, which is the first of all that run."""
        return 0

    def processes(self) -> list:
        return [self.quorum.running[rank] for rank in self.quorum.ranks()]

    def start_again(self):
        del self.quorum.running[self.leader]
        self.quorum.start(self.leader)

    def close(self):
        for process in self.quorum.running.values():
            process.kill()
            process.wait()


def older(build: str) -> type[Cephmon]:
    """Monitors of another build."""
    class Before(Cephmon):
        name = 'before'

        def __init__(self, folders: list[str], _: str):
            super().__init__(folders, build)
    return Before


class Daemons(System):
    """Members that are processes of another system."""

    def __init__(self, commands: list[list[str]]):
        self.client, self.leader, self.commands = None, 0, commands
        self.running = [self.begin(command) for command in commands]

    @staticmethod
    def begin(command: list[str]) -> subprocess.Popen:
        return subprocess.Popen(command, stdin=subprocess.DEVNULL, stdout=subprocess.DEVNULL, stderr=subprocess.DEVNULL)

    def processes(self) -> list:
        return self.running

    def start_again(self):
        self.running[self.leader] = self.begin(self.commands[self.leader])

    def close(self):
        for process in self.running:
            process.kill()
            process.wait()


class Etcd(Daemons):
    name, reads = 'etcd', 'one key, linearizable'

    def __init__(self, folders: list[str], program: str):
        members = ','.join(f'n{k}=http://127.0.0.1:{k}2380' for k in (1, 2, 3))
        super().__init__([['etcd', '--name', f'n{k}', '--data-dir', f'{folder}/n{k}', '--listen-peer-urls', f'http://127.0.0.1:{k}2380',
                           '--initial-advertise-peer-urls', f'http://127.0.0.1:{k}2380', '--listen-client-urls', f'http://127.0.0.1:{k}2379',
                           '--advertise-client-urls', f'http://127.0.0.1:{k}2379', '--initial-cluster', members, '--initial-cluster-state', 'new',
                           '--log-level', 'error'] for k, folder in zip((1, 2, 3), folders)])
        self.change_anywhere(0)
        self.ask_leader()

    @staticmethod
    def lacks() -> str | None:
        return lacking('etcd', 'etcdctl')

    def client_of(self, member: int, patience: float) -> Calls:
        return Calls(('127.0.0.1', 10_000 * (member + 1) + 2379), patience)

    def found(self) -> int:
        answer = subprocess.run(['etcdctl', '--endpoints', ','.join(f'127.0.0.1:{k}2379' for k in (1, 2, 3)), 'endpoint', 'status', '-w', 'json'],
                                capture_output=True, text=True, env={**os.environ, 'ETCDCTL_API': '3'}, check=True).stdout
        members = [member['Status'] for member in json.loads(answer)]
        leader = next(status['leader'] for status in members)
        return next(k for k, status in enumerate(members) if status['header']['member_id'] == leader)


class Ceph(Daemons):
    """Its client is librados, whose time is in the figures."""
    name, reads = 'ceph', 'one key'

    def __init__(self, folders: list[str], program: str):
        import rados
        hosts = [f'127.0.0.1:{k}6789' for k in (1, 2, 3)]
        conf, monmap = f'{folders[0]}/ceph.conf', f'{folders[0]}/monmap'
        with open(conf, 'w', encoding='ascii') as file:
            file.write(CEPH.format(fsid=FSID, hosts=','.join(hosts), folder=folders[0]))
        members = [word for name, host in zip('abc', hosts) for word in ('--addv', name, f'[v1:{host}]')]
        subprocess.run(['monmaptool', '--create', '--fsid', FSID, *members, monmap], check=True, capture_output=True)
        commands = [['ceph-mon', '-c', conf, '-i', name, '--mon-data', f'{folder}/mon.{name}'] for name, folder in zip('abc', folders)]
        for command in commands:
            subprocess.run([*command, '--mkfs', '--monmap', monmap], check=True, capture_output=True)
        super().__init__([[*command, '-f'] for command in commands])
        self.cluster = rados.Rados(conffile=conf, name='client.admin')
        self.cluster.connect(timeout=PATIENT)
        self.ask_leader()

    @staticmethod
    def lacks() -> str | None:
        return lacking('ceph-mon', 'monmaptool', module='rados')

    def command(self, **words) -> bytes:
        status, answer, why = self.cluster.mon_command(json.dumps(words), b'', timeout=PATIENT)
        if status:
            raise RuntimeError(why)
        return answer

    def measure_change(self, number: int) -> float:
        began = time.perf_counter()
        self.command(prefix='config-key set', key=f'k{number % KEYS}', val=f'v{number}')
        return time.perf_counter() - began

    def measure_read(self, number: int) -> float:
        began = time.perf_counter()
        self.command(prefix='config-key get', key=f'k{number % KEYS}')
        return time.perf_counter() - began

    def many(self, count: int, seconds: float) -> list[float]:
        def one(member: int) -> list[float]:
            times, end = [], time.perf_counter() + seconds
            while time.perf_counter() < end:
                times.append(self.measure_change(member))
            return times
        with concurrent.futures.ThreadPoolExecutor(count) as pool:
            return [took for times in pool.map(one, range(count)) for took in times]

    def change_anywhere(self, number: int):
        self.measure_change(number)

    def ask_leader(self):
        self.leader = 'abc'.index(json.loads(self.command(prefix='quorum_status', format='json'))['quorum_leader_name'])

    def close(self):
        self.cluster.shutdown()
        super().close()


def lacking(*programs: str, module: str | None = None) -> str | None:
    """What is not installed, or None."""
    for program in programs:
        if not shutil.which(program):
            return program
    try:
        if module:
            __import__(module)
    except ImportError:
        return f'the module {module} of {sys.executable}'
    return None


SYSTEMS = {system.name: system for system in (Cephmon, Etcd, Ceph)}
