"""A quorum of real ceph-mon on 127.0.0.1: started, paused, killed, cut from one another, and asked. What was started is ended by its process ID."""
from __future__ import annotations

import datetime
import json
import os
import shutil
import signal
import subprocess
import threading
import time

from links import Links, library

HERE = os.path.dirname(os.path.abspath(__file__))
FSID = '7e0d5a2e-1111-4222-8333-444455557777'
DETAILED = 'debug_mon = 20\ndebug_paxos = 20\ndebug_ms = 1\nlog_coarse_timestamps = false\n'
CONFIGURATION = """[global]
fsid = {fsid}
auth_cluster_required = none
auth_service_required = none
auth_client_required = none
mon_host = {hosts}
mon_initial_members = {names}
ms_bind_msgr2 = {second}
log_file = {folder}/$name.log
admin_socket = {folder}/$name.asok
run_dir = {folder}
mon_data = {folder}/mon.$id
pid_file = {folder}/$name.pid
{more}"""
# The health of a quorum of few monitors on a full disk then doesn't change by itself.
CALM = 'mon_warn_on_insecure_global_id_reclaim_allowed = false\nmon_data_avail_warn = 2\nmon_data_avail_crit = 1\n'


def now() -> str:
    """The time as logs have it."""
    return datetime.datetime.now(datetime.timezone.utc).strftime('%Y-%m-%dT%H:%M:%S.%f+0000')


def is_still(pid: int) -> bool:
    """Whether each thread of a process is stopped by a signal, or has ended."""
    states = []
    for task in os.listdir(f'/proc/{pid}/task'):
        try:
            with open(f'/proc/{pid}/task/{task}/stat', encoding='ascii', errors='replace') as file:
                states.append(file.read().rpartition(') ')[2][:1])
        except FileNotFoundError:
            pass
    return all(state in 'TtXZ' for state in states)


class Late(Exception):
    """Something that a scenario waits for didn't happen in time."""


class Client:
    """A process that asks the monitors, or one of them."""

    def __init__(self, configuration: str):
        self.process = subprocess.Popen(['/usr/bin/python3', os.path.join(HERE, 'client.py'), configuration], stdin=subprocess.PIPE,
                                        stdout=subprocess.PIPE, stderr=subprocess.DEVNULL, text=True)
        self.answers: dict[int, dict] = {}
        self.number, self.arrived = 0, threading.Condition()
        threading.Thread(target=self.read, daemon=True).start()
        self.answer(0, 90)

    def read(self):
        for line in self.process.stdout:
            found = json.loads(line)
            with self.arrived:
                self.answers[found['id']] = found
                self.arrived.notify_all()

    def ask(self, **command) -> int:
        self.number += 1
        self.process.stdin.write(json.dumps({'id': self.number, 'ask': command}) + '\n')
        self.process.stdin.flush()
        return self.number

    def answer(self, number: int, seconds: float = 120) -> dict:
        with self.arrived:
            if not self.arrived.wait_for(lambda: number in self.answers, seconds):
                raise Late(f'no answer to request {number} in {seconds} s')
            return self.answers[number]

    def end(self):
        self.process.kill()
        self.process.wait()


class Monitors:
    """Monitors named a, b, c .., with ranks in this order. `programs` is the folder of ceph-mon and monmaptool, or empty for those on the path."""

    def __init__(self, folder: str, port: int, count: int = 3, more: str = '', levels: str = DETAILED, second: bool = False, apart: bool = False,
                 programs: str = '', command: tuple[str, ...] = (), health: str = CALM):
        self.folder, self.names, self.programs = folder, 'abcdefghijklmno'[:count], programs
        shutil.rmtree(folder, ignore_errors=True)
        os.makedirs(folder)
        self.ports = {name: port + 2 * at for at, name in enumerate(self.names)}
        self.running: dict[str, subprocess.Popen] = {}
        self.clients: dict[str, Client] = {}
        self.actions: list[str] = []
        self.command = command
        self.second = second
        self.links = Links(self.ports, port + 2 * count) if apart else None
        self.library = library(folder) if apart else ''
        self.configure(health + more + levels)

    def path(self, *names: str) -> str:
        return os.path.join(self.folder, *names)

    def program(self, name: str) -> list[str]:
        return [*self.command, os.path.join(self.programs, name) if self.programs else name]

    def configure(self, more: str):
        addresses = {name: f'[v2:127.0.0.1:{port},v1:127.0.0.1:{port + 1}]' if self.second else f'[v1:127.0.0.1:{port}]' for name, port in self.ports.items()}
        hosts = ','.join(addresses.values())
        text = CONFIGURATION.format(fsid=FSID, hosts=hosts, names=','.join(self.names), second=str(self.second).lower(), folder=self.folder, more=more)
        self.write('ceph.conf', text)
        kept = [line for line in text.splitlines() if not line.startswith(('debug_', 'log_file', 'admin_socket'))]
        for name in ('', *self.names):
            host = addresses[name] if name else hosts
            lines = [f'mon_host = {host}' if line.startswith('mon_host') else line for line in kept]
            self.write(f'client{name}.conf', '\n'.join([*lines, 'log_file = /dev/null', '']))
        adds = [word for name, address in addresses.items() for word in ('--addv', name, address)]
        self.run('monmaptool', '--create', '--fsid', FSID, *adds, self.path('monmap'))
        for name in self.names:
            self.run('ceph-mon', '-c', self.path('ceph.conf'), '-i', name, '--mkfs', '--monmap', self.path('monmap'), '--log-file', '/dev/null')

    def write(self, name: str, text: str):
        with open(self.path(name), 'w', encoding='ascii') as file:
            file.write(text)

    def run(self, *words: str):
        subprocess.run([*self.program(words[0]), *words[1:]], check=True, stdout=subprocess.DEVNULL, stderr=subprocess.DEVNULL, timeout=300)

    # -- acts

    def note(self, text: str):
        self.actions.append(f'{now()} {text}')

    def start(self, names: str):
        for name in names:
            self.note(f'start {name}')
            environment = dict(os.environ)
            if self.links is not None:
                environment.update(LD_PRELOAD=self.library, APART_PORTS=self.links.of(name), APART_SLOW=self.path(f'slow.{name}'))
            with open(self.path(f'errors.{name}'), 'ab') as errors:
                self.running[name] = subprocess.Popen([*self.program('ceph-mon'), '-c', self.path('ceph.conf'), '-i', name, '-f'], env=environment,
                                                      stdout=subprocess.DEVNULL, stderr=errors)

    def signal(self, names: str, number: int):
        for name in names:
            self.note(f'{signal.Signals(number).name} {name}')
            self.running[name].send_signal(number)
        if number in (signal.SIGKILL, signal.SIGTERM):
            for name in names:
                self.running.pop(name).wait(60)

    def kill(self, names: str):
        self.signal(names, signal.SIGKILL)

    def pause(self, names: str):
        """Pauses monitors, and waits until each thread of them stands still: on a busy machine this takes milliseconds."""
        self.signal(names, signal.SIGSTOP)
        end = time.monotonic() + 10
        while not all(is_still(self.running[name].pid) for name in names):
            if time.monotonic() > end:
                raise Late(f'{names} go on after SIGSTOP')
            time.sleep(0.0005)

    def resume(self, names: str):
        self.signal(names, signal.SIGCONT)

    def slow(self, name: str, milliseconds: int):
        """Makes each sync of a monitor take longer."""
        self.note(f'each sync of {name} takes {milliseconds} ms longer')
        self.write(f'slow.{name}', str(milliseconds))

    def hold(self, *directions: tuple[str, str]):
        self.note('held: ' + ', '.join(f'{a} to {b}' for a, b in directions))
        self.links.hold(*directions)

    def free(self, *directions: tuple[str, str]):
        self.note('passed on: ' + ', '.join(f'{a} to {b}' for a, b in directions))
        self.links.free(*directions)

    def delay(self, seconds: float, *directions: tuple[str, str]):
        self.note(f'{seconds} s later: ' + ', '.join(f'{a} to {b}' for a, b in directions))
        self.links.delay(seconds, *directions)

    def wait(self, seconds: float):
        self.note(f'wait {seconds}')
        time.sleep(seconds)

    # -- clients

    def client(self, at: str = '') -> Client:
        """The client of one monitor, or of all."""
        if at not in self.clients:
            self.clients[at] = Client(self.path(f'client{at}.conf'))
        return self.clients[at]

    def leave(self, at: str = ''):
        """Ends the client of one monitor, or of all."""
        if at in self.clients:
            self.clients.pop(at).end()

    def ask(self, at: str = '', **command) -> dict:
        self.note(f'ask {at or "any"}: {json.dumps(command)}')
        client = self.client(at)
        found = client.answer(client.ask(**command))
        self.note(f'answer {found["status"]} {found["text"]}')
        return found

    def ask_only(self, at: str = '', **command) -> tuple[Client, int]:
        """Asks, and doesn't wait for the answer."""
        self.note(f'ask {at or "any"}, without waiting: {json.dumps(command)}')
        client = self.client(at)
        return client, client.ask(**command)

    def sets(self, count: int, at: str = '', key: str = 'k'):
        self.note(f'{count} sets of {key}')
        client = self.client(at)
        for number in range(count):
            client.answer(client.ask(prefix='config-key set', key=f'{key}{number}', val=f'v{number}'))

    def set_only(self, key: str, at: str = '') -> tuple[Client, int]:
        return self.ask_only(at, prefix='config-key set', key=key, val='x')

    def status(self, name: str) -> dict:
        try:
            done = subprocess.run(['ceph', '--admin-daemon', self.path(f'mon.{name}.asok'), 'mon_status'], stdout=subprocess.PIPE, stderr=subprocess.DEVNULL,
                                  timeout=60)
            return json.loads(done.stdout)
        except (subprocess.SubprocessError, ValueError):
            return {}

    def daemon(self, name: str, *command: str):
        """Asks a monitor by its admin socket."""
        self.note(f'admin socket of {name}: {" ".join(command)}')
        subprocess.run(['ceph', '--admin-daemon', self.path(f'mon.{name}.asok'), *command], check=True, stdout=subprocess.DEVNULL, stderr=subprocess.DEVNULL,
                       timeout=60)

    def until_quorum(self, size: int | None = None, seconds: float = 120):
        """Waits for a quorum of this size, or of all."""
        wanted, end = size or len(self.names), time.monotonic() + seconds
        while time.monotonic() < end:
            for name in list(self.running):
                found = self.status(name)
                if len(found.get('quorum', [])) >= wanted and found.get('state') in ('leader', 'peon'):
                    self.note(f'quorum {found["quorum"]} of epoch {found["election_epoch"]}')
                    return
            time.sleep(1)
        raise Late(f'no quorum of {wanted} in {seconds} s')

    def end(self):
        for client in self.clients.values():
            client.end()
        for process in self.running.values():
            process.send_signal(signal.SIGCONT)
            process.terminate()
        for process in self.running.values():
            try:
                process.wait(30)
            except subprocess.TimeoutExpired:
                process.kill()
                process.wait()
        if self.links is not None:
            self.links.close()
