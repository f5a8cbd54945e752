"""The client's dumps: from a quorum of three into one of one monitor, which is empty at first."""
from __future__ import annotations

import json
import os
import subprocess
import threading

from checking import LONG, PATIENT, PATIENTLY, TOOLS, Failed, equal, until
from cephmon import NotServed, dumps


def command(*words, answer: bytes = b''):
    """Runs the client on these arguments. Returns its status, standard output and standard error."""
    done = subprocess.run([os.path.join(TOOLS, 'client.py'), *PATIENTLY, *words], timeout=2 * LONG, input=answer, stdout=subprocess.PIPE, stderr=subprocess.PIPE)
    return done.returncode, done.stdout.decode(), done.stderr.decode()


def is_empty(quorum) -> bool:
    """Whether a quorum serves in which nothing was ever written."""
    with quorum.client(timeout=1) as client:
        try:
            client.show('kv')
        except NotServed as why:
            return 'NotReadable' in why.outcomes.values()
        return False


class Dumping:
    """Two running quorums, and a folder for files."""

    def __init__(self, quorum, empty, folder: str):
        self.quorum, self.empty, self.folder = quorum, empty, folder
        self.places = [','.join(f'{host}:{port}' for host, port in it.addresses) for it in (quorum, empty)]
        self.file = self.path('first')
        self.writes('first')
        until(lambda: is_empty(empty), lambda found: found)

    def path(self, name: str) -> str:
        return os.path.join(self.folder, name)

    def load(self, *words, answer: bytes = b'yes\n', file: str | None = None):
        return command(self.places[1], 'load', *words, file or self.file, answer=answer)

    def changed(self, name: str, **members) -> str:
        """A file with the dump, in which these members are others and the digest is right."""
        with open(self.file, encoding='ascii') as file:
            fields = {**json.load(file), **members}
        with open(self.path(name), 'w', encoding='ascii') as file:
            json.dump({**fields, 'digest': dumps.digest_of(fields)}, file)
        return self.path(name)

    def writes(self, name: str):
        """Writes some keys and texts, and a dump of them."""
        with self.quorum.client(**PATIENT) as client:
            client.set('words', 'grün, "and"\nmore')
            for text in ('before the dump', 'grün'):
                client.log(text)
        return command(self.places[0], 'dump', '--fresh', self.path(name))

    def writes_a_dump(self):
        self.file = self.path('dump')
        status, output, errors = self.writes('dump')
        with self.quorum.client(**PATIENT) as client:
            kv, log = (client.show(service, json.loads(output)['paxos']) for service in ('kv', 'log'))
        equal((status, errors, json.loads(output)), (0, '', {'file': self.file, 'paxos': kv['paxos'], 'keys': len(kv['map']), 'texts': len(log['map'])}))
        equal(dumps.read(self.file), dumps.Dump(None, kv['paxos'], *({name: it[name] for name in ('version', 'map')} for it in (kv, log))))
        equal(os.stat(self.file).st_mode & 0o777, 0o600, 'the mode')
        equal(command(self.places[0], 'dump', self.file)[::2], (2, f"client: the file '{self.file}' can't be written: File exists\n"))

    def is_of_one_version(self):
        """While a client sets a number and then logs it, the number of each dump is that of its log or the next one."""
        ended = threading.Event()

        def writes():
            with self.quorum.client(**PATIENT) as writer:
                number = 0
                while not ended.is_set():
                    number += 1
                    writer.set('number', str(number))
                    writer.log(str(number))
        with self.quorum.client(**PATIENT) as client:
            client.set('number', '0')
            client.log('0')
            writing = threading.Thread(target=writes)
            writing.start()
            try:
                for _ in range(20):
                    found = dumps.take(client)
                    number, text = int(found.keys['number']), int(found.texts[-1])
                    equal((number - text in (0, 1), found.paxos), (True, found.kv['version'] + found.log['version']), f'{number} and {text}')
            finally:
                ended.set()
                writing.join()

    def refuses_other_files(self):
        """A dump that was cut or changed, or is of another format, isn't loaded."""
        with open(self.file, 'rb') as file:
            octets = file.read()
        for name, text, part in (('half', octets[:len(octets) // 2], 'no whole dump'), ('short', octets[:-3], 'no whole dump'), ('empty', b'', 'no whole dump'),
                                 ('other', octets.replace(b'before', b'behind'), 'was changed'), ('list', b'[]', 'is no dump')):
            with open(self.path(name), 'wb') as file:
                file.write(text)
            status, output, errors = self.load(file=self.path(name))
            equal((status, output, part in errors), (2, '', True), f'{name}: {errors}')
        status, _, errors = self.load(file=self.changed('later', format='cephmon dump 2'))
        equal((status, "has the format 'cephmon dump 2'" in errors), (2, True), errors)
        for faulty in ({'version': 1, 'map': {'a b': ''}}, {'version': 1, 'map': {'a': 1}}, {'version': 1}, []):
            status, _, errors = self.load(file=self.changed('faulty', kv=faulty))
            equal((status, 'although its digest is right' in errors), (2, True), errors)
        equal(self.load(file=self.path('none'))[::2], (2, f"client: the file '{self.path('none')}' can't be read: No such file or directory\n"))

    def loads_into_an_empty_quorum(self):
        """Nothing is written without a yes. A load that ended early is completed, and one more writes nothing."""
        dump = dumps.read(self.file)
        with self.empty.client(**PATIENT) as client:
            status, output, errors = self.load(answer=b'y\n')
            equal((status, output, 'nothing was written' in errors), (1, '', True), errors)
            key = min(dump.keys)
            equal(client.set(key, dump.keys[key]), 1, 'the version of the first change')
            client.log(dump.texts[0])
            status, output, errors = self.load()
            equal((status, json.loads(output)), (0, {'keys': len(dump.keys) - 1, 'texts': len(dump.texts) - 1}), errors)
            now = dumps.take(client)
            equal((now.keys, now.texts), (dump.keys, dump.texts))
            equal(self.load(answer=b''), (0, '{"keys": 0, "texts": 0}\n', ''))
            equal(dumps.take(client), now)

    def merges_by_keys(self):
        dump = dumps.read(self.file)
        with self.empty.client(**PATIENT) as client:
            client.set('own', 'stays')
            client.set(min(dump.keys), 'another value')
            client.log('stays, too')
            status, output, errors = self.load()
            equal((status, output, '2 of its keys' in errors), (1, '', True), errors)
            equal(json.loads(self.load('--merge')[1]), {'keys': 1, 'texts': 0})
            now = dumps.take(client)
            equal((now.keys, now.texts), ({**dump.keys, 'own': 'stays'}, [*dump.texts, 'stays, too']))
            client.remove('own')
            status, output, errors = self.load()
            equal((status, output, 'its cluster log is not the beginning' in errors), (1, '', True), errors)

    def asks_for_another_quorum(self):
        other = self.changed('stranger', quorum='another')
        status, output, errors = self.load('--merge', file=other)
        if (status, output) != (1, '') or "the dump is of the quorum 'another'" not in errors:
            raise Failed(f'status {status}, {errors}')
        equal(self.load('--merge', '--other', file=other)[:2], (0, '{"keys": 0, "texts": 0}\n'))
