#!/usr/bin/env python3
"""Reads, writes and watches the maps of a quorum, over UDP. Programs use the package `cephmon`, as this command does.

usage: tools/client.py [--config FILE] [--monitor R] [--timeout SECONDS] [--patience SECONDS] [--once] [--verbose] [ADDRESSES] COMMAND

    set KEY VALUE             sets a key, and prints the version of this change
    set KEY --file FILE       sets it to the bytes of a file, or of standard input if FILE is -
    remove KEY                removes a key, and prints the version of this change
    log TEXT                  adds a text to the cluster log, and prints the version of this change
    log --file FILE           adds the text of a file, or of standard input if FILE is -
    get KEY                   prints the value of a key and a line feed; with --raw its bytes and nothing else, with --json as JSON
    keys [--raw] [PREFIX]     prints the names of all keys, or of those with this prefix; with --raw one per line
    show SERVICE              prints the map of a service, kv or log
    get, keys and show take --fresh (the map has every change that was acknowledged before the command began, whichever monitor shows it)
    or --at-least V (the map is of version V or a later one of the log of all changes; set, remove and log print such versions)
    since SERVICE VERSION     prints the changes of its map after VERSION, or the whole map if these are no longer kept
    watch SERVICE [VERSION]   prints the map, and then each change as it is made, until it is stopped; with VERSION, the changes after it
    dump FILE                 writes both maps at one version to a new file, which its owner alone can read. It takes --fresh and --at-least V, too
    load [--merge] [--other] FILE
                              writes a dump into an empty quorum, after a line `yes` on standard input. With --merge the quorum may have other keys:
                              those of the dump get its values, all else stays, and so does the cluster log. With --other it may have another name

ADDRESSES are the addresses of all monitors in order of rank, as the monitors have them: 127.0.0.1:4000,127.0.0.1:4001,127.0.0.1:4002.
Without ADDRESSES the client takes them from the file of the quorum: the one that --config or else CEPHMON_CONFIG names, or /etc/cephmon/quorum.ini. A
monitor drops a request that names another number of monitors, and the client then reports that. If a monitor is silent, Busy, Unavailable or NotReadable,
the next one is asked, until one serves the request or the timeout ends. One at whose address nobody listens is left at once, and if that is so of all
for 5 seconds, the client ends. The options stand before ADDRESSES and COMMAND. A KEY, VALUE or TEXT that begins with a hyphen
stands after `--`, as in `set -- -key value`.

A dump is read from a running quorum, and lacks what monitors keep for themselves: restore --help has the backup of a store. A load that was interrupted
may be repeated: it writes what is missing, and nothing if all is there. The texts of the cluster log get the rank of the monitor that is asked now.

An answer is one line of JSON, except that of `get`, and with --raw. The status is
    0    the request was served
    1    the monitors refuse it: no such key, too long, or the map is full. This try changed nothing. The monitor judges by the map that it would
         show, which may be as old as any map that it shows. Or a load was not confirmed, or the quorum isn't empty or is another one
    2    the arguments are faulty, or a file can't be read or written or is no dump. Nothing was changed
    3    no monitor served it in time. A change may have been made, and may still be made
    4    it was served, but standard output failed. A change was made; standard error names its version
    130  it was interrupted (ctrl-C). A change may have been made

Without --fresh, a monitor that is cut off may show an old map for some seconds. --fresh first makes two changes: it sets a key of its own, `fresh/` and
random digits, and removes it. If the client or its connection ends in between, the key stays, and may be removed.

A change without an answer is asked for again and may be made twice; a line on standard error says so if it may have happened. Setting or removing
twice leaves the same map, unless another client changed it in between. A removal that was already made is then refused as "no such key", and a text
stands in the log twice. To exclude that, use --once: the request is sent once, and status 3 means that the change may have been made. Then read, and ask
again only if it wasn't made. If the network duplicates a datagram, a change may still be made twice.
"""
from __future__ import annotations

import argparse
import dataclasses
import errno
import json
import math
import os
import socket
import sys
import time
from typing import Iterator

from cephmon import Change, Client, Error, Refused, Removed, Set, dumps, quorum_file
from cephmon.asking import PATIENCE
from cephmon.client import TIMEOUT
from cephmon.wire import MOST_NUMBER, SERVICES
from parsing import Parser

# The name in the usage: that of the call, without the folder of an installed command.
NAME = os.path.basename(sys.argv[0]) if os.path.isabs(sys.argv[0]) else sys.argv[0]
# The most bytes of a file. It is above the limits of values and texts, which the monitors judge.
MOST_FILE = 1_000_000


def addresses_of(argument: str) -> list[tuple[str, int]]:
    """The numeric hosts and the ports of an argument ADDRESSES. The address of each monitor stands at its rank."""
    found = []
    for address in argument.split(','):
        host, _, port = address.rpartition(':')
        if not host or not (port.isascii() and port.isdigit()) or not 1 <= int(port) <= 65_535:
            raise argparse.ArgumentTypeError(f"'{address}' is no HOST:PORT with a port from 1 to 65535")
        try:
            found.append((socket.gethostbyname(host), int(port)))
        except (OSError, UnicodeError) as why:
            raise argparse.ArgumentTypeError(f"the host '{host}' can't be resolved: {getattr(why, 'strerror', None) or why}") from None
    if len(found) > 15:
        raise argparse.ArgumentTypeError(f'there are at most 15 monitors, and not {len(found)}')
    return found


def seconds(argument: str) -> float:
    """A time in seconds, above 0."""
    try:
        found = float(argument)
    except ValueError:
        found = math.nan
    if not 0 < found <= 1e6:
        raise argparse.ArgumentTypeError(f"'{argument}' is no number of seconds above 0")
    return found


def number(argument: str) -> int:
    """A version of a map."""
    if not (argument.isascii() and argument.isdigit()) or int(argument) > MOST_NUMBER:
        raise argparse.ArgumentTypeError(f"'{argument}' is no version: a number from 0 to 2^62")
    return int(argument)


COMMANDS = {
    'set': ['key', 'value'],
    'remove': ['key'],
    'log': ['text'],
    'get': ['key'],
    'keys': ['prefix'],
    'show': ['service'],
    'since': ['service', 'version'],
    'watch': ['service', 'version'],
    'dump': ['path'],
    'load': ['path'],
}
CHANGES = 'set', 'remove', 'log'
READS = 'get', 'keys', 'show'
# Arguments that may be left out: a value or a text that --file gives, and those with a default.
OPTIONAL = [('set', 'value'), ('log', 'text'), ('keys', 'prefix'), ('watch', 'version')]


def command_parser() -> argparse.ArgumentParser:
    parser = Parser(prog=NAME, usage=f'{NAME} [OPTIONS] [ADDRESSES] COMMAND', add_help=False)
    commands = parser.add_subparsers(dest='command', required=True, metavar='COMMAND')
    for name, fields in COMMANDS.items():
        command = commands.add_parser(name, prog=f'{NAME} [OPTIONS] [ADDRESSES] {name}')
        for field in fields:
            how = {'choices': SERVICES} if field == 'service' else {'type': number} if field == 'version' else {}
            command.add_argument(field, nargs='?' if (name, field) in OPTIONAL else None, **how)
        if name in ('set', 'log'):
            command.add_argument('--file', metavar='FILE', help=f'take the {fields[-1]} from this file, or from standard input if it is -')
        if name == 'load':
            command.add_argument('--merge', action='store_true', help='set the keys of the dump in a quorum that has others')
            command.add_argument('--other', action='store_true', help='load it into a quorum of another name')
        if name in (*READS, 'dump'):
            bound = command.add_mutually_exclusive_group()
            bound.add_argument('--fresh', action='store_true', help='read a map that has every change that was acknowledged before')
            bound.add_argument('--at-least', type=number, default=0, metavar='V', help='read a map of version V of the log of all changes or a later one')
        if name in ('get', 'keys'):
            form = command.add_mutually_exclusive_group()
            form.add_argument('--raw', action='store_true', help='print the value alone, without a line feed' if name == 'get' else 'print no JSON, but one key per line')
            if name == 'get':
                form.add_argument('--json', action='store_true', help='print the value as JSON')
    return parser


def option_parser() -> argparse.ArgumentParser:
    text = __doc__
    line = text.split('usage: ')[1].split('\n')[0]
    parser = Parser(usage=line.replace('tools/client.py', NAME), description=text.replace(f'usage: {line}\n\n', ''),
                    formatter_class=argparse.RawDescriptionHelpFormatter)
    parser.add_argument('--config', metavar='FILE', help=f'take the addresses from the file of the quorum ({quorum_file.default()})')
    parser.add_argument('--monitor', type=int, metavar='R', help='ask this monitor alone')
    parser.add_argument('--timeout', type=seconds, default=TIMEOUT, metavar='SECONDS', help=f'how long a request may take in all ({TIMEOUT:g})')
    parser.add_argument('--patience', type=seconds, default=PATIENCE, metavar='SECONDS',
                        help=f'how long a monitor may take before the next one is asked ({PATIENCE:g})')
    parser.add_argument('--once', action='store_true', help='send the request once, to one monitor, so that a change is not made twice')
    parser.add_argument('--verbose', action='store_true', help='print on standard error who answered, in which epoch, and how long it took')
    parser.add_argument('rest', nargs=argparse.REMAINDER, metavar='[ADDRESSES] COMMAND', help='HOST:PORT,.. of all monitors, and one of the commands above')
    return parser


def quorum_given(parser: argparse.ArgumentParser, found: argparse.Namespace) -> tuple[list[tuple[str, int]], str | None]:
    """The addresses, and the name if one is known. They are taken from the arguments that are left, or else from the file."""
    if found.rest and found.rest[0] not in COMMANDS:
        if found.config is not None:
            parser.error(f"'{found.rest[0]}' is no command; with --config there are no ADDRESSES. The commands are {', '.join(COMMANDS)}")
        given = found.rest.pop(0)
        try:
            return addresses_of(given), None
        except argparse.ArgumentTypeError as why:
            parser.error(str(why) if ':' in given else f'{why}, and no command. The commands are {", ".join(COMMANDS)}')
    if not found.rest:
        parser.error('ADDRESSES and a COMMAND are missing')
    if found.config is None and not os.path.exists(quorum_file.default()):
        parser.error(f'there are neither ADDRESSES nor --config, and there is no {quorum_file.default()}')
    config = found.config or quorum_file.default()
    try:
        file = quorum_file.read(config)
        return file.addresses, file.name
    except quorum_file.Faulty as why:
        parser.error(f'{config}: {why}')


def from_file(path: str) -> bytes:
    """The bytes of a value. Raises ValueError if the file can't be read or is too long."""
    try:
        with open(0 if path == '-' else path, 'rb', closefd=path != '-') as file:
            found = file.read(MOST_FILE + 1)
    except OSError as why:
        raise ValueError(f"the file '{path}' can't be read: {why.strerror}") from None
    if len(found) > MOST_FILE:
        raise ValueError(f"the file '{path}' has more than {MOST_FILE} bytes")
    return found


def arguments() -> argparse.Namespace:
    parser = option_parser()
    found = parser.parse_args()
    found.addresses, found.name = quorum_given(parser, found)
    command_parser().parse_args(found.rest, found)
    if found.monitor is not None and not 0 <= found.monitor < len(found.addresses):
        parser.error(f'--monitor is {found.monitor}, and there are the monitors 0 to {len(found.addresses) - 1}')
    last = COMMANDS[found.command][-1]
    if found.command in ('set', 'log') and (getattr(found, last) is None) == (found.file is None):
        parser.error(f'{found.command} takes either the {last} or --file FILE')
    return found


def dumped(client: Client, path: str, fresh: bool, at_least: int) -> dict:
    """Writes a dump. Raises ValueError if the file can't be written."""
    found = dumps.take(client, fresh, at_least)
    try:
        dumps.write(path, found)
    except OSError as why:
        raise ValueError(f"the file '{path}' can't be written: {why.strerror}") from None
    return {'file': path, 'paxos': found.paxos, 'keys': len(found.keys), 'texts': len(found.texts)}


def loaded(client: Client, path: str, merge: bool, other: bool) -> dict:
    """Loads a dump after it was confirmed. Raises ValueError if the file can't be read or is no dump, and Unfit."""
    try:
        dump = dumps.read(path)
    except OSError as why:
        raise ValueError(f"the file '{path}' can't be read: {why.strerror}") from None
    what = dumps.lacking(dump, dumps.seen(client), merge, other)
    if any(what):
        say(f'{path} has {dump.counted()} of {dumps.named(dump.quorum)}, of version {dump.paxos}. This load {what.counted()} of '
            f'{dumps.named(client.settings.name)}, one after the other, while clients may see a part. yes or no?')
        if (sys.stdin.readline() if sys.stdin else '').strip() != 'yes':
            raise dumps.Unfit('not confirmed by a line `yes`; nothing was written')
        # what was shown before may be old
        what = dumps.lacking(dump, dumps.take(client, fresh=True), merge, other)
        dumps.load(client, what)
        if not merge and dumps.take(client).texts != dump.texts:
            say('the cluster log is not that of the dump: a text may stand twice whose first try had no answer, or another client added one')
    return {'keys': len(what.keys), 'texts': len(what.texts)}


def answers(client: Client, asked: argparse.Namespace) -> Iterator:
    """What a command prints, line by line."""
    if asked.command == 'dump':
        yield dumped(client, asked.path, asked.fresh, asked.at_least)
        return
    if asked.command == 'load':
        yield loaded(client, asked.path, asked.merge, asked.other)
        return
    # Keys, values and texts are passed on as the bytes that were given, whatever the locale is.
    fields = [os.fsencode(value) if field in ('key', 'value', 'text') and value is not None else value
              for field, value in ((field, getattr(asked, field)) for field in COMMANDS[asked.command])]
    if getattr(asked, 'file', None) is not None:
        fields[-1] = from_file(asked.file)
    fields = [field for field in fields if field is not None]
    if asked.command == 'watch':
        yield from map(shown, client.watch(*fields))
    elif asked.command in READS:
        yield getattr(client, asked.command)(*fields, fresh=asked.fresh, at_least=asked.at_least)
    else:
        yield getattr(client, asked.command)(*fields)


def shown(change: Change) -> dict:
    """A change as its line has it."""
    if isinstance(change, Set):
        return {'version': change.version, 'set': change.key, 'value': change.value}
    if isinstance(change, Removed):
        return {'version': change.version, 'remove': change.key}
    return {name: value for name, value in dataclasses.asdict(change).items() if name != 'paxos'}


def explained(client: Client, began: float) -> str:
    """Who answered the last request, in which epoch, after how many tries and how long."""
    tries = f'{client.tries} {"try" if client.tries == 1 else "tries"}, {time.monotonic() - began:.3f} s'
    return f'monitor {client.reply.rank}, epoch {client.reply.epoch}, {tries}' if client.reply else f'nobody, {tries}'


def say(text: str):
    """Prints a line on standard error, if that can be written."""
    try:
        print(f'client: {text}', file=sys.stderr, flush=True)
    except OSError:
        pass


def put(answer, asked: argparse.Namespace):
    """Prints an answer. Raises OSError if standard output can't be written."""
    if sys.stdout is None:
        raise OSError(errno.EBADF, 'it is closed')
    raw = getattr(asked, 'raw', False)
    if not raw and (asked.command != 'get' or asked.json):
        print(json.dumps(answer), flush=True)
        return
    text = ''.join(f'{key}\n' for key in answer) if not isinstance(answer, str) else answer if raw else f'{answer}\n'
    sys.stdout.buffer.write(text.encode())
    sys.stdout.buffer.flush()


def warn_of_doubles(client: Client, asked: argparse.Namespace):
    """Warns if a change was sent more than once, so that it may be made more than once."""
    if asked.command in CHANGES and client.silent and client.tries > 1:
        say(f'{client.tries} tries were sent, and {client.silent} had no answer, so this may be made more than once; --once sends one')


def main() -> int:
    asked = arguments()
    with Client(asked.addresses, asked.monitor, timeout=asked.timeout, patience=asked.patience, once=asked.once, name=asked.name) as client:
        began, answer = time.monotonic(), None
        try:
            for answer in answers(client, asked):
                if asked.verbose:
                    say(explained(client, began))
                warn_of_doubles(client, asked)
                put(answer, asked)
        except (Error, ValueError, dumps.Unfit) as why:
            if asked.verbose and client.tries:
                say(explained(client, began))
            say(str(why))
            warn_of_doubles(client, asked)
            if asked.command == 'load' and isinstance(why, Error):
                say('a part of the dump may be written; another load writes the rest')
            return 1 if isinstance(why, (Refused, dumps.Unfit)) else 3 if isinstance(why, Error) else 2
        except OSError as why:
            # The answer is known, so the output failed. Python must write nothing more there, not even at its end.
            os.dup2(os.open(os.devnull, os.O_WRONLY), 1)
            made = f'the change is made, as version {answer}' if isinstance(answer, int) else 'the request was served'
            say(f'{made}; standard output failed: {why.strerror}')
            return 4
    return 0


if __name__ == '__main__':
    try:
        sys.exit(main())
    except KeyboardInterrupt:
        sys.exit(130)
