#!/usr/bin/env python3
"""Plays schedules through the definitions, and compares their traces with those of a program. README.md beside it says how.

usage: run.py parse
       run.py replay < SCHEDULE > TRACE
       run.py javascript > PROGRAM.js
       run.py calm MONITORS..
       run.py PROGRAM file SCHEDULE
       run.py PROGRAM PROFILE FIRST_SEED COUNT EVENTS
"""
from __future__ import annotations

import gc
import os
import subprocess
import sys
import time
import traceback
from typing import Callable, Dict, List, Optional, Tuple

sys.path.insert(0, os.path.dirname(os.path.abspath(__file__)))
import loaded  # noqa: E402
from calm import calm, orders_of  # noqa: E402
from judging import unsafe  # noqa: E402
from plays import KINDS, Play, played  # noqa: E402

# How a replay ends, by the program's status: with the schedule, or for this reason.
STATUSES: Dict[int, Optional[str]] = {0: None, 10: 'Spent', 13: 'Full'}
FOLDERS = 'mon_msg/specs/Protocol', 'mon_msg/specs', 'quorum_model/specs', 'mon_world/specs'


def reason_of(play: Play) -> Optional[str]:
    """Why a run stopped, or None."""
    return play.stop.name if play.stop else None


def status_of(play: Play) -> int:
    """The program's status after a run."""
    return next(status for status, name in STATUSES.items() if name == reason_of(play))


def compared(program: str, schedule: str, play: Play, name: str) -> bool:
    """Whether a played schedule's trace is the program's, and its last world is safe."""
    done = subprocess.run([program, 'replay'], input=schedule.encode(), stdout=subprocess.PIPE, stderr=subprocess.PIPE)
    found, wanted = play.ended(), done.stdout.decode()
    if found == wanted and done.returncode == status_of(play):
        bad = unsafe(play.world, play.n, play.writes)
        loaded.forget()
        if bad:
            print('UNSAFE', name, bad)
        return not bad
    print_difference(name, found.split('\n'), wanted.split('\n'))
    print('status', done.returncode, 'stop', play.stop)
    return False


def print_difference(name: str, found: List[str], wanted: List[str]) -> None:
    """Prints the first line that differs, and the lines before it."""
    place = next((place for place, (one, other) in enumerate(zip(found, wanted)) if one != other), min(len(found), len(wanted)))
    print('DIFF', name, 'line', place + 1)
    for title, lines in (('definitions', found), ('program    ', wanted)):
        print(' ', title, lines[place][:300] if place < len(lines) else 'ends here')
    for line in wanted[max(0, place - 6):place]:
        print('      ', line[:200])


Played = Tuple[str, Play]


def all_compared(program: str, name: str, first: int, count: int, play_of: Callable[[int], Played]) -> bool:
    """Plays schedule after schedule, and reports each one as soon as it is compared."""
    good, began = 0, time.time()
    for seed in range(first, first + count):
        good += one_compared(program, name, seed, play_of)
    print(name, 'same', good, 'of', count, f'{time.time() - began:.1f}s')
    for kind, times in sorted(KINDS.items()):
        print('  ', times, kind)
    return good == count


def one_compared(program: str, name: str, seed: int, play_of: Callable[[int], Played]) -> bool:
    began, schedule, is_same = time.time(), '', False
    try:
        schedule, play = play_of(seed)
        is_same = compared(program, schedule, play, f'{name}_{seed}')
        said, seconds = 'same' if is_same else 'DIFFERS', f'{time.time() - began:.1f}s'
        print(name, seed, said, 'monitors', play.n, 'events', play.events, 'log', len(play.world.log), seconds, flush=True)
    except Exception:
        traceback.print_exc(limit=6)
        print('EXC', name, seed, flush=True)
    if not is_same and schedule:
        with open(f'diff_{name}_{seed}.txt', 'w', encoding='utf-8') as file:
            file.write(schedule)
    return is_same


def parse() -> None:
    """Reads every file of definitions of the protocol and of the world, and prints how many definitions of each were read."""
    files, types = 0, 0
    for folder in FOLDERS:
        for name in sorted(os.listdir(os.path.join(loaded.ROOT, folder))):
            if name.endswith('.antt') and name != 'Lib.antt':
                module = loaded.Loaded.program.library.module((folder + '/' + name[:-5]).replace('/', '.'))
                definitions, faults = module.definitions() if module else ([], [])
                files, types = files + 1, types + len(faults)
                left = ', and without ' + ', '.join(name for name, _ in faults) if faults else ''
                print(f'{folder}/{name}: {len(definitions)} definitions{left}')
    print(f'all {files} files read; {types} names are types, which are not computed')


def compare(program: str, profile: str, words: List[str]) -> bool:
    """Plays the schedule of a file, random ones, or those that the program generates, and compares them with the program."""
    if profile == 'file':
        with open(words[0], encoding='utf-8') as file:
            schedule = file.read()
        return all_compared(program, 'file', 0, 1, lambda seed: (schedule, played(schedule)))
    first, count, events = map(int, words)
    if profile in ('small', 'big'):
        import fuzz
        return all_compared(program, profile, first, count, lambda seed: fuzz.schedule_of(seed, events, profile))

    def generated(seed: int) -> Played:
        made = subprocess.run([program, 'gen', str(seed), str(events), profile], stdout=subprocess.PIPE, check=True)
        return made.stdout.decode(), played(made.stdout.decode())
    return all_compared(program, profile, first, count, generated)


def replay() -> int:
    """Writes the trace of the schedule on standard input. The status is that of the program."""
    gc.disable()  # A run makes no cycles that matter.
    play = played(sys.stdin.read())
    sys.stdout.write(play.ended())
    return status_of(play)


def main(words: List[str]) -> int:
    if words == ['parse']:
        parse()
        return 0
    if words == ['replay']:
        return replay()
    if words == ['javascript']:
        import bundled
        sys.stdout.write(bundled.program())
        return 0
    if words[:1] == ['calm']:
        return 0 if all([calm(n, orders) for n in map(int, words[1:]) for orders in ([], orders_of(n))]) else 1
    if len(words) != (3 if words[1:2] == ['file'] else 5):
        print(__doc__, file=sys.stderr)
        return 2
    return 0 if compare(words[0], words[1], words[2:]) else 1


if __name__ == '__main__':
    sys.exit(main(sys.argv[1:]))
