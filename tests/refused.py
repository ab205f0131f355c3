#!/usr/bin/env python3
"""Refuses the program memory: each scenario of refused.txt is tried once for each request of memory that its last event makes, with that one refused.

An event is tried as the server stands then, and once more by one that was opened just before. Each trial must end in one of these ways:
  answered   it was answered as ever, and left the rows that it should
  M16        it told of refused memory, and the rows were as before; the same once more was answered as ever, and left the rows that it should
  silent     its connection ended without a reply, and then the same
  unheard    so, and it has happened, as far as rows can tell: only where its reply is over 4,096 bytes
  wordless   a command said that its words can't be read, and then the same
  unswept    it was answered as before the sweep that goes before it; the same once more found all swept
  M17        with --all only: the same once more was M17, and over what it left a server opens, with the rows from before, or those that it should leave
Each has a line: its name, how many requests of memory were refused, and how these trials ended, with the first number of each end. The last line
is `N passed, M failed`; the status is 0 where all were as wanted.

    refused.py [--all] [NAME..]     --all: beside 300 leases too, and with all memory refused from that request on
"""
import argparse
import os
import shutil
import subprocess
import sys
import tempfile
from concurrent.futures import ProcessPoolExecutor, as_completed

from lines import Fault
from refused_kinds import kinds_of
from refused_trials import Difference, Trials
from world import ROOM, Wrong, shim

HERE = os.path.dirname(os.path.abspath(__file__))
KINDS = {kind.name: kind for kind in kinds_of(os.path.join(HERE, 'refused.txt'))}


def library(folder):
    path = os.path.join(folder, 'refuse.so')
    subprocess.run(['gcc', '-O2', '-shared', '-fPIC', '-o', path, os.path.join(HERE, 'refuse.c')], check=True)
    return path


def tried(name, is_cold, is_rest, refuse, room):
    """The line of a scenario's trials, how many they were, and whether all were as wanted."""
    kind = KINDS[name]
    label = name + ' reopened' * is_cold + ' rest' * is_rest
    folder = tempfile.mkdtemp(dir=room)
    try:
        with Trials(folder, refuse, kind, is_cold, is_rest) as trials:
            trials.run()
    except (Difference, Fault, Wrong, OSError, subprocess.SubprocessError) as why:
        return f'{label}: NOT AS WANTED: {why}', 0, False
    finally:
        shutil.rmtree(folder, ignore_errors=True)
    ends = ', '.join(f'{count} {end} (the first is {first})' for end, (count, first) in sorted(trials.ends.items()))
    return f'{label}: {trials.refused} requests refused: {ends}', trials.refused, True


def main():
    parser = argparse.ArgumentParser()
    parser.add_argument('--all', action='store_true')
    parser.add_argument('names', nargs='*')
    words = parser.parse_args()
    tasks = [(name, is_cold, is_rest) for name in words.names or KINDS for is_cold in KINDS[name].colds()
             for is_rest in (False, True)[:1 + words.all] if not KINDS[name].is_large or (words.all and not is_rest)]
    with tempfile.TemporaryDirectory(prefix='refused-', dir=ROOM) as room, ProcessPoolExecutor() as pool:
        shim()
        refuse = library(room)
        told = [pool.submit(tried, *task, refuse, room) for task in tasks]
        good = refusals = 0
        for one in as_completed(told):
            line, count, is_good = one.result()
            print(line, flush=True)
            refusals += count
            good += is_good
    print(f'{refusals} requests of memory were refused')
    print(f'{good} passed, {len(tasks) - good} failed')
    return 0 if tasks and good == len(tasks) else 1


if __name__ == '__main__':
    sys.exit(main())
