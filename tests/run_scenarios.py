#!/usr/bin/env python3
"""Runs the scenarios of the files that are named, or of all in scenarios/ and stops/, over the program, as many at a time as there are processors.

It prints `ok NAME` for each, or where it differs: file and line, what was wanted and what came; and at the end how many passed and failed. The scenarios
of a file `differs..` are there to fail, so that a comparison that always agrees is seen: each must differ at its last step.
"""

import os
import shutil
import sys
import tempfile
import traceback
from concurrent.futures import ProcessPoolExecutor

from commands import perform as perform_runs
from lines import Fault, scenarios_of
from stage import perform
from steps import steps_of
from stops import Difference
from world import PROGRAM, ROOM, World, Wrong, shim

HERE = os.path.dirname(os.path.abspath(__file__))


def files():
    found = []
    for folder in ('scenarios', 'stops'):
        for name in sorted(os.listdir(os.path.join(HERE, folder))):
            if name.endswith(('.txt', '.runs')):
                found.append(os.path.join(HERE, folder, name))
    return found


def play(path, scenario):
    """None where a scenario goes as it says; else its line, and how it differs."""
    folder = tempfile.mkdtemp(prefix='ciserver-scenario-', dir=ROOM)
    try:
        if path.endswith('.runs'):
            perform_runs(folder, scenario, os.path.dirname(path))
        else:
            with World(folder) as world:
                perform(world, scenario)
    except (Fault, Difference, Wrong) as fault:
        return getattr(fault, 'line', None) or scenario.line, str(fault)
    except Exception:
        return scenario.line, traceback.format_exc()
    finally:
        shutil.rmtree(folder, ignore_errors=True)
    return None


def played(path, index):
    return play(path, scenarios_of(path)[index])


def last_step(path, scenario):
    """The line of its last step, or the one that isn't read."""
    if path.endswith('.runs'):
        return [line.number for line in scenario.lines if not line.text.startswith('|')][-1]
    try:
        return steps_of(scenario)[-1].line
    except Fault as fault:
        return fault.line


def as_wanted(path, scenario, differs):
    """How a scenario differs from what it is there for, if it does."""
    if not os.path.basename(path).startswith('differs'):
        return differs
    line = last_step(path, scenario)
    return None if differs and differs[0] == line else (line, f'it is there to differ here: {differs}')


def main(paths):
    if not os.access(PROGRAM, os.X_OK):
        print(f'there is no {PROGRAM}: make build', file=sys.stderr)
        return 1
    shim()
    passed = failed = 0
    with ProcessPoolExecutor(os.cpu_count()) as pool:
        ended = []
        for path in paths or files():
            for index, scenario in enumerate(scenarios_of(path)):
                ended.append((path, scenario, pool.submit(played, path, index)))
        for path, scenario, future in ended:
            differs = as_wanted(path, scenario, future.result())
            if differs:
                print(f'differs {scenario.name}\n  {os.path.relpath(path)}:{differs[0]}: {differs[1]}')
            else:
                print(f'ok {scenario.name}')
            passed, failed = passed + (not differs), failed + bool(differs)
            sys.stdout.flush()
    print(f'{passed} passed, {failed} failed')
    return 1 if failed or not passed else 0


if __name__ == '__main__':
    sys.exit(main(sys.argv[1:]))
