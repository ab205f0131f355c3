"""Scenarios of the program's commands, over files of their own in a folder: the words of each run, and beside them its exit status and what it prints."""

import os
import shutil
import sqlite3
from contextlib import closing

from events import SEED
from lines import Differs, Fault, Unread, number_in, words_of
from world import World


class Runs:
    """Where runs take place: a folder for their files, and one with files that are copied."""

    def __init__(self, world, folder, data, lines):
        self.world = world
        self.folder = folder
        self.data = data
        self.lines = lines

    def path(self, word):
        """The path of a file in the folder, where the word begins with `@`."""
        return os.path.join(self.folder, word[1:]) if word.startswith('@') else word

    def file(self, text):
        """The path of a file, and what stands behind it."""
        file, _, rest = text.partition(' ')
        return self.path(file), rest

    def step(self, place):
        kind, _, rest = self.lines[place].text.partition(' ')
        if kind == 'run':
            self.run(rest, self.lines[place + 1:])
        elif kind in ('|', '!'):
            if not place or self.lines[place - 1].text.split(' ')[0] not in ('run', '|', kind):
                raise Unread('a line of no run')
        elif kind == 'no-clock':
            self.world.clock_fails()
        elif kind in STEPS:
            STEPS[kind](self, rest)
        else:
            raise Fault(f'unknown: {kind}')

    def at(self, rest):
        self.world.at(number_in(rest.strip()))

    def write(self, rest):
        path, text = self.file(rest)
        with open(path, 'w', encoding='utf-8') as file:
            file.write(text)

    def copy(self, rest):
        path, source = self.file(rest)
        shutil.copyfile(os.path.join(self.data, source), path)

    def lacks(self, rest):
        if os.path.lexists(self.path(rest)):
            raise Fault('the file is there')

    def alter(self, rest):
        path, statement = self.file(rest)
        with closing(sqlite3.connect(path)) as connection, connection:
            connection.execute(statement)

    def run(self, text, behind):
        """The program ends as it says, and prints these lines on standard output; on standard error just where the status is 2 or a file can't be used, and there
        what is wanted of it."""
        words, sign, wanted = text.partition(' = ')
        if not sign:
            raise Unread('a run without what is wanted')
        words = [self.path(os.fsdecode(word)) for word in words_of(words)]
        if words[:1] != ['ciserver']:
            raise Unread('the program is named first')
        ran = self.world.command(*words[1:])
        if (ran.status == 2 or ran.out == 'store: O3\n') != bool(ran.err):
            raise Fault(f'another thing on standard error: {ran}')
        if ran.out and not ran.out.endswith('\n'):
            raise Fault(f'an output without a line feed: {ran}')
        came = f'{ran.status} {ran.out[:-1]}' if ran.out else f'{ran.status}'
        wanted = with_lines(' '.join(self.path(word) for word in wanted.strip().split(' ')), behind)
        if came != wanted:
            raise Differs(wanted, came)
        for part in parts_of(behind):
            if part not in ran.err:
                raise Differs(part, ran.err)


STEPS = {'at': Runs.at, 'file': Runs.write, 'copy': Runs.copy, 'no-file': Runs.lacks, 'sql': Runs.alter}


def with_lines(wanted, lines):
    """What is wanted, with the lines behind a bar with which these begin."""
    for line in lines:
        if not line.text.startswith('| '):
            break
        wanted += ('\n' if ' ' in wanted else ' ') + line.text[2:]
    return wanted


def parts_of(lines):
    """What is wanted on standard error: a part of it behind each `!`, after the lines of standard output."""
    for line in lines:
        kind, _, rest = line.text.partition(' ')
        if kind == '!':
            yield rest
        elif kind != '|':
            break


def perform(folder, scenario, data):
    """Has each line happen. Errors: the first that differs."""
    if not scenario.lines:
        raise Fault('a scenario without runs', scenario.line)
    with World(os.path.join(folder, 'world')) as world:
        world.seed(SEED)
        world.at(1000)
        runs = Runs(world, folder, data, scenario.lines)
        for place, line in enumerate(scenario.lines):
            try:
                runs.step(place)
            except (Fault, sqlite3.Error, OSError) as fault:
                fault.line = line.number
                raise
