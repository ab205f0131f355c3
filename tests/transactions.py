"""The transactions in a store's log: how many there are, and what each sweep among them did."""

import os
import shutil
import sqlite3
import tempfile
from contextlib import closing, contextmanager

from lines import Fault

HEAD_BYTES = 32
FRAME_BYTES = 24
STUCK, TIMED_OUT = 3, 5
CAUSES = {STUCK: 'stuck_or_timeout_failure', TIMED_OUT: 'job_execution_timeout'}


class Log:
    """A store's log: where each transaction in it ends. What was read of it once isn't read again."""

    def __init__(self, world):
        self.path = world.db + '-wal'
        self.salts, self.ends = None, []

    def read(self):
        try:
            with open(self.path, 'rb') as file:
                self.read_on(file)
        except FileNotFoundError:
            self.salts, self.ends = None, []

    def read_on(self, file):
        head = file.read(HEAD_BYTES)
        if head[16:24] != self.salts or os.fstat(file.fileno()).st_size < self.end():
            self.salts, self.ends = head[16:24], []
        step = FRAME_BYTES + int.from_bytes(head[8:12], 'big')
        place = self.end()
        while True:
            file.seek(place)
            frame = file.read(FRAME_BYTES)
            if len(frame) < FRAME_BYTES or frame[8:16] != self.salts:
                return
            place += step
            if frame[4:8] != bytes(4):
                self.ends.append(place)

    def end(self):
        """Where the last transaction ends."""
        return self.ends[-1] if self.ends else HEAD_BYTES

    def mark(self):
        """What tells the transactions that are there from those that come."""
        self.read()
        return self.salts, len(self.ends)

    def since(self, mark):
        """Where the transactions end that came since then, and where the one before them."""
        self.read()
        known = mark[1] if mark[0] == self.salts else 0
        return self.ends[known:], (self.ends[known - 1] if known else HEAD_BYTES)


@contextmanager
def copied(world, end=None):
    """A connection to a copy of the store: as it is now, or with its log up to a place."""
    with tempfile.TemporaryDirectory(dir=world.folder) as folder:
        copy = os.path.join(folder, 'copy.db')
        shutil.copyfile(world.db, copy)
        if os.path.exists(world.db + '-wal'):
            shutil.copyfile(world.db + '-wal', copy + '-wal')
            if end is not None:
                os.truncate(copy + '-wal', end)
        with closing(sqlite3.connect(copy)) as connection:
            connection.text_factory = bytes
            yield connection


def standing(world, end=None):
    """How each attempt stands, and which jobs are cancelled: now, or where the log ends there."""
    with copied(world, end) as connection:
        attempts = {number: (state, cause) for number, state, cause in connection.execute('SELECT id, state, cause FROM attempt')}
        cancelled = dict(connection.execute('SELECT id, pipeline FROM job WHERE cancelled = 1'))
    return attempts, cancelled


def swept(before, after):
    """What a transaction did between these, as the answer of a sweep."""
    ended = [(number, after[0][number]) for number, (state, _) in before[0].items() if state == 0 and after[0][number][0] == 2]
    cancelled = {pipeline for job, pipeline in after[1].items() if job not in before[1]}
    if len(ended) == 1 and not cancelled:
        number, (_, cause) = ended[0]
        if cause in CAUSES:
            return f'ended {number} {CAUSES[cause]}'
    if len(cancelled) == 1 and not ended:
        return f'cancelled {cancelled.pop()}'
    raise Fault('a transaction that no sweep makes')


def sweeps_since(world, log, mark, before):
    """What each transaction since then did, where all were sweeps, and attempts and jobs stood so before."""
    ends, _ = log.since(mark)
    states = [before, *(standing(world, end) for end in ends)]
    return [swept(*pair) for pair in zip(states, states[1:])]
