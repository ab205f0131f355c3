"""Trials of one scenario: its last event with one request of memory refused, and what is found then."""
import ctypes
import mmap
import os
import shutil
import signal
import sqlite3
import time

from events import SEED, is_accepted
from lines import Fault
from listings import worked_out
from world import PAGE_BYTES, SECONDS, World, text_of

HERE = os.path.dirname(os.path.abspath(__file__))
TABLES = ['meta', 'project', 'runner', 'pipeline', 'job', 'jobvar', 'attempt', 'piece', 'need', 'board', 'variable', 'holder', 'mode']
LACKS_MEMORY = (b'HTTP/1.1 503 Service Unavailable\r\nContent-Type: application/json\r\nContent-Length: 14\r\nConnection: close\r\n\r\n'
                b'{"code":"M16"}')
CLOSED = LACKS_MEMORY.replace(b'M16', b'M17')
# The last line of a command to which memory was refused.
LACKING_LINES = ('{"code":"M16"}\n', 'refused: M16\n')
# How a command ends where memory is refused as its words are read.
WORDLESS = (2, '', 'error: the words of the command line cannot be read\n')
ROOM_BYTES = 4096  # of a reply, for which memory is asked before its request is handled


class Difference(Exception):
    """A trial didn't end as it must."""


class Page(ctypes.Structure):
    """As `struct page` of refuse.c has it."""
    _fields_ = [(name, ctypes.c_int64) for name in ('refused', 'is_rest', 'counts', 'clocked', 'asked', 'forks', 'waits', 'child', 'ended', 'status')]


class RefusedWorld(World):
    """A world whose program is refused memory."""

    def __init__(self, folder, library):
        super().__init__(folder)
        path = os.path.join(self.folder, 'refusals')
        with open(path, 'wb') as file:
            file.write(bytes(PAGE_BYTES))
        with open(path, 'r+b') as file:
            self.refusals = Page.from_buffer(mmap.mmap(file.fileno(), PAGE_BYTES))
        self.environment['LD_PRELOAD'] = f'{library} {self.environment["LD_PRELOAD"]}'
        self.environment['REFUSALS'] = path
        del self.environment['NOTES']  # writing them takes memory

    def run(self, event):
        """The answer to an event, and how it is told."""
        self.at(event.moment)
        if event.sql:
            return None, self.alter(event.sql)
        if event.request:
            if not self.server and self.start():
                raise Difference('no server')
            reply = self.exchange(event.request)
            return reply, event.tells(reply)
        self.stop()
        ran = self.command(*event.command, '--db', self.db)
        return ran, event.tells(ran)

    def alter(self, statement):
        """Has a statement run on the file."""
        self.stop()
        connection = sqlite3.connect(self.db)
        connection.executescript(statement)
        connection.close()
        return '200'

    def put_back(self, files):
        """Has the files these bytes again; the server that has them open sees no difference."""
        for path in self.paths():
            if os.path.basename(path) not in files:
                os.remove(path)
        for name, content in files.items():
            path = os.path.join(self.folder, name)
            with open(path, 'r+b' if os.path.exists(path) else 'wb') as file:
                file.write(content)
                file.truncate()


class Trials:
    """All trials of a scenario. It ends its server as it is left."""

    def __init__(self, folder, library, kind, is_cold, is_rest):
        self.kind, self.is_cold, self.is_rest = kind, is_cold, is_rest
        self.world, self.library = RefusedWorld(folder, library), library
        self.page = self.world.refusals
        self.wanted = kind.wanted
        self.refused = 0
        self.ends = {}  # of each end how often it came, and the first number for which
        self.rows_of = {}  # the rows of files that were looked at
        self.agains = {}  # of such files the answer of the command that is tried, and the rows that it leaves

    def __enter__(self):
        return self

    def __exit__(self, *raised):
        self.world.stop()

    def run(self):
        self.prepare()
        self.expect()
        number, is_refused = 1, True
        while is_refused:
            end, is_refused = self.trial(number)
            if is_refused:
                count, first = self.ends.get(end, (0, number))
                self.ends[end] = (count + 1, first)
                self.refused = number
            elif end != 'answered':
                raise Difference(f'nothing was refused, and it ended with {end}')
            number += 1
        for end in self.kind.some:
            if end not in self.ends and not self.is_rest:
                raise Difference(f'none ended with {end}')

    # ---- what is there before, and what is wanted

    def prepare(self):
        world = self.world
        world.seed(SEED)
        if self.kind.start == 'version1':
            shutil.copy(version1(), world.db)
        elif self.kind.start == 'file' and world.init().status:
            raise Difference('no file')
        for event, wanted in self.kind.steps:
            told = world.run(event)[1]
            if not (wanted.allows(told) if wanted else is_accepted(told)):
                raise Difference(f'before it: {told}')
        if not self.kind.event.request:
            world.stop()
        elif self.is_cold or not world.server:
            world.restart()
        world.at(self.kind.event.moment)
        self.wanted = worked_out(self.wanted, self.kind.event, world)
        self.files = world.save()
        self.before = self.rows()

    def expect(self):
        """The event as it is answered where memory is ample, and the rows that it leaves."""
        self.answer, _ = self.sent(0)
        told = self.told(self.answer)
        if not self.wanted.allows(told):
            raise Difference(f'wanted {self.wanted}, came {told}')
        self.after = self.rows()
        self.agains[tuple(sorted(self.files.items()))] = self.answer, self.after
        self.over()

    def rows(self):
        """The rows of the files as they are, as a text."""
        files = self.world.save()
        key = tuple(sorted(files.items()))
        if key not in self.rows_of:
            self.rows_of[key] = rows_in(self.world.folder, files)
        return self.rows_of[key]

    def told(self, answer):
        try:
            return self.kind.event.tells(answer)
        except Fault as fault:
            return f'unread: {fault}'

    # ---- one trial

    def sent(self, number):
        """Sends the event, whose request of memory with this number is refused. The answer, and whether it came so far."""
        page, event = self.page, self.kind.event
        page.refused, page.is_rest = number, self.is_rest
        page.asked = page.child = page.ended = 0
        if event.request:
            wait_until(lambda: page.waits, 'the server waits for nothing')
            page.forks = 1
            answer = self.world.exchange(event.request)
        else:
            page.clocked, page.counts = self.kind.is_clocked, not self.kind.is_clocked
            answer = self.world.command(*event.command, '--db', self.world.db)
            page.clocked = page.counts = 0
        page.refused = 0
        return answer, 0 < number <= page.asked

    def sent_again(self):
        """The answer to the same once more, where no memory is refused, and the rows that it leaves."""
        event = self.kind.event
        if event.request:
            return self.world.exchange(event.request), self.rows()
        # A command does over the same files what it did before.
        key = tuple(sorted(self.world.save().items()))
        if key not in self.agains:
            self.agains[key] = self.world.command(*event.command, '--db', self.world.db), self.rows()
        return self.agains[key]

    def over(self):
        """The server is where it was before the trial, and so are the files."""
        page = self.page
        if self.kind.event.request:
            child = page.child
            if not child or page.ended:
                raise Difference(f'the server ended by itself (status {page.status})')
            os.kill(child, signal.SIGKILL)
            wait_until(lambda: page.ended, "the server's child goes on")
            if page.status != signal.SIGKILL:
                raise Difference(f'the server ended by itself (status {page.status})')
        if self.world.save() != self.files:
            self.world.put_back(self.files)

    def trial(self, number):
        """How the trial of this number ended, and whether memory was refused in it."""
        answer, is_refused = self.sent(number)
        end = self.end_of(answer)
        try:
            if end in self.kind.never:
                raise Difference(f'it ended with {end}')
            end = self.look(end)
        except Difference as why:
            raise Difference(f'request {number} was refused: {why}') from None
        self.over()
        return end, is_refused

    def end_of(self, answer):
        if answer == self.answer:
            return 'answered'
        if answer == LACKS_MEMORY or self.is_lacking(answer):
            return 'M16'
        if answer == WORDLESS:
            return 'wordless'
        if answer == b'':
            return 'silent'
        if answer == CLOSED:
            return 'M17'
        told = self.told(answer)
        if self.kind.unswept and self.kind.unswept.allows(told):
            return 'unswept'
        raise Difference(f'it was answered {told}')

    def is_lacking(self, ran):
        """Does a command say that memory was refused, behind a beginning of what it prints as ever?"""
        if isinstance(ran, bytes) or ran.status != 1:
            return False
        return any(ran.out.endswith(line) and self.answer.out.startswith(ran.out[:-len(line)]) for line in LACKING_LINES)

    def look(self, end):
        """Demands what must be found after a trial that ended so. How it ended, if that is told by the rows."""
        rows = self.rows()
        if end == 'answered':
            if rows != self.after:
                raise Difference('it was answered as ever, and the rows are others')
        elif end == 'M17':
            self.look_reopened()
        elif rows == self.before:
            end = self.look_again(end, self.wanted, self.answer)
            return 'unheard' if end == 'silent' and self.is_read_unheard() else end
        elif rows != self.after:
            raise Difference(f'{end}, and the rows are others')
        elif self.kind.unswept:
            return self.look_again(end, self.wanted, self.answer)
        elif self.kind.repeated:
            return self.look_again(end, self.kind.repeated)
        elif end == 'silent' and self.is_long():
            return 'unheard'
        else:
            raise Difference(f'{end}, and it has happened')
        return end

    def is_long(self):
        return isinstance(self.answer, bytes) and len(self.answer) > ROOM_BYTES

    def is_read_unheard(self):
        """Of what changes nothing no row tells whether it has happened. It has where an earlier trial was told that memory was refused within it."""
        return self.is_long() and self.before == self.after and 'M16' in self.ends

    def look_again(self, end, wanted, answer=None):
        """Demands that the same once more is answered so, and leaves the rows that it should. Where it was silent, its sweep may have closed the server."""
        again, rows = self.sent_again()
        if again == CLOSED and end == 'silent' and self.is_rest:
            self.look_reopened()
            return 'M17'
        if not wanted.allows(self.told(again)) or answer not in (None, again):
            raise Difference(f'{end}, and once more {self.told(again)}')
        if rows != self.after:
            raise Difference(f'{end}, and once more it left other rows')
        return end

    def look_reopened(self):
        """After M17: the server is closed, and one that opens what it left finds the rows from before, or those that it should leave."""
        if not self.is_rest:
            raise Difference('M17')
        if self.sent_again()[0] != CLOSED:
            raise Difference('M17, and once more another answer')
        rows = self.rows()
        if rows not in (self.before, self.after):
            raise Difference('M17, and the rows are others')
        with RefusedWorld(os.path.join(self.world.folder, 'reopened'), self.library) as other:
            other.restore(self.world.save())
            other.seed(SEED)
            answer, told = other.run(self.kind.event)
            left = rows_in(other.folder, other.save())
        if rows == self.before and (answer != self.answer or left != self.after):
            raise Difference(f'M17, and by a server that was opened then {told}')


def wait_until(holds, why_not):
    end = time.monotonic() + SECONDS
    while not holds():
        if time.monotonic() > end:
            raise Difference(why_not)
        time.sleep(0.0001)


def version1():
    """A file of version 1, as the C library made it."""
    return os.path.join(HERE, 'scenarios', 'version1.db')


def rows_in(folder, files):
    """All rows of the files of a store, as a text."""
    room = os.path.join(folder, 'looked-at')
    shutil.rmtree(room, ignore_errors=True)
    os.makedirs(room)
    for name, content in files.items():
        with open(os.path.join(room, name), 'wb') as file:
            file.write(content)
    if 'ci.db' not in files:
        return 'no file'
    connection = sqlite3.connect(os.path.join(room, 'ci.db'))
    connection.text_factory = text_of
    try:
        held = {name for name, in connection.execute("SELECT name FROM sqlite_master WHERE type = 'table'")}
        return '\n'.join([str(sorted(held))] + [f'{table}: {connection.execute(f"SELECT * FROM {table}").fetchall()}' for table in TABLES
                                                if table in held])
    finally:
        connection.close()
