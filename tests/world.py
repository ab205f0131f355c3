"""The program over a store of its own, with a clock, seeds and a store that the test sets (shim.c), and what stops leave of its files.

    with World(folder) as world:
        world.at(1000)
        world.seed(b'\\xab' * 16)
        world.init()
        world.start()
        reply = world.exchange(b'GET / HTTP/1.1\\r\\n\\r\\n')
"""
import atexit
import ctypes
import mmap
import os
import select
import shutil
import signal
import socket
import sqlite3
import subprocess
import tempfile
import time
from typing import NamedTuple

import losses

HERE = os.path.dirname(os.path.abspath(__file__))
PROGRAM = os.environ.get('CISERVER') or os.path.join(HERE, '..', 'bin', 'ciserver')
SECONDS = 60  # that a command, a start or a reply may take
PAGE_BYTES = 4096
REAL, SET, FAILS = range(3)
FILES = {'db': 1, 'log': 2}
REQUESTS = 1000000  # that a server serves where the test says nothing else
ROOM = '/dev/shm' if os.access('/dev/shm', os.W_OK) else None  # where a sync costs nothing


class Page(ctypes.Structure):
    """As `struct page` of shim.c has it."""
    _fields_ = [('clock', ctypes.c_int64), ('seconds', ctypes.c_int64), ('seeds', ctypes.c_int64), ('seed', ctypes.c_ubyte * 16),
                ('fails_from', ctypes.c_int64), ('failing', ctypes.c_int64), ('reads', ctypes.c_int64), ('torn', ctypes.c_int64),
                ('dies', ctypes.c_int64), ('calls', ctypes.c_int64 * 2), ('without_sync', ctypes.c_int64)]


class Ran(NamedTuple):
    """How a run ended, and what it printed."""
    status: int
    out: str
    err: str


# The files of a store: their bytes by their names.
Snapshot = dict


class Wrong(Exception):
    """The program did what it must not do."""


def shim():
    """The path of the library, which the first call makes; processes that are started then find it in their environment."""
    path = os.environ.get('CISERVER_SHIM')
    if not path:
        folder = tempfile.mkdtemp(prefix='ciserver-shim-')
        atexit.register(shutil.rmtree, folder, ignore_errors=True)
        path = os.path.join(folder, 'shim.so')
        subprocess.run(['gcc', '-O2', '-shared', '-fPIC', '-o', path, os.path.join(HERE, 'shim.c')], check=True)
        os.environ['CISERVER_SHIM'] = path
    return path


def free_port():
    with socket.socket() as listener:
        listener.bind(('127.0.0.1', 0))
        return listener.getsockname()[1]


def text_of(printed):
    return printed.decode('utf-8', 'surrogateescape')


class World:
    """A folder with the store's files, and the programs that run over them. It ends its server as it is left."""

    def __init__(self, folder, program=None):
        self.folder = os.path.abspath(folder)
        os.makedirs(self.folder, exist_ok=True)
        self.program = os.path.abspath(program or PROGRAM)
        self.db = os.path.join(self.folder, 'ci.db')
        self.notes = os.path.join(self.folder, 'notes')
        page = os.path.join(self.folder, 'page')
        with open(page, 'wb') as file:
            file.write(bytes(PAGE_BYTES))
        with open(page, 'r+b') as file:
            self.page = Page.from_buffer(mmap.mmap(file.fileno(), PAGE_BYTES))
        self.environment = dict(os.environ, LD_PRELOAD=shim(), PAGE=page, NOTES=self.notes)
        self.server, self.port, self.errors = None, None, None

    def __enter__(self):
        return self

    def __exit__(self, *raised):
        self.stop()

    # ---- the clock and the seeds

    def at(self, seconds):
        """Sets the clock; None: the real one again."""
        self.page.seconds = seconds or 0
        self.page.clock = REAL if seconds is None else SET

    def clock_fails(self):
        """The clock can't be read from here on, until it is set."""
        self.page.clock = FAILS

    def seed(self, seed):
        """Sets the sixteen bytes of each seed; None: random ones again."""
        if seed is not None:
            self.page.seed[:] = seed
        self.page.seeds = REAL if seed is None else SET

    def seed_fails(self):
        """The source of seeds fails from here on, until they are set."""
        self.page.seeds = FAILS

    # ---- runs of the program

    def command(self, *words, stdin=b'', stdout=subprocess.PIPE):
        """Runs the program with these words."""
        done = subprocess.run([self.program, *words], input=stdin, stdout=stdout, stderr=subprocess.PIPE, env=self.environment, cwd=self.folder,
                              timeout=SECONDS, check=False)
        return Ran(done.returncode, text_of(done.stdout or b''), text_of(done.stderr))

    def init(self):
        return self.command('init', '--db', self.db)

    def start(self, requests=REQUESTS, *words):
        """Starts the server, with these words too. None once it listens; how it ended, where it didn't come so far."""
        ended = None
        for _ in range(20):
            self.port = free_port()
            ended = self.serve('--db', self.db, '--port', str(self.port), '--requests', str(requests), *words)
            # Another process may have taken the port meanwhile.
            if ended is None or not ended.out.startswith('cannot listen on '):
                return ended
        return ended

    def serve(self, *words):
        """Starts the server with these words. None once it listens; how it ended, where it didn't come so far."""
        self.stop()
        self.errors = tempfile.TemporaryFile()
        self.server = subprocess.Popen([self.program, 'serve', *words], stdin=subprocess.DEVNULL, stdout=subprocess.PIPE, stderr=self.errors,
                                       env=self.environment, cwd=self.folder)
        if not select.select([self.server.stdout], [], [], SECONDS)[0]:
            self.stop()
            raise Wrong('the server says nothing')
        line = self.server.stdout.readline()
        return None if line.startswith(b'listening on ') else self.ended(line)

    def ended(self, printed=b''):
        """Waits for the server's own end: how it ended, and what it printed behind what was read of it."""
        server, self.server = self.server, None
        try:
            out = printed + server.communicate(timeout=SECONDS)[0]
        except subprocess.TimeoutExpired:
            server.kill()
            server.communicate()
            raise Wrong('the server goes on') from None
        self.errors.seek(0)
        err = self.errors.read()
        self.errors.close()
        return Ran(server.returncode, text_of(out), text_of(err))

    def stop(self):
        """Kills the server, if there is one."""
        if self.server:
            self.server.kill()
            self.ended()

    def restart(self):
        """Kills the server, and starts it again."""
        self.stop()
        return self.start()

    def pause(self, is_paused=True):
        """Has the server stand still, or go on."""
        self.server.send_signal(signal.SIGSTOP if is_paused else signal.SIGCONT)

    # ---- connections

    def connect(self):
        return socket.create_connection(('127.0.0.1', self.port), timeout=SECONDS)

    def exchange(self, request, *, pieces=None, close_after=None):
        """Sends a request over a connection of its own, in pieces of so many bytes, or ends it behind so many bytes; and reads the reply to its end."""
        with self.connect() as peer:
            peer.setsockopt(socket.IPPROTO_TCP, socket.TCP_NODELAY, 1)
            sent = request if close_after is None else request[:close_after]
            step = pieces or len(sent) or 1
            try:
                for place in range(0, len(sent), step):
                    peer.sendall(sent[place:place + step])
                if close_after is not None:
                    peer.shutdown(socket.SHUT_WR)
            except (BrokenPipeError, ConnectionResetError):
                pass  # it was answered before its end
            return received(peer)

    # ---- the store

    def rows(self, query):
        """The rows of a query, over a copy of the file and its log."""
        with tempfile.TemporaryDirectory(dir=self.folder) as folder:
            copy = os.path.join(folder, 'copy.db')
            for end in ('', '-wal'):
                if os.path.exists(self.db + end):
                    shutil.copyfile(self.db + end, copy + end)
            connection = sqlite3.connect(copy)
            try:
                connection.text_factory = text_of
                return connection.execute(query).fetchall()
            finally:
                connection.close()

    def paths(self):
        return sorted(entry.path for entry in os.scandir(self.folder) if entry.is_file() and entry.name.startswith('ci.db'))

    def save(self):
        """The files of the store."""
        found = {}
        for path in self.paths():
            with open(path, 'rb') as file:
                found[os.path.basename(path)] = file.read()
        return found

    def restore(self, snapshot):
        """Has these files again, all synced; no server may run."""
        assert self.server is None
        for path in self.paths():
            if os.path.basename(path) not in snapshot:
                os.remove(path)
        for name, content in snapshot.items():
            with open(os.path.join(self.folder, name), 'wb') as file:
                file.write(content)
        self.forget_notes()

    def forget_notes(self):
        """What is there now counts as synced."""
        if os.path.exists(self.notes):
            os.truncate(self.notes, 0)

    def losses(self, random, draws):
        """What stops of the machine may leave of the files as they are now: a snapshot for each way to lose what wasn't synced, if there is anything."""
        with open(self.notes, 'rb') as file:
            notes = losses.unsynced(file.read())
        held = self.save()
        inodes = {os.path.basename(path): os.stat(path).st_ino for path in self.paths()}
        if not any(inode in notes for inode in inodes.values()):
            return []
        return [{name: way(content, notes.get(inodes[name], [])) for name, content in held.items()} for way in losses.ways(random, draws)]

    # ---- calls of the store that fail

    def fail_from(self, call, files=('db', 'log'), reads=False, torn=False, dies=False):
        """Has call `call` of these files, counted from 1 since `forget_calls`, and all behind it fail: writes, cuts and syncs, with `reads` reads too. With
        `torn` the first of them writes its half, if it is a write; with `dies` the program is killed there. None: none fails."""
        self.page.failing = sum(FILES[file] for file in files)
        self.page.reads, self.page.torn, self.page.dies = reads, torn, dies
        self.page.fails_from = call or 0

    def calls(self, file):
        """So many calls of this file were made since `forget_calls`; reads count where they may fail."""
        return self.page.calls[FILES[file] - 1]

    def forget_calls(self):
        self.page.calls[:] = [0, 0]

    def without_sync(self, is_without=True):
        """Has each sync do nothing, and be answered as ever."""
        self.page.without_sync = is_without


def received(peer):
    """All that a peer gets."""
    got = b''
    try:
        while True:
            part = peer.recv(65536)
            if not part:
                return got
            got += part
    except ConnectionResetError:
        return got


def until(holds, what):
    """Waits until something holds."""
    end = time.monotonic() + SECONDS
    while not holds():
        if time.monotonic() > end:
            raise Wrong(what)
        time.sleep(0.005)
