"""What the tests in Python share: each has a world of its own, at 1000 seconds and with seeds of sixteen bytes `ab`, in which events are told by the
words of a scenario."""
import os
import sqlite3
import tempfile
import unittest
from contextlib import closing

from events import SEED, Reading, is_accepted, told_command, told_reply
from lines import Texts, Words, words_of
from world import ROOM, World

FILES = {
    'hold': 'hold:\n  when: manual\n  allow_failure: false\n  script: x\n',
    'one': 'build:\n  stage: build\n  script: make\n',
    'ship': 'ship:\n  resource_group: prod\n  interruptible: true\n  script: x\n',
    'two': 'one:\n  stage: build\n  script: make\ntwo:\n  stage: build\n  script: make\n',
}
# A project, a runner, a file of one job, a pipeline made of it, and its grant. Each number is 1.
PATH = ['add-project p', 'add-runner r', 'set-file 1 one', 'create 1 main', 'ask r1']


def texts_of(files):
    texts = Texts()
    for name, text in files.items():
        texts.items.append([name, text, ''])
    return texts


def tell(world, line, files=None):
    """Has the event of a scenario's line happen, at a moment of its own where `at SECONDS` stands before it, and answers as it is told there. A command
    stops the server before it, and a request starts it."""
    words = Words(words_of(line))
    if words.takes('at'):
        world.at(words.moment())
    event = Reading(words, texts_of(files or FILES)).event()
    if event.command:
        world.stop()
        return told_command(event, world.command(*event.command, '--db', world.db))
    if world.server is None:
        ended = world.start()
        if ended:
            raise AssertionError(f'the server does not open: {ended}')
    return told_reply(event, world.exchange(event.request))


def alter(world, *statements):
    """Runs statements of SQL on the file of a server that is stopped."""
    with closing(sqlite3.connect(world.db)) as connection, connection:
        for statement in statements:
            connection.execute(statement)


class Case(unittest.TestCase):
    """A test with a world."""
    maxDiff = 4000

    def setUp(self):
        self.world = self.new_world()

    def new_world(self):
        folder = tempfile.TemporaryDirectory(prefix='ciserver-test-', dir=ROOM)
        self.addCleanup(folder.cleanup)
        world = World(folder.name)
        self.addCleanup(world.stop)
        world.at(1000)
        world.seed(SEED)
        return world

    def begin(self, *lines):
        """Makes the file, and has these events happen, each of which must be accepted."""
        self.assertEqual(self.world.init()[:2], (0, 'ok\n'))
        for line in lines:
            answer = tell(self.world, line)
            self.assertTrue(is_accepted(answer), f'{line}: {answer}')

    def told(self, line, wanted):
        self.assertEqual(tell(self.world, line), wanted, line)

    def ran(self, status, out, *words):
        """A run of the program ends so, and prints this."""
        self.assertEqual(self.world.command(*words)[:2], (status, out), words)


def drawn():
    """The seed of what a test draws: SEED in the environment, or a random one. `self.subTest(SEED=..)` has it printed where the test fails."""
    return int(os.environ.get('SEED') or int.from_bytes(os.urandom(4), 'big'))
