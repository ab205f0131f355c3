"""What a server has looked up, or has done itself, it remembers: so a request looks up what it touches, and nothing of what finished or merely stands there.

No answer tells it: a server that forgets at each commit answers the same. It is told by the requests for memory that the program makes (refuse.c counts
them): each statement makes some, and each row that one shows makes one at least. So where there are MANY of each kind of record instead of FEW, a request that
goes through any kind of them makes more than so many requests for memory more. A server that is opened anew before each request does: it remembers no
lease. What is pending it has looked up by then.
"""
import tempfile
import unittest

from cases import FILES, tell
from events import SEED, is_accepted
from refused import library
from reads import reads
from refused_trials import RefusedWorld, wait_until
from world import ROOM

FEW, MANY = 4, 60
REMEMBERED = 32  # so many pipelines' records are remembered
IDLE = 'ask r1'  # a poll that finds nothing
# Runner 1 finds nothing, 2 takes the jobs that ship, 3 those without tags, 4 the wide pipeline's, 5 those of the project that is read. Projects 1 to 5 have
# these files.
MADE = ['add-runner idle tags none tagged-only', 'add-runner ships tags near', 'add-runner busy', 'add-runner wide tags wide', 'add-runner reads tags read',
        'add-project finished', 'add-project pending', 'add-project ships', 'add-project wide', 'add-project read',
        'set-file 1 one', 'set-file 2 far', 'set-file 3 ship', 'set-file 4 wide', 'set-file 5 read', 'set-mode 3 prod oldest_first',
        'set-variable 5 KEY value', 'set-mode 5 read oldest_first']


def files(count):
    wide = ''.join(f'j{number}:\n  tags: [wide]\n  script: make\n' for number in range(count))
    return dict(FILES, read='read:\n  resource_group: read\n  tags: [read]\n  script: make\n', far='build:\n  tags: [far]\n  script: make\n', ship='ship:\n  resource_group: prod\n  tags: [near]\n  script: make\n',
                wide=f'{wide}last:\n  stage: deploy\n  tags: [far]\n  script: make\n')


class Counted(RefusedWorld):
    """A world in which an event's requests for memory are counted. Where it forgets, each event finds a server that was just opened."""

    def __init__(self, folder, count, forgets=False):
        super().__init__(folder, library(folder))
        self.count, self.forgets, self.files = count, forgets, files(count)
        self.at(1000)
        self.seed(SEED)
        self.init()

    def do(self, line):
        told = tell(self, line, self.files)
        if not is_accepted(told):
            raise AssertionError(f'{line}: {told}')
        return told

    def granted(self, runner):
        """The number of the attempt that the runner is given."""
        told = self.do(f'ask r{runner}')
        head = '201 {"id":'
        if not told.startswith(head):
            raise AssertionError(f'runner {runner} is given nothing: {told}')
        return int(told[len(head):told.index(',')])

    def cost(self, line):
        """So many requests for memory an event makes."""
        if self.forgets:
            self.restart()
        wait_until(lambda: self.refusals.waits, 'the server waits for nothing')
        self.refusals.asked, self.refusals.counts = 0, 1
        self.do(line)
        wait_until(lambda: self.refusals.waits, 'the server waits for nothing')
        self.refusals.counts = 0
        return self.refusals.asked

    def fill(self):
        """So many finished pipelines, live leases of runner 3, pending jobs that no runner fits, in pipelines that aren't finished, jobs that wait for
        the group that one holds, and jobs of the wide pipeline. What is looked up once after an opening is looked up. The project that is read has a little of
        each kind of record, the first pipeline, job and attempt of all and the last."""
        for line in MADE:
            self.do(line)
        self.do('create 5 first')
        self.do(f'success j{self.granted(5)}')
        for number in range(self.count):
            self.do(f'create 1 finished{number}')
            self.do(f'success j{self.granted(3)}')
        for number in range(self.count):
            self.do(f'create 1 live{number}')
            self.granted(3)
            self.do(f'create 2 pending{number}')
            self.do(f'create 3 ship{number}')
        self.do('create 5 last')
        self.granted(5)
        self.do('create 4 wide')
        self.restart()
        self.do(f'success j{self.granted(4)}')
        self.do(f'success j{self.granted(2)}')
        return self.granted(2), self.granted(4)

    def costs(self):
        """Of events one after the other, each with so many requests for memory, and so many of the second of two polls behind it that find nothing."""
        ships, wide = self.fill()
        found = []

        def see(line):
            found.append((line.split()[0], self.cost(line), (self.cost(IDLE), self.cost(IDLE))[1]))

        see(IDLE)
        see('create 1 new')
        see('ask r3')
        busy = wide + 1
        for line in (f'running j{busy}', f'append j{busy} 0 abc', f'success j{busy}', 'set-variable 1 A b', 'set-mode 2 dev oldest_first',
                     'show-mode 2 dev', 'ask r4', f'success j{wide}', 'ask r4', f'success j{ships}', 'ask r2', 'create 3 more',
                     f'cancel-pipeline 2 {self.count + 3}', 'create 1 newer', 'ask r3', 'retry 1 2', 'ask r3', 'show-job 1 3',
                     'show-pipeline 1 3', *reads(5), f'at 1010 {IDLE}', f'at 1119 {IDLE}'):
            see(line)
        return found


class Lookups(unittest.TestCase):
    def counted(self, count, forgets=False):
        folder = tempfile.TemporaryDirectory(prefix='ciserver-test-', dir=ROOM)
        self.addCleanup(folder.cleanup)
        world = Counted(folder.name, count, forgets)
        self.addCleanup(world.stop)
        return world

    def made(self):
        """A world with projects and runners alone."""
        world = self.counted(0)
        for line in MADE:
            world.do(line)
        return world

    def least(self):
        """So many requests for memory a poll makes for which nothing can be looked up: the store has nothing but its runner, which was seen before."""
        world = self.counted(0)
        world.do(MADE[0])
        world.do(IDLE)
        return world.cost(IDLE)

    def test_nothing_that_stands_there_is_looked_up(self):
        least = self.least()
        for (line, few, few_idle), (same, many, many_idle) in zip(self.counted(FEW).costs(), self.counted(MANY).costs(), strict=True):
            self.assertEqual(line, same)
            self.assertLess(many - few, MANY - FEW, line)
            self.assertEqual((few_idle, many_idle), (least, least), f'a poll that finds nothing, behind {line}')

    def test_a_server_that_forgets_would_be_seen(self):
        for (line, few, few_idle), (_, many, many_idle) in zip(self.counted(FEW, True).costs(), self.counted(MANY, True).costs(), strict=True):
            self.assertGreater(many - few, MANY - FEW, line)
            self.assertGreater(many_idle - few_idle, MANY - FEW, f'a poll that finds nothing, behind {line}')

    def first_poll(self, count):
        """So many requests for memory the first poll of a server makes that was just opened, beside so many pending jobs that don't fit."""
        world = self.made()
        for number in range(count):
            world.do(f'create 2 pending{number}')
        world.restart()
        return world.cost(IDLE)

    def test_what_is_pending_is_looked_up_before_the_first_poll(self):
        self.assertLess(self.first_poll(MANY) - self.first_poll(FEW), MANY - FEW)

    def test_what_is_looked_up_by_a_token_or_a_name_is_remembered(self):
        world = self.counted(FEW)
        world.fill()
        # Of the group that a job of runner 2 waits for it is looked up who holds it.
        statement = world.cost('ask r2') - world.cost(IDLE)
        least = self.least()
        # The project is asked for by its token, and the mode by its group. What is set meanwhile is of another project.
        for _ in range(3):
            world.do('show-mode 3 prod')
            world.do('set-variable 1 A b')
            self.assertLess(world.cost('show-mode 3 prod'), least + statement)

    def test_so_many_pipelines_are_remembered(self):
        world = self.made()
        world.do('create 1 first')
        first = world.granted(3)
        world.do(IDLE)
        touched = world.cost(f'running j{first}')
        for number in range(REMEMBERED - 1):
            world.do(f'create 1 other{number}')
        world.do(IDLE)
        self.assertEqual(world.cost(f'running j{first}'), touched)
        # One more, and what is remembered of the first makes room.
        world.do('create 1 last')
        world.do(IDLE)
        self.assertGreater(world.cost(f'running j{first}'), touched)

    def test_a_list_pushes_out_nothing_that_is_under_way(self):
        # What the list has that isn't remembered is more than can be, and has finished; or it is pending, as no runner fits.
        for project, finishes in ((1, True), (2, False)):
            world = self.made()
            for number in range(2 * REMEMBERED + 1):
                world.do(f'create {project} other{number}')
                if finishes:
                    world.do(f'success j{world.granted(3)}')
            world.do('create 1 running')
            running = world.granted(3)
            world.do(IDLE)
            touched = world.cost(f'running j{running}')
            world.do(f'list-pipelines {project}')
            self.assertLessEqual(world.cost(f'running j{running}'), touched, f'behind the list of project {project}')


if __name__ == '__main__':
    unittest.main()
