"""Openings of a file while each call of the store fails in turn, or is the last one before a kill; and `stop_each` itself."""
import random
import signal

from cases import PATH, Case, drawn, tell
from choices import state
from stops import CLOSED, Difference, stop_each

MOST_CALLS = 500
QUEUE = """\
     JOB PROJECT STATUS               NAME
jobs: 0
"""


class Openings(Case):
    """What a stop left is opened: an opening that doesn't end well says O3, and nothing is lost by it."""

    def reported(self):
        self.ran(0, QUEUE, 'report', '--db', self.world.db, '--kind', 'queue')

    def is_kept(self, image):
        """It opens again, with all that was there."""
        key = tuple(sorted(image.items()))
        if key not in self.seen:
            self.world.restore(image)
            self.assertEqual(state(self.world).tables, self.tables)
            self.reported()
            self.assertEqual(state(self.world).tables, self.tables)
            self.seen.add(key)

    def opened(self, file, call, dies):
        """A report where a call of a file fails, or is the last: was the call made?"""
        self.world.restore(self.image)
        self.world.forget_calls()
        self.world.fail_from(call, [file], reads=True, torn=self.random.random() < 0.5, dies=dies)
        ran = self.world.command('report', '--db', self.world.db, '--kind', 'queue')
        met = self.world.calls(file) >= call
        self.world.fail_from(None)
        if not met:
            self.assertEqual(ran[:2], (0, QUEUE))
        elif dies:
            self.assertEqual(ran.status, -signal.SIGKILL)
        elif ran.out != QUEUE:
            self.assertEqual(ran[:2], (3, 'store: O3\n'))
        for image in [self.world.save(), *self.world.losses(self.random, 1)]:
            self.is_kept(image)
        return met

    def each(self, dies, in_log):
        self.begin(*PATH, 'append j1 0 "one, "', 'set-mode 1 test oldest_first')
        self.world.stop()
        if not in_log:
            self.reported()
        self.image, self.tables, self.seen = self.world.save(), state(self.world).tables, set()
        seed = drawn()
        self.random = random.Random(seed)
        for file in ('log', 'db'):
            for call in range(1, MOST_CALLS):
                with self.subTest(file=file, call=call, SEED=seed):
                    met = self.opened(file, call, dies)
                    if not met:
                        break
            self.assertFalse(met, 'it ends well at last')
            self.assertGreater(call, 1, 'the opening calls the file')

    def test_each_call_fails(self):
        self.each(False, False)

    def test_each_call_fails_beside_a_log(self):
        self.each(False, True)

    def test_it_is_killed_at_each_call(self):
        self.each(True, False)

    def test_it_is_killed_at_each_call_beside_a_log(self):
        self.each(True, True)


class StopEach(Case):
    """`stop_each` sees what it is there to see."""

    def event(self):
        return tell(self.world, 'set-mode 1 prod oldest_first')

    def mode(self):
        return tell(self.world, 'show-mode 1 prod')

    def asks(self, after='oldest_first', before='unordered'):
        return [('after', self.mode, f'200 {{"key":"prod","process_mode":"{after}"}}'), ('before', self.mode, f'200 {{"key":"prod","process_mode":"{before}"}}')]

    def differs(self, why, event=None, asks=None):
        with self.assertRaisesRegex(Difference, why):
            stop_each(self.world, ['log'], event or self.event, asks or self.asks())

    def setUp(self):
        super().setUp()
        self.begin('add-project p', 'set-variable 1 KEY value')

    def test_a_commit_meets_each_fault_of_the_log(self):
        faults = stop_each(self.world, ['log', 'db'], self.event, self.asks())
        self.assertGreater(faults['log'], 1)
        self.assertEqual(faults['db'], 0)

    def test_an_event_that_was_answered_and_is_lost(self):
        self.world.without_sync()
        self.differs('lost as the machine stops')

    def test_an_event_that_has_happened_before(self):
        self.differs('says so before', asks=self.asks('unordered', 'oldest_first'))

    def test_a_state_of_neither_side(self):
        self.differs('neither side', asks=self.asks(after='newest_ready_first'))

    def test_rows_of_neither_side(self):
        def event():
            tell(self.world, 'set-variable 1 KEY other')
            return self.event()
        self.differs('torn', event=event)

    def test_a_fault_that_is_passed_over(self):
        self.differs('answered after', event=lambda: self.event() and '200')

    def test_a_server_that_goes_on(self):
        answers = []

        def event():
            answers.append(self.event())
            return CLOSED if len(answers) % 2 else '200'
        self.differs('open after a fault', event=event)

    def test_an_event_that_says_it_was_done_and_does_nothing(self):
        self.differs('lost as the program stops', event=self.mode)
