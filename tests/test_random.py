"""Random events. One server goes on, but for commands, and remembers what came before. The other one is killed and opened anew after each event, often
within it, at a random call of its store, where what wasn't synced may be lost too; then it has one of the states that the first one went through, and
answers the same event as the first one did.

After each transaction the rows of statuses and of held groups are those that the records give; each sweep does what a rule of the tests' own says
(choices.py), each runner is given the job that it names, by the process modes that groups have by then, and the pipelines are pruned that it names. What is
read of a project is what such a rule says (listings.py).
"""
import json
import random

from cases import Case, tell
from choices import state
from events import DAY, MODES
from lines import Fault
from listings import wanted as listed
from reads import READS, reads
from transactions import Log, swept

EVENTS = 600
LIFE = 40  # events, on an average, between two stops of the server that goes on
JOBS, PIPELINES = 8, 24  # of a pipeline at most; made at most
LEAST = {'attempts': 20, 'refused': 20, 'held back': 2, 'ended': 3, 'cancelled': 2, 'pruned': 2, 'stopped within': 10, 'found before': 5,
         'read': 40, 'traces': 1, 'not there': 5}
# Half of the moments lie before this one, by which pipelines are pruned.
MIDNIGHT = DAY
FILES = {
    # Jobs of each kind, eight in a pipeline: tried again by themselves, started by hand, waiting for a failure, for any end, for named jobs, and some that
    # may fail; with tags, with a group that they share, with a limit of a minute, and some that are interruptible.
    'mixed': """
a:
  stage: build
  script: x
  interruptible: true
  retry:
    max: 1
    when: script_failure
hand:
  stage: build
  when: manual
  resource_group: prod
  script: x
f:
  needs: [a]
  when: on_failure
  tags: [linux]
  script: x
w:
  needs: [a]
  when: always
  resource_group: prod
  interruptible: true
  script: x
s:
  needs: [a, hand]
  timeout: 1 minute
  allow_failure:
    exit_codes: [3]
  script: x
gate:
  when: manual
  allow_failure: false
  tags: [arm, linux]
  script: x
ship:
  stage: deploy
  resource_group: prod
  script: x
g:
  stage: deploy
  needs: [s]
  resource_group: test
  interruptible: true
  script: x
""".lstrip(),
    # Three jobs of the other project, two of them with groups of the same names.
    'other': """
ship:
  resource_group: prod
  interruptible: true
  script: x
pack:
  tags: [linux]
  interruptible: true
  script: x
try:
  resource_group: test
  timeout: 1 minute
  interruptible: true
  script: x
""".lstrip(),
}
# Runners of the instance, with and without tags, and one of each project.
BEGINNING = ['add-project p', 'add-project p', 'add-runner r', 'add-runner r tags linux,arm tagged-only', 'add-runner r project 1 tags linux',
             'add-runner r project 2', 'set-file 1 mixed', 'set-file 2 other', 'create 1 main', 'create 2 main']


class Course:
    """Random events, and what has come of them so far."""

    def __init__(self, seed):
        self.random = random.Random(seed)
        self.counts = dict.fromkeys(LEAST, 0)
        self.pipelines = 2
        # Of each attempt its job.
        self.granted = {}

    def below(self, bound):
        return self.random.randrange(bound)

    def moment(self):
        """When an event comes: moments go back too."""
        return MIDNIGHT - 120 + self.below(240)

    def job(self):
        """The number of a job, mostly of one that is there."""
        return 1 + self.below(self.pipelines * JOBS + 1)

    def creation(self):
        return self.random.choice(['create 1 main', 'create 1 main', 'create 1 v1 tag', 'create 1 v1', 'create 2 main'])

    def report(self):
        """What the runner of one of the last attempts says."""
        attempt = max(1, self.counts['attempts'] - self.below(8))
        return self.random.choice([f'running j{attempt}', f'failed j{attempt} script_failure', f'failed j{attempt} script_failure exit 3',
                                   f'failed j{attempt} runner_system_failure exit 4', f'success j{attempt}', f'success j{attempt}'])

    def act(self):
        """What a user does."""
        job = self.job()
        mode = f'set-mode {1 + self.below(2)} {self.random.choice(["test", "prod", "prod"])} {self.random.choice(MODES)}'
        return self.random.choice([f'play 1 {job}', f'play 1 {job}', f'cancel-job 1 {job}', f'retry 1 {job}', f'retry 1 {job}',
                                   f'cancel-pipeline 1 {1 + self.below(PIPELINES + 1)}', mode, mode])

    def read(self):
        """What is read of a project, mostly of what came last."""
        project, pipeline = 1 + self.below(2), max(1, self.pipelines - self.below(5))
        attempt = max(1, self.counts['attempts'] - self.below(8))
        job = self.granted.get(attempt, 1)
        return self.random.choice([*reads(project, pipeline=pipeline, job=job, attempt=attempt), f'list-attempts 1 {self.job()}',
                                   f'trace-of 1 {job} {attempt}', f'trace-of 1 {job} {attempt}', f'trace-of 1 {self.job()} {attempt}'])

    def request(self):
        if self.below(6) == 0:
            return self.read()
        draw = self.below(22)
        if draw < 2 and self.pipelines < PIPELINES:
            return self.creation()
        if draw < 8:
            return f'ask r{self.below(6)}'
        if draw < 14:
            return self.report()
        attempt = max(1, self.counts['attempts'] - self.below(3))
        return self.act() if draw < 20 else f'append j{attempt} {5 * self.below(2)} "hello"'

    def command(self):
        runner = 1 + self.below(5)
        return self.random.choice([f'pause {runner}', f'resume {runner}', f'resume {runner}', f'prune {MIDNIGHT}'])

    def count(self, what, more=1):
        self.counts[what] += more


class RandomEvents(Case):
    def one(self, line):
        """A request: the server that goes on answers it as foretold, and the other one the same."""
        course, moment = self.course, self.course.moment()
        for world in (self.going, self.world):
            world.at(moment)
        mark = self.log.mark()
        wanted = tell(self.going, line, FILES)
        ends, _ = self.log.since(mark)
        states = [self.whole, *(state(self.going, end) for end in ends)]
        self.foretold(line, moment, states, wanted)
        self.whole = states[-1]
        if course.below(3) == 0:
            self.stopped_within(line, states, wanted)
        else:
            self.assertEqual(tell(self.world, line, FILES), wanted)
        self.world.stop()
        self.lose()
        self.assertEqual(state(self.world).tables, self.whole.tables, 'after a stop')

    def lose(self):
        """The machine stops too, perhaps."""
        images = self.world.losses(self.course.random, 1)
        if images and self.course.below(2):
            self.world.restore(self.course.random.choice(images))

    def stopped_within(self, line, states, wanted):
        """The other server is killed at a call of its store, if it makes so many. What is left is one of these states; sent again, the event is answered as ever."""
        self.world.restart()
        self.world.forget_calls()
        self.world.fail_from(1 + self.course.below(12), torn=self.course.below(2), dies=True)
        try:
            answer = tell(self.world, line, FILES)
        except Fault:
            answer = None
            self.course.count('stopped within')
        self.world.fail_from(None)
        self.world.stop()
        self.lose()
        # What this opening finds stays, whatever is lost later.
        self.world.restart()
        left = state(self.world).tables
        self.assertIn(left, [state.tables for state in states], 'a state that the other server never had')
        if answer is not None:
            self.assertEqual((answer, left), (wanted, states[-1].tables))
        elif left != states[-1].tables:
            self.course.count('found before')
            self.assertEqual(tell(self.world, line, FILES), wanted)

    def foretold(self, line, moment, states, answer):
        """The transactions are sweeps, as many as there are to do, and one of the event, if it changed anything."""
        course, place = self.course, 0
        for whole in states[1:]:
            self.assertTrue(whole.is_right(), 'other rows of statuses or groups than the records give')
        while (wanted := states[place].sweep(moment)) != 'nothing':
            self.assertLess(place + 1, len(states), f'not swept: {wanted}')
            self.assertEqual(told_sweep(states[place], states[place + 1]), wanted)
            course.count(wanted.split(' ')[0])
            place += 1
        before, after = states[place], states[-1]
        self.assertLessEqual(len(states) - 1 - place, 1, 'another transaction')
        words = line.split(' ')
        if words[0] == 'ask':
            self.foretold_ask(int(words[1][1:]), before, after, answer)
        if words[0] in READS:
            self.assertEqual(before.tables, after.tables)
            self.foretold_read(line, after, answer)
        if words[0] == 'set-mode':
            self.assertEqual(answer, f'200 {{"key":"{words[2]}","process_mode":"{words[3]}"}}')
            self.assertEqual(after.modes.get((int(words[1]), words[2]), 0), MODES.index(words[3]))
        if words[0] == 'create':
            self.assertEqual(answer[:4], '201 ')
            course.pipelines += 1

    def foretold_ask(self, number, before, after, answer):
        runner = before.runners.get(number)
        if runner is None:
            self.assertEqual(answer, '403 M4')
            return
        if before.holds_back():
            self.course.count('held back')
        job = before.offer(runner)
        if job is None:
            self.course.count('refused')
            self.assertEqual((answer, after.tables), ('204', before.tables))
            return
        self.course.count('attempts')
        self.assertEqual(answer[:4], '201 ')
        made = self.course.counts['attempts']
        self.course.granted[made] = job
        self.assertEqual(json.loads(answer[4:])['id'], made)
        self.assertEqual([row[1:3] for row in after.tables['attempt'] if row[0] == made], [(job, number)])

    def foretold_read(self, line, state, answer):
        wanted = listed(state, line)
        self.course.count('traces', line.startswith('trace-of') and wanted.startswith('200 '))
        self.course.count('not there' if wanted == '404 M3' else 'read')
        self.assertEqual(answer, wanted)

    def command(self, line):
        """A command, for which both servers stop."""
        before, moment = self.whole, self.course.moment()
        answers = []
        for world in (self.going, self.world):
            world.at(moment)
            answers.append(tell(world, line, FILES))
        self.whole = state(self.going)
        self.assertTrue(self.whole.is_right())
        self.assertEqual(answers[0], answers[1])
        self.assertEqual(state(self.world).tables, self.whole.tables)
        words = line.split(' ')
        if words[0] == 'prune':
            pruned = before.prunable(int(words[1]))
            self.course.count('pruned', len(pruned))
            self.assertEqual(answers[0], '\n'.join(f'200 {{"pruned":{number}}}' for number in pruned) or '204')
            self.assertEqual([pipeline.id for pipeline in self.whole.pipelines],
                             [pipeline.id for pipeline in before.pipelines if pipeline.id not in pruned])
        elif int(words[1]) in before.runners:
            self.assertEqual(self.whole.runners[int(words[1])].paused, int(words[0] == 'pause'))

    def play(self, seed):
        self.course = course = Course(seed)
        self.world.at(MIDNIGHT - 120)
        self.begin_with(BEGINNING)
        self.going = self.new_world()
        self.going.restore(self.world.save())
        self.whole, self.log = state(self.going), Log(self.going)
        for _ in range(EVENTS):
            if course.below(LIFE) == 0:
                for _ in range(5):
                    self.command(course.command())
            self.one(course.request())
        few = {what: count for what, count in course.counts.items() if count < LEAST[what]}
        self.assertEqual(few, {}, course.counts)

    def begin_with(self, lines):
        self.assertEqual(self.world.init()[:2], (0, 'ok\n'))
        for line in lines:
            self.assertIn(tell(self.world, line, FILES)[:3], ('200', '201'), line)
        self.world.stop()


def told_sweep(before, after):
    """What a transaction did between these, as a scenario tells a sweep."""
    def standing(whole):
        return ({row[0]: (row[6], row[7]) for row in whole.tables['attempt']}, {job.id: job.pipeline for job in whole.jobs if job.cancelled})
    return swept(standing(before), standing(after))


def of_seed(seed):
    def test(self):
        self.play(seed)
    return test


for number in (17, 71, 170, 710):
    setattr(RandomEvents, f'test_random_events_of_seed_{number}', of_seed(number))
