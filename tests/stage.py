"""A scenario over the program: each step is done, and what comes compared with what is wanted."""

import sqlite3
from contextlib import closing

import rule
import transactions
from events import POLL, SEED, Reply, is_accepted, quoted, told_command, told_reply
from exchanges import carry_out
from lines import Differs, Fault
from listings import worked_out
from steps import BEGINNING, Ask, Exchange, Reopen, Repeat, Report, Rows, Statement, StopEach, steps_of
from stops import Difference, stop_each

CLOSED = '503 M17'


# A new file of a server, once one was made.
made = {}


def make_file(world):
    if made:
        world.restore(made)
        return
    ran = world.init()
    if ran.status:
        raise Fault(f'no file is made: {ran}')
    made.update(world.save())


class Stage:
    """The server of a scenario, which runs while requests come, and not while commands do."""

    def __init__(self, world):
        self.world = world
        self.log = transactions.Log(world)
        # Were its tables changed by hand?
        self.is_altered = False
        # What was swept or pruned at once, and is still to be asked for, one by one.
        self.left = []
        self.left_of = None
        self.left_line = None
        world.seed(SEED)
        world.at(BEGINNING)
        make_file(world)

    # ---- the program

    def served(self):
        ended = self.world.start() if self.world.server is None else None
        if ended:
            raise Fault(f"the server doesn't open: {ended}")

    def command(self, *words):
        self.world.stop()
        return self.world.command(*words, '--db', self.world.db)

    # ---- events

    def tell(self, ask):
        """Has an event handled: the answer as it is told."""
        self.world.at(ask.moment)
        event = ask.event
        if event.command:
            return told_command(event, self.command(*event.command))
        self.served()
        if event.is_sweep:
            return self.sweep()
        return told_reply(event, self.world.exchange(event.request))

    def sweep(self):
        """What a request sweeps that does nothing else."""
        mark, before = self.log.mark(), transactions.standing(self.world)
        told = Reply(self.world.exchange(POLL)).told()
        if told == CLOSED:
            return CLOSED
        if told != '403 M4':
            raise Differs('403 M4', told)
        return '\n'.join(transactions.sweeps_since(self.world, self.log, mark, before)) or 'nothing'

    def follow(self, ask):
        """Has an event handled, which must be answered as it says. A sweep, and a command that prunes, do all at once that they find, and the steps
        behind it tell it one by one."""
        event = ask.event
        of = 'sweep' if event.is_sweep else event.before
        if of is None:
            self.follow_alone(ask)
            return
        if self.left and (of, ask.moment) != self.left_of:
            self.nothing_left()
        if not self.left:
            self.left = self.tell(ask).split('\n')
            self.left_of, self.left_line = (of, ask.moment), ask.line
        compare(ask, self.left.pop(0))

    def nothing_left(self):
        if self.left:
            left, self.left = self.left, []
            raise Fault(f'more was done at once than the scenario asks for: {left}', self.left_line)

    def follow_alone(self, ask):
        """Has an event handled before which nothing is due: a sweep that is has a step of its own."""
        self.nothing_left()
        self.work_out(ask)
        if ask.event.command:
            compare(ask, self.tell(ask))
            return
        self.served()
        mark = self.log.mark()
        came = self.tell(ask)
        self.unswept(mark, 1 if changes(ask.event, came) else 0)
        compare(ask, came)

    def unswept(self, mark, most):
        """There may be so many transactions since then, of the event itself; one more is a sweep's."""
        ends, _ = self.log.since(mark)
        if len(ends) > most:
            raise Fault(f'a sweep did something before the event: {len(ends)} transactions')

    # ---- steps

    def exchange(self, exchange):
        self.nothing_left()
        self.world.at(exchange.moment)
        self.served()
        mark = self.log.mark()
        carry_out(self.world, exchange)
        self.unswept(mark, 1 if exchange.served in ('replied', 'write-failed') else 0)

    def rows(self, step):
        query = step.query if step.query.startswith('SELECT ') else f'SELECT * FROM {step.query}'
        with transactions.copied(self.world) as connection:
            rows = connection.execute(query).fetchall()
        same(step, ''.join(' '.join(map(shown, row)) + '\n' for row in rows))

    def report(self, step):
        kind, _, number = step.kind.partition(' ')
        ran = self.command('report', '--kind', kind, *(['--pipeline', number] if number else []))
        if ran.status == 1 and ran.out == 'refused: M3\n' and number:
            same(step, '')
        elif ran.status:
            raise Fault(f"the report isn't told: {ran}")
        else:
            same(step, ''.join(line.rstrip() + '\n' for line in ran.out.splitlines()))

    def alter(self, step):
        self.world.stop()
        self.is_altered = True
        with closing(sqlite3.connect(self.world.db)) as connection, connection:
            connection.execute(step.statement)

    def reopen(self, _):
        """The server is killed; a command that opens the file and closes it in good order leaves its log empty."""
        ran = self.command('report', '--kind', 'queue')
        if ran.status:
            raise Fault(f"the file doesn't open: {ran}")

    def work_out(self, *asks):
        """What is wanted of these, where it is told by the tables as they are."""
        for ask in asks:
            ask.wanted = worked_out(ask.wanted, ask.event, self.world)

    def stop_each(self, step):
        self.served()
        self.work_out(step.ask, *(sign.ask for sign in step.signs))
        asks = []
        for sign in step.signs:
            ask = lambda sign=sign: self.tell_now(sign.ask)
            asks.append((sign.kind, ask, sign.ask.wanted.allows))
            if sign.before:
                asks.append(('before', ask, sign.before.allows))
        stop_each(self.world, step.files, lambda: self.met(step.ask), asks, rule.check,
                  is_command=step.ask.event.command is not None)
        self.world.stop()

    def tell_now(self, ask):
        """The answer over files that were changed meanwhile."""
        self.log = transactions.Log(self.world)
        return self.tell(ask)

    def met(self, ask):
        """The answer of an event on a store that may fail: as wanted, or that the store failed."""
        told = self.tell_now(ask)
        if told in (CLOSED, 'status 3 store: O3'):
            return CLOSED
        compare(ask, told)
        return told

    def repeat(self, step):
        for _ in range(step.count):
            self.follow(step.ask)

    def play(self, step):
        if not isinstance(step, (Ask, Repeat)):
            self.nothing_left()
        PLAYS[type(step)](self, step)

    def close(self):
        """All that was swept or pruned was asked for, the rows are right, and the server is open."""
        self.nothing_left()
        if not self.is_altered:
            rule.check(self.world)
        self.world.at(0)
        self.served()
        told = Reply(self.world.exchange(POLL)).told()
        if told != '403 M4':
            raise Fault(f'the server is closed: {told}')


PLAYS = {Ask: Stage.follow, Repeat: Stage.repeat, StopEach: Stage.stop_each, Exchange: Stage.exchange, Rows: Stage.rows, Report: Stage.report,
         Statement: Stage.alter, Reopen: Stage.reopen}


def changes(event, came):
    """May a request that was answered so have changed anything?"""
    is_poll = event.request.startswith(b'POST /api/v4/jobs/request ')
    return is_accepted(came) and not event.request.startswith(b'GET ') and not (is_poll and came == '204')


def compare(ask, came):
    if ask.wanted is None:
        if not is_accepted(came) and not (ask.event.is_sweep and came != CLOSED):
            raise Differs('no refusal', came, ask.line)
    elif not ask.wanted.allows(came):
        raise Differs(ask.wanted, came, ask.line)


def same(step, came):
    if came != step.lines:
        raise Differs(step.lines, came, step.line)


def shown(value):
    """A value of a row: a text of letters, digits and `_` as it stands, another in quotes."""
    if value is None:
        return 'null'
    if isinstance(value, int):
        return str(value)
    if isinstance(value, float):
        raise Fault('a number with a fraction')
    is_plain = value and all(chr(byte).isalnum() and byte < 128 or byte == 95 for byte in value)
    return value.decode() if is_plain else quoted(value)


def perform(world, scenario):
    """Runs a scenario. Errors: it differs, and where."""
    steps = steps_of(scenario)
    stage = Stage(world)
    for step in steps:
        try:
            stage.play(step)
        except (Fault, Difference, sqlite3.Error) as fault:
            fault.line = getattr(fault, 'line', None) or step.line
            raise
    stage.close()
