"""Each call of the store fails in turn, as an event is handled; then the server is opened again, and has what was there before the event or after it.

A call fails, and all behind it. Then the program is stopped: nothing that was written is lost; or the machine is, which loses what wasn't
synced: all of it, some writes of it, some sectors. What a server told after a stop of the program is told again after one of the machine. Its tables have all
as it was before the event, or all as it is after it.
"""
import os
import random

from transactions import copied

MOST_CALLS = 300  # of a file, that an event makes
DRAWS = 1  # of some writes and of some sectors, that are lost after each call
CLOSED = '503 M17'


class Difference(Exception):
    """What is wanted isn't what came."""


def agrees(answer, wanted):
    """Is the answer the wanted one? That is its text, the beginning of one where it ends by `..`, or what says so."""
    if callable(wanted):
        return wanted(answer)
    return answer.startswith(wanted[:-2]) if wanted.endswith('..') else answer == wanted


def signs_of(asks):
    """What tells whether the event has happened: (ask, wanted where it has, wanted where it hasn't or None)."""
    signs = []
    for when, ask, wanted in asks:
        if when == 'before':
            signs[-1][2] = wanted
        else:
            signs.append([ask, wanted, None])
    return signs


def rows(world):
    """All that the store keeps: its tables and indexes with their texts, and the rows of each table."""
    with copied(world) as connection:
        schema = connection.execute('SELECT * FROM sqlite_schema ORDER BY rowid').fetchall()
        tables = [name.decode() for kind, name, *_ in schema if kind == b'table']
        return schema, [connection.execute(f'SELECT * FROM {table}').fetchall() for table in tables]


class Trial:
    """An event that is handled over one snapshot of the store while calls fail."""

    def __init__(self, world, event, asks, check, is_command):
        self.world, self.event, self.check, self.is_command = world, event, check, is_command
        self.signs = signs_of(asks)
        self.changes = any(before is not None for _, _, before in self.signs)
        self.image = world.save()
        self.seed = int(os.environ.get('SEED') or random.randrange(1 << 32))
        self.random = random.Random(self.seed)
        self.found = {}
        # All that the store keeps where the event hasn't happened, and where it has; and which of them came of an event that was answered M17.
        self.rows = {}
        self.sides = set()
        # What stops of the machine may leave, once the last server was opened.
        self.settled = []

    def asked(self):
        """Has the event happened, by what the server says that runs now? All signs must tell the same."""
        found = None
        for ask, after, before in self.signs:
            answer = ask()
            if before is None:
                if not agrees(answer, after):
                    raise Difference(f'wanted {after}, came {answer}')
                continue
            has, has_not = agrees(answer, after), agrees(answer, before)
            if has == has_not or found not in (None, has):
                raise Difference(f'a state of neither side: {answer}')
            found = has
        return True if found is None else found

    def open(self):
        ended = self.world.restart()
        if ended:
            raise Difference(f'the server does not open: {ended.status} {ended.out}')

    def has_happened(self):
        """Starts the server over what is there: has the event happened? Its rows must be right before and after, and those of each other store by which it
        has, or hasn't."""
        self.open()
        self.check(self.world)
        kept = rows(self.world)
        self.settled = self.world.losses(self.random, DRAWS)
        found = self.asked()
        if self.rows.setdefault(found, kept) != kept:
            raise Difference('torn: other rows than before the event or after it')
        self.check(self.world)
        self.world.stop()
        return found

    def has_happened_by(self, image):
        """The same over a snapshot, where it wasn't asked before."""
        key = tuple(sorted(image.items()))
        if key not in self.found:
            self.world.restore(image)
            self.found[key] = self.has_happened()
        return self.found[key]

    def failing(self, file, call):
        """Sends the event over a store of which a file fails from a call on: its answers, of which the second one is there where the first was closed. Of a
        command, which opens the file too, reads don't fail: the files that it reads may be large."""
        self.world.restore(self.image)
        if not self.is_command:
            self.open()
        self.world.forget_calls()
        self.world.fail_from(call, [file], reads=not self.is_command, torn=self.random.random() < 0.5)
        answers = [self.event()]
        if answers[0] == CLOSED and not self.is_command:
            answers.append(self.event())
        self.world.fail_from(None)
        return answers

    def met(self, file, call):
        """Sends the event over a failing store: is it answered, and did it meet the fault? Once it met it, the server stays closed; but a command may be
        answered and meet it as it closes the file."""
        answers = self.failing(file, call)
        calls = self.world.calls(file)
        is_answered, is_met = answers[0] != CLOSED, calls >= call
        if is_answered == is_met and not (is_met and self.is_command):
            raise Difference(f'{"answered" if is_answered else "closed"} after {calls} calls: {answers[0]}')
        if answers[1:] not in ([], [CLOSED]):
            raise Difference(f'open after a fault: {answers[1]}')
        self.world.stop()
        return is_answered, is_met

    def tried(self, file, call):
        """The event meets the fault, or not, and the server is stopped and opened again. Did it meet it?"""
        is_answered, is_met = self.met(file, call)
        lost = self.world.losses(self.random, DRAWS)
        told = self.has_happened()
        settled = self.settled
        if is_answered and not told:
            raise Difference('an answered event is lost as the program stops')
        if not is_answered:
            self.sides.add(told)
        # What an opening has found stays.
        for image in settled:
            if self.has_happened_by(image) != told:
                raise Difference('what was told after a stop of the program is lost as the machine stops')
        for image in lost:
            if not self.has_happened_by(image) and is_answered:
                raise Difference('an answered event is lost as the machine stops')
        return is_met

    def each(self, file):
        """Lets the file fail from each call on, until none is met. How often did the event meet a fault?"""
        for call in range(1, MOST_CALLS + 1):
            try:
                if not self.tried(file, call):
                    return call - 1
            except Difference as difference:
                raise Difference(f'call {call} of the {file} (SEED={self.seed}): {difference}') from None
        raise Difference('the event is never answered')


def stop_each(world, files, event, asks, check=lambda world: None, is_command=False):
    """Has the event meet each fault of each of these files (`db`, `log`). `event` sends it, and returns `503 M17` where it is answered so, else the text of
    its answer; of another answer than the wanted one it raises. `asks` are (`after`, `before` or `then`; what asks, and returns the text of the answer; what
    is wanted). `check` sees that the rows of a world are right. A command is sent while no server runs. How often each file met a fault is returned; the
    server runs again as before."""
    world.stop()
    trial = Trial(world, event, asks, check, is_command)
    try:
        if trial.has_happened_by(trial.image) == trial.changes:
            raise Difference('what tells that it has happened says so before')
        faults = {file: trial.each(file) for file in files}
    finally:
        world.fail_from(None)
        world.stop()
        world.restore(trial.image)
    needed = 'log' if 'log' in files else 'db'
    if trial.changes and not faults[needed]:
        raise Difference(f'no fault of the {needed} is met')
    if trial.changes and needed == 'log' and trial.sides != {False, True}:
        raise Difference(f'what failed has always happened, or never: {trial.sides}')
    world.start()
    return faults
