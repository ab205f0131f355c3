"""The rows that a store keeps beside its records, of statuses and of groups that are held, worked out from the records by a rule of the tests' own."""

import json
from collections import namedtuple

from lines import Fault
from transactions import copied

CREATED, PENDING, RUNNING, SUCCESS, FAILED, CANCELED, SKIPPED, MANUAL = range(8)
LIVE, SUCCEEDED, ENDED_BADLY, CANCELLED = range(4)
CAUSES = ['unknown_failure', 'script_failure', 'api_failure', 'stuck_or_timeout_failure', 'runner_system_failure', 'job_execution_timeout']

Job = namedtuple('Job', 'id pipeline spec played cancelled aside')
Attempt = namedtuple('Attempt', 'id job state cause exit')


class Records:
    """The pipelines, jobs, needs and attempts of a store."""

    def __init__(self, connection):
        self.projects = dict(connection.execute('SELECT id, project FROM pipeline'))
        self.jobs = [Job(job, pipeline, json.loads(spec), *facts) for job, pipeline, spec, *facts in
                     connection.execute('SELECT id, pipeline, spec, played, cancelled, aside FROM job ORDER BY id')]
        self.needs, self.attempts = {}, {}
        for job, pred in connection.execute('SELECT job, pred FROM need ORDER BY job, pred'):
            self.needs.setdefault(job, []).append(pred)
        for row in connection.execute('SELECT id, job, state, cause, exit FROM attempt ORDER BY id'):
            self.attempts.setdefault(row[1], []).append(Attempt(*row))

    def last(self, job):
        attempts = self.attempts.get(job.id)
        return attempts[-1] if attempts else None

    def standing(self, job):
        """How a job stands by its own doing. None: it is idle."""
        last = self.last(job)
        count = len(self.attempts.get(job.id, [])) - job.aside
        if last and last.state == LIVE:
            return RUNNING
        if job.cancelled:
            return CANCELED
        if not last or count <= 0:
            return None
        if last.state == SUCCEEDED:
            return SUCCESS
        retry = job.spec['retry']
        is_tried = last.state == ENDED_BADLY and count <= retry['max'] and CAUSES[last.cause] in retry['causes']
        return None if is_tried else FAILED

    def is_allowed(self, job, status):
        """Does the pipeline go on, though the job stands so?"""
        allow, last = job.spec['allow_failure'], self.last(job)
        if isinstance(allow, bool):
            return allow
        return status == FAILED and last is not None and last.state == ENDED_BADLY and last.exit is not None and last.exit in allow

    def effect(self, job, status, needed):
        """What a job that stands so means to one that waits for it: `open`, `failed`, `barred`, or nothing."""
        if status in (CREATED, PENDING, RUNNING):
            return 'open'
        if status == SKIPPED:
            return 'barred' if needed else None
        if status == SUCCESS or self.is_allowed(job, status):
            return None
        return {FAILED: 'failed', CANCELED: 'barred', MANUAL: 'open'}[status]

    def rows(self):
        """The row of each job, of which those that it waits for have lesser numbers."""
        rows, by_id = {}, {job.id: job for job in self.jobs}
        for job in self.jobs:
            effects = [self.effect(by_id[pred], rows[pred][0], job.spec['needs']) for pred in self.needs.get(job.id, [])]
            counts = [effects.count(effect) for effect in ('open', 'failed', 'barred')]
            own = self.standing(job)
            rows[job.id] = (idle(job, *counts) if own is None else own, *counts)
        return rows

    def held(self):
        """Which live attempts hold which resource groups of which projects."""
        held = []
        for job in self.jobs:
            group = job.spec['resource_group']
            if group is not None:
                held += [(self.projects[job.pipeline], group, attempt.id) for attempt in self.attempts.get(job.id, []) if attempt.state == LIVE]
        return sorted(held)


def idle(job, opens, failed, barred):
    """The status of an idle job, by how many before it are open, failed and barred."""
    when = job.spec['when']
    if opens:
        return CREATED
    if when == 'always' or (when == 'on_failure' and failed):
        return PENDING
    if when == 'on_failure' or failed or barred:
        return SKIPPED
    return MANUAL if when == 'manual' and not job.played else PENDING


def check(world):
    """The rows of statuses and of held groups must be those that the records give."""
    with copied(world) as connection:
        records = Records(connection)
        kept = {job: tuple(row) for job, *row in connection.execute('SELECT job, status, open, failed, barred FROM board')}
        holders = sorted((project, group.decode(), attempt) for project, group, attempt in
                         connection.execute('SELECT project, grp, attempt FROM holder'))
    if kept != records.rows():
        raise Fault('other rows of statuses than the records give')
    if holders != records.held():
        raise Fault('other groups than the records give')
