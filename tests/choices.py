"""Which job a runner is given, what a sweep does and which pipelines are pruned, by a rule of the tests' own over all that a store keeps."""
import json
from collections import namedtuple

from rule import CREATED, LIVE, MANUAL, PENDING, RUNNING, Records
from transactions import copied

Pipeline = namedtuple('Pipeline', 'id project ref kind created')
Runner = namedtuple('Runner', 'id project tags untagged paused')
SILENCE = 120  # seconds without a word of its runner, after which an attempt is over
OLDEST_FIRST, NEWEST_READY_FIRST = 1, 2
TABLES = ['meta', 'project', 'variable', 'runner', 'pipeline', 'job', 'jobvar', 'attempt', 'piece', 'need', 'board', 'holder', 'mode']


class Whole(Records):
    """All that a store keeps, with how the jobs stand by the rule."""

    def __init__(self, connection):
        super().__init__(connection)
        self.tables = {table: connection.execute(f'SELECT * FROM {table} ORDER BY 1, 2').fetchall() for table in TABLES}
        self.pipelines = [Pipeline(*row) for row in connection.execute('SELECT id, project, ref, kind, created FROM pipeline ORDER BY id')]
        self.runners = {row[0]: Runner(row[0], row[1], json.loads(row[2]), *row[3:]) for row in
                        connection.execute('SELECT id, project, tags, untagged, paused FROM runner')}
        self.modes = {(project, group.decode()): mode for project, group, mode in connection.execute('SELECT project, grp, mode FROM mode')}
        self.moments = {attempt: (granted, seen) for attempt, granted, seen in connection.execute('SELECT id, granted, seen FROM attempt')}
        self.stands = self.rows()
        self.groups = {(project, group) for project, group, _ in self.held()}
        self.jobs_of = {pipeline.id: [job for job in self.jobs if job.pipeline == pipeline.id] for pipeline in self.pipelines}

    def is_right(self):
        """Are the rows of statuses and of held groups those that the records give?"""
        return ({job: tuple(row) for job, *row in self.tables['board']} == self.stands
                and sorted((project, group.decode(), attempt) for project, group, attempt in self.tables['holder']) == self.held())

    def status(self, job):
        return self.stands[job.id][0]

    def is_unfinished(self, pipeline):
        """Has a user something to wait for: is a job running, pending, or waiting for a user where the pipeline waits for it?"""
        return any(self.status(job) in (RUNNING, PENDING) or (self.status(job) == MANUAL and not self.is_allowed(job, MANUAL))
                   for job in self.jobs_of[pipeline.id])

    def attempts_of(self, pipeline):
        return [attempt for job in self.jobs_of[pipeline.id] for attempt in self.attempts.get(job.id, [])]

    # ---- who is given which job

    def has_waiting(self, pipeline, group, statuses):
        return any(self.status(job) in statuses and job.spec['resource_group'] == group for job in self.jobs_of[pipeline.id])

    def is_behind(self, pipeline, job):
        """Must the job of the pipeline wait for one of another pipeline, by the mode of its group?"""
        group = job.spec['resource_group']
        mode = self.modes.get((pipeline.project, group))
        others = [other for other in self.pipelines if other.project == pipeline.project]
        if mode == OLDEST_FIRST:
            return any(other.id < pipeline.id and self.has_waiting(other, group, (PENDING, CREATED)) for other in others)
        if mode == NEWEST_READY_FIRST:
            return any(pipeline.id < other.id and self.has_waiting(other, group, (PENDING,)) for other in others)
        return False

    def pending(self):
        return [(pipeline, job) for pipeline in self.pipelines for job in self.jobs_of[pipeline.id] if self.status(job) == PENDING]

    def holds_back(self):
        """Must a pending job wait for one of another pipeline, by the mode of its group?"""
        return any(self.is_behind(pipeline, job) for pipeline, job in self.pending())

    def offer(self, runner):
        """The number of the job that a runner is given, if there is one."""
        for pipeline, job in self.pending():
            is_barred = (pipeline.project, job.spec['resource_group']) in self.groups
            if may_run(runner, pipeline.project, job) and not is_barred and not self.is_behind(pipeline, job):
                return job.id
        return None

    # ---- sweeps and prunes

    def end_of(self, pipeline, attempt, now):
        """Why an attempt is over at this moment, if it is."""
        granted, seen = self.moments[attempt.id]
        job = next(job for job in self.jobs_of[pipeline.id] if job.id == attempt.job)
        late, silent = granted + job.spec['timeout'], seen + SILENCE
        if attempt.state != LIVE or now < min(late, silent):
            return None
        return 'job_execution_timeout' if late <= silent else 'stuck_or_timeout_failure'

    def is_redundant(self, pipeline):
        """Is there a newer one of the same project, for the same branch or tag, while no job of this one was tried that isn't interruptible?"""
        newer = any(other.id > pipeline.id and other[1:4] == pipeline[1:4] for other in self.pipelines)
        tried = {attempt.job for attempt in self.attempts_of(pipeline)}
        is_bound = any(job.id in tried and not job.spec['interruptible'] for job in self.jobs_of[pipeline.id])
        return newer and self.is_unfinished(pipeline) and not is_bound

    def sweep(self, now):
        """What a sweep does at this moment."""
        over = [(attempt.id, self.end_of(pipeline, attempt, now)) for pipeline in self.pipelines for attempt in self.attempts_of(pipeline)]
        over = sorted((number, cause) for number, cause in over if cause)
        if over:
            return 'ended %d %s' % over[0]
        redundant = [pipeline.id for pipeline in self.pipelines if self.is_redundant(pipeline)]
        return f'cancelled {redundant[0]}' if redundant else 'nothing'

    def prunable(self, before):
        """The finished pipelines that were made before a moment."""
        return [pipeline.id for pipeline in self.pipelines if pipeline.created < before and not self.is_unfinished(pipeline)]


def state(world, end=None):
    """All that the store of a world keeps, or that it kept where its log ended there."""
    with copied(world, end) as connection:
        return Whole(connection)


def may_run(runner, project, job):
    """May the runner run a job of this project, whoever else runs?"""
    tags = job.spec['tags']
    return (not runner.paused and runner.project in (None, project) and all(tag in runner.tags for tag in tags)
            and bool(tags or runner.untagged))
