"""What is read of a project, worked out of all that a store keeps, by a rule of the tests' own: the bodies of replies."""
import json
from datetime import datetime, timezone

from choices import NEWEST_READY_FIRST, OLDEST_FIRST, state
from events import plain
from lines import Unread, Wanted
from rule import CANCELED, CAUSES, FAILED, LIVE, MANUAL, PENDING, RUNNING, SKIPPED

MOST = 100  # pipelines of a list
STATUSES = ['created', 'pending', 'running', 'success', 'failed', 'canceled', 'skipped', 'manual']
ENDS = ['running', 'success', 'failed', 'canceled']
SOURCES = ['push', 'web', 'schedule', 'api', 'trigger']
MODES = {OLDEST_FIRST: 'oldest_first', NEWEST_READY_FIRST: 'newest_ready_first'}


def json_of(value):
    return json.dumps(value, ensure_ascii=False, separators=(',', ':'), sort_keys=True)


def moment(seconds):
    return datetime.fromtimestamp(seconds, timezone.utc).strftime('%Y-%m-%dT%H:%M:%SZ')


class Listings:
    """What is read of the projects of a store."""

    def __init__(self, whole):
        self.whole = whole
        rows = whole.tables
        self.attempts = {row[0]: row for row in rows['attempt']}
        self.runners = {row[0]: row[1].decode() for row in rows['runner']}
        self.sources = {row[0]: row[4] for row in rows['pipeline']}
        self.names = {row[0]: (row[3].decode(), row[4].decode()) for row in rows['job']}
        self.of_number = {pipeline.id: pipeline for pipeline in whole.pipelines}

    def of_project(self, project):
        return [pipeline for pipeline in self.whole.pipelines if pipeline.project == project]

    # ---- a project and its pipelines

    def project(self, project):
        name = next(row[1] for row in self.whole.tables['project'] if row[0] == project)
        return {'id': project, 'name': name.decode()}

    def pipeline_status(self, pipeline):
        """The first that holds."""
        jobs = self.whole.jobs_of[pipeline.id]
        stands = [self.whole.status(job) for job in jobs]
        strict = {status for job, status in zip(jobs, stands) if not self.whole.is_allowed(job, status)}
        if RUNNING in stands or PENDING in stands:
            is_begun = RUNNING in stands or any(self.whole.attempts.get(job.id) for job in jobs)
            return STATUSES[RUNNING if is_begun else PENDING]
        for status in (MANUAL, FAILED, CANCELED):
            if status in strict:
                return STATUSES[status]
        return 'skipped' if all(status in (SKIPPED, MANUAL) for status in stands) else 'success'

    def pipelines(self, project):
        newest = sorted(self.of_project(project), key=lambda pipeline: -pipeline.id)[:MOST]
        return [{'created_at': moment(pipeline.created), 'id': pipeline.id, 'ref': pipeline.ref.decode(), 'source': SOURCES[self.sources[pipeline.id]],
                 'status': self.pipeline_status(pipeline), 'tag': bool(pipeline.kind)} for pipeline in newest]

    # ---- jobs and attempts

    def status(self, pipeline, job):
        status = self.whole.status(job)
        group = job.spec['resource_group']
        if status == PENDING and group is not None and ((pipeline.project, group) in self.whole.groups or self.whole.is_behind(pipeline, job)):
            return 'waiting_for_resource'
        return STATUSES[status]

    def job(self, pipeline, job):
        name, stage = self.names[job.id]
        return {'allow_failure': self.whole.is_allowed(job, self.whole.status(job)), 'attempts': self.attempts_of(job.id), 'id': job.id, 'name': name,
                'needs': self.whole.needs.get(job.id, []), 'resource_group': job.spec['resource_group'], 'stage': stage,
                'status': self.status(pipeline, job), 'tag_list': job.spec['tags'], 'when': job.spec['when']}

    def jobs(self, project, number):
        pipeline = self.of_number.get(number)
        if pipeline is None or pipeline.project != project:
            return None
        return [self.job(pipeline, job) for job in self.whole.jobs_of[number]]

    def attempt(self, row):
        number, _, runner, _, granted, seen, state, cause, code = row
        return {'exit_code': code, 'failure_reason': None if cause is None else CAUSES[cause], 'heard_at': moment(seen), 'id': number,
                'runner': {'id': runner, 'name': self.runners[runner]}, 'started_at': moment(granted), 'status': ENDS[state]}

    def attempts_of(self, job):
        return [self.attempt(row) for row in self.attempts.values() if row[1] == job]

    def is_of(self, project, job):
        return any(one.id == job and self.whole.projects[one.pipeline] == project for one in self.whole.jobs)

    def attempts_in(self, project, job):
        return self.attempts_of(job) if self.is_of(project, job) else None

    def trace(self, project, job, attempt):
        """The bytes of a trace."""
        if not self.is_of(project, job) or attempt not in self.attempts or self.attempts[attempt][1] != job:
            return None
        return b''.join(row[2] for row in sorted(self.whole.tables['piece']) if row[0] == attempt)

    # ---- resource groups

    def holder(self, project, group):
        """The job that holds a group."""
        for job in self.whole.jobs:
            is_live = any(attempt.state == LIVE for attempt in self.whole.attempts.get(job.id, []))
            if is_live and job.spec['resource_group'] == group and self.whole.projects[job.pipeline] == project:
                return job.id
        return None

    def groups(self, project):
        names = {group for of, group in [*self.whole.groups, *self.whole.modes] if of == project}
        return [{'holder': self.holder(project, group), 'key': group, 'process_mode': MODES.get(self.whole.modes.get((project, group)), 'unordered')}
                for group in sorted(names, key=str.encode)]


# What is worked out of the numbers of each event.
FOUND = {
    'show-project': Listings.project,
    'list-pipelines': Listings.pipelines,
    'list-jobs': Listings.jobs,
    'list-attempts': Listings.attempts_in,
    'trace-of': Listings.trace,
    'list-groups': Listings.groups,
}


def told(found):
    """What was found, as a scenario tells the reply to it."""
    if found is None:
        return '404 M3'
    if isinstance(found, bytes):
        return f'200 {plain(found)}' if found else '200'
    return f'200 {json_of(found)}'


def wanted(whole, line):
    """How the event of a line that reads something is answered over this state."""
    word, *numbers = line.split(' ')
    return told(FOUND[word](Listings(whole), *map(int, numbers)))


def worked_out(said, event, world):
    """What is wanted of an event. Where a scenario says `listed`, it is worked out of the tables that are there before the event."""
    if said is None or str(said) != 'listed':
        return said
    if event.read is None:
        raise Unread('nothing that is read of a project')
    return Wanted(wanted(state(world), event.read))
