"""A client that was written for GitLab reads a project: Debian's python-gitlab over a server that runs. What it asks for and isn't served is told too."""
import importlib
import json
import sys
import unittest

from cases import Case, tell

DEBIAN = '/usr/lib/python3/dist-packages'


def found():
    """python-gitlab: of the Python that runs this, or of Debian's, where another Python comes first on the path. None where there is none."""
    for folders in ([], [DEBIAN]):
        sys.path[:0] = folders
        try:
            return importlib.import_module('gitlab')
        except ImportError:
            for name in [name for name in sys.modules if name.partition('.')[0] in ('gitlab', 'requests', 'requests_toolbelt', 'urllib3')]:
                del sys.modules[name]
        finally:
            del sys.path[:len(folders)]
    return None


gitlab = found()
TOKEN = 'p1-' + 'ab' * 16
FILES = {'shop': """
build:
  stage: build
  tags: [linux]
  script: make
unit:
  script: make test
ship:
  stage: deploy
  resource_group: prod
  when: manual
  script: make ship
""".lstrip()}
ATTEMPT = {'exit_code': 0, 'failure_reason': None, 'heard_at': '1970-01-01T00:16:50Z', 'id': 1, 'runner': {'id': 1, 'name': 'shell'},
           'started_at': '1970-01-01T00:16:50Z', 'status': 'success'}
PIPELINES = [(2, 'v1', True, 'push', 'pending', '1970-01-01T00:20:00Z'), (1, 'main', False, 'api', 'running', '1970-01-01T00:16:40Z')]


def listed(pipelines):
    return [(one.id, one.ref, one.tag, one.source, one.status, one.created_at) for one in pipelines]


@unittest.skipIf(gitlab is None, 'there is no python-gitlab: apt-get install -y python3-gitlab')
class Client(Case):
    def setUp(self):
        super().setUp()
        self.begin('add-project hello', 'add-runner shell tags linux')
        for line in ('set-file 1 shop', 'create 1 main', 'at 1010 ask r1', 'append j1 0 "hello"', 'success j1 exit 0', 'at 1200 create 1 v1 tag source push'):
            self.assertIn(tell(self.world, line, FILES)[:3], ('200', '201', '202'), line)
        self.gitlab = self.client(TOKEN)

    def client(self, token):
        client = gitlab.Gitlab(f'http://127.0.0.1:{self.world.port}', private_token=token)
        self.addCleanup(client.session.close)
        return client

    def projects(self):
        """The project as it was got, and as one that nobody asked for."""
        return [self.gitlab.projects.get(1), self.gitlab.projects.get(1, lazy=True)]

    def refused(self, kind, status, code, call):
        """The client raises an error of this kind, which has the status and the body."""
        with self.assertRaises(kind) as raised:
            call()
        self.assertEqual(raised.exception.response_code, status)
        self.assertEqual(json.loads(raised.exception.response_body), {'code': code})

    # ---- what is served

    def test_a_project_is_got(self):
        project = self.gitlab.projects.get(1)
        self.assertEqual(project.attributes, {'id': 1, 'name': 'hello'})
        project.refresh()
        self.assertEqual(project.name, 'hello')

    def test_pipelines_are_listed(self):
        for project in self.projects():
            self.assertEqual(listed(project.pipelines.list()), PIPELINES)
            self.assertEqual(listed(project.pipelines.list(get_all=True)), PIPELINES)
            self.assertEqual(listed(project.pipelines.list(iterator=True)), PIPELINES)

    def test_a_pipeline_is_got_with_its_jobs(self):
        for pipeline in [pipeline for project in self.projects()
                         for pipeline in (project.pipelines.get(1), project.pipelines.get(1, lazy=True), project.pipelines.list()[1])]:
            jobs = pipeline.jobs.list(get_all=True)
            self.assertEqual([(job.id, job.name, job.stage, job.status, job.when, job.allow_failure, job.tag_list) for job in jobs],
                             [(1, 'build', 'build', 'success', 'on_success', False, ['linux']),
                              (2, 'unit', 'test', 'pending', 'on_success', False, []),
                              (3, 'ship', 'deploy', 'created', 'manual', True, [])])
            self.assertEqual([job.attempts for job in jobs], [[ATTEMPT], [], []])
            self.assertEqual([job.needs for job in jobs], [[], [1], [1, 2]])
            self.assertEqual([job.resource_group for job in jobs], [None, None, 'prod'])
        for project in self.projects():
            self.assertEqual([project.pipelines.get(number).status for number in (1, 2)], ['running', 'pending'])

    def test_a_job_is_got_with_its_trace(self):
        for project in self.projects():
            for job in (project.jobs.get(1), project.jobs.get(1, lazy=True)):
                self.assertEqual(job.trace(), b'hello')
            self.assertEqual([project.jobs.get(number).status for number in (1, 2, 3)], ['success', 'pending', 'created'])
            self.assertEqual([project.jobs.get(job.id).name for job in project.pipelines.get(1).jobs.list()], ['build', 'unit', 'ship'])

    def test_a_pipeline_and_its_jobs_are_acted_on(self):
        project = self.gitlab.projects.get(1, lazy=True)
        pipeline = project.pipelines.create({'ref': 'next', 'variables': [{'key': 'A', 'value': '1'}]})
        self.assertEqual((pipeline.id, pipeline.status), (3, 'pending'))
        self.assertEqual(pipeline.cancel()['status'], 'canceled')
        project.jobs.get(1, lazy=True).retry()
        project.jobs.get(2, lazy=True).cancel()
        pipeline = project.pipelines.get(1, lazy=True)
        self.assertEqual([job.status for job in pipeline.jobs.list()], ['pending', 'canceled', 'created'])
        self.refused(gitlab.exceptions.GitlabJobPlayError, 400, 'M10', project.jobs.get(3, lazy=True).play)

    def test_what_its_classes_lack_is_got_by_paths(self):
        self.assertEqual(self.gitlab.http_list('/projects/1/resource_groups'), [])
        self.assertEqual(self.gitlab.http_list('/projects/1/jobs/1/attempts'), [ATTEMPT])
        self.assertEqual(self.gitlab.http_get('/projects/1/jobs/1/attempts/1/trace', raw=True).content, b'hello')

    def test_refusals_are_errors(self):
        kinds = gitlab.exceptions
        self.refused(kinds.GitlabGetError, 404, 'M2', lambda: self.gitlab.projects.get(2))
        self.refused(kinds.GitlabAuthenticationError, 401, 'M1', lambda: self.client('nobody').projects.get(1))
        project = self.gitlab.projects.get(1, lazy=True)
        self.refused(kinds.GitlabGetError, 404, 'M3', lambda: project.pipelines.get(9))
        self.refused(kinds.GitlabListError, 404, 'M3', project.pipelines.get(9, lazy=True).jobs.list)

    # ---- what isn't

    def test_a_query_is_not_read(self):
        """The list is the same whatever is asked of it: no page, no filter, no order."""
        pipelines = self.gitlab.projects.get(1, lazy=True).pipelines
        for query in ({'page': 1, 'per_page': 1}, {'page': 7}, {'status': 'failed'}, {'ref': 'main'}, {'sort': 'asc'}):
            self.assertEqual(listed(pipelines.list(**query)), PIPELINES, query)

    def test_no_page_is_told(self):
        pages = self.gitlab.projects.get(1, lazy=True).pipelines.list(iterator=True)
        self.assertEqual((len(pages), pages.next_page, pages.per_page, pages.total), (0, None, None, None))

    def test_what_has_no_route(self):
        kinds, project = gitlab.exceptions, self.gitlab.projects.get(1, lazy=True)
        for kind, call in ((kinds.GitlabGetError, self.gitlab.auth), (kinds.GitlabListError, self.gitlab.projects.list),
                           (kinds.GitlabListError, project.jobs.list), (kinds.GitlabListError, project.variables.list),
                           (kinds.GitlabListError, project.pipelines.get(1, lazy=True).variables.list),
                           (kinds.GitlabPipelineRetryError, project.pipelines.get(1, lazy=True).retry)):
            self.refused(kind, 404, 'H5', call)
        self.assertEqual(self.gitlab.version(), ('unknown', 'unknown'))
        self.refused(kinds.GitlabHttpError, 405, 'H6', lambda: self.gitlab.http_delete('/projects/1/pipelines/1'))


if __name__ == '__main__':
    unittest.main()
