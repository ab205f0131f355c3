"""What is read of a project where no scenario says it: lists of more pipelines than are shown, a server that is closed, and what health looks up."""
import json
import unittest

from cases import Case, tell
from choices import state
from events import is_accepted
from listings import MOST, moment, wanted
from reads import reads

CLOSED = '503 M17'


def pipeline(number, seconds, ref, tag=False):
    return {'created_at': moment(seconds), 'id': number, 'ref': ref, 'source': 'api', 'status': 'pending', 'tag': tag}


def listed(pipelines):
    return '200 ' + json.dumps(pipelines, separators=(',', ':'))


class Many(Case):
    def create(self, lines):
        for line in lines:
            answer = tell(self.world, line)
            self.assertTrue(is_accepted(answer), f'{line}: {answer}')

    def test_the_hundred_newest_pipelines_are_listed_the_newest_first(self):
        self.begin('add-project p', 'add-project q', 'set-file 1 one', 'set-file 2 one')
        # Pipeline n of both projects: 1 has the odd numbers, 2 the even ones. Their moments go back.
        own = []
        for count in range(99):
            seconds = 5000 - count
            self.create([f'at {seconds} create 1 b{count}', f'at {seconds} create 2 c{count}'])
            own.insert(0, pipeline(2 * count + 1, seconds, f'b{count}'))
        self.told('list-pipelines 1', listed(own))
        self.create(['at 4000 create 1 v1 tag'])
        own.insert(0, pipeline(199, 4000, 'v1', True))
        self.assertEqual(len(own), MOST)
        self.told('list-pipelines 1', listed(own))
        self.create(['at 3000 create 2 main', 'at 6000 create 1 main'])
        own.insert(0, pipeline(201, 6000, 'main'))
        self.told('list-pipelines 1', listed(own[:MOST]))
        # One of the hundred goes, and the one behind them is listed again.
        self.create(['cancel-pipeline 1 199', 'prune 86400'])
        del own[1]
        self.told('list-pipelines 1', listed(own))
        self.world.restart()
        self.told('list-pipelines 1', listed(own))

    def test_a_pipeline_of_the_most_jobs_is_listed_whole(self):
        """Two hundred jobs in four stages, each of which waits for all of the stages before."""
        stages = ['.pre', 'build', 'test', 'deploy']
        text = ''.join(f'job{number}:\n  stage: {stages[number // 50]}\n  script: x\n' for number in range(200))
        self.begin('add-project p', 'add-runner r')
        self.assertEqual(tell(self.world, 'set-file 1 most', {'most': text}), '200 {"jobs":200}')
        self.create(['create 1 main', 'ask r1', 'success j1', 'ask r1'])
        answer = tell(self.world, 'list-jobs 1 1')
        self.assertEqual(answer[:5], '200 [')
        jobs = json.loads(answer[4:])
        self.assertEqual([(job['id'], job['name'], job['stage']) for job in jobs],
                         [(number + 1, f'job{number}', stages[number // 50]) for number in range(200)])
        self.assertEqual([job['needs'] for job in jobs], [list(range(1, number // 50 * 50 + 1)) for number in range(200)])
        self.assertEqual([job['status'] for job in jobs], ['success', 'running'] + ['pending'] * 48 + ['created'] * 150)
        self.assertEqual([len(job['attempts']) for job in jobs], [1, 1] + [0] * 198)
        self.assertEqual(answer, wanted(state(self.world), 'list-jobs 1 1'))

    def test_each_attempt_of_many_is_listed(self):
        self.begin('add-project p', 'add-runner r', 'set-file 1 one', 'create 1 main')
        for number in range(1, 151):
            self.create(['ask r1', f'append j{number} 0 "{number}"', f'failed j{number} script_failure exit {number}', 'retry 1 1'])
        answer = tell(self.world, 'list-attempts 1 1')
        attempts = json.loads(answer[4:])
        self.assertEqual([(one['id'], one['exit_code'], one['status']) for one in attempts], [(number, number, 'failed') for number in range(1, 151)])
        self.assertEqual(answer, wanted(state(self.world), 'list-attempts 1 1'))
        self.told('trace-of 1 1 1', '200 "1"')
        self.told('trace-of 1 1 75', '200 "75"')
        self.told('trace-of 1 1 150', '200 "150"')


class Closed(Case):
    def setUp(self):
        super().setUp()
        self.begin('add-project p', 'add-runner r', 'set-file 1 one', 'create 1 main', 'ask r1', 'append j1 0 "hello"')

    def test_a_server_whose_store_failed_reads_nothing_and_is_not_well(self):
        self.told('health', '200 {"status":"ok"}')
        self.world.fail_from(1)
        self.told('set-mode 1 prod oldest_first', CLOSED)
        self.world.fail_from(None)
        # The store is well again, and the server stays closed.
        self.told('health', CLOSED)
        self.told('health with p1', CLOSED)
        for line in reads():
            self.told(line, CLOSED)
        self.assertEqual(self.world.exchange(b'GET /-/health HTTP/1.1\r\n\r\n'),
                         b'HTTP/1.1 503 Service Unavailable\r\nContent-Type: application/json\r\nContent-Length: 14\r\nConnection: close\r\n\r\n{"code":"M17"}')
        self.world.restart()
        self.told('health', '200 {"status":"ok"}')
        self.told('trace-of 1 1 1', '200 "hello"')

    def test_health_asks_nothing_of_the_store(self):
        self.world.restart()
        self.world.forget_calls()
        self.world.fail_from(1, reads=True)
        for _ in range(3):
            self.told('health', '200 {"status":"ok"}')
        self.assertEqual((self.world.calls('db'), self.world.calls('log')), (0, 0))
        # Whoever changes something finds out.
        self.told('set-mode 1 prod oldest_first', CLOSED)
        self.assertGreater(self.world.calls('db') + self.world.calls('log'), 0)
        self.told('health', CLOSED)

    def test_nothing_that_is_read_writes(self):
        self.told('ask r1', '204')
        self.world.forget_calls()
        # None of these calls fails: writes and syncs are counted.
        self.world.fail_from(1 << 40)
        for line in reads():
            self.assertTrue(is_accepted(tell(self.world, line)), line)
        self.assertEqual((self.world.calls('db'), self.world.calls('log')), (0, 0))


if __name__ == '__main__':
    unittest.main()
