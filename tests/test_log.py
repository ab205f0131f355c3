"""What `serve --log` tells on standard error: each line, that no line has a token or can be forged, and that what is answered is the same."""
import os
import re
import stat
import unittest

from cases import PATH, Case, alter, tell
from events import is_accepted
from reads import reads
from world import REQUESTS, until

ASK = ('POST /api/v4/jobs/request HTTP/1.1\r\nContent-Length: 47\r\n\r\n{"token":"r1-' + 'ab' * 16 + '"}').encode()
HEALTH = b'GET /-/health HTTP/1.1\r\n\r\n'
# What a server that has no log is asked for too: each kind of request, with tokens in the places where they stand.
EACH = ['show-project 1', 'set-variable 1 K v', 'delete-variable 1 K', 'set-mode 1 prod oldest_first', 'show-mode 1 prod', 'running j1', 'append j1 0 "hi"', 'success j1',
        'show-pipeline 1 1', 'show-job 1 1', 'trace 1 1', *reads(), 'retry 1 1', 'ask r1', 'failed j2', 'retry 1 1', 'cancel-job 1 1', 'cancel-pipeline 1 1', 'health',
        'show-job 1 9', 'ask other', 'show-project 1 with r1']
OPENED = 'opened {}: version 2, pipelines under way M, N us'
UNKNOWN = 'store failed: it is no whole database of this program, or a call of the system failed'


def timed(text):
    """Lines, with an N in the place of each time, and an M in that of how many pipelines are under way."""
    text = re.sub(r'\b\d+ us$', 'N us', text, flags=re.M)
    return re.sub(r'(?<=, pipelines under way )\d+(?=, N us$)', 'M', text, flags=re.M).splitlines()


class Log(Case):
    def serve(self, *words, requests=REQUESTS):
        self.world.stop()
        self.assertIsNone(self.world.start(requests, *words))

    def errors(self):
        """What is on standard error so far."""
        return os.pread(self.world.errors.fileno(), 1 << 20, 0).decode()

    def lines(self, count):
        """The lines, once there are so many; without the first, which tells of the opening."""
        until(lambda: self.errors().count('\n') >= count + 1, f'no {count} lines')
        opened, *lines = timed(self.errors())
        self.assertEqual(opened, OPENED.format(self.world.db))
        return lines

    def logged(self, request, line):
        """A request that is the first has this line."""
        self.serve('--log', 'requests')
        self.world.exchange(request)
        self.assertEqual(self.lines(1), [line])


class Events(Log):
    def test_what_is_under_way(self):
        # The first pipeline's only job has ended. The second has a running and a pending job, the third a pending one, the fourth's manual one waits for a user.
        self.begin(*PATH, 'success j1', 'set-file 1 two', 'create 1 a', 'ask r1', 'set-file 1 one', 'create 1 b', 'set-file 1 hold', 'create 1 c')
        self.serve('--log', 'events')
        until(lambda: '\n' in self.errors(), 'no line')
        self.assertRegex(self.errors(), r': version 2, pipelines under way 2, \d+ us\n\Z')

    def test_nothing_is_under_way(self):
        self.begin()
        self.serve('--log', 'events')
        until(lambda: '\n' in self.errors(), 'no line')
        self.assertRegex(self.errors(), r': version 2, pipelines under way 0, \d+ us\n\Z')

    def test_a_lease_that_is_over(self):
        self.begin(*PATH)
        self.serve('--log', 'events')
        self.told('at 1120 show-job 1 1', '200 {"id":1,"name":"build","stage":"build","status":"failed"}')
        self.assertEqual(self.lines(1), ['ended attempt 1: stuck_or_timeout_failure'])

    def test_a_redundant_pipeline(self):
        self.begin('add-project p', 'add-runner r', 'set-file 1 ship', 'create 1 main')
        self.serve('--log', 'events')
        self.told('create 1 main', '201 {"id":2,"jobs":[{"id":2,"name":"ship","stage":"test","status":"pending"}],"ref":"main","source":"api","status":"pending"}')
        self.world.exchange(HEALTH)
        self.told('show-job 1 1', '200 {"id":1,"name":"ship","stage":"test","status":"canceled"}')
        self.assertEqual(self.lines(1), ['cancelled pipeline 1: redundant'])

    def test_more_than_one_sweep_before_a_request(self):
        self.begin('add-project p', 'add-runner r', 'set-file 1 two', 'create 1 main', 'ask r1', 'ask r1')
        self.serve('--log', 'events')
        self.told('at 1120 ask r1', '204')
        self.assertEqual(self.lines(2), ['ended attempt 1: stuck_or_timeout_failure', 'ended attempt 2: stuck_or_timeout_failure'])

    def test_a_fault_of_the_store_and_the_stop(self):
        self.begin(*PATH[:4])
        self.world.stop()
        alter(self.world, "UPDATE runner SET tags = 'gpu'")
        self.serve('--log', 'events', requests=3)
        for _ in range(3):
            self.assertIn(b' 503 ', self.world.exchange(ASK)[:16])
        status, out, errors = self.world.ended()
        self.assertEqual((status, out, timed(errors)), (3, 'store: M17\n', [OPENED.format(self.world.db), UNKNOWN, 'stopped: store: M17']))

    def test_a_file_that_is_gone(self):
        self.begin(*PATH[:4])
        self.serve('--log', 'events', '--stop-on-fault')
        os.remove(self.world.db)
        self.world.fail_from(1)
        self.assertIn(b' 503 ', self.world.exchange(ASK)[:16])
        status, out, errors = self.world.ended()
        self.assertEqual((status, out, timed(errors)),
                         (3, 'store: M17\n', [OPENED.format(self.world.db), 'store failed: there is no such file or folder', 'stopped: store: M17']))

    def test_a_stop_after_its_connections(self):
        self.begin(*PATH[:4])
        self.serve('--log', 'events', requests=1)
        self.world.exchange(ASK)
        status, out, errors = self.world.ended()
        self.assertEqual((status, out, timed(errors)), (0, '', [OPENED.format(self.world.db), 'stopped: all connections were served']))

    def test_a_stop_without_a_clock(self):
        self.begin(*PATH[:4])
        self.serve('--log', 'requests')
        self.world.clock_fails()
        self.assertEqual(self.world.exchange(ASK), b'')
        status, out, errors = self.world.ended()
        self.assertEqual((status, out, timed(errors)), (1, 'refused: clock\n', [OPENED.format(self.world.db), 'stopped: refused: clock']))

    def test_a_port_that_is_taken(self):
        self.begin()
        self.serve()
        port = str(self.world.port)
        other = self.new_world()
        self.assertEqual(other.init()[:2], (0, 'ok\n'))
        ran = other.command('serve', '--db', other.db, '--port', port, '--requests', '1', '--log', 'events')
        self.assertEqual((ran.status, ran.out, timed(ran.err)),
                         (3, f'cannot listen on 127.0.0.1:{port}\n', [OPENED.format(other.db), f'stopped: cannot listen on 127.0.0.1:{port}']))

    def test_a_file_that_is_not_opened_has_no_line_more(self):
        ran = self.world.command('serve', '--db', self.world.db, '--port', '1', '--requests', '1', '--log', 'events')
        self.assertEqual(ran, (3, 'store: O3\n', f'{self.world.db}: there is no such file or folder\n'))

    def test_no_request_is_told(self):
        self.begin(*PATH[:4])
        self.serve('--log', 'events', requests=2)
        self.world.exchange(ASK)
        self.world.exchange(HEALTH)
        self.assertEqual(timed(self.world.ended().err), [OPENED.format(self.world.db), 'stopped: all connections were served'])


class Requests(Log):
    def setUp(self):
        super().setUp()
        self.begin()

    def test_the_line_of_a_request(self):
        self.logged(HEALTH, 'request GET /-/health 200 N us')

    def test_lines_stand_in_the_order_of_what_happened(self):
        self.begin_again()
        self.serve('--log', 'requests')
        self.told('at 1120 ask r1', '204')
        self.told('show-job 1 2', '404 M3')
        self.assertEqual(self.lines(3), ['ended attempt 1: stuck_or_timeout_failure', 'request POST /api/v4/jobs/request 204 N us',
                                         'request GET /api/v4/projects/1/jobs/2 404 N us'])

    def begin_again(self):
        for line in PATH:
            self.assertTrue(is_accepted(tell(self.world, line)), line)

    def test_no_query(self):
        self.logged(b'GET /api/v4/projects/1?private_token=p1-abab#x HTTP/1.1\r\n\r\n', 'request GET /api/v4/projects/1 401 N us')

    def test_no_fragment(self):
        self.logged(b'GET /a#p1-abab?x HTTP/1.1\r\n\r\n', 'request GET /a 404 N us')

    def test_no_line_is_forged(self):
        self.logged(b'GET /a\nstopped:\x1b[2K\t\\x HTTP/1.1\r\n\r\n', 'request GET /a\\x0astopped:\\x1b[2K\\x09\\x5cx 400 N us')

    def test_bytes_that_are_not_ascii(self):
        self.logged(b'GET /\xc3\xa9\x7f HTTP/1.1\r\n\r\n', 'request GET /\\xc3\\xa9\\x7f 400 N us')

    def test_a_path_as_long_as_is_shown(self):
        self.logged(b'GET /' + b'a' * 199 + b' HTTP/1.1\r\n\r\n', 'request GET /' + 'a' * 199 + ' 404 N us')

    def test_a_longer_path_is_cut(self):
        self.logged(b'GET /' + b'a' * 200 + b' HTTP/1.1\r\n\r\n', 'request GET /' + 'a' * 199 + '... 404 N us')

    def test_what_is_no_request(self):
        self.logged(b'p1-' + b'ab' * 16 + b'\r\n\r\n', 'request - - 400 N us')

    def test_a_target_that_is_no_path(self):
        self.logged(b'GET http://p1-abab@host/ HTTP/1.1\r\n\r\n', 'request - - 404 N us')

    def test_a_method_that_is_no_word_of_capitals(self):
        self.logged(b'p1-abab /api HTTP/1.1\r\n\r\n', 'request - - 404 N us')

    def test_a_head_that_is_refused(self):
        self.logged(b'GET /a HTTP/1.1\r\nX: ' + b'a' * 9000 + b'\r\n\r\n', 'request GET /a 431 N us')

    def test_no_token_is_told(self):
        self.begin_again()
        self.serve('--log', 'requests')
        told = [tell(self.world, line) for line in EACH]
        lines = self.lines(len(EACH))
        self.assertEqual([line.split(' ')[-3] for line in lines], [answer.split(' ')[0] for answer in told])
        for line in lines:
            self.assertTrue(line.startswith('request '), line)
            self.assertNotRegex(line, r'abab|\b[prj]\d+-')

    def test_what_is_answered_and_kept_is_the_same(self):
        answers = []
        for words in ((), ('--log', 'events'), ('--log', 'requests')):
            self.world.stop()
            self.world = self.new_world()
            self.begin(*PATH)
            self.serve(*words)
            answers.append([tell(self.world, line) for line in ['at 1001 health', *EACH, 'at 3000 ask r1']] + self.world.rows('SELECT * FROM attempt'))
        self.assertEqual(answers[1], answers[0])
        self.assertEqual(answers[2], answers[0])
        self.assertIn('200 running', answers[0])


class Silence(Log):
    def test_nothing_is_said_unasked(self):
        self.begin(*PATH)
        self.world.stop()
        alter(self.world, "UPDATE runner SET tags = 'gpu'")
        self.serve(requests=3)
        self.world.at(1120)
        for request in (HEALTH, b'\r\n\r\n', ASK):
            self.world.exchange(request)
        self.assertEqual(self.world.ended(), (3, 'store: M17\n', ''))

    def test_standard_error_that_takes_nothing(self):
        """It is closed, a pipe that nobody reads, or full: the server serves on, and answers the same."""
        for number, script in enumerate((
                'exec "$@" 2>&-',
                'exec python3 -c "import os, sys; r, w = os.pipe(); os.dup2(w, 2); os.close(r); os.close(w); os.execv(sys.argv[1], sys.argv[1:])" "$@"',
                'exec "$@" 2>/dev/full')):
            with self.subTest(script=script):
                self.world = self.new_world()
                self.begin(*PATH[:4])
                self.world.stop()
                path = os.path.join(self.world.folder, f'script{number}')
                with open(path, 'w', encoding='utf-8') as file:
                    file.write(f'#!/bin/sh\nset -- "{self.world.program}" "$@"\n{script}\n')
                os.chmod(path, stat.S_IRWXU)
                self.world.program = path
                self.serve('--log', 'requests', requests=4)
                self.assertEqual(self.world.exchange(ASK)[:22], b'HTTP/1.1 201 Created\r\n')
                for _ in range(3):
                    self.assertEqual(self.world.exchange(HEALTH)[-15:], b'{"status":"ok"}')
                self.assertEqual(self.world.ended()[:2], (0, ''))


if __name__ == '__main__':
    unittest.main()
