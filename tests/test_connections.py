"""The loop over connections: what peers send that come at once, end early, say nothing or too much, and what each gets."""
import json
import os
import resource
import socket
import time

from cases import PATH, Case, alter
from world import received, until

P1 = 'p1-' + 'ab' * 16
J1 = 'j1-' + 'ab' * 16


def request(method, path, body, **fields):
    head = ''.join(f'{name.replace("_", "-")}: {value}\r\n' for name, value in fields.items())
    return f'{method} /api/v4{path} HTTP/1.1\r\n{head}Content-Length: {len(body)}\r\n\r\n{body}'.encode()


def refusal(status, code):
    return f'HTTP/1.1 {status}\r\nContent-Type: application/json\r\nContent-Length: {len(code) + 11}\r\nConnection: close\r\n\r\n{{"code":"{code}"}}'.encode()


def done(status, body):
    return f'HTTP/1.1 {status}\r\nContent-Type: application/json\r\nContent-Length: {len(body)}\r\nConnection: close\r\n\r\n{body}'.encode()


def running(attempt, seed):
    return request('PUT', f'/jobs/{attempt}', f'{{"token":"j{attempt}-{seed}","state":"running"}}')


ASK = request('POST', '/jobs/request', '{"token":"r1-' + 'ab' * 16 + '"}')
SUCCESS = request('PUT', '/jobs/1', f'{{"token":"{J1}","state":"success"}}')
SHOW = f'GET /api/v4/projects/1/jobs/1 HTTP/1.1\r\nPRIVATE-TOKEN: {P1}\r\n\r\n'.encode()
SET_FILE = request('PUT', '/projects/1/ci_file', 'build:\n  stage: build\n  script: make\nunit:\n  script: [make test]\n', PRIVATE_TOKEN=P1)
CREATE = request('POST', '/projects/1/pipeline', '{"ref":"main"}', PRIVATE_TOKEN=P1)
CREATED = ('{"id":1,"jobs":[{"id":1,"name":"build","stage":"build","status":"pending"},{"id":2,"name":"unit","stage":"test","status":"created"}],'
           '"ref":"main","source":"api","status":"pending"}')
RUNS = b'HTTP/1.1 200 OK\r\nJob-Status: running\r\nContent-Length: 0\r\nConnection: close\r\n\r\n'
NO_CONTENT = b'HTTP/1.1 204 No Content\r\nConnection: close\r\n\r\n'


def piece(text, **fields):
    return request('PATCH', '/jobs/1/trace', text, JOB_TOKEN=J1, **fields)


def shown(name, stage, status):
    return done('200 OK', f'{{"id":1,"name":"{name}","stage":"{stage}","status":"{status}"}}')


def descriptors(process):
    """What the descriptors of a process stand for; its sockets begin with `socket:`."""
    folder = f'/proc/{process}/fd'
    return [os.readlink(os.path.join(folder, descriptor)) for descriptor in os.listdir(folder)]


def processor_seconds(process):
    """How much of the processor a process took so far, in seconds."""
    with open(f'/proc/{process}/stat', encoding='utf-8') as file:
        user, system = file.read().rpartition(')')[2].split()[11:13]
    return (int(user) + int(system)) / os.sysconf('SC_CLK_TCK')


class Peers(Case):
    def sent(self, data, is_whole=True):
        """A peer that has sent bytes, and sends no more where that is whole."""
        peer = self.world.connect()
        self.addCleanup(peer.close)
        peer.sendall(data)
        if is_whole:
            peer.shutdown(socket.SHUT_WR)
        return peer

    def at_once(self, requests):
        """What each request is answered, where all came, each over a connection of its own, before the first is served."""
        self.world.pause()
        peers = [self.sent(data) for data in requests]
        self.world.pause(False)
        return [received(peer) for peer in peers]

    def exchanged(self, rows):
        """Each request that came at once is answered by bytes that begin so."""
        for (data, reply), came in zip(rows, self.at_once([data for data, _ in rows])):
            self.assertEqual(came[:len(reply)], reply, data)


class Connections(Peers):
    def test_two_jobs_are_run(self):
        self.begin(*PATH[:2])
        self.world.start()
        self.exchanged([(SET_FILE, done('200 OK', '{"jobs":2}')), (CREATE, done('201 Created', CREATED)), (ASK, b'HTTP/1.1 201 Created\r\n'),
                        (SUCCESS, b'HTTP/1.1 200 OK\r\nJob-Status: success\r\n'), (ASK, b'HTTP/1.1 201 Created\r\n'), (ASK, NO_CONTENT)])

    def test_a_trace_is_sent_in_pieces(self):
        self.begin(*PATH)
        self.exchanged([(piece('hello', Content_Range='0-4'), b'HTTP/1.1 202 Accepted\r\nJob-Status: running\r\nRange: 0-5\r\n'),
                        (piece('hello', Content_Range='0-4'), b'HTTP/1.1 416 Range Not Satisfiable\r\nRange: 0-5\r\n'),
                        (piece('world', Content_Range='5-9'), b'HTTP/1.1 202 Accepted\r\nJob-Status: running\r\nRange: 0-10\r\n'),
                        (piece('ab', Content_Range='11-12'), b'HTTP/1.1 416 Range Not Satisfiable\r\nRange: 0-10\r\n'),
                        (piece('', Content_Range='10-9'), refusal('400 Bad Request', 'H7')),
                        (piece('world'), refusal('400 Bad Request', 'H7'))])

    def test_a_part_of_a_request_does_nothing(self):
        self.begin(*PATH[:4])
        for size in range(len(ASK)):
            self.assertEqual(self.world.exchange(ASK, close_after=size), b'', f'{size} bytes')
        self.exchanged([(ASK, b'HTTP/1.1 201 Created\r\n')])

    def test_no_peer_holds_the_server(self):
        """One that says nothing and one that says half have ten seconds; one that is gone when its reply comes costs nothing."""
        self.begin(*PATH[:4])
        begin = time.monotonic()
        waiting = [self.sent(b'', False), self.sent(ASK[:40], False)]
        self.sent(b'GET / HTTP/1.1\r\n\r\n').close()
        self.assertEqual(self.world.exchange(ASK)[:22], b'HTTP/1.1 201 Created\r\n')
        self.assertLess(time.monotonic() - begin, 5)
        for peer in waiting:
            self.assertEqual(received(peer), b'')
            self.assertGreater(time.monotonic() - begin, 9.5)
        self.assertLess(time.monotonic() - begin, 20)

    def test_without_a_moment_nothing_is_served(self):
        self.begin(*PATH[:4])
        self.world.clock_fails()
        self.assertEqual(self.world.exchange(ASK), b'')
        self.assertEqual(self.world.ended(), (1, 'refused: clock\n', ''))

    def test_without_a_seed_nothing_is_served(self):
        self.begin(*PATH[:4])
        self.world.seed_fails()
        self.assertEqual(self.world.exchange(ASK), b'')
        self.assertEqual(self.world.ended(), (1, 'refused: seed\n', ''))

    def test_a_broken_store_closes_the_server(self):
        self.begin(*PATH[:4])
        self.world.stop()
        alter(self.world, "UPDATE runner SET tags = 'gpu'")
        self.world.start(requests=2)
        broken = refusal('503 Service Unavailable', 'M17')
        self.assertEqual(self.at_once([ASK, SUCCESS]), [broken, broken])
        self.assertEqual(self.world.ended(), (3, 'store: M17\n', ''))

    def test_a_broken_store_ends_a_server_that_is_to_stop_then(self):
        """The reply to the request that met the fault arrives, and no connection is served after it."""
        self.begin(*PATH[:4])
        self.world.stop()
        alter(self.world, "UPDATE runner SET tags = 'gpu'")
        self.world.start(1000, '--stop-on-fault')
        self.assertEqual(self.world.exchange(ASK), refusal('503 Service Unavailable', 'M17'))
        self.assertEqual(self.world.ended(), (3, 'store: M17\n', ''))

    def test_a_server_that_is_to_stop_at_a_fault_serves_its_number_without_one(self):
        self.begin(*PATH[:4])
        self.world.stop()
        self.world.start(1, '--stop-on-fault')
        self.assertTrue(self.world.exchange(ASK).startswith(b'HTTP/1.1 201 '))
        self.assertEqual(self.world.ended(), (0, '', ''))

    def test_a_reply_before_the_end_of_the_body_arrives(self):
        """Its length is over the limit, and most of its body is unread when the reply is sent."""
        self.begin(*PATH[:4])
        data = b'POST /api/v4/jobs/request HTTP/1.1\r\nContent-Length: 100000\r\n\r\n'
        came = self.world.exchange(data + b' ' * (100000 - len(data)))
        self.assertEqual(came[:32], b'HTTP/1.1 413 Payload Too Large\r\n')

    def without_descriptors(self, requests):
        """A server of so many requests that has answered one, and then accepted two peers that say nothing and hold the last descriptors: its process and these peers."""
        self.begin(*PATH)
        self.world.stop()
        self.world.start(requests=requests)
        server = self.world.server.pid
        # Once it has replied it has opened what it needs itself.
        self.assertEqual(self.world.exchange(SHOW), shown('build', 'build', 'running'))
        taken = sum(not descriptor.startswith('socket:') for descriptor in descriptors(server)) + 1
        until(lambda: len(descriptors(server)) == taken, 'the connection is not over')
        resource.prlimit(server, resource.RLIMIT_NOFILE, (taken + 2, taken + 2))
        silent = [self.sent(b'', False) for _ in range(2)]
        until(lambda: len(descriptors(server)) == taken + 2, 'the peers are not accepted')
        return server, silent

    def test_no_descriptor_is_left(self):
        """Nothing is accepted then, which takes no time to speak of; who waits is served once there are descriptors again."""
        server, silent = self.without_descriptors(1000)
        waiting = self.sent(SHOW)
        spent = processor_seconds(server)
        time.sleep(1)
        self.assertLess(processor_seconds(server) - spent, 0.3)
        for peer in silent:
            peer.close()
        self.assertEqual(received(waiting), shown('build', 'build', 'running'))
        self.assertEqual(self.world.exchange(SHOW), shown('build', 'build', 'running'))

    def test_an_accept_that_fails_counts(self):
        """Five of the eight are accepts that fail, half a second of them: then nobody is accepted any more, and it ends with those that it has."""
        server, silent = self.without_descriptors(8)
        waiting = self.sent(SHOW)
        time.sleep(1.5)
        for peer in silent:
            peer.close()
        self.assertEqual(self.world.ended(), (0, '', ''))
        self.assertEqual(received(waiting), b'')

    def test_it_ends_after_so_many_connections(self):
        self.begin(*PATH)
        self.world.stop()
        self.world.start(requests=3)
        for _ in range(3):
            self.assertEqual(self.world.exchange(SHOW), shown('build', 'build', 'running'))
        self.assertEqual(self.world.ended(), (0, '', ''))


class Moments(Peers):
    """Each request has a moment and a seed of its own, and the server is swept before it; always behind a peer that says nothing."""

    def test_a_lease_ends_before_the_request_behind_it(self):
        """The job was granted at 1000, so its lease is over at 1120."""
        self.begin(*PATH)
        self.sent(b'', False)
        self.world.at(1119)
        self.assertEqual(self.world.exchange(SHOW), shown('build', 'build', 'running'))
        self.world.at(1120)
        self.assertEqual(self.world.exchange(SHOW), shown('build', 'build', 'failed'))
        self.assertEqual(self.world.rows('SELECT granted, seen FROM attempt'), [(1000, 1000)])

    def test_a_redundant_pipeline_is_cancelled_before_the_request(self):
        self.begin('add-project p', 'add-runner r', 'set-file 1 ship', 'create 1 main', 'create 1 main')
        self.sent(b'', False)
        self.assertEqual(self.world.exchange(SHOW), shown('ship', 'test', 'canceled'))

    def test_the_same_bytes_get_other_seeds(self):
        """Two requests of the same bytes are granted two jobs, each by the token of its own seed."""
        self.begin('add-project p', 'add-runner r', 'set-file 1 two', 'create 1 main')
        self.sent(b'', False)
        for attempt in (1, 2):
            self.world.seed(bytes([attempt]) * 16)
            came = json.loads(self.world.exchange(ASK).partition(b'\r\n\r\n')[2])
            self.assertEqual((came['id'], came['token']), (attempt, f'j{attempt}-' + f'{attempt:02x}' * 16))
        for attempt in (1, 2):
            self.assertEqual(self.world.exchange(running(attempt, f'{attempt:02x}' * 16)), RUNS)
            self.assertEqual(self.world.exchange(running(attempt, f'{3 - attempt:02x}' * 16)), refusal('403 Forbidden', 'M5'))

    def test_random_seeds_differ(self):
        """The same, of requests that come at once, with the machine's own seeds."""
        self.begin('add-project p', 'add-runner r', 'set-file 1 two', 'create 1 main')
        self.world.seed(None)
        tokens = [json.loads(came.partition(b'\r\n\r\n')[2])['token'][3:] for came in self.at_once([ASK, ASK])]
        self.assertEqual([len(token) for token in tokens], [32, 32])
        self.assertNotEqual(tokens[0], tokens[1])
        self.assertNotIn('ab' * 16, tokens)

