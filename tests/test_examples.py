"""The scripts and the sites of nginx of `examples/`: wrong words, folders whose names have blanks and quotes, and which path a server is asked for."""
import http.server
import os
import re
import shutil
import signal
import socket
import ssl
import subprocess
import tempfile
import threading
import time
import unittest
import urllib.request

HERE = os.path.dirname(os.path.abspath(__file__))
EXAMPLES = os.path.join(os.path.dirname(HERE), 'examples')
PATH = f'{os.environ["PATH"]}:/usr/sbin'


def free_port():
    with socket.socket() as taken:
        taken.bind(('127.0.0.1', 0))
        return taken.getsockname()[1]


class Asked(http.server.BaseHTTPRequestHandler):
    """Answers each path with itself, as it came."""

    def do_GET(self):
        path = self.requestline.split()[1].encode('latin-1')
        self.send_response(200)
        self.send_header('Content-Length', str(len(path)))
        self.end_headers()
        self.wfile.write(path)

    def log_message(self, *_):
        pass


class Examples(unittest.TestCase):
    def setUp(self):
        room = tempfile.TemporaryDirectory()
        self.addCleanup(room.cleanup)
        self.room = os.path.join(room.name, 'a "b\'c')
        os.mkdir(self.room)

    def ends(self, status, said, *words, **variables):
        """The script ends with this status, says so, and leaves nothing in the folder for what is temporary."""
        folder = os.path.join(self.room, 'tmp')
        os.makedirs(folder, exist_ok=True)
        ran = subprocess.run(words, env={**os.environ, 'TMPDIR': folder, **variables}, capture_output=True, text=True, timeout=30, check=False)
        self.assertEqual((ran.returncode, said in ran.stderr, ran.stdout), (status, True, ''), ran.stderr)
        self.assertEqual(os.listdir(folder), [])

    def begin(self, *words, **variables):
        process = subprocess.Popen(words, env={**os.environ, **variables}, stdout=subprocess.PIPE, stderr=subprocess.DEVNULL, text=True)

        def end():
            process.send_signal(signal.SIGTERM)
            process.communicate(timeout=30)
        self.addCleanup(end)
        return process


class Runner(Examples):
    def test_wrong_words_take_no_job(self):
        script, url = os.path.join(EXAMPLES, 'runner.sh'), f'http://127.0.0.1:{free_port()}'
        for words in ([], ['--once'], ['--onec', url], [url, self.room, 'more']):
            self.ends(2, 'usage: RUNNER_TOKEN=.. runner.sh [--once] URL [PROJECT]', script, *words, RUNNER_TOKEN='r1-x')
        self.ends(2, 'usage:', script, url, RUNNER_TOKEN='')
        for folder in ('--once', '', os.path.join(self.room, 'none')):
            self.ends(2, f'there is no folder {folder}\n', script, url, folder, RUNNER_TOKEN='r1-x')

    def test_without_a_folder_for_what_is_temporary(self):
        self.ends(3, 'mktemp', os.path.join(EXAMPLES, 'runner.sh'), '--once', f'http://127.0.0.1:{free_port()}', self.room, RUNNER_TOKEN='r1-x',
                  TMPDIR=os.path.join(self.room, 'none'))


class Killed(Examples):
    def test_a_tool_that_is_not_there_is_told_at_once(self):
        tools = os.path.join(self.room, 'tools')
        os.mkdir(tools)
        for tool in ('curl', 'jq', 'sqlite3'):
            self.ends(3, f'there is no {tool}\n', shutil.which('bash'), os.path.join(EXAMPLES, 'killed.sh'), '/none', PATH=tools)
            os.symlink('/bin/true', os.path.join(tools, tool))


@unittest.skipUnless(shutil.which('nginx', path=PATH) and shutil.which('openssl'), 'nginx or openssl is not there')
class Sites(Examples):
    def setUp(self):
        super().setUp()
        server = http.server.ThreadingHTTPServer(('127.0.0.1', 0), Asked)
        threading.Thread(target=server.serve_forever).start()
        self.addCleanup(server.server_close)
        self.addCleanup(server.shutdown)
        self.port = server.server_port

    def test_the_page_of_a_folder_whose_name_has_blanks_and_quotes(self):
        for part in ('examples', 'web'):
            shutil.copytree(os.path.join(EXAMPLES, '..', part), os.path.join(self.room, part))
        site = self.begin(os.path.join(self.room, 'examples', 'web.sh'), str(self.port), TMPDIR=self.room)
        url = site.stdout.readline().strip()
        with urllib.request.urlopen(url) as page, open(os.path.join(self.room, 'web', 'index.html'), 'rb') as file:
            self.assertEqual(page.read(), file.read())
        with urllib.request.urlopen(f'{url}api/v4/projects/1') as reply:
            self.assertEqual(reply.read(), b'/api/v4/projects/1')

    def test_a_site_that_does_not_begin(self):
        script = os.path.join(EXAMPLES, 'web.sh')
        self.ends(1, 'invalid port', script, 'port')
        self.ends(3, f'there is no page in {self.room}', script, str(self.port), PAGE=self.room)

    def test_a_path_comes_to_each_server_as_it_was_sent(self):
        front, name = free_port(), os.path.join(EXAMPLES, 'nginx-teams.conf')
        with open(name, encoding='utf-8') as file:
            site = file.read().replace('listen 443', f'listen 127.0.0.1:{front}').replace('/etc/nginx/ci', 'ci')
        with open(os.path.join(self.room, 'nginx.conf'), 'w', encoding='utf-8') as file:
            parts = ''.join(f'{part}_temp_path {part};' for part in ('client_body', 'proxy', 'fastcgi', 'uwsgi', 'scgi'))
            file.write(f'daemon off; pid pid; events {{}} http {{ access_log off; {parts}\n' + re.sub(r':808[123]\b', f':{self.port}', site) + '}\n')
        subprocess.run(['openssl', 'req', '-x509', '-newkey', 'ec', '-pkeyopt', 'ec_paramgen_curve:P-256', '-nodes', '-days', '1', '-subj', '/CN=ci.example.com', '-keyout', 'ci.key', '-out', 'ci.pem'],
                       cwd=self.room, stderr=subprocess.DEVNULL, check=True)
        self.begin(shutil.which('nginx', path=PATH), '-p', self.room, '-e', 'faults', '-c', 'nginx.conf')
        for path in ('/api/v4/projects/1/resource_groups/gr\u00f6\u00dfe', '/api/v4/projects/1/resource_groups/a%2fb', '/api/v4/projects/1/resource_groups/%41',
                     '/api/v4/projects/1/../1', '/api/v4/projects//1', '/api/v4/projects/1?a=b'):
            self.assertEqual(self.asked(front, 'red.ci.example.com', path), path)
            for team in ('red', 'blue', 'green'):
                self.assertEqual(self.asked(front, 'ci.example.com', f'/{team}{path}'), path)

    @staticmethod
    def asked(port, host, path):
        """The path that the server behind nginx got."""
        context = ssl.SSLContext(ssl.PROTOCOL_TLS_CLIENT)
        context.check_hostname, context.verify_mode = False, ssl.CERT_NONE
        for _ in range(300):
            try:
                plain = socket.create_connection(('127.0.0.1', port))
                break
            except ConnectionRefusedError:
                time.sleep(0.05)
        with context.wrap_socket(plain, server_hostname=host) as connection, connection.makefile('rb') as reply:
            connection.sendall(f'GET {path} HTTP/1.1\r\nHost: {host}\r\nConnection: close\r\n\r\n'.encode())
            return reply.read().partition(b'\r\n\r\n')[2].decode()


if __name__ == '__main__':
    unittest.main()
