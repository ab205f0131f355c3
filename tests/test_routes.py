"""The page of the routes: each path with each method, the events and scenarios that there are of it, and what it shows as examples."""
import glob
import os
import re
import unittest

from cases import Case, tell
from events import Reading
from lines import Texts, Words, words_of
from reads import read, reads
from world import HERE

with open(os.path.join(os.path.dirname(HERE), 'docs', 'HTTP.md'), encoding='utf-8') as file:
    PAGE = file.read()
ROUTES = re.findall(r'^\| ([A-Z]+) `(/[^`]+)` \|', PAGE, re.M)
WITH_BODY, OTHERS = ['PATCH', 'POST', 'PUT'], ['DELETE', 'GET', 'HEAD', 'OPTIONS', 'QUERY']
LACKS = ('HTTP/1.1 405 Method Not Allowed\r\nAllow: {}\r\nContent-Type: application/json\r\nContent-Length: 13\r\nConnection: close\r\n\r\n'
         '{{"code":"H6"}}')
# What is asked by GET and isn't among what is read of a project.
SHOWS = ['show-mode 1 A', 'show-pipeline 1 1', 'show-job 1 1', 'trace 1 1', 'health']


def paths():
    """The paths of the page's table of routes, with numbers and a name in their places, and the methods that each has, in their order."""
    found = {}
    for method, path in ROUTES:
        found.setdefault(re.sub(':(id|n|m)', '1', path).replace(':key', 'A'), []).append(method)
    return {path: sorted(methods) for path, methods in found.items()}


PATHS = paths()


def path_of(line):
    """The path of an event's request."""
    return Reading(Words(words_of(line)), Texts()).event().request.split(b' ')[1].decode()


class Routes(Case):
    def reply(self, method, path):
        length = 'Content-Length: 0\r\n' if method in WITH_BODY else ''
        return self.world.exchange(f'{method} {path} HTTP/1.1\r\n{length}\r\n'.encode()).decode()

    def test_each_method_of_each_path(self):
        self.begin('add-project p', 'health')
        self.assertGreater(len(PATHS), 20, 'the page tells its routes in another form')
        for path, methods in PATHS.items():
            for method in WITH_BODY + OTHERS:
                answer = self.reply(method, path)
                if method in methods:
                    self.assertNotIn(answer.split()[1], ('404', '405'), f'{method} {path}')
                else:
                    self.assertEqual(answer, LACKS.format(', '.join(methods)), f'{method} {path}')

    def test_no_path_beside_them_has_a_method(self):
        self.begin('add-project p', 'health')
        for path in (f'{path}{end}' for path in PATHS for end in ('/', '/x/y', 'x/')):
            for method in WITH_BODY + OTHERS:
                answer = self.reply(method, path)
                self.assertEqual((answer.split()[1], answer[-13:]), ('404', '{"code":"H5"}'), f'{method} {path}')

    def test_each_path_with_get_is_of_an_event(self):
        events = [path_of(line) for line in [*reads(), *SHOWS]]
        self.assertEqual(sorted(events), sorted(path for path, methods in PATHS.items() if 'GET' in methods))

    def test_each_route_has_bytes_in_a_scenario(self):
        scenarios = ''
        for name in glob.glob(os.path.join(HERE, 'scenarios', '*.txt')):
            with open(name, encoding='utf-8') as scenario:
                scenarios += scenario.read()
        for method, path in ROUTES:
            written = re.sub(':[a-z]+', '[^/ ]+', path)
            self.assertRegex(scenarios, rf'(?m)^> {method} {written} HTTP/1\.1$')


class Examples(Case):
    """What the page shows of what is read of a project. Its file and the replies stand there."""

    def test_each_is_answered_as_the_page_shows(self):
        section = PAGE.partition('\n## What is read of a project\n')[2].partition('\n## ')[0]
        file = re.search(r'^```yaml\n(.*?)^```$', section, re.M | re.S)[1]
        # The path of each, and its reply where one stands below it; none does below a trace.
        shown = re.findall(r'^curl -H "PRIVATE-TOKEN: \$P" \$API(\S+)[^\n]*\n(?:```\n```json\n([^\n]*)\n```$)?', section, re.M)
        self.assertEqual([path for path, _ in shown], [path_of(line).removeprefix('/api/v4') for line in reads()])
        self.begin('add-project hello', 'add-runner shell')
        self.assertEqual(tell(self.world, 'set-file 1 example', {'example': file}), '200 {"jobs":2}')
        for line in ('at 1795939200 create 1 main', 'at 1795939205 ask r1', 'at 1795939220 append j1 0 "made\\n"', 'at 1795939225 success j1 exit 0',
                     'at 1795939230 ask r1', 'at 1795939240 set-mode 1 prod oldest_first', 'at 1795939260 running j2'):
            self.assertEqual(tell(self.world, line)[:1], '2', line)
        trace = read('trace-of')
        for line, (_, reply) in zip(reads(), shown):
            self.told(line, '200 "made\\n"' if line == trace else f'200 {reply}')


if __name__ == '__main__':
    unittest.main()
