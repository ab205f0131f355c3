"""Events: out of the words of a line to the bytes of a request or the words of a command, and from a reply to the line that a scenario wants."""

import json
import re
from datetime import date, timedelta

from lines import Fault, Unread, number_in
from reads import NUMBER, READS

CAUSES = ['unknown_failure', 'script_failure', 'api_failure', 'stuck_or_timeout_failure', 'runner_system_failure',
          'job_execution_timeout']
SOURCES = ['push', 'web', 'schedule', 'api', 'trigger']
MODES = ['unordered', 'oldest_first', 'newest_ready_first']
SEED = bytes([0xab] * 16)
DAY = 86400

# The status of a refusal that a command prints without one, by docs/MODEL.md.
STATUS_OF = {'M2': 404, 'M3': 404, 'M14': 400, 'M15': 503, 'M16': 503}


class Event:
    """What is sent: a request over HTTP, a command, or nothing but a moment, as a sweep is."""

    def __init__(self, *, request=None, command=None, accepted=200, telling=None):
        self.request = request
        self.command = command
        self.accepted = accepted
        self.telling = telling
        self.is_sweep = request is None and command is None
        # The moment of a prune, whose command goes on until none is left.
        self.before = None
        # Of what is read of a project: its line, without the token.
        self.read = None


def token_of(word):
    """The token that a word stands for: `p2`, `r1` and `j3` for those of these numbers, another word for itself."""
    return f'{word}-{SEED.hex()}' if re.fullmatch(r'[prj]\d+', word) else word


def quoted(data):
    """Bytes in quotes, with those that don't show escaped."""
    shown = {10: '\\n', 13: '\\r', 9: '\\t', 34: '\\"', 92: '\\\\'}
    return '"' + ''.join(shown.get(byte) or (chr(byte) if 32 <= byte < 127 else f'\\x{byte:02x}') for byte in data) + '"'


# ---- requests

def request_of(method, path, *, fields=(), body=None):
    head = f'{method} /api/v4{path} HTTP/1.1\r\n'.encode()
    if method != 'GET':
        body = body or b''
        fields = [*fields, ('Content-Length', len(body))]
    for name, value in fields:
        head += f'{name}: {value}\r\n'.encode()
    return head + b'\r\n' + (body or b'')


def json_of(value):
    return json.dumps(value, ensure_ascii=False, separators=(',', ':')).encode()


def key_in_path(text):
    """A variable's or a group's name as it stands in a path, where nothing is decoded."""
    if not text or re.search(r'[\x00-\x20\x7f/?]', text):
        raise Unread('a name that no path can have')
    return text


def field_of(token):
    if token != token.strip() or re.search(r'[\x00-\x1f\x7f]', token):
        raise Unread('a token that no field can have')
    return token


class Reading:
    """The words of an event, and what they may name."""

    def __init__(self, words, texts):
        self.words = words
        self.texts = texts
        self.sent = words.token()

    def token(self, letter, number):
        return token_of(self.sent if self.sent is not None else f'{letter}{number}')

    def of_project(self, method, path='', body=None, telling=None):
        """A request of the project that the next word names. `path` makes the rest of its path, of the words behind."""
        project = self.words.number()
        token = field_of(self.token('p', project))
        rest = path() if callable(path) else path
        body = body() if callable(body) else body
        fields = [('PRIVATE-TOKEN', token)] if token else []
        return Event(request=request_of(method, f'/projects/{project}{rest}', fields=fields, body=body), telling=telling)

    def numbered(self, kind, act=''):
        return lambda: f'/{kind}/{self.words.number()}{act}'

    def keyed(self, kind):
        return lambda: f'/{kind}/{key_in_path(self.words.word())}'

    def read(self, word):
        line = b' '.join([word.encode(), *self.words.rest])
        event = self.of_project('GET', lambda: NUMBER.sub(lambda _: str(self.words.number()), READS[word]))
        event.read = line.decode(errors='replace')
        return event

    def health(self):
        token = field_of(token_of(self.sent or ''))
        head = f'PRIVATE-TOKEN: {token}\r\n' if token else ''
        return Event(request=f'GET /-/health HTTP/1.1\r\n{head}\r\n'.encode())

    def value(self):
        return json_of({'value': self.words.word()})

    def mode(self):
        mode = self.words.word()
        if mode not in MODES:
            raise Unread('a process mode')
        return json_of({'process_mode': mode})

    def file(self):
        return self.texts.get(self.words.word()).encode()

    def pipeline(self):
        words = self.words
        body = {'ref': words.word()}
        if words.takes('tag'):
            body['tag'] = True
        if words.takes('source'):
            body['source'] = words.word()
            if body['source'] not in SOURCES:
                raise Unread("a pipeline's source")
        variables = []
        while words.rest:
            key, sign, value = words.word().partition('=')
            if not sign:
                raise Unread('a variable')
            variables.append({'key': key, 'value': value})
        if variables:
            body['variables'] = variables
        return json_of(body)

    # ---- what runners say

    def ask(self):
        return Event(request=request_of('POST', '/jobs/request', body=json_of({'token': token_of(self.words.word())})))

    def exit(self, body):
        if self.words.takes('exit'):
            body['exit_code'] = self.words.number()

    def update(self, state):
        attempt = self.words.number_behind('j')
        body = {'token': self.token('j', attempt), 'state': state}
        if state == 'failed':
            for cause in CAUSES:
                if self.words.takes(cause):
                    body['failure_reason'] = cause
        if state != 'running':
            self.exit(body)
        return Event(request=request_of('PUT', f'/jobs/{attempt}', body=json_of(body)))

    def append(self):
        attempt, start = self.words.number_behind('j'), self.words.number()
        piece = b'a' * self.words.number() if self.words.takes('bytes') else self.words.bytes()
        if not piece:
            raise Unread('a piece without bytes, which no request can have')
        fields = [('JOB-TOKEN', field_of(self.token('j', attempt))), ('Content-Range', f'{start}-{start + len(piece) - 1}')]
        return Event(request=request_of('PATCH', f'/jobs/{attempt}/trace', fields=fields, body=piece))

    # ---- commands

    def project(self):
        return Event(command=['project-add', '--name', self.words.word()], accepted=201)

    def runner(self):
        words = self.words
        command = ['runner-add', '--name', words.word()]
        if words.takes('project'):
            command += ['--project', str(words.number())]
        if words.takes('tags'):
            command += ['--tags', words.word()]
        if words.takes('untagged') or not words.takes('tagged-only'):
            command.append('--untagged')
        return Event(command=command, accepted=201)

    def pause(self, *words):
        return Event(command=['runner-pause', '--runner', str(self.words.number()), *words])

    def prune(self):
        before = self.words.moment()
        if before % DAY:
            raise Unread('a moment within a day, which the command has no word for')
        event = Event(command=['prune', '--before', date_of(before)])
        event.before = before
        return event

    def event(self):
        word = self.words.word()
        make = EVENTS.get(word)
        if not make:
            raise Fault(f'unknown: {word}')
        event = make(self)
        self.words.end()
        return event


def date_of(moment):
    """The day that begins at a moment."""
    return (date(1970, 1, 1) + timedelta(days=moment // DAY)).isoformat()


EVENTS = {
    'add-project': Reading.project,
    'add-runner': Reading.runner,
    'pause': Reading.pause,
    'resume': lambda of: of.pause('--resume'),
    'prune': Reading.prune,
    'set-file': lambda of: of.of_project('PUT', '/ci_file', of.file),
    'set-variable': lambda of: of.of_project('PUT', of.keyed('variables'), of.value),
    'delete-variable': lambda of: of.of_project('DELETE', of.keyed('variables')),
    'set-mode': lambda of: of.of_project('PUT', of.keyed('resource_groups'), of.mode),
    'show-mode': lambda of: of.of_project('GET', of.keyed('resource_groups')),
    'create': lambda of: of.of_project('POST', '/pipeline', of.pipeline),
    'show-pipeline': lambda of: of.of_project('GET', of.numbered('pipelines')),
    'statuses': lambda of: of.of_project('GET', of.numbered('pipelines'), telling='statuses'),
    'cancel-pipeline': lambda of: of.of_project('POST', of.numbered('pipelines', '/cancel')),
    'show-job': lambda of: of.of_project('GET', of.numbered('jobs')),
    'trace': lambda of: of.of_project('GET', of.numbered('jobs', '/trace')),
    **{word: lambda of, word=word: of.read(word) for word in READS},
    'health': Reading.health,
    'play': lambda of: of.of_project('POST', of.numbered('jobs', '/play')),
    'cancel-job': lambda of: of.of_project('POST', of.numbered('jobs', '/cancel')),
    'retry': lambda of: of.of_project('POST', of.numbered('jobs', '/retry')),
    'ask': Reading.ask,
    'running': lambda of: of.update('running'),
    'success': lambda of: of.update('success'),
    'failed': lambda of: of.update('failed'),
    'append': Reading.append,
    'sweep': lambda of: Event(),
}
# A request that changes nothing: of a runner that nobody knows.
POLL = request_of('POST', '/jobs/request', body=b'{"token":"nobody"}')


# ---- replies, told on one line

class Reply:
    """A reply of bytes, read: its status, the fields and the body."""

    def __init__(self, data):
        head, end, self.body = data.partition(b'\r\n\r\n')
        lines = head.decode('latin-1').split('\r\n')
        if not end or not re.fullmatch(r'HTTP/1\.1 \d{3} [A-Z][A-Za-z ]*', lines[0]):
            raise Fault(f'no reply: {quoted(data[:200])}')
        self.status = lines[0].split(' ')[1]
        self.fields = dict(line.split(': ', 1) for line in lines[1:])
        if len(self.fields) != len(lines) - 1 or self.fields.get('Connection') != 'close':
            raise Fault(f'fields of a reply: {quoted(head)}')
        if int(self.fields.get('Content-Length', 0)) != len(self.body):
            raise Fault(f'a body of another length: {quoted(data[:200])}')

    def code(self):
        """The code of a refusal, and its detail."""
        if self.status < '400':
            return None
        return refusal_in(self.body.decode())

    def told(self):
        parts, code = [self.status], self.code()
        if code:
            parts.append(code[0])
        parts += [self.fields['Job-Status']] if 'Job-Status' in self.fields else []
        parts += [self.fields['Range']] if 'Range' in self.fields else []
        if code:
            parts += code[1:]
        elif self.body:
            is_text = self.fields.get('Content-Type') == 'text/plain'
            parts.append(plain(self.body) if is_text else self.body.decode())
        return ' '.join(parts)

    def statuses(self):
        """A pipeline that is shown: its status, and its jobs with theirs."""
        if self.code():
            return self.told()
        shown = json.loads(self.body)
        return ' '.join([shown['status'], *(f'{job["name"]}:{job["status"]}' for job in shown['jobs'])])


def refusal_in(text):
    """The code of a refusal's body, and the detail where it has one."""
    read = re.fullmatch(r'\{"code":"([A-Z]\d+)"(?:,"detail":"(.*)")?\}', text)
    if not read:
        raise Fault(f'no body of a refusal: {text}')
    return [part for part in read.groups() if part is not None]


def plain(data):
    """The bytes of a trace: in quotes, or how many of which byte."""
    if len(data) >= 4096 and data == data[:1] * len(data):
        return f'bytes {len(data)} of {chr(data[0])}'
    return quoted(data)


def told_reply(event, data):
    reply = Reply(data)
    return reply.statuses() if event.telling == 'statuses' else reply.told()


def told_command(event, ran):
    """What a command said of an event, as a reply would tell it; what it pruned a line each."""
    if ran.out and not ran.out.endswith('\n'):
        raise Fault(f'a line without its end: {ran.out!r}')
    text = ran.out[:-1]
    if ran.status == 0 and event.before is not None:
        return '\n'.join(f'200 {line}' for line in ran.out.splitlines()) or '204'
    if ran.status == 0:
        return f'{event.accepted} {text}'.rstrip()
    if ran.status == 1 and text.startswith('{'):
        code = refusal_in(text)
        return ' '.join([str(STATUS_OF[code[0]]), *code])
    if ran.status == 3 and text == 'store: M17':
        return '503 M17'
    return f'status {ran.status} {text}'.rstrip()


def is_accepted(told):
    return number_in(told.split(' ')[0]) < 400 if told[:1].isdigit() else False
