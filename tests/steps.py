"""The steps of a scenario, out of its lines."""

from dataclasses import dataclass, field

from events import Event, Reading
from lines import Fault, Texts, Unread, Wanted, Words, number_in, words_of

BEGINNING = 1000
SERVED = ['replied', 'ended', 'read-failed', 'write-failed']


@dataclass
class Ask:
    """An event at a moment, and what it must be answered; where nothing is said, to be accepted."""
    line: int
    moment: int
    event: Event
    wanted: Wanted


@dataclass
class Repeat:
    line: int
    count: int
    ask: Ask


@dataclass
class Sign:
    """What tells after a stop whether an event has happened: its kind is `after` or `then`, and `before` what is answered where it hasn't."""
    ask: Ask
    words: str
    kind: str
    before: Wanted = None


@dataclass
class StopEach:
    line: int
    files: tuple
    ask: Ask
    signs: list = field(default_factory=list)


@dataclass
class Exchange:
    """A request of bytes, how it is sent, what becomes of it, and the bytes that come back."""
    line: int
    moment: int
    way: dict
    request: bytearray = field(default_factory=bytearray)
    reply: bytearray = field(default_factory=bytearray)
    served: str = 'replied'
    # Which of the two has a line of its body.
    bodies: set = field(default_factory=set)


@dataclass
class Rows:
    line: int
    query: str
    lines: str = ''


@dataclass
class Report:
    line: int
    kind: str
    lines: str = ''


@dataclass
class Statement:
    line: int
    statement: str


@dataclass
class Reopen:
    line: int


def head_of(text):
    """A text's first word, and what stands behind it."""
    head, _, rest = text.partition(' ')
    return head, rest.strip()


def behind(rest):
    """A line behind its mark, without the blank between."""
    return rest[1:] if rest.startswith(' ') else rest


def is_of_name(text):
    return all(byte.isascii() and (byte.isalnum() or byte in '-_') for byte in text)


class Reader:
    """The lines of a scenario that were read."""

    def __init__(self):
        self.texts = Texts()
        self.steps = []
        self.moment = BEGINNING
        self.chunk = None
        # How the next request is sent and read.
        self.way = {}
        # What a line behind a bar belongs to.
        self.bar = None

    def last(self, kind, why):
        if not self.steps or not isinstance(self.steps[-1], kind):
            raise Unread(why)
        return self.steps[-1]

    def line(self, line):
        mark, rest = line.text[0], line.text[1:]
        if mark == '|':
            return self.bar_line(behind(rest))
        if mark == '>':
            return self.request_line(line.number, rest)
        if mark == '<':
            return self.put_line('<', 'reply', rest)
        self.bar = None
        head, rest = head_of(line.text)
        keyword = KEYWORDS.get(head)
        if keyword:
            keyword(self, line.number, rest)
        else:
            self.ask_line(line.number, line.text)

    def bar_line(self, rest):
        if self.bar is None:
            raise Unread('a line of no text and no rows')
        if self.bar == 'text':
            return self.texts.put(rest)
        self.steps[-1].lines += rest.rstrip() + '\n'

    # ---- texts

    def begin_text(self, rest, line_end):
        name, text = head_of(rest)
        if not name:
            raise Unread('a text without a name')
        if text and line_end:
            raise Unread("a word behind a file's name")
        self.texts.begin(name, text, line_end)
        self.bar = 'text'

    def wanted(self, text):
        """What is wanted, with the text that its last word may name."""
        text = text.strip()
        front, sign, name = text.rpartition('$')
        if sign and (not front or front.endswith(' ')) and is_of_name(name):
            text = front + self.texts.get(name)
        return Wanted(text)

    # ---- events

    def filled(self, asked):
        """An event's line, in which a word `$NAME` stands for the text NAME, if there is one."""
        words = []
        for word in asked.split(' '):
            text = self.texts.find(word[1:]) if word.startswith('$') else None
            words.append(word if text is None else text)
        return ' '.join(words)

    def ask(self, line, text):
        asked, sign, wanted = text.partition(' = ')
        wanted = self.wanted(wanted) if sign else None
        words = Words(words_of(self.filled(asked)))
        moment = words.moment() if words.takes('at') else self.moment
        return Ask(line, moment, Reading(words, self.texts).event(), wanted)

    def ask_line(self, line, text):
        self.steps.append(self.ask(line, text))

    def at_line(self, line, rest):
        seconds, event = head_of(rest)
        self.moment = Words(words_of(seconds)).moment()
        if event:
            self.ask_line(line, event)

    def repeat(self, line, rest):
        count, event = head_of(rest)
        self.steps.append(Repeat(line, number_in(count), self.ask(line, event)))

    def reopen(self, line, rest):
        if rest:
            raise Fault(f'unknown: {rest}')
        self.steps.append(Reopen(line))

    def rows(self, step):
        self.bar = 'rows'
        self.steps.append(step)

    # ---- stops

    def stop_line(self, line, rest):
        files = []
        for file in ('log', 'db'):
            if rest.startswith(file + ' '):
                files.append(file)
                rest = rest[len(file):].lstrip()
        self.steps.append(StopEach(line, tuple(files), self.ask(line, rest)))

    def sign_line(self, line, rest, kind):
        words, sign, _ = rest.partition(' = ')
        if not sign:
            raise Unread('nothing is wanted')
        stop = self.last(StopEach, 'it belongs to no `stop-each`')
        stop.signs.append(Sign(self.ask(line, rest), words.strip(), kind))

    def before_line(self, rest):
        words, sign, wanted = rest.partition(' = ')
        stop = self.last(StopEach, 'it belongs to no `stop-each`')
        if not sign or not stop.signs:
            raise Unread('nothing is wanted, or no `after` stands before it')
        latest = stop.signs[-1]
        if latest.words != words.strip() or latest.before or latest.kind != 'after':
            raise Unread('another event than that of the `after` before it')
        latest.before = self.wanted(wanted)

    # ---- bytes

    def request_line(self, line, rest):
        """A line of a request, which it begins unless the last step is one whose reply isn't begun."""
        last = self.steps[-1] if self.steps else None
        if not isinstance(last, Exchange) or last.reply or last.served != 'replied':
            self.steps.append(Exchange(line, self.moment, {**self.way, 'chunk': self.chunk}))
            self.way = {}
        self.put_line('>', 'request', rest)

    def put_line(self, mark, part, rest):
        exchange = self.last(Exchange, 'it belongs to no request')
        message = getattr(exchange, part)
        if rest.startswith(mark):
            message += (b'\n' if part in exchange.bodies else b'') + behind(rest[1:]).encode()
            exchange.bodies.add(part)
        elif rest.startswith('='):
            message += b''.join(words_of(rest[1:]))
        else:
            line = behind(rest)
            text = self.texts.find(line[1:]) if line.startswith('$') else None
            lines = [line] if text is None else text.removesuffix('\n').split('\n') if text else []
            message += b''.join(line.encode() + b'\r\n' for line in lines)

    def served_line(self, rest):
        exchange = self.last(Exchange, 'it belongs to no request')
        if rest not in SERVED:
            raise Unread('what becomes of a request')
        exchange.served = rest

    def only_line(self, rest):
        del self.last(Exchange, 'it belongs to no request').reply[number_in(rest):]


def way_line(name):
    return lambda self, line, rest: self.way.update({name: number_in(rest)})


KEYWORDS = {
    'file': lambda self, line, rest: self.begin_text(rest, '\n'),
    'text': lambda self, line, rest: self.begin_text(rest, ''),
    'at': Reader.at_line,
    'repeat': Reader.repeat,
    'stop-each': Reader.stop_line,
    'after': lambda self, line, rest: self.sign_line(line, rest, 'after'),
    'then': lambda self, line, rest: self.sign_line(line, rest, 'then'),
    'before': lambda self, line, rest: self.before_line(rest),
    'bytes': lambda self, line, rest: setattr(self, 'chunk', number_in(rest)),
    'fail-read': way_line('fail_read'),
    'end-read': way_line('end_read'),
    'fail-write': way_line('fail_write'),
    'served': lambda self, line, rest: self.served_line(rest),
    'only': lambda self, line, rest: self.only_line(rest),
    'rows': lambda self, line, rest: self.rows(Rows(line, rest)),
    'report': lambda self, line, rest: self.rows(Report(line, rest)),
    'sql': lambda self, line, rest: self.steps.append(Statement(line, rest)),
    'reopen': Reader.reopen,
}


def steps_of(scenario):
    """The steps of a scenario, with those that are common to its file."""
    reader = Reader()
    for line in scenario.common + scenario.lines:
        try:
            reader.line(line)
        except Fault as fault:
            fault.line = line.number
            raise
    if not scenario.lines or not reader.steps:
        raise Fault('a scenario without a step', scenario.line)
    return reader.steps
