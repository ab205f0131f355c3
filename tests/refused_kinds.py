"""The scenarios of refused.txt, read: what happens first, and the event that is refused memory with what it is to be answered."""
from events import Reading, Reply, told_command, told_reply
from lines import Fault, Texts, Wanted, Words, scenarios_of, words_of

START = 1000


class Event:
    """What is sent at a moment: a request of bytes, or the words of a command, and how its answer is told; or a statement that alters the file."""

    def __init__(self, moment, *, request=None, command=None, tells=None, sql=None, read=None):
        self.moment, self.request, self.command, self.tells, self.sql, self.read = moment, request, command, tells, sql, read


class Kind:
    """What happens first, the event that is tried, and what is wanted of it."""

    def __init__(self, name):
        self.name = name
        self.start = 'file'  # or `blank`, `version1`
        self.steps = []
        self.event = None
        self.wanted = None
        self.unswept = self.repeated = None
        self.some, self.never = [], []
        self.is_clocked = self.is_large = False

    def colds(self):
        """Is it tried by a server that was just opened? A command always is one."""
        return (False, True) if self.event.request else (False,)


def told_run(ran):
    return f'{ran.status} {ran.out}'.rstrip('\n').replace('\n', '\\n')


class Reader:
    """Reads the lines of one scenario, with the texts of the file."""

    def __init__(self, kind):
        self.kind, self.texts, self.moment = kind, Texts(), START

    def event_of(self, text):
        if text.startswith('sql '):
            return Event(self.moment, sql=text[4:])
        words = Words(words_of(text))
        if words.takes('run'):
            command = [word.decode() for word in words.rest]
            return Event(self.moment, command=command, tells=told_run)
        if words.takes('send'):
            return Event(self.moment, request=words.bytes(), tells=lambda reply: Reply(reply).told())
        event = Reading(words, self.texts).event()
        if event.command:
            return Event(self.moment, command=event.command, tells=lambda ran: told_command(event, ran))
        return Event(self.moment, request=event.request, tells=lambda reply: told_reply(event, reply), read=event.read)

    def wanted(self, text):
        if text.startswith('$') or text[4:].startswith('$'):
            before, _, name = text.partition('$')
            text = before + self.texts.get(name)
        return Wanted(text)

    def step(self, text):
        text, sign, wanted = (text, '', '') if text.startswith('sql ') else text.partition(' = ')
        words = text.split()
        moment = self.moment
        if words[0] == 'at':
            self.moment = int(words[1])
            text = text.split(None, 2)[2] if len(words) > 2 else ''
        if text:
            self.kind.steps.append((self.event_of(text), self.wanted(wanted) if sign else None))
            self.moment = moment

    def line(self, text):
        word, _, rest = text.partition(' ')
        if word in ('file', 'text'):
            name, _, first = rest.partition(' ')
            self.texts.begin(name, first, '\n' if word == 'file' else '')
        elif word == '|':
            self.texts.put(rest)
        elif word in ('clocked', 'large'):
            setattr(self.kind, f'is_{word}', True)
        elif word in ('blank', 'version1'):
            self.kind.start = word
        elif word == 'from':
            for line in self.texts.get(rest).splitlines():
                self.step(line)
        elif word in ('unswept', 'repeated'):
            setattr(self.kind, word, self.wanted(rest))
        elif word in ('some', 'never'):
            getattr(self.kind, word).append(rest)
        else:
            self.step(text)


def kind_of(scenario):
    kind = Kind(scenario.name)
    reader = Reader(kind)
    for line in [*scenario.common, *scenario.lines]:
        try:
            reader.line(line.text)
        except Fault as fault:
            raise Fault(f'refused.txt:{line.number}: {fault}') from None
    kind.event, kind.wanted = kind.steps.pop()
    if kind.wanted is None:
        raise Fault(f'{kind.name}: nothing is wanted of its last event')
    return kind


def kinds_of(path):
    return [kind_of(scenario) for scenario in scenarios_of(path)]

