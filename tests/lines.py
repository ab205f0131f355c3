"""Scenario files: their lines, the words of a line, texts that have names, and why a scenario differs. tests/README.md has the form."""

import re
from functools import partial

from reads import READS, read


class Fault(Exception):
    """A scenario isn't as it says. `line` is that of the file, where it isn't the step's own."""

    def __init__(self, text, line=None):
        super().__init__(text)
        self.line = line


class Unread(Fault):
    def __init__(self, text, line=None):
        super().__init__(f'not read: {text}', line)


class Differs(Fault):
    def __init__(self, wanted, came, line=None):
        super().__init__(f'another answer\n  wanted {wanted}\n  came   {came}', line)


class Line:
    """A line that says something: its number in the file, and its text without the blanks before it."""

    def __init__(self, number, text):
        self.number = number
        self.text = text


# ---- lines, of which those behind `each` stand once for each number, or for each thing that is read of a project

def numbers_in(text):
    words = text.split()
    if len(words) != 2 or not all(word.isdecimal() for word in words):
        raise Unread('the numbers of `each`')
    return range(int(words[0]), int(words[1]) + 1)


def value_of(total, number):
    read = re.fullmatch(r'(?:\*(\d+))?(?:\+(\d+))?', total)
    if not read:
        raise Unread('a sum in braces')
    return number * int(read[1] or 1) + int(read[2] or 0)


def with_number(text, number):
    """A text in which `{n}` is a number, `{n*K}` so many times that, and `{n*K+C}` as much more."""
    parts = text.split('{n')
    written = [parts[0]]
    for part in parts[1:]:
        total, brace, rest = part.partition('}')
        if not brace:
            raise Unread('`{n` without `}`')
        written += [str(value_of(total, number)), rest]
    return ''.join(written)


def with_read(text, word):
    """A text in which `{read}` is the word of what is read, and `{read P N}` its event of project P with each other number N."""
    return re.sub(r'\{read(?: (\d+) (\d+))?\}', lambda found: read(word, found[1], found[2]) if found[1] else word, text)


def copies_of(text):
    """What makes each copy of a line behind `each`."""
    if text == 'read':
        return [partial(with_read, word=word) for word in READS]
    return [partial(with_number, number=number) for number in numbers_in(text)]


def lines_of(text):
    lines, group, copies = [], [], None

    def close():
        for copy in copies or ():
            lines.extend(Line(line.number, copy(line.text)) for line in group)
        group.clear()

    for number, raw in enumerate(text.split('\n'), 1):
        line = Line(number, raw.lstrip())
        if not line.text or line.text.startswith('#'):
            continue
        try:
            if line.text.rstrip() == 'each' or line.text.startswith('each '):
                close()
                copies = copies_of(line.text[5:].strip()) if line.text[5:].strip() else None
            else:
                (lines if copies is None else group).append(line)
        except Fault as fault:
            fault.line = fault.line or number
            raise
    close()
    return lines


class Scenario:
    """A scenario of a file: its name, the lines that are common to the file, and its own."""

    def __init__(self, name, line, common, lines):
        self.name = name
        self.line = line
        self.common = common
        self.lines = lines


def scenarios_of(path):
    with open(path, encoding='utf-8', newline='\n') as file:
        lines = lines_of(file.read())
    starts = [place for place, line in enumerate(lines) if line.text.startswith('name ')]
    if not starts:
        raise Fault('a data file without a scenario')
    common = lines[:starts[0]]
    return [Scenario(lines[start].text[5:].strip(), lines[start].number, common, lines[start + 1:end])
            for start, end in zip(starts, starts[1:] + [len(lines)])]


# ---- words

ESCAPES = {'n': b'\n', 'r': b'\r', 't': b'\t', '"': b'"', '\\': b'\\'}
ESCAPED = re.compile(r'\\(x[0-9a-f]{2}|.)', re.S)
WORD = re.compile(r'[ \t]*(?:"((?:[^"\\]|\\.)*)"|([^" \t][^ \t]*))', re.S)


def unescaped(text):
    """The bytes of what stands between quotes."""
    parts, place = [], 0
    for found in ESCAPED.finditer(text):
        parts.append(text[place:found.start()].encode())
        sign, place = found[1], found.end()
        if len(sign) == 3:
            parts.append(bytes([int(sign[1:], 16)]))
        elif sign in ESCAPES:
            parts.append(ESCAPES[sign])
        else:
            raise Unread('a letter behind a backslash')
    return b''.join(parts) + text[place:].encode()


def words_of(line):
    """The words of a line, as bytes: each ends at a blank, but those in quotes."""
    words, place = [], 0
    line = line.rstrip(' \t')
    while place < len(line):
        found = WORD.match(line, place)
        if not found:
            raise Unread("a quote isn't closed")
        words.append(unescaped(found[1]) if found[1] is not None else found[2].encode())
        place = found.end()
    return words


class Words:
    """The words of a line that are still to be read."""

    def __init__(self, words):
        self.rest = list(words)

    def bytes(self):
        if not self.rest:
            raise Unread('a word is missing')
        return self.rest.pop(0)

    def word(self):
        try:
            return self.bytes().decode()
        except UnicodeDecodeError:
            raise Unread('a word that is no text') from None

    def takes(self, word):
        """Is the next word this one? It is read then."""
        if self.rest[:1] == [word.encode()]:
            del self.rest[0]
            return True
        return False

    def number(self):
        return number_in(self.word())

    def moment(self):
        number = self.number()
        if number > 253402300799:
            raise Unread('a moment past the last one')
        return number

    def number_behind(self, letter):
        word = self.word()
        if not word.startswith(letter):
            raise Unread('another letter')
        return number_in(word[1:])

    def token(self):
        """The last word where `with` stands before it. Both are read then."""
        if len(self.rest) >= 2 and self.rest[-2] == b'with':
            token = self.rest[-1].decode()
            del self.rest[-2:]
            return token
        return None

    def end(self):
        if self.rest:
            raise Fault(f'unknown: {self.word()}')


def number_in(word):
    if not re.fullmatch(r'\d+', word) or int(word) >= 2 ** 64:
        raise Unread('a number')
    return int(word)


# ---- texts

class Texts:
    """The texts of a scenario that have names. The latest of a name counts."""

    def __init__(self):
        self.items = []

    def begin(self, name, text, line_end):
        self.items.append([name, text, line_end])

    def put(self, line):
        if not self.items:
            raise Unread('a line of no text')
        self.items[-1][1] += line + self.items[-1][2]

    def find(self, name):
        for one, text, _ in reversed(self.items):
            if one == name:
                return text
        return None

    def get(self, name):
        text = self.find(name)
        if text is None:
            raise Fault(f'unknown: {name}')
        return text


# ---- what is wanted

class Wanted:
    """What an answer must be told as; it may go on behind that where `..` stands at its end."""

    def __init__(self, text):
        self.goes_on = text.endswith('..')
        self.text = text[:-2] if self.goes_on else text

    def allows(self, came):
        return came.startswith(self.text) if self.goes_on else came == self.text

    def __str__(self):
        return self.text + ('..' if self.goes_on else '')
