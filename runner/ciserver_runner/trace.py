"""The trace of an attempt: masked as it is written, and within what the server takes."""
from __future__ import annotations

import re
import threading
from typing import Iterable

LIMIT = 4_194_304  # the server takes no more of a trace
TAIL = 65_536
PIECE = 65_536
HEAD = LIMIT - TAIL - 1_024  # from here on bytes are held until the end, when it is known whether all of them fit
MASK = b"[MASKED]"
LEAST_MASKED = 4


def values_to_mask(values: Iterable[str]) -> list[bytes]:
    """What is looked for of these values: each value, and each line of it. What is shorter than four bytes would mask too much else."""
    found = set()
    for value in values:
        for text in (value, *value.splitlines()):
            if len(text.strip().encode()) >= LEAST_MASKED:
                found.add(text.strip().encode())
    return sorted(found, key=len, reverse=True)


class Mask:
    """Puts a word for values in a stream of bytes. What may be the beginning of a value is held until more comes."""

    def __init__(self, values: Iterable[bytes] = ()):
        self.values: list[bytes] = []
        self.held = b""
        self.add(values)

    def add(self, values: Iterable[bytes]) -> None:
        self.values = sorted({*self.values, *values}, key=len, reverse=True)
        self.pattern = re.compile(b"|".join(map(re.escape, self.values))) if self.values else None

    def feed(self, data: bytes) -> bytes:
        if not self.pattern:
            return data
        text, out, place = self.held + data, [], 0
        begun = self._begun(text, 0)
        while (match := self.pattern.search(text, place)) and match.start() < begun:
            out += [text[place:match.start()], MASK]
            place = match.end()
            if place > begun:
                begun = self._begun(text, place)
        out.append(text[place:begun])
        self.held = text[begun:]
        return b"".join(out)

    def _begun(self, text: bytes, place: int) -> int:
        """Where, from a place on, the rest of a text first is a part of a value that may go on."""
        begun = len(text)
        for value in self.values:
            start = max(place, len(text) - len(value) + 1)
            while (start := text.find(value[:1], start, begun)) >= 0:
                if value.startswith(text[start:]):
                    begun = start
                start += 1
        return begun

    def flush(self) -> bytes:
        text, self.held = self.held, b""
        return self.pattern.sub(MASK, text) if self.pattern else text


class Trace:
    """What is to be sent of a trace. One thread writes it, and another one sends it."""

    def __init__(self, mask: Mask):
        self.mask = mask
        self.lock = threading.Lock()
        self.head = bytearray()
        self.tail = bytearray()
        self.dropped = 0
        self.at_line_start = True

    def write(self, data: bytes) -> None:
        """Adds what a job printed."""
        with self.lock:
            self._put(self.mask.feed(data))

    def line(self, text: str) -> None:
        """Adds a line of the runner's own."""
        with self.lock:
            self._put(self.mask.flush())
            start = b"" if self.at_line_start else b"\n"
            self._put(start + self.mask.feed(text.encode(errors="replace") + b"\n") + self.mask.flush())

    def close(self) -> None:
        """Nothing is written any more: what was held is to be sent, and in place of a middle that doesn't fit a line that says so."""
        with self.lock:
            self._put(self.mask.flush())
            if self.dropped:
                self.head += b"\n[%d bytes are left out here: a trace has at most %d]\n" % (self.dropped, LIMIT)
            self.head += self.tail
            self.tail = bytearray()

    def piece(self, start: int) -> bytes:
        """The next bytes to send, from a place on."""
        with self.lock:
            return bytes(self.head[start:start + PIECE])

    def _put(self, data: bytes) -> None:
        if not data:
            return
        self.at_line_start = data.endswith(b"\n")
        room = max(HEAD - len(self.head), 0) if not self.tail else 0
        self.head += data[:room]
        self.tail += data[room:]
        if len(self.tail) > TAIL:
            self.dropped += len(self.tail) - TAIL
            del self.tail[:len(self.tail) - TAIL]
