"""A command that is run for a job, with a process over it that ends it (supervisor.py)."""
from __future__ import annotations

import json
import os
import select
import subprocess
import sys
import threading
from typing import Callable

SUPERVISOR = os.path.join(os.path.dirname(os.path.realpath(__file__)), "supervisor.py")
PIPE = 1_048_576  # so many bytes may wait in a pipe


class Command:
    def __init__(self, words: list[str], folder: str, environment: dict[str, str], until: float, stdin: bytes = b"",
                 after: list[list[str]] | None = None, leave: bool = False):
        self.lock = threading.Lock()
        asked = {"words": words, "folder": folder, "environment": environment, "until": until, "after": after or [], "leave": leave}
        files = [_file(stdin), _file(json.dumps(asked).encode())]
        try:
            self.process = subprocess.Popen(
                [sys.executable, "-I", "-S", SUPERVISOR, *map(str, files)], pass_fds=files, start_new_session=True,
                stdin=subprocess.PIPE, stdout=subprocess.PIPE, stderr=subprocess.STDOUT)
        finally:
            for file in files:
                os.close(file)

    def extend(self, until: float) -> None:
        """All of it may go on until this second."""
        self._tell(f"until {until}\n")

    def end(self, seconds: float) -> None:
        """Ends it with all that it has started: SIGTERM now, and SIGKILL so many seconds later."""
        self._tell(f"end {seconds}\n")

    def run(self, sink: Callable[[bytes], None]) -> int:
        """Hands on what it prints, and answers its exit code; a negative one where the process over it was killed."""
        self._hand_on(self.process.stdout.fileno(), sink)
        code = self.process.wait()
        self.process.stdout.close()
        with self.lock:
            self.process.stdin.close()
        return code

    def _hand_on(self, output: int, sink: Callable[[bytes], None]) -> None:
        """Hands on what is printed, until nobody prints. Who prints on when all has ended, as another user's process, isn't waited for."""
        printed = select.poll()
        printed.register(output, select.POLLIN)
        left = None
        while left is None or left > 0:
            if left is None and self.process.poll() is not None:
                left = PIPE
            if not printed.poll(500 if left is None else 0):
                if left is None:
                    continue
                break
            data = os.read(output, 65_536)
            if not data:
                break
            sink(data)
            left = None if left is None else left - len(data)

    def _tell(self, line: str) -> None:
        with self.lock:
            try:
                os.write(self.process.stdin.fileno(), line.encode())
            except (OSError, ValueError):
                pass  # it has ended


def _file(data: bytes) -> int:
    """A file in memory with these bytes, read from its beginning."""
    file = os.memfd_create("told")
    with open(file, "wb", closefd=False) as writer:
        writer.write(data)
    os.lseek(file, 0, os.SEEK_SET)
    return file
