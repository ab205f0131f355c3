#!/usr/bin/env python3
"""The memory of a server with the greatest file, 10,000 pending jobs of it, and 1,000 live pipelines; and how long an opening of that takes.

memory.py PROGRAM: PROGRAM is bin/ciserver. There is a new file in the folder of TMPDIR. It wants Linux and nothing but Python's own library.
"""
import re
import sys
import tempfile
import time

from pending import Server

FILE_BYTES = 65536
JOBS = 100
PIPELINES = 100
LIVE = 1000


def greatest_file():
    """A file of the greatest size, whose jobs want a tag that no runner has."""
    text = ""
    for number in range(JOBS):
        text += f"job{number}:\n  tags: [no-runner]\n  script:\n" + f"    - {'x' * 60}\n" * 9
    return text + "#" * (FILE_BYTES - len(text) - 1) + "\n"


def most(process):
    """The most memory that the process has had, in MB."""
    with open(f"/proc/{process.pid}/status", encoding="ascii") as file:
        return int(re.search(r"VmHWM:\s*(\d+)", file.read())[1]) / 1000


def opened(server):
    """Starts the server again, and tells what its opening and its first poll take."""
    server.process.terminate()
    server.process.wait()
    begin = time.perf_counter()
    server.start()
    took = time.perf_counter() - begin
    first = server.poll(server.runner, 204)[1]
    second = server.poll(server.runner, 204)[1]
    print(f"opened again in {took:.2f} s, the first poll {first / 1e6:.2f} s, the second {second:.0f} us: {most(server.process):.1f} MB")


def main():
    if len(sys.argv) != 2:
        sys.exit(__doc__)
    with tempfile.TemporaryDirectory() as folder:
        server = Server(sys.argv[1], folder)
        try:
            assert server.ask("PUT", "projects/1/ci_file", greatest_file(), server.project)[0] == 200
            for number in range(PIPELINES):
                server.create(f"b{number}")
            print(f"{JOBS * PIPELINES} pending jobs: {most(server.process):.1f} MB")
            server.file(["fit"])
            for number in range(LIVE):
                server.create(f"f{number}")
                server.poll(server.runner, 201)
            print(f"and {LIVE} live pipelines: {most(server.process):.1f} MB")
            opened(server)
        finally:
            server.process.terminate()


if __name__ == "__main__":
    main()
