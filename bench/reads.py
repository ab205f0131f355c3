#!/usr/bin/env python3
"""What is read of a project beside many finished pipelines, beside few, and what polls and memory are then.

reads.py PROGRAM [N ..]: PROGRAM is bin/ciserver, each N a number of finished pipelines (100 and 100000 without one). For each N there is a new file in the
folder of TMPDIR, where /dev/shm leaves out what a sync costs. Its rows are written by Python's sqlite3 as docs/STORE.md has them: first 20 pipelines of
project 2, then N of project 1, each of two jobs with an attempt and 200 bytes of a trace each. The server opens it, makes one more pipeline of a
hundred jobs, and runs one of them. Every request has a connection of its own; its time goes from before the connection to the end of the reply, and the
processor time is that of the server's thread. `H5` stands where the program has no such route. It wants Linux and nothing but Python's own library.
"""
import json
import os
import re
import socket
import sqlite3
import statistics
import sys
import tempfile
import time

from pending import Server
from upgrade import SPEC, VARIABLES

REQUESTS = 300
OLDER = 20  # pipelines of the other project, which are older than all others
REFS = 16
TRACE = os.urandom(100).hex().encode()
FILE = "".join(f"job{number}:\n  tags: [fit]\n  script: x\n" for number in range(100))


def rows(file, first, count, project):
    """So many finished pipelines of a project, whose numbers begin there; of each number n the jobs are 2n - 1 and 2n, and so are their attempts."""
    numbers = range(first, first + count)
    jobs = [(number, pos, 2 * number - 1 + pos) for number in numbers for pos in (0, 1)]
    file.executemany("INSERT INTO pipeline VALUES (?, ?, ?, 0, 3, 1000)", ((number, project, f"b{number % REFS}") for number in numbers))
    file.executemany("INSERT INTO job VALUES (?, ?, ?, ?, ?, ?, 0, 0, 0)",
                     ((job, number, pos, f"job {pos}", ("build", "test")[pos], SPEC) for number, pos, job in jobs))
    file.executemany("INSERT INTO jobvar VALUES (?, ?, ?)", ((job, *variable) for _, _, job in jobs for variable in VARIABLES))
    file.executemany("INSERT INTO attempt VALUES (?, ?, 1, ?, 1010, 1020, 1, NULL, 0)", ((job, job, f"j{job}-{job:032x}") for _, _, job in jobs))
    file.executemany("INSERT INTO piece VALUES (?, 0, ?)", ((job, TRACE) for _, _, job in jobs))
    file.executemany("INSERT INTO need VALUES (?, ?)", ((job, job - 1) for _, pos, job in jobs if pos))
    file.executemany("INSERT INTO board VALUES (?, 3, 0, 0, 0)", ((job,) for _, _, job in jobs))


def filled(server, count):
    """Has the server's file hold these rows. It is stopped meanwhile, and opened again: the seconds that the opening takes."""
    server.process.kill()
    server.process.wait()
    server.second = json.loads(server.say("project-add", "--name", "older"))["token"]
    file = sqlite3.connect(server.db)
    with file:
        rows(file, 1, OLDER, 2)
        rows(file, OLDER + 1, count, 1)
        last = OLDER + count
        for key, number in (("next_pipeline", last + 1), ("next_job", 2 * last + 1), ("next_attempt", 2 * last + 1)):
            file.execute("UPDATE meta SET num = ? WHERE key = ?", (number, key))
    file.close()
    begin = time.perf_counter()
    server.start()
    return time.perf_counter() - begin


def memory(server, name):
    """VmRSS: what the process has in memory, VmHWM: the most that it had; in MB."""
    with open(f"/proc/{server.process.pid}/status", encoding="ascii") as file:
        return int(re.search(rf"{name}:\s*(\d+)", file.read())[1]) / 1000


def told(server, name, ask):
    """A line: the median of a request, the 99th of 100, and the processor time of one, in microseconds; and how many bytes its body has."""
    status, body, _ = ask()
    if status in (404, 405):
        print(f"{name:44}{'H5':>8}", flush=True)
        return
    assert status in (200, 204), (name, status, body)
    before = server.used()
    times = sorted(ask()[2] for _ in range(REQUESTS))
    used = (server.used() - before) / REQUESTS * 1e6
    print(f"{name:44}{statistics.median(times):8.0f}{times[REQUESTS * 99 // 100]:8.0f}{used:8.0f}{len(body):10}", flush=True)


def read(server, path, project=1):
    token = server.project if project == 1 else server.second
    return lambda: server.ask("GET", f"projects/{project}{path}", token=token)


def health(server):
    begin = time.perf_counter()
    with socket.create_connection(("127.0.0.1", server.port)) as peer:
        peer.sendall(b"GET /-/health HTTP/1.1\r\n\r\n")
        reply = b"".join(iter(lambda: peer.recv(65536), b""))
    return int(reply.split()[1]), reply.partition(b"\r\n\r\n")[2], (time.perf_counter() - begin) * 1e6


def routes(count):
    """What is read, by its path and its project. In the middle stands the pipeline of the number `middle`, whose jobs are two."""
    newest, middle = OLDER + count + 1, OLDER + count // 2 + 1
    attempt = 2 * middle
    return [("the project", "", 1), ("its pipelines", "/pipelines", 1), ("those of a project whose pipelines are older", "/pipelines", 2),
            ("the jobs of the newest pipeline, a hundred", f"/pipelines/{newest}/jobs", 1), ("the newest pipeline, as it is shown", f"/pipelines/{newest}", 1),
            ("the jobs of one in the middle, two", f"/pipelines/{middle}/jobs", 1), ("the attempts of one of them", f"/jobs/{attempt}/attempts", 1),
            ("the trace of its attempt", f"/jobs/{attempt}/attempts/{attempt}/trace", 1), ("its trace", f"/jobs/{attempt}/trace", 1),
            ("the resource groups", "/resource_groups", 1)]


def tried(server, count):
    seconds, body = filled(server, count), json.dumps({"token": server.other})
    print(f"{count} finished pipelines, {os.path.getsize(server.db) / 1e6:.0f} MB: opened in {seconds:.1f} s, {memory(server, 'VmRSS'):.1f} MB in memory")
    begin = time.perf_counter()
    assert server.ask("POST", "jobs/request", body)[0] == 204
    print(f"the first poll {(time.perf_counter() - begin) * 1e3:.1f} ms, {memory(server, 'VmRSS'):.1f} MB in memory")
    print(f"{'(microseconds)':44}{'median':>8}{'99 %':>8}{'cpu':>8}{'bytes':>10}")
    told(server, "a poll that gets nothing", lambda: server.ask("POST", "jobs/request", body))
    assert server.ask("PUT", "projects/1/ci_file", FILE, server.project)[0] == 200
    server.create("main")
    server.poll(server.runner, 201)
    assert server.ask("PUT", "projects/1/resource_groups/prod", '{"process_mode":"oldest_first"}', server.project)[0] == 200
    for name, path, project in routes(count):
        told(server, name, read(server, path, project))
    told(server, "health", lambda: health(server))
    told(server, "a poll that gets nothing", lambda: server.ask("POST", "jobs/request", body))
    print(f"{memory(server, 'VmRSS'):.1f} MB in memory, {memory(server, 'VmHWM'):.1f} at most\n", flush=True)


def main():
    if len(sys.argv) < 2 or not re.fullmatch(r"[^-].*", sys.argv[1]):
        sys.exit(__doc__)
    for count in [int(word) for word in sys.argv[2:]] or [100, 100000]:
        with tempfile.TemporaryDirectory() as folder:
            server = Server(os.path.abspath(sys.argv[1]), folder)
            try:
                tried(server, count)
            finally:
                server.process.kill()
                server.process.wait()


if __name__ == "__main__":
    main()
