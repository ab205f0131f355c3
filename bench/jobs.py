#!/usr/bin/env python3
"""Whole jobs: how many a second a server takes through, each with a poll, a trace in one piece and a final state; what a job adds to the file; how long its opening takes then.

jobs.py PROGRAM [JOBS]: PROGRAM is bin/ciserver, JOBS how many for each length of a trace (2000). The file is in the folder of TMPDIR, where /dev/shm leaves out what a
sync costs. Four clients ask side by side, each request with a connection of its own. The server's own time is that of its thread, from /proc. It wants Linux and nothing
but Python's own library.
"""
import json
import multiprocessing
import os
import socket
import subprocess
import sys
import tempfile
import time

CLIENTS = 4
LENGTHS = (1_000, 10_000, 60_000)
JOBS_OF_A_PIPELINE = 100


def ask(port, method, path, body=b"", *fields):
    head = "".join(f"{field}\r\n" for field in (f"{method} /api/v4/{path} HTTP/1.1", *fields, f"Content-Length: {len(body)}"))
    with socket.create_connection(("127.0.0.1", port)) as peer:
        peer.sendall(head.encode() + b"\r\n" + body)
        reply = b""
        while part := peer.recv(65536):
            reply += part
    head, _, body = reply.partition(b"\r\n\r\n")
    return int(head.split()[1]), body


def work(port, runner, trace, count):
    """One client: takes jobs until there are none, and answers how many."""
    poll, done = json.dumps({"token": runner}).encode(), 0
    while True:
        status, body = ask(port, "POST", "jobs/request", poll)
        if status != 201:
            count.put(done)
            return
        grant = json.loads(body)
        number, token = grant["id"], grant["token"]
        status, _ = ask(port, "PATCH", f"jobs/{number}/trace", trace, f"JOB-TOKEN: {token}", f"Content-Range: 0-{len(trace) - 1}")
        assert status == 202, status
        status, _ = ask(port, "PUT", f"jobs/{number}", json.dumps({"token": token, "state": "success", "exit_code": 0}).encode())
        assert status == 200, status
        done += 1


def size(db):
    return sum(os.path.getsize(path) for path in (db, db + "-wal") if os.path.exists(path))


def say(program, db, command, *words):
    """What a command over a file prints."""
    return subprocess.run([program, command, "--db", db, *words], check=True, capture_output=True, text=True).stdout


def made(program, db):
    """Makes a server's file with a project and a runner; answers their tokens."""
    say(program, db, "init")
    added = (("project-add", "--name", "p"), ("runner-add", "--name", "r", "--untagged"))
    return [json.loads(say(program, db, *words))["token"] for words in added]


def free_port():
    with socket.socket() as probe:
        probe.bind(("127.0.0.1", 0))
        return probe.getsockname()[1]


def serve(program, db, port):
    words = [program, "serve", "--db", db, "--port", str(port), "--requests", "1000000000"]
    server = subprocess.Popen(words, stdout=subprocess.PIPE, text=True)
    said = server.stdout.readline()
    assert said.startswith("listening"), said
    return server


def fill(port, project, pipelines):
    """Makes so many pipelines, each of another branch."""
    file = "".join(f"job{number}:\n  script: make\n" for number in range(JOBS_OF_A_PIPELINE)).encode()
    field = f"PRIVATE-TOKEN: {project}"
    assert ask(port, "PUT", "projects/1/ci_file", file, field)[0] == 200
    for number in range(pipelines):
        assert ask(port, "POST", "projects/1/pipeline", json.dumps({"ref": f"b{number}"}).encode(), field)[0] == 201


def used(server):
    """The processor time of a server, in seconds."""
    with open(f"/proc/{server.pid}/schedstat", encoding="ascii") as stat:
        return int(stat.read().split()[0]) / 1e9


def one_length(program, folder, jobs, length):
    db = os.path.join(folder, f"{length}.db")
    (project, runner), port = made(program, db), free_port()
    server = serve(program, db, port)
    fill(port, project, jobs // JOBS_OF_A_PIPELINE)
    count, before, begin = multiprocessing.Queue(), used(server), time.perf_counter()
    trace = bytes(97 + n % 26 for n in range(length))
    clients = [multiprocessing.Process(target=work, args=(port, runner, trace, count)) for _ in range(CLIENTS)]
    for client in clients:
        client.start()
    done = sum(count.get() for _ in clients)
    took, own = time.perf_counter() - begin, used(server) - before
    assert done == jobs // JOBS_OF_A_PIPELINE * JOBS_OF_A_PIPELINE, done
    server.kill()
    server.wait()
    begin = time.perf_counter()
    say(program, db, "report", "--kind", "queue")
    opened, bytes_of_it = time.perf_counter() - begin, size(db)
    print(f"traces of {length:,} bytes: {done / took:,.0f} jobs a second, of which the server works {own / done * 1e6:,.0f} us each; "
          f"{bytes_of_it / done:,.0f} bytes of the file each; {bytes_of_it / 1e6:.1f} MB opened in {opened:.2f} s")


def main():
    program, jobs = os.path.abspath(sys.argv[1]), int(sys.argv[2]) if len(sys.argv) > 2 else 2000
    with tempfile.TemporaryDirectory() as folder:
        for length in LENGTHS:
            one_length(program, folder, jobs, length)


if __name__ == "__main__":
    main()
