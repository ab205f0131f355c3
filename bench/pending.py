#!/usr/bin/env python3
"""Polls, creations, grants and final states of a server beside many pending jobs that no runner fits, and beside many live leases; and polls
beside many jobs of one resource group that must wait: since a live attempt holds it, or by its process mode for a job of another pipeline.

pending.py PROGRAM [N ..]: PROGRAM is bin/ciserver, each N a number of jobs (100, 1000 and 10000 without one). For each N there is a
new file in the folder of TMPDIR, where /dev/shm leaves out what a sync costs. Every request has a connection of its own; its time goes
from before the connection to the end of the reply. The processor time is that of the server's thread, from /proc. It wants Linux and
nothing but Python's own library.
"""
import json
import os
import re
import socket
import statistics
import subprocess
import sys
import tempfile
import time

CLASSES = 100
POLLS = 500
CYCLES = 100


class Server:
    def __init__(self, program, folder):
        self.db = os.path.join(folder, "bench.db")
        self.program = program
        self.say("init")
        self.project = json.loads(self.say("project-add", "--name", "p"))["token"]
        self.runner = json.loads(self.say("runner-add", "--name", "fits", "--tags", "fit"))["token"]
        self.other = json.loads(self.say("runner-add", "--name", "waits", "--tags", "none"))["token"]
        with socket.socket() as probe:
            probe.bind(("127.0.0.1", 0))
            self.port = probe.getsockname()[1]
        self.start()

    def start(self):
        words = [self.program, "serve", "--db", self.db, "--port", str(self.port), "--requests", "1000000000"]
        self.process = subprocess.Popen(words, stdout=subprocess.PIPE, text=True)
        self.process.stdout.readline()

    def say(self, command, *words):
        done = subprocess.run([self.program, command, "--db", self.db, *words], check=True, capture_output=True, text=True)
        return done.stdout

    def used(self):
        """The processor time of the server, in seconds."""
        with open(f"/proc/{self.process.pid}/schedstat", encoding="ascii") as file:
            return int(file.read().split()[0]) / 1e9

    def ask(self, method, path, body="", token=None, fields=""):
        """Sends one request; answers its status, its body and the microseconds that it took."""
        if token:
            fields += f"PRIVATE-TOKEN: {token}\r\n"
        text = f"{method} /api/v4/{path} HTTP/1.1\r\n{fields}Content-Length: {len(body)}\r\n\r\n{body}".encode()
        begin = time.perf_counter()
        with socket.create_connection(("127.0.0.1", self.port)) as peer:
            peer.sendall(text)
            reply = b""
            while part := peer.recv(65536):
                reply += part
        micros = (time.perf_counter() - begin) * 1e6
        head, _, rest = reply.partition(b"\r\n\r\n")
        return int(head.split()[1]), rest, micros

    def file(self, tags):
        text = f"job:\n  script: x\n  tags: [{', '.join(tags)}]\n"
        assert self.ask("PUT", "projects/1/ci_file", text, self.project)[0] == 200

    def create(self, ref):
        status, _, micros = self.ask("POST", "projects/1/pipeline", json.dumps({"ref": ref}), self.project)
        assert status == 201, status
        return micros

    def poll(self, token, wanted):
        status, body, micros = self.ask("POST", "jobs/request", json.dumps({"token": token}))
        assert status == wanted, (status, wanted)
        return body, micros

    def finish(self, grant):
        body = json.dumps({"token": grant["token"], "state": "success"})
        status, _, micros = self.ask("PUT", f"jobs/{grant['id']}", body)
        assert status == 200, status
        return micros


def median(times):
    return f"{statistics.median(times):8.0f}"


def polls(server, token=None):
    """The median time of a poll that gets nothing, the 99th of 100, and the processor time of one."""
    token = token or server.other
    server.poll(token, 204)
    before = server.used()
    times = sorted(server.poll(token, 204)[1] for _ in range(POLLS))
    return f"{median(times)}{times[POLLS * 99 // 100]:8.0f}{(server.used() - before) / POLLS * 1e6:8.0f}"


def pending(server, count):
    for number in range(count):
        if number % (count // CLASSES or 1) == 0:
            server.file([f"t{number // (count // CLASSES or 1)}"])
        server.create(f"b{number}")
    said = polls(server)
    server.file(["fit"])
    created, granted, finished = [], [], []
    for number in range(CYCLES):
        created.append(server.create(f"f{number}"))
        body, micros = server.poll(server.runner, 201)
        granted.append(micros)
        finished.append(server.finish(json.loads(body)))
    return said + median(created) + median(granted) + median(finished)


def leases(server, count):
    server.file(["fit"])
    for number in range(count):
        server.create(f"b{number}")
        server.poll(server.runner, 201)
    return polls(server)


SHIP = "ship:\n  stage: deploy\n  script: x\n  resource_group: prod\n  tags: [{}]\n"
PRE = "pre:\n  stage: build\n  script: x\n  tags: [fit]\n"


def ships(server, text, count, ref):
    assert server.ask("PUT", "projects/1/ci_file", text, server.project)[0] == 200
    for number in range(count):
        server.create(f"{ref}{number}")


def mode(server, name):
    body = json.dumps({"process_mode": name})
    assert server.ask("PUT", "projects/1/resource_groups/prod", body, server.project)[0] == 200


def held(server, count):
    """The first job holds the group."""
    ships(server, SHIP.format("fit"), count, "b")
    server.poll(server.runner, 201)
    return polls(server, server.runner)


def oldest(server, count):
    """The first pipeline's job is created, behind one that runs."""
    ships(server, PRE + SHIP.format("fit"), 1, "a")
    server.poll(server.runner, 201)
    ships(server, SHIP.format("fit"), count, "b")
    mode(server, "oldest_first")
    return polls(server, server.runner)


def newest(server, count):
    """The last pipeline's job is pending, and for no runner."""
    ships(server, SHIP.format("fit"), count, "b")
    ships(server, SHIP.format("nobody"), 1, "c")
    mode(server, "newest_ready_first")
    return polls(server, server.runner)


def main():
    if len(sys.argv) < 2 or not re.fullmatch(r"[^-].*", sys.argv[1]):
        sys.exit(__doc__)
    counts = [int(word) for word in sys.argv[2:]] or [100, 1000, 10000]
    print(f"{'':21}{'poll':>8}{'99 %':>8}{'cpu':>8}{'create':>8}{'request':>8}{'finish':>8}   (microseconds)")
    for name, tried in (("pending", pending), ("live", leases), ("held", held), ("oldest_first", oldest), ("newest_ready", newest)):
        for count in counts:
            with tempfile.TemporaryDirectory() as folder:
                server = Server(os.path.abspath(sys.argv[1]), folder)
                try:
                    print(f"{count:>8} {name:<12}{tried(server, count)}", flush=True)
                finally:
                    server.process.kill()
                    server.process.wait()


if __name__ == "__main__":
    main()
