"""What the tests of the page stand on: a server (the mock, or a ciserver), nginx in front of it by examples/web.sh, and runners that do as they are told."""
import json
import os
import random
import socket
import subprocess
import tempfile
import time
import urllib.error
import urllib.request

import mock

HERE = os.path.dirname(os.path.realpath(__file__))
ROOT = os.path.dirname(os.path.dirname(HERE))
# So many seconds something may take to come, also where the machine is busy.
WAIT = 120


def free_port():
    """A port that nobody listens at, and none of those that connections are given as they are made: one of these could have it while a server is lost."""
    while True:
        port = random.randrange(10000, 20000)
        with socket.socket() as it:
            it.setsockopt(socket.SOL_SOCKET, socket.SO_REUSEADDR, 1)
            try:
                it.bind(("127.0.0.1", port))
                return port
            except OSError:
                continue


class Mock:
    """The server in memory."""

    def __init__(self):
        self.world = mock.World()
        self.project, self.shell, self.gpu = self.world.token, self.world.add_runner("shell", (), True), self.world.add_runner("gpu", ("gpu",))
        self.port = free_port()
        self.find()

    def lose(self):
        self.server.shutdown()
        self.server.server_close()

    def find(self):
        self.server = mock.served(self.world, self.port)

    def prune(self):
        with self.world.lock:
            self.world.pipelines.clear()
            self.world.jobs.clear()

    end = lose


class Real:
    """A ciserver, over a file of its own."""

    def __init__(self, program):
        self.program, self.room = os.path.abspath(program), tempfile.TemporaryDirectory()
        self.db, self.port = os.path.join(self.room.name, "ci.db"), free_port()
        self.run("init")
        self.project = self.run("project-add", "--name", "hello")["token"]
        self.shell = self.run("runner-add", "--name", "shell", "--untagged")["token"]
        self.gpu = self.run("runner-add", "--name", "gpu", "--tags", "gpu")["token"]
        self.find()

    def run(self, command, *words):
        said = subprocess.run([self.program, command, "--db", self.db, *words], check=True, capture_output=True, text=True).stdout
        return json.loads(said) if said.startswith("{") else None

    def find(self):
        words = [self.program, "serve", "--db", self.db, "--port", str(self.port), "--requests", "4294967295"]
        self.process = subprocess.Popen(words, stdout=subprocess.PIPE, text=True)
        if not self.process.stdout.readline().startswith("listening"):
            self.lose()
            raise RuntimeError("the server doesn't start")

    def lose(self):
        self.process.kill()
        self.process.wait()
        self.process.stdout.close()

    def prune(self):
        self.lose()
        self.run("prune", "--before", "9999-12-31")
        self.find()

    def end(self):
        self.lose()
        self.room.cleanup()


class Grant:
    """A job that a runner was given."""

    def __init__(self, stand, told):
        self.stand, self.id, self.token, self.size = stand, told["id"], told["token"], 0
        self.name = told["job_info"]["name"]

    def says(self, text):
        """The next bytes of its trace."""
        data = text.encode()
        for at in range(0, len(data), 60000):
            piece = data[at:at + 60000]
            fields = {"JOB-TOKEN": self.token, "Content-Range": f"{self.size}-{self.size + len(piece) - 1}"}
            self.stand.send("PATCH", f"/jobs/{self.id}/trace", piece, fields)
            self.size += len(piece)
        return self

    def ends(self, state="success", code=0, reason="script_failure"):
        order = {"token": self.token, "state": state} | ({} if code is None else {"exit_code": code}) | ({"failure_reason": reason} if state == "failed" else {})
        self.stand.send("PUT", f"/jobs/{self.id}", json.dumps(order).encode())


class Stand:
    """A server with nginx before it."""

    def __init__(self, program=None):
        self.server = Real(program) if program else Mock()
        self.is_real = bool(program)
        self.front = subprocess.Popen([f"{ROOT}/examples/web.sh", str(self.server.port)], stdout=subprocess.PIPE, text=True, start_new_session=True)
        self.url = self.front.stdout.readline().strip()
        if not self.url:
            self.end()
            raise RuntimeError("nginx doesn't start")

    def end(self):
        self.front.terminate()
        self.front.wait()
        self.front.stdout.close()
        self.server.end()

    def send(self, method, path, data=None, fields=None):
        """A request at the server itself; answers the body's JSON, or None."""
        asked = urllib.request.Request(f"http://127.0.0.1:{self.server.port}/api/v4{path}", data, fields or {}, method=method)
        with urllib.request.urlopen(asked, timeout=WAIT) as reply:
            body = reply.read()
        return json.loads(body) if body[:1] in (b"{", b"[") else None

    def user(self, method, path, value=None):
        """A request of the project's user."""
        data = None if method == "GET" else value.encode() if isinstance(value, str) else json.dumps(value).encode() if value is not None else b""
        return self.send(method, f"/projects/1{path}", data, {"PRIVATE-TOKEN": self.server.project})

    def pipeline(self, file, ref="main", **more):
        """A new pipeline of a CI file."""
        self.user("PUT", "/ci_file", file)
        return self.user("POST", "/pipeline", {"ref": ref, **more})

    def take(self, runner="shell"):
        """A job for a runner, or None."""
        told = self.send("POST", "/jobs/request", json.dumps({"token": getattr(self.server, runner)}).encode())
        return Grant(self, told) if told else None

    def job(self, pipeline, name):
        return next(it["id"] for it in self.user("GET", f"/pipelines/{pipeline}")["jobs"] if it["name"] == name)

    def status(self, job):
        return self.user("GET", f"/jobs/{job}")["status"]

    def refused(self, method, path, value=None):
        """The status of a request that is to be refused."""
        try:
            self.user(method, path, value)
        except urllib.error.HTTPError as fault:
            with fault:
                return fault.code
        return 200


def until(check, seconds=WAIT, every=0.1):
    """What `check` answers, once that is something; None where it stays nothing."""
    end = time.monotonic() + seconds
    while True:
        found = check()
        if found or time.monotonic() > end:
            return found or None
        time.sleep(every)
