"""What the tests of the runner stand on: a server over a file, a Git repository, runners as processes, and a clock that both can be put on by."""
from __future__ import annotations

import http.client
import json
import mmap
import os
import re
import shutil
import signal
import socket
import struct
import subprocess
import tempfile
import textwrap
import time
import unittest

HERE = os.path.dirname(os.path.realpath(__file__))
PROGRAM = os.path.realpath(os.environ.get("CISERVER") or os.path.join(HERE, "../../bin/ciserver"))
RUNNER = os.path.join(HERE, "..", "ciserver-runner")
FINISHED = ("success", "failed", "canceled", "skipped")


def run(*words: str, folder: str | None = None, stdin: str = "") -> str:
    """What a program prints, which must end well."""
    return subprocess.run(words, cwd=folder, input=stdin, stdout=subprocess.PIPE, text=True, check=True).stdout.strip()


class Clock:
    """A clock that runs as the machine's does, and that is put on: for each program that has its environment."""

    def __init__(self, folder: str):
        library = os.path.join(folder, "clock.so")
        run("gcc", "-shared", "-fPIC", "-O1", "-o", library, os.path.join(HERE, "clock.c"))
        path = os.path.join(folder, "clock")
        with open(path, "wb") as file:
            file.write(bytes(8))
        with open(path, "r+b") as file:
            self.page = mmap.mmap(file.fileno(), 8)
        self.seconds = 0
        self.environment = {"LD_PRELOAD": library, "CLOCK": path}

    def put_on(self, seconds: int) -> None:
        self.seconds += seconds
        self.page[:] = struct.pack("<q", self.seconds)


class Server:
    """A server that is killed and started again at the same port."""

    def __init__(self, folder: str, environment: dict[str, str] | None = None):
        self.db, self.environment = os.path.join(folder, "ci.db"), dict(os.environ, **(environment or {}))
        self.process: subprocess.Popen | None = None
        with socket.socket() as place:
            place.bind(("127.0.0.1", 0))
            self.port = place.getsockname()[1]
        self.command("init")

    @property
    def url(self) -> str:
        return f"http://127.0.0.1:{self.port}"

    def command(self, word: str, *words: str) -> str:
        return run(PROGRAM, word, "--db", self.db, *words)

    def project(self) -> str:
        """Makes a project, and answers its token."""
        return json.loads(self.command("project-add", "--name", "p"))["token"]

    def runner(self, *words: str) -> str:
        """Makes a runner, and answers its token."""
        return json.loads(self.command("runner-add", "--name", "r", *(words or ("--untagged",))))["token"]

    def start(self) -> None:
        words = [PROGRAM, "serve", "--db", self.db, "--port", str(self.port), "--requests", "1000000"]
        for _ in range(50):
            self.process = subprocess.Popen(words, env=self.environment, stdout=subprocess.PIPE, text=True)
            if self.process.stdout.readline().startswith("listening"):
                return
            self.kill()
            time.sleep(0.1)
        raise AssertionError("the server doesn't start")

    def kill(self) -> None:
        if self.process:
            self.process.kill()
            self.process.wait()
            self.process.stdout.close()
            self.process = None

    def rows(self, query: str) -> list[str]:
        """Rows of the file of a server that is stopped."""
        return run("sqlite3", "-readonly", self.db, query).splitlines()


class Project:
    """A project as its users see it."""

    def __init__(self, server: Server, token: str, number: int = 1):
        self.server, self.token, self.number = server, token, number

    def ask(self, method: str, path: str, body: str | None = None) -> bytes:
        connection = http.client.HTTPConnection("127.0.0.1", self.server.port, timeout=20)
        data = body.encode() if body is not None else b"" if method in ("POST", "PUT") else None
        connection.request(method, f"/api/v4/projects/{self.number}{path}", data, {"PRIVATE-TOKEN": self.token})
        reply = connection.getresponse()
        text = reply.read()
        connection.close()
        if reply.status >= 300:
            raise AssertionError(f"{method} {path}: {reply.status} {text!r}")
        return text

    def pipeline(self, file: str, ref: str = "main", variables: dict[str, str] | None = None) -> int:
        """Makes a pipeline of a CI file, and answers its number."""
        self.ask("PUT", "/ci_file", textwrap.dedent(file))
        asked = {"ref": ref, "variables": [{"key": key, "value": value} for key, value in (variables or {}).items()]}
        return json.loads(self.ask("POST", "/pipeline", json.dumps(asked)))["id"]

    def shown(self, pipeline: int) -> dict:
        return json.loads(self.ask("GET", f"/pipelines/{pipeline}"))

    def job(self, pipeline: int, name: str) -> dict:
        return next(job for job in self.shown(pipeline)["jobs"] if job["name"] == name)

    def trace(self, pipeline: int, name: str) -> str:
        return self.ask("GET", f"/jobs/{self.job(pipeline, name)['id']}/trace").decode(errors="replace")

    def ends(self, pipeline: int, seconds: float = 120) -> str:
        """Waits until a pipeline is finished, and answers its status."""
        return until(lambda: (status := self.shown(pipeline)["status"]) in FINISHED and status, seconds)


def until(holds, seconds: float = 60):
    """Waits until something holds, and answers it."""
    end = time.monotonic() + seconds
    while time.monotonic() < end:
        try:
            if found := holds():
                return found
        except (OSError, http.client.HTTPException):
            pass
        time.sleep(0.05)
    raise AssertionError("it doesn't come")


class Case(unittest.TestCase):
    """A test with a folder of its own, a server, a project, and a repository with one commit."""

    with_clock = False

    def setUp(self) -> None:
        self.room = tempfile.mkdtemp(prefix="runner-test-")
        self.addCleanup(shutil.rmtree, self.room, True)
        self.clock = Clock(self.room) if self.with_clock else None
        self.server = Server(self.room, self.clock.environment if self.clock else None)
        self.addCleanup(self.server.kill)
        self.project = Project(self.server, self.server.project())
        self.runners: list[subprocess.Popen] = []
        self.addCleanup(self.end_runners)
        self.home = self.folder("home")
        self.write("home/.gitconfig", "[user]\nname = t\nemail = t@example.com\n[protocol \"file\"]\nallow = always\n[init]\ndefaultBranch = main\n")
        self.work = self.repository("work", {"hello.txt": "hello\n"})

    def folder(self, name: str) -> str:
        path = os.path.join(self.room, name)
        os.makedirs(path, exist_ok=True)
        return path

    def path(self, name: str) -> str:
        return os.path.join(self.room, name)

    def write(self, name: str, text: str) -> str:
        path = self.path(name)
        os.makedirs(os.path.dirname(path), exist_ok=True)
        with open(path, "w", encoding="utf-8") as file:
            file.write(text)
        return path

    def read(self, name: str) -> str:
        with open(self.path(name), encoding="utf-8", errors="replace") as file:
            return file.read()

    def git(self, *words: str, folder: str = "") -> str:
        environment = {"PATH": os.environ["PATH"], "HOME": self.home}
        return subprocess.run(["git", *words], cwd=folder or self.work, env=environment, stdout=subprocess.PIPE, stderr=subprocess.PIPE,
                              text=True, check=True).stdout.strip()

    def git_says(self, *words: str, folder: str = "") -> str:
        """What git says on standard error."""
        environment = {"PATH": os.environ["PATH"], "HOME": self.home}
        return subprocess.run(["git", *words], cwd=folder or self.work, env=environment, stdout=subprocess.PIPE, stderr=subprocess.PIPE,
                              text=True, check=True).stderr

    def repository(self, name: str, files: dict[str, str]) -> str:
        """Makes a repository with a commit of these files on `main`."""
        path = self.folder(name)
        self.git("init", "--quiet", folder=path)
        for file, text in files.items():
            self.write(f"{name}/{file}", text)
        self.commit("first", path)
        return path

    def commit(self, text: str, path: str = "") -> str:
        """Commits all that is there, and answers its number."""
        self.git("add", "--all", folder=path)
        self.git("commit", "--quiet", "--allow-empty", "-m", text, folder=path)
        return self.git("rev-parse", "HEAD", folder=path)

    def begin_runner(self, token: str, name: str = "one", top: str = "", rest: str = "", environment: dict[str, str] | None = None, pause: int = 1):
        """Begins a runner with a configuration of its own, and answers its process; what it says is in NAME.log."""
        config = self.write(f"{name}.toml", f'url = "{self.server.url}"\nname = "{name}"\nfolder = "{self.path(name)}"\ntoken = "{token}"\n'
                            f'longest_pause_seconds = {pause}\n{top}\n[projects.1]\nrepository = "{self.work}"\n{rest}\n')
        clock = self.clock.environment if self.clock else {}
        with open(self.path(f"{name}.log"), "ab") as log:
            runner = subprocess.Popen([RUNNER, "--config", config], stderr=log, stdin=subprocess.DEVNULL,
                                      env={"PATH": os.environ["PATH"], "HOME": self.home, **clock, **(environment or {})})
        self.runners.append(runner)
        return runner

    def end_runners(self) -> None:
        for runner in self.runners:
            if runner.poll() is None:
                runner.send_signal(signal.SIGTERM)
                runner.send_signal(signal.SIGCONT)
        if self.clock:
            time.sleep(0.5)
            self.clock.put_on(60)
        for runner in self.runners:
            try:
                runner.wait(40)
            except subprocess.TimeoutExpired:
                runner.kill()
                runner.wait()
                raise

    def lines(self, name: str) -> list[str]:
        """The lines of a file that jobs write; none where there is none yet."""
        return self.read(name).splitlines() if os.path.exists(self.path(name)) else []

    def assert_line(self, text: str, pattern: str) -> None:
        self.assertRegex(text, re.compile(f"^{pattern}$", re.MULTILINE))
