#!/usr/bin/env python3
"""Ten thousand requests of random and mutated bytes, beside a live pipeline whose end is then what it was to be.

hostile.py PROGRAM [SEED [COUNT]]: PROGRAM is bin/ciserver, SEED (1 without it) that of all that is drawn, and COUNT (10000 without
it) how many requests are sent. The file lies in the folder of TMPDIR.

The requests are those of a second project, with tokens that are right, and are cut, split, doubled, joined and changed in their
bytes, numbers, lines and bodies; or they never were any; some have megabytes. What they ask for may well be done, to that project.
Between them a runner of the first project goes through a pipeline step by step, and each of its answers is known before. Of each
other answer it is asked whether it is a whole reply of a status that the server has, and whether one had to come (docs/HTTP.md). In
the end the pipeline has the statuses and the traces that the runner made, by the routes and, once the server is killed, in the file.

It ends with a line that counts the requests by their answers, and with 1 where the server died, hung for twenty seconds or gave
another answer, the pipeline ended otherwise, or all of it takes more than 20 minutes. It wants nothing but Python's own library, and
sends to 127.0.0.1 alone.
"""
import collections
import json
import os
import random
import re
import shutil
import socket
import sqlite3
import struct
import sys
import tempfile
import time

from pending import Server

SECONDS = 20 * 60
STATUSES = {200, 201, 202, 204, 400, 401, 403, 404, 405, 411, 413, 416, 431, 501}
NUMBERS = [0, 1, 2, 34, 35, 16384, 65535, 65536, 65537, 4194304, 4194305, 2**31, 2**32 - 1, 2**32, 2**53 - 1, 2**53, 2**53 + 1,
           2**63 - 1, 2**63, 2**64 - 1, 2**64, 10**40]
ODD = [b"\0", b"\r", b"\n", b"\r\n", b"\r\n\r\n", b"\n\n", b"\t", b" ", b":", b"\x7f", b"\xff", b"\xc3", b"\xed\xa0\x80",
       b"\xf4\x90\x80\x80", b"\xef\xbb\xbf", b"%00", b"?", b"/", b"//", b"..", b'"', b"{", b"[", b"}", b"]", b",", b"\\", b"\\u0000",
       b"\\ud800", b"-", b"+", b"e9", b".5"]
METHODS = ["GET", "PUT", "POST", "PATCH", "DELETE", "HEAD", "OPTIONS", "CONNECT", "get", "X", ""]
FIELDS = [b"Transfer-Encoding: chunked", b"Expect: 100-continue", b"Content-Length: 0", b"Content-Length: +5", b"content-length: 7",
          b"Connection: keep-alive", b"JOB-TOKEN: x", b"PRIVATE-TOKEN: x", b"Content-Range: 0-4", b"Host: a", b": a", b"a", b" a: b",
          b"A: " + b"b" * 9000]
WORDS = ODD + FIELDS + [b"GET ", b"POST ", b" HTTP/1.1\r\n", b"/api/v4/", b"jobs/", b"request", b"projects/2", b"token", b"0-4", b"16"]
LINE_ENDS = [" |", " [", " '", ' "', ":", " #", "\t", " &a", " *a", " !b", "\0", "\ufeff", " >", " {}", "- - -"]
CI_FILE = """stages: [build, test]
variables:
  LEVEL: "info"
build:
  stage: build
  script:
    - make all        # each item is one line,
    - |               # or a literal block
      for f in *.sh; do
        sh "$f"
      done
  rules:
  - if: '$CI_COMMIT_BRANCH == "main"'
    when: manual
  - if: $A =~ /^v[0-9]+$/i || $B
  - when: always
test:
  needs:
  - job: build
    optional: true
  retry:
    max: 2
    when: script_failure
  resource_group: prod
  timeout: 1h 30m
  allow_failure:
    exit_codes: [3]
  interruptible: true
  script: make test
"""


class Wrong(Exception):
    pass


class Two(Server):
    """A server with a second project, and a runner for each of the two that runs nothing of the other."""

    def __init__(self, program, folder):
        super().__init__(program, folder)
        self.kill()
        self.second = json.loads(self.say("project-add", "--name", "q"))["token"]
        self.first_runner, self.second_runner = (
            json.loads(self.say("runner-add", "--name", "r", "--project", str(project), "--untagged"))["token"] for project in (1, 2))
        self.start()

    def kill(self):
        self.process.kill()
        self.process.wait()
        self.process.stdout.close()


def request(method, target, fields, body=b""):
    lines = [f"{method} {target} HTTP/1.1", *fields, f"Content-Length: {len(body)}"]
    return "\r\n".join(lines).encode() + b"\r\n\r\n" + body


# ---- the live pipeline

LIVE_FILE = """stages: [build, test, deploy]
one:
  stage: build
  script: one
two:
  stage: build
  retry: 1
  script: two
fails:
  allow_failure: true
  script: fails
hand:
  when: manual
  script: hand
ship:
  stage: deploy
  resource_group: prod
  script: ship
stopped:
  stage: deploy
  allow_failure: true
  script: stopped
"""
LIVE_END = {"one": "success", "two": "success", "fails": "failed", "hand": "success", "ship": "success", "stopped": "canceled"}
LIVE_STATES = [("one", 1), ("two", 2), ("two", 1), ("fails", 2), ("hand", 1), ("ship", 1), ("stopped", 3)]


class Live:
    """The runner of the first project, and its pipeline."""

    def __init__(self, server, chance):
        self.server, self.chance, self.grant, self.pieces, self.traces = server, chance, None, b"", {}

    def told(self, wanted, method, path, body="", token=None):
        status, reply, _ = self.server.ask(method, path, body, token)
        if status != wanted:
            raise Wrong(f"the live pipeline: {method} {path}: {status} {reply[:80]}, and not {wanted}")
        return json.loads(reply) if reply else None

    def granted(self, name):
        self.grant = self.told(201, "POST", "jobs/request", json.dumps({"token": self.server.first_runner}))
        if self.grant["job_info"]["name"] != name:
            raise Wrong(f"the live pipeline: a grant of {self.grant['job_info']['name']}, and not of {name}")
        self.pieces = b""

    def piece(self, size):
        part = bytes(self.chance.choices(range(256), k=size))
        begin = len(self.pieces)
        fields = [f"JOB-TOKEN: {self.grant['token']}", f"Content-Range: {begin}-{begin + size - 1}"]
        reply = exchange(self.server.port, [request("PATCH", f"/api/v4/jobs/{self.grant['id']}/trace", fields, part)], False)
        self.pieces += part
        self.traces[self.grant["job_info"]["name"]] = self.pieces
        if not reply.startswith(b"HTTP/1.1 202 ") or f"Range: 0-{len(self.pieces)}\r\n".encode() not in reply:
            raise Wrong(f"the live pipeline: a piece: {reply[:80]}")

    def state(self, state, **more):
        body = json.dumps({"token": self.grant["token"], "state": state, **more})
        self.told(200, "PUT", f"jobs/{self.grant['id']}", body)

    def act(self, word, job):
        self.told(200, "POST", f"projects/1/jobs/{job}/{word}", "", self.server.project)

    def begin(self):
        self.told(200, "PUT", "projects/1/ci_file", LIVE_FILE, self.server.project)
        made = self.told(201, "POST", "projects/1/pipeline", '{"ref":"main"}', self.server.project)
        self.jobs = {job["name"]: job["id"] for job in made["jobs"]}

    def run(self, name, state, **more):
        """The steps of one job."""
        yield lambda: self.granted(name)
        for size in (5, 16379, 1, 40000):
            yield lambda size=size: self.piece(size)
            yield lambda: self.state("running")
        yield lambda: self.state(state, **more)

    def steps(self):
        yield self.begin
        yield from self.run("one", "success")
        yield from self.run("two", "failed", failure_reason="script_failure", exit_code=1)
        yield from self.run("two", "success", exit_code=0)
        yield from self.run("fails", "failed", exit_code=3)
        yield lambda: self.act("play", self.jobs["hand"])
        yield from self.run("hand", "success")
        yield from self.run("ship", "success")
        yield lambda: self.granted("stopped")
        yield lambda: self.piece(70)
        yield lambda: self.act("cancel", self.jobs["stopped"])

    def check(self):
        shown = self.told(200, "GET", "projects/1/pipelines/1", "", self.server.project)
        if {job["name"]: job["status"] for job in shown["jobs"]} != LIVE_END or shown["status"] != "success":
            raise Wrong(f"the live pipeline ended as {shown}")
        for name, wanted in self.traces.items():
            _, trace, _ = self.server.ask("GET", f"projects/1/jobs/{self.jobs[name]}/trace", "", self.server.project)
            if trace != wanted:
                raise Wrong(f"the trace of {name} has {len(trace)} bytes, and not the {len(wanted)} that were sent")

    def check_file(self, folder):
        """What the file says of it once the server is killed; asked of a copy, by the C library."""
        for part in ("bench.db", "bench.db-wal"):
            shutil.copy(os.path.join(folder, part), os.path.join(folder, part.replace("bench", "copy")))
        with sqlite3.connect(os.path.join(folder, "copy.db")) as file:
            ask = lambda text: file.execute(text).fetchall()
            if ask("PRAGMA integrity_check") != [("ok",)] or ask("PRAGMA foreign_key_check"):
                raise Wrong("the file isn't sound")
            if ask("SELECT name, state FROM attempt a JOIN job j ON j.id = a.job WHERE pipeline = 1 ORDER BY a.id") != LIVE_STATES:
                raise Wrong("the attempts of the live pipeline are others")
            twice = ask("SELECT 1 FROM attempt WHERE state = 0 GROUP BY job HAVING count(*) > 1")
            held = ask("SELECT p.project, json_extract(j.spec, '$.resource_group') AS grp, a.id FROM attempt a JOIN job j ON j.id = a.job"
                       " JOIN pipeline p ON p.id = j.pipeline WHERE a.state = 0 AND grp IS NOT NULL ORDER BY 1, 2")
            if twice or held != ask("SELECT project, grp, attempt FROM holder ORDER BY 1, 2"):
                raise Wrong("a job has two live attempts, or groups are held by others than the live attempts")
            for name, wanted in self.traces.items():
                last = f"(SELECT max(id) FROM attempt WHERE job = {self.jobs[name]})"
                rows = ask(f"SELECT bytes FROM piece WHERE attempt = {last} ORDER BY seq")
                if b"".join(row[0] for row in rows) != wanted:
                    raise Wrong(f"the file has another trace of {name}")


# ---- what is sent

class Draws:
    """Draws requests: whole ones of the second project, changed ones, and what never was one."""

    def __init__(self, server, chance):
        self.server, self.chance, self.grants, self.pipelines, self.jobs = server, chance, [], [2], [7]

    def learn(self, reply):
        """Remembers what a reply names, so that later requests can speak of it."""
        if not reply.startswith(b"HTTP/1.1 201 "):
            return
        body = json.loads(reply.partition(b"\r\n\r\n")[2])
        if "token" in body:
            self.grants = self.grants[-20:] + [(body["id"], body["token"], [0])]
        else:
            self.pipelines = self.pipelines[-20:] + [body["id"]]
            self.jobs = self.jobs[-20:] + [job["id"] for job in body["jobs"]][:5]

    def whole(self):
        """A request of the second project, as it should be."""
        chance, token = self.chance, f"PRIVATE-TOKEN: {self.server.second}"
        at, job = "/api/v4/projects/2", chance.choice(self.jobs)
        grant = chance.choice(self.grants) if self.grants else (3, "j3-" + "ab" * 16, [0])
        kind = chance.randrange(13)
        if kind < 3:
            return request("POST", "/api/v4/jobs/request", [], json.dumps({"token": self.server.second_runner}).encode())
        if kind == 3:
            return request("PUT", f"/api/v4/jobs/{grant[0]}", [], self.report(grant).encode())
        if kind == 4:
            part = bytes(chance.choices(range(256), k=chance.choice([1, 100, 16384, 65536])))
            fields = [f"JOB-TOKEN: {grant[1]}", f"Content-Range: {grant[2][0]}-{grant[2][0] + len(part) - 1}"]
            grant[2][0] += len(part)
            return request("PATCH", f"/api/v4/jobs/{grant[0]}/trace", fields, part)
        if kind == 5:
            return request("PUT", f"{at}/ci_file", [token], CI_FILE.encode())
        if kind == 6:
            variables = [{"key": chance.choice("ABC"), "value": "v1"}] if chance.random() < 0.5 else []
            body = {"ref": chance.choice(["main", "v1", "\u00fc"]), "tag": chance.random() < 0.2, "source": "web", "variables": variables}
            return request("POST", f"{at}/pipeline", [token], json.dumps(body).encode())
        if kind == 7:
            return request("PUT", f"{at}/variables/{chance.choice('ABC')}", [token], b'{"value":"v"}')
        if kind == 8:
            return request("DELETE", f"{at}/variables/{chance.choice('ABC')}", [token])
        if kind == 9:
            method, what = chance.choice([("GET", ""), ("POST", "/cancel")])
            return request(method, f"{at}/pipelines/{chance.choice(self.pipelines)}{what}", [token])
        if kind == 10:
            return request("GET", f"{at}/jobs/{job}{chance.choice(['', '/trace'])}", [token])
        if kind == 11:
            parts = ["", "/pipelines", f"/pipelines/{chance.choice(self.pipelines)}/jobs", f"/jobs/{job}/attempts", f"/jobs/{job}/attempts/{grant[0]}/trace",
                     "/resource_groups"]
            return request("GET", chance.choice([*(at + part for part in parts), "/-/health"]), [token])
        return request("POST", f"{at}/jobs/{job}/{chance.choice(['play', 'cancel', 'retry'])}", [token])

    def report(self, grant):
        state = self.chance.choice(["running", "running", "success", "failed"])
        return json.dumps({"token": grant[1], "state": state, "failure_reason": "script_failure", "exit_code": self.chance.choice([0, 3])})

    def noise(self):
        chance = self.chance
        if chance.random() < 0.5:
            return chance.randbytes(chance.choice([1, 10, 200, 8191, 8192, 8193, 20000]))
        return b"".join(chance.choices(WORDS, k=chance.randrange(60)))

    def bulk(self):
        """Megabytes: of a head, of a body, or behind a request."""
        chance, size = self.chance, self.chance.choice([1, 2, 4]) << 20
        filler = chance.choice([b"a", b"\0", b"[", b"\r\n", b"a: b\r\n", b"\xff"]) * size
        kind = chance.randrange(3)
        if kind == 0:
            return b"GET / HTTP/1.1\r\nA: " + filler[:size]
        if kind == 1:
            length = chance.choice([size, 65536, 65537, 2**64])
            return b"POST /api/v4/jobs/request HTTP/1.1\r\nContent-Length: %d\r\n\r\n" % length + filler[:size]
        return self.whole() + filler[:size]

    def changed(self):
        changes = [self.cut, self.bytes_changed, self.numbers_changed, self.lines_changed, self.fields_added, self.body_changed,
                   self.method_changed, self.joined]
        data = self.whole()
        for _ in range(self.chance.choice([1, 1, 2, 3])):
            data = self.chance.choice(changes)(data)
        return data

    def drawn(self):
        kind = self.chance.random()
        if kind < 0.2:
            return self.whole()
        if kind < 0.9:
            return self.changed()
        return self.noise() if kind < 0.99 else self.bulk()

    # ---- changes

    def place(self, data):
        return self.chance.randrange(len(data) + 1)

    def cut(self, data):
        return data[:self.place(data)]

    def bytes_changed(self, data):
        for _ in range(self.chance.choice([1, 1, 2, 8])):
            at = self.place(data)
            put = self.chance.choice([b"", self.chance.randbytes(1), *self.chance.choices(ODD, k=2)])
            data = data[:at] + put + data[at + self.chance.randrange(3):]
        return data

    def numbers_changed(self, data):
        found = list(re.finditer(rb"\d+", data[:3000]))
        if not found:
            return data
        one = self.chance.choice(found)
        front = self.chance.choice(["", "", "", "-", "+", "0", "000"])
        number = f"{front}{self.chance.choice(NUMBERS)}{self.chance.choice(['', '', '', '.0', 'e0', ' '])}".encode()
        return data[:one.start()] + number + data[one.end():]

    def lines_changed(self, data):
        """Doubles, drops, or exchanges lines of the head."""
        head, mark, body = data.partition(b"\r\n\r\n")
        lines = head.split(b"\r\n")
        at = self.chance.randrange(len(lines))
        kind = self.chance.randrange(4)
        if kind == 0:
            lines.insert(self.place(lines), lines[at])
        elif kind == 1:
            lines[at:at + 1] = [lines[at].swapcase(), lines[at]]
        elif kind == 2:
            del lines[at]
        else:
            self.chance.shuffle(lines)
        return self.chance.choice([b"\r\n", b"\r\n", b"\n"]).join(lines) + mark + body

    def fields_added(self, data):
        first, mark, rest = data.partition(b"\r\n")
        added = self.chance.choices(FIELDS, k=self.chance.choice([1, 1, 2, 30, 33, 40]))
        return first + mark + b"".join(field + b"\r\n" for field in added) + rest

    def body_changed(self, data):
        """Another body, with its length."""
        head, mark, _ = data.partition(b"\r\n\r\n")
        body = self.chance.choice([self.json_text, self.file_text, self.noise])()
        return re.sub(rb"Content-Length: \d+", b"Content-Length: %d" % len(body), head, count=1) + mark + body

    def method_changed(self, data):
        _, mark, rest = data.partition(b" ")
        return self.chance.choice(METHODS).encode() + mark + rest

    def joined(self, data):
        other = self.whole()
        return data[:self.place(data)] + other[self.place(other):] if self.chance.random() < 0.5 else data + other

    def json_text(self):
        chance, deep = self.chance, self.chance.choice([1, 100, 126, 127, 128, 200, 30000])
        names = ["token", "state", "ref", "value", "variables", "tag", "source", "exit_code", "failure_reason"]
        values = [*map(str, NUMBERS), "-0", "1e400", "1.5", "null", "true", '""', '"main"', '"\\ud800"', '"\\u0000"', '"success"', '"a',
                  "[", "[" * deep + "]" * deep, '{"a":' * min(deep, 9000) + "1" + "}" * min(deep, 9000), '"' + "x" * 60000 + '"',
                  '[{"key":"A","value":"v"},{"key":"A","value":"w"}]']
        parts = [f'"{chance.choice(names)}":{chance.choice(values)}' for _ in range(chance.randrange(6))]
        token = chance.choice([self.server.second_runner, self.server.second, "x"])
        return ("{" + ",".join([f'"token":"{token}"'] * chance.randrange(2) + parts) + "}")[:65536].encode()

    def file_text(self):
        chance, lines = self.chance, CI_FILE.split("\n")
        for _ in range(chance.choice([1, 1, 2, 5])):
            at, kind = chance.randrange(len(lines)), chance.randrange(5)
            if kind == 0:
                del lines[at]
                lines = lines or [""]
            elif kind == 1:
                lines.insert(at, chance.choice(lines))
            elif kind == 2:
                lines[at] = lines[at][chance.randrange(3):]
            elif kind == 3:
                lines[at] += chance.choice(LINE_ENDS)
            else:
                lines[at:at] = [f"j{n}:\n  script: x" for n in range(chance.choice([5, 190, 201]))]
        return "\n".join(lines).encode()[:chance.choice([65536, 65537, 300])]


# ---- what comes

def due(data):
    """What must come by docs/HTTP.md: nothing, 431, a reply, or either nothing or a reply that refuses the head."""
    end = data[:8192].find(b"\r\n\r\n")
    if end < 0:
        return "431" if len(data) >= 8192 else "nothing"
    head, body = data[:end + 4], data[end + 4:]
    if head.count(b"\n") > 34:
        return "431"
    lengths = re.findall(rb"(?i)^content-length:[ \t]*(\d+)[ \t]*\r?$", head, re.M)
    return "either" if any(len(body) < int(length) for length in lengths) else "reply"


def is_whole(reply):
    """Is it a reply as docs/HTTP.md has them, of a status that the server has?"""
    head, mark, body = reply.partition(b"\r\n\r\n")
    found = re.fullmatch(rb"HTTP/1\.1 (\d{3}) [A-Z][A-Za-z ]+((?:\r\n[A-Za-z-]+: [^\r\n]+)*)\r\nConnection: close", head)
    if not mark or not found or int(found[1]) not in STATUSES:
        return False
    fields = [line.split(b": ", 1) for line in found[2].split(b"\r\n")[1:]]
    names = [name for name, _ in fields]
    order = [b"Job-Status", b"Range", b"Allow", b"Content-Type", b"Content-Length"]
    if names != [name for name in order if name in names]:
        return False
    fields = dict(fields)
    if fields.get(b"Content-Type") == b"application/json" and not isinstance(json.loads(body), dict):
        return False
    return int(fields.get(b"Content-Length", b"0")) == len(body) and (b"Content-Length" in fields) != (found[1] == b"204")


def exchange(port, parts, ends, pause=0):
    """Sends the parts of a request and gives what came, or None where the connection was reset."""
    with socket.create_connection(("127.0.0.1", port)) as peer:
        peer.setsockopt(socket.IPPROTO_TCP, socket.TCP_NODELAY, 1)
        reply, reset = b"", False
        try:
            for place, part in enumerate(parts):
                if place and pause:
                    time.sleep(pause)
                peer.sendall(part)
            if ends:
                peer.shutdown(socket.SHUT_WR)
        except (ConnectionError, OSError) as fault:
            if isinstance(fault, TimeoutError):
                raise
            reset = True
        try:
            while part := peer.recv(65536):
                reply += part
        except ConnectionError:
            reset = True
        return None if reset and not is_whole(reply) else reply


def leave(port, data, chance, left):
    """Sends a request and doesn't wait: closes, resets, or leaves the connection as it is."""
    peer = socket.create_connection(("127.0.0.1", port))
    try:
        peer.settimeout(1)
        peer.sendall(data[:100000])
    except OSError:
        pass
    kind = chance.randrange(3)
    if kind == 0:
        peer.setsockopt(socket.SOL_SOCKET, socket.SO_LINGER, struct.pack("ii", 1, 0))
    if kind < 2:
        peer.close()
    else:
        left.append(peer)
    if len(left) > 100:
        left.pop(0).close()


def parts_of(data, chance):
    """The parts in which a request is sent, and the seconds between two."""
    kind = chance.randrange(10)
    if kind == 0 and len(data) < 300:
        return [data[at:at + 1] for at in range(len(data))], 0
    if kind < 3:
        places = sorted(chance.randrange(len(data) + 1) for _ in range(chance.randrange(1, 6)))
        return [data[a:b] for a, b in zip([0, *places], [*places, len(data)])], chance.choice([0, 0.001])
    return [data], 0


def send(port, data, chance, draws, counts):
    """Sends one request and looks at what comes."""
    wanted = due(data)
    parts, pause = parts_of(data, chance)
    ends = wanted != "reply" or chance.random() < 0.5
    reply = exchange(port, parts, ends, pause)
    if reply is None:
        # TCP may drop a reply where the server is sent far more than it takes.
        if len(data) < 262144:
            raise Wrong(f"reset by the server: {data[:300]!r}")
        counts["reset behind too much"] += 1
    elif reply == b"":
        if wanted not in ("nothing", "either"):
            raise Wrong(f"no reply, and {wanted} is due: {data[:300]!r}")
        counts["unanswered"] += 1
    else:
        if wanted == "nothing" or not is_whole(reply) or wanted == "431" and not reply.startswith(b"HTTP/1.1 431 "):
            raise Wrong(f"{reply[:200]!r}, and {wanted} is due, to {data[:300]!r}")
        if wanted == "either" and reply[9:12] not in (b"400", b"411", b"413", b"501"):
            raise Wrong(f"{reply[:200]!r} to a request whose body is cut: {data[:300]!r}")
        draws.learn(reply)
        counts[reply[9:12].decode()] += 1


def attack(server, chance, count, counts):
    """Sends so many requests, and between them the steps of the live pipeline."""
    begin, left = time.monotonic(), []
    live, draws = Live(server, chance), Draws(server, chance)
    steps = list(live.steps())
    steps.pop(0)()
    places = {count * (place + 1) // (len(steps) + 1): step for place, step in enumerate(steps)}
    if len(places) < len(steps):
        sys.exit("too few requests for the steps of the live pipeline")
    for number in range(count):
        if number in places:
            places[number]()
        data = draws.drawn()
        if chance.random() < 0.03:
            leave(server.port, data, chance, left)
            counts["left alone"] += 1
        else:
            send(server.port, data, chance, draws, counts)
        if server.process.poll() is not None:
            raise Wrong(f"the server ended with {server.process.returncode}, behind {data[:300]!r}")
        if time.monotonic() - begin > SECONDS:
            raise Wrong(f"{number} requests took {SECONDS} seconds")
    for peer in left:
        peer.close()
    return live


def run(program, seed, count, counts):
    chance = random.Random(seed)
    with tempfile.TemporaryDirectory() as folder:
        server = Two(program, folder)
        try:
            live = attack(server, chance, count, counts)
            live.check()
            server.kill()
            live.check_file(folder)
            server.start()
            live.check()
        finally:
            server.process.kill()
            server.process.wait()


def main():
    words = sys.argv[1:]
    if not 1 <= len(words) <= 3 or not re.fullmatch(r"[^-].*", words[0]):
        sys.exit(__doc__)
    seed, count = (int(word) for word in [*words[1:], *["1", "10000"][len(words) - 1:]])
    socket.setdefaulttimeout(20)
    counts, wrong = collections.Counter(), None
    begin = time.monotonic()
    try:
        run(os.path.abspath(words[0]), seed, count, counts)
    except (Wrong, OSError, ValueError) as fault:
        wrong = fault
    answers = ", ".join(f"{counts[kind]} {kind}" for kind in sorted(counts))
    if wrong is not None:
        print(f"wrong: {type(wrong).__name__}: {wrong}")
    else:
        print("the live pipeline ended as it was to, by the routes and in the file")
    print(f"seed {seed}: {sum(counts.values())} requests in {time.monotonic() - begin:.0f} s: {answers}")
    sys.exit(wrong is not None)


if __name__ == "__main__":
    main()
