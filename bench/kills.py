#!/usr/bin/env python3
"""A thousand kills of the server at random moments of a request, and what stands in its file after each.

kills.py PROGRAM [SEED [KILLS]]: PROGRAM is bin/ciserver, SEED (1 without it) that of all that is drawn, and KILLS (1000 without it)
how many there are. The files lie in the folder of TMPDIR: on a disk whose syncs take time more of the kills come between a commit
and its reply than in /dev/shm.

Requests are sent one after the other, of a project with some variables and pipelines of four jobs, and each answer must be the one
that a model of these few events has. Now and then the server is killed (SIGKILL) while one is on its way: before it, within its
bytes, or up to half as long again behind them as such a request takes. In its place it may be an opening, half of them of a file of
version 1, or a command of the program (`prune`, `runner-add`, `runner-pause`, `project-add`). Then the C library opens a copy of the
file and its log. It must be sound, of version 1 or of version 2, with the tables of that, and its variables, jobs, attempts, traces,
rows of statuses and held groups must be those of the state before the request, or of one that it goes through: behind each sweep that
comes before it, and behind itself; the last of them, where the reply had come. The server is started again and shows the same by its
routes. Every forty kills there is a new file.

It ends with a line of counts, and with 1 where something else stands there, or an opening or an answer takes more than twenty
seconds. It wants nothing but Python's own library, and sends to 127.0.0.1 alone.
"""
import collections
import copy
import json
import os
import random
import re
import shutil
import socket
import sqlite3
import statistics
import subprocess
import sys
import tempfile
import time

from pending import Server

KILLS_OF_A_FILE = 40
FILES = ["""stages: [build, test, deploy]
one:
  stage: build
  interruptible: true
  script: one
two:
  retry: 1
  interruptible: true
  script: two
hand:
  when: manual
  interruptible: true
  script: hand
ship:
  stage: deploy
  resource_group: prod
  script: ship
"""]
FILES.append("# the same\n" + FILES[0])
# What the files say of their jobs, in the order of their places. One that waits for a user may fail.
Part = collections.namedtuple("Part", "name stage by_hand retries group interruptible")
PARTS = [Part("one", 0, False, 0, None, True), Part("two", 1, False, 1, None, True), Part("hand", 1, True, 0, None, True),
         Part("ship", 2, False, 0, "prod", False)]
STATUSES = ["created", "pending", "running", "success", "failed", "canceled", "skipped", "manual"]
LIVE, SUCCESS, FAILED, CANCELLED = range(4)


class Wrong(Exception):
    pass


# ---- the model

class State:
    """What stands in a file: the records, without tokens and moments."""

    def __init__(self):
        self.projects, self.runners, self.variables, self.file = 1, {1: 0, 2: 0, 3: 0}, {}, None
        self.pipelines, self.jobs, self.attempts, self.traces, self.next = {}, {}, {}, {}, {"pipeline": 1, "job": 1, "attempt": 1}

    def number(self, kind):
        self.next[kind] += 1
        return self.next[kind] - 1

    def part(self, job):
        return PARTS[self.jobs[job]["pos"]]

    def jobs_of(self, pipeline):
        return [job for job, record in self.jobs.items() if record["pipeline"] == pipeline]

    def attempts_of(self, job):
        return [one for one, record in self.attempts.items() if record["job"] == job]

    def standing(self, job):
        """The status of a job by its own doing, or None."""
        record, attempts = self.jobs[job], self.attempts_of(job)
        if any(self.attempts[one]["state"] == LIVE for one in attempts):
            return "running"
        if record["cancelled"]:
            return "canceled"
        counted = attempts[record["aside"]:]
        if not counted:
            return None
        if self.attempts[counted[-1]]["state"] == SUCCESS:
            return "success"
        return None if len(counted) <= self.part(job).retries else "failed"

    def rows(self, pipeline):
        """The row of each job: its status, and how many that it waits for are open, failed, and bar it."""
        rows = {}
        for job in self.jobs_of(pipeline):
            part = self.part(job)
            before = [meaning(row[0], self.part(other)) for other, row in rows.items() if self.part(other).stage < part.stage]
            counts = tuple(before.count(word) for word in ("open", "failed", "barred"))
            status = self.standing(job)
            if status is None:
                idle = "manual" if part.by_hand and not self.jobs[job]["played"] else "pending"
                status = "created" if counts[0] else "skipped" if counts[1] or counts[2] else idle
            rows[job] = (status, *counts)
        return rows

    def status(self, pipeline):
        rows = self.rows(pipeline)
        statuses = [row[0] for row in rows.values()]
        binding = [row[0] for job, row in rows.items() if not self.part(job).by_hand]
        tried = any(self.attempts_of(job) for job in rows)
        if "running" in statuses or "pending" in statuses and tried:
            return "running"
        if "pending" in statuses:
            return "pending"
        for status in ("manual", "failed", "canceled"):
            if status in binding:
                return status
        return "skipped" if set(statuses) <= {"skipped", "manual"} else "success"

    def is_unfinished(self, pipeline):
        return self.status(pipeline) in ("pending", "running", "manual")

    def held(self):
        """The groups that live attempts hold, with these."""
        live = [(self.part(record["job"]).group, one) for one, record in self.attempts.items() if record["state"] == LIVE]
        return {group: one for group, one in live if group}

    def shown(self, pipeline):
        """The name and the status of each job, as the routes show them."""
        def word(job, status):
            return "waiting_for_resource" if status == "pending" and self.part(job).group in self.held() else status
        return [(self.part(job).name, word(job, row[0])) for job, row in self.rows(pipeline).items()]

    def tables(self):
        """What the tables of the file hold of it."""
        rows = [item for pipeline in self.pipelines for item in self.rows(pipeline).items()]
        return {
            "project": self.projects, "runner": self.runners, "variable": self.variables, "file": self.file, "pipeline": self.pipelines,
            "job": {job: tuple(record.values()) for job, record in self.jobs.items()},
            "attempt": {one: tuple(record.values()) for one, record in self.attempts.items()},
            "trace": {one: trace for one, trace in self.traces.items() if trace},
            "board": {job: (STATUSES.index(row[0]), *row[1:]) for job, row in rows}, "holder": self.held(), "next": self.next,
        }

    # ---- what events do

    def cancel(self, jobs):
        for job in jobs:
            self.jobs[job]["cancelled"] = 1
            for one in self.attempts_of(job):
                if self.attempts[one]["state"] == LIVE:
                    self.attempts[one]["state"] = CANCELLED

    def cancellable(self, pipeline):
        return [job for job, row in self.rows(pipeline).items() if row[0] in ("created", "pending", "running", "manual")]

    def redundant(self):
        """The pipeline that a sweep cancels, if there is one: unfinished, with a newer one of its ref, and without an attempt of a job
        that isn't interruptible."""
        for pipeline, ref in self.pipelines.items():
            has_newer = any(other > pipeline and self.pipelines[other] == ref for other in self.pipelines)
            kept = any(self.attempts_of(job) for job in self.jobs_of(pipeline) if not self.part(job).interruptible)
            if has_newer and not kept and self.is_unfinished(pipeline):
                return pipeline
        return None

    def create(self, ref):
        pipeline = self.number("pipeline")
        self.pipelines[pipeline] = ref
        for pos in range(len(PARTS)):
            self.jobs[self.number("job")] = {"pipeline": pipeline, "pos": pos, "played": 0, "cancelled": 0, "aside": 0}

    def grantable(self):
        """The job that the runner is given, if there is one."""
        if self.runners[3]:
            return None
        pending = [job for pipeline in self.pipelines for job, row in self.rows(pipeline).items() if row[0] == "pending"]
        return min((job for job in pending if self.part(job).group not in self.held()), default=None)

    def prune(self, pipeline):
        del self.pipelines[pipeline]
        self.jobs = {job: one for job, one in self.jobs.items() if one["pipeline"] in self.pipelines}
        self.attempts = {one: record for one, record in self.attempts.items() if record["job"] in self.jobs}
        self.traces = {one: trace for one, trace in self.traces.items() if one in self.attempts}


def meaning(status, part):
    """What a job of this status means to one of a later stage."""
    if status in ("created", "pending", "running") or status == "manual" and not part.by_hand:
        return "open"
    if status in ("failed", "canceled") and not part.by_hand:
        return "failed" if status == "failed" else "barred"
    return "good"


def sweeps(state):
    """The states after each sweep that finds something."""
    states = []
    while (pipeline := state.redundant()) is not None:
        state = copy.deepcopy(state)
        state.cancel(state.cancellable(pipeline))
        states.append(state)
    return states


# ---- requests

class Requests:
    """Draws requests: each is a method, a path, fields and a body, and what it does to a state, which gives the status of its reply."""

    def __init__(self, server, chance):
        self.server, self.chance, self.tokens = server, chance, {}

    def drawn(self, state):
        kinds = [(self.variable, 1), (self.no_variable, 1), (self.file, 1), (self.create, 1), (self.ask, 3), (self.report, 3),
                 (self.piece, 2), (self.act, 1), (self.cancel_pipeline, 1)]
        kind = self.chance.choices(*zip(*kinds))[0]
        return kind.__name__, *(kind(state) or self.ask(state))

    def of_project(self, method, path, body=b""):
        return method, f"projects/1/{path}", f"PRIVATE-TOKEN: {self.server.project}\r\n", body

    def variable(self, _):
        key, value = self.chance.choice("ABC"), self.chance.choice(["", "v", "w" * 3000])
        def does(state):
            state.variables[key] = value
            return 200
        return self.of_project("PUT", f"variables/{key}", json.dumps({"value": value}).encode()), does

    def no_variable(self, _):
        key = self.chance.choice("ABC")
        def does(state):
            return 404 if state.variables.pop(key, None) is None else 204
        return self.of_project("DELETE", f"variables/{key}"), does

    def file(self, _):
        text = self.chance.choice(FILES)
        def does(state):
            state.file = text
            return 200
        return self.of_project("PUT", "ci_file", text.encode()), does

    def create(self, state):
        ref = self.chance.choice(["main", f"b{state.next['pipeline']}", f"b{state.next['pipeline']}"])
        def does(state):
            if state.file is None:
                return 400
            state.create(ref)
            return 201
        return self.of_project("POST", "pipeline", json.dumps({"ref": ref}).encode()), does

    def ask(self, _):
        def does(state):
            job = state.grantable()
            if job is None:
                return 204
            one = state.number("attempt")
            state.attempts[one] = {"job": job, "state": LIVE, "cause": None, "exit": None}
            state.traces[one] = b""
            return 201
        return ("POST", "jobs/request", "", json.dumps({"token": self.server.asks}).encode()), does

    def one_of(self, state):
        """An attempt, mostly a live one."""
        live = [one for one, record in state.attempts.items() if record["state"] == LIVE]
        known = live if live and self.chance.random() < 0.9 else list(state.attempts)
        return self.chance.choice(known) if known else None

    def report(self, state):
        one = self.one_of(state)
        if one is None:
            return None
        said, code = self.chance.choice([("running", None), ("success", None), ("success", 0), ("failed", 3), ("failed", None)])
        body = {"token": self.tokens[one], "state": said, "failure_reason": "script_failure"}
        if code is not None:
            body["exit_code"] = code
        ended = {"success": (SUCCESS, None), "failed": (FAILED, 1)}.get(said)
        def does(state):
            record = state.attempts[one]
            if record["state"] != LIVE:
                return 200 if ended and (record["state"], record["exit"]) == (ended[0], code) else 403
            if ended:
                record["state"], record["cause"], record["exit"] = *ended, code
            return 200
        return ("PUT", f"jobs/{one}", "", json.dumps(body).encode()), does

    def piece(self, state):
        one = self.one_of(state)
        if one is None:
            return None
        begin = len(state.traces[one]) + self.chance.choice([0, 0, 0, 0, 1])
        part = self.chance.randbytes(self.chance.choice([1, 100, 16384, 40000]))
        def does(state):
            if state.attempts[one]["state"] != LIVE:
                return 403
            if len(state.traces[one]) != begin:
                return 416
            state.traces[one] += part
            return 202
        fields = f"JOB-TOKEN: {self.tokens[one]}\r\nContent-Range: {begin}-{begin + len(part) - 1}\r\n"
        return ("PATCH", f"jobs/{one}/trace", fields, part), does

    def act(self, state):
        if not state.jobs:
            return None
        job, word = self.chance.choice(list(state.jobs)), self.chance.choice(["play", "cancel", "retry"])
        def does(state):
            status = state.rows(state.jobs[job]["pipeline"])[job][0]
            if word == "play":
                if status != "manual":
                    return 400
                state.jobs[job]["played"] = 1
            elif word == "cancel":
                if job not in state.cancellable(state.jobs[job]["pipeline"]):
                    return 403
                state.cancel([job])
            else:
                if status not in ("success", "failed", "canceled"):
                    return 403
                state.jobs[job]["aside"], state.jobs[job]["cancelled"] = len(state.attempts_of(job)), 0
            return 200
        return self.of_project("POST", f"jobs/{job}/{word}"), does

    def cancel_pipeline(self, state):
        if not state.pipelines:
            return None
        pipeline = self.chance.choice(list(state.pipelines))
        def does(state):
            jobs = state.cancellable(pipeline)
            state.cancel(jobs)
            return 200 if jobs else 403
        return self.of_project("POST", f"pipelines/{pipeline}/cancel"), does


def after(state, does):
    """The states that stand in the file one after the other while a request is served, and the status of its reply."""
    states = [state, *sweeps(state)]
    last = copy.deepcopy(states[-1])
    status = does(last)
    return [*states, last], status


# ---- commands

def runner_add(state):
    state.runners[len(state.runners) + 1] = 0


def project_add(state):
    state.projects += 1


def pause(state):
    state.runners[3] = 1


def resume(state):
    state.runners[3] = 0


COMMANDS = [(["runner-add", "--name", "n"], runner_add), (["project-add", "--name", "q"], project_add),
            (["runner-pause", "--runner", "3"], pause), (["runner-pause", "--runner", "3", "--resume"], resume),
            (["prune", "--before", "9999-12-31"], None)]


def after_command(state, does):
    """The states that a command leaves one after the other, each after a line that it prints."""
    if does:
        last = copy.deepcopy(state)
        does(last)
        return [state, last]
    states = [state]
    for pipeline in list(state.pipelines):
        if not state.is_unfinished(pipeline):
            last = copy.deepcopy(states[-1])
            last.prune(pipeline)
            states.append(last)
    return states


# ---- the server

class Killed(Server):
    """A server that is killed and started again."""

    def __init__(self, program, folder):
        self.folder, self.took = folder, []
        super().__init__(program, folder)
        self.kill()
        self.asks = json.loads(self.say("runner-add", "--name", "r", "--untagged"))["token"]
        self.start()

    def serve(self):
        with socket.socket() as probe:
            probe.bind(("127.0.0.1", 0))
            self.port = probe.getsockname()[1]
        words = [self.program, "serve", "--db", self.db, "--port", str(self.port), "--requests", "1000000000"]
        self.process = subprocess.Popen(words, stdout=subprocess.PIPE, text=True)

    def start(self):
        begin = time.perf_counter()
        for _ in range(20):
            self.serve()
            if self.process.stdout.readline() == f"listening on 127.0.0.1:{self.port}\n":
                self.took.append(time.perf_counter() - begin)
                return
            self.kill()
        raise Wrong(f"the server doesn't start: {self.process.returncode}")

    def kill(self):
        self.process.kill()
        self.process.wait()
        self.process.stdout.close()

    def leave_modes_out(self):
        """Makes the file one of version 1: the C library removes the table of process modes, which is empty."""
        file = sqlite3.connect(self.db, isolation_level=None)
        try:
            file.executescript("BEGIN; DROP TABLE mode; UPDATE meta SET num = 1 WHERE key = 'version'; COMMIT")
        finally:
            file.close()

    def send(self, wanted, dies=None):
        """Sends a request; gives the status and the body of its reply, or None where no whole one came. `dies` says behind how many bytes
        the server is killed, and how many seconds later."""
        method, path, fields, body = wanted
        data = f"{method} /api/v4/{path} HTTP/1.1\r\n{fields}Content-Length: {len(body)}\r\n\r\n".encode() + body
        reply = b""
        with socket.create_connection(("127.0.0.1", self.port)) as peer:
            peer.sendall(data[:dies[0]] if dies else data)
            if dies:
                until = time.perf_counter() + dies[1]
                while time.perf_counter() < until:
                    pass
                self.kill()
            try:
                while part := peer.recv(65536):
                    reply += part
            except ConnectionError:
                pass
        return answer_in(reply)

    def look(self, what):
        """What stands in the file, by a copy that the C library opens."""
        for part in ("copy.db", "copy.db-wal", "copy.db-shm"):
            if os.path.exists(os.path.join(self.folder, part)):
                os.remove(os.path.join(self.folder, part))
        for part in ("", "-wal"):
            if os.path.exists(self.db + part):
                shutil.copy(self.db + part, os.path.join(self.folder, "copy.db" + part))
        file = sqlite3.connect(os.path.join(self.folder, "copy.db"))
        try:
            return what(lambda text: file.execute(text).fetchall())
        finally:
            file.close()


def answer_in(reply):
    """The status and the body of a whole reply."""
    head, mark, body = reply.partition(b"\r\n\r\n")
    length = re.search(rb"\r\nContent-Length: (\d+)", head)
    if not mark or len(body) != (int(length[1]) if length else 0):
        return None
    return int(head[9:12]), body


def tables_of(ask):
    """What the tables hold; and of attempts the tokens, and when they were heard of."""
    if ask("PRAGMA integrity_check") != [("ok",)] or ask("PRAGMA foreign_key_check"):
        raise Wrong("the file isn't sound")
    if version_of(ask) is None:
        raise Wrong("the file is of no version, or a group has a process mode")
    def rows(text):
        return {row[0]: row[1:] if len(row) > 2 else row[1] for row in ask(text)}
    traces = collections.defaultdict(bytes)
    for one, part in ask("SELECT attempt, bytes FROM piece ORDER BY attempt, seq"):
        traces[one] += part
    numbers = rows("SELECT substr(key, 6), num FROM meta WHERE key IN ('next_pipeline', 'next_job', 'next_attempt')")
    return {
        "project": ask("SELECT count(*) FROM project")[0][0], "runner": rows("SELECT id, paused FROM runner"),
        "variable": rows("SELECT key, value FROM variable"), "file": ask("SELECT file FROM project WHERE id = 1")[0][0],
        "pipeline": rows("SELECT id, ref FROM pipeline"), "job": rows("SELECT id, pipeline, pos, played, cancelled, aside FROM job"),
        "attempt": rows("SELECT id, job, state, cause, exit FROM attempt"), "trace": dict(traces),
        "board": rows("SELECT job, status, open, failed, barred FROM board"), "holder": rows("SELECT grp, attempt FROM holder"),
        "next": numbers,
    }, rows("SELECT id, token, seen FROM attempt")


def version_of(ask):
    """Of which version the file is, 1 or 2; or None."""
    version = ask("SELECT num FROM meta WHERE key = 'version'")
    if ask("SELECT 1 FROM sqlite_schema WHERE name = 'mode'"):
        return 2 if version == [(2,)] and not ask("SELECT 1 FROM mode") else None
    return 1 if version == [(1,)] else None


class Trial:
    """A server, the state that its file stands for, and what was counted."""

    def __init__(self, program, folder, chance, counts, times):
        self.chance, self.counts, self.times = chance, counts, times
        self.server, self.state, self.heard = Killed(program, folder), State(), {}
        self.requests = Requests(self.server, chance)

    def take(self, request, moment, answer, wanted):
        """The reply must be of this status. What it says is remembered: a grant's token, and when an attempt was heard of."""
        method, path, _, said = request
        status, body = answer
        if status != wanted:
            raise Wrong(f"{method} {path} was answered {status} {body[:80]}, and not {wanted}")
        if status == 201 and path == "jobs/request":
            grant = json.loads(body)
            self.requests.tokens[grant["id"]] = grant["token"]
        if status == 202 or status == 200 and path.startswith("jobs/") and json.loads(said)["state"] == "running":
            self.heard[int(path.split("/")[1])] = moment
        self.counts["answered"] += 1

    def ask(self):
        """A request that is answered."""
        kind, request, does = self.requests.drawn(self.state)
        states, wanted = after(self.state, does)
        begin, moment = time.perf_counter(), int(time.time())
        answer = self.server.send(request)
        self.times[kind] = [*self.times[kind][-50:], time.perf_counter() - begin]
        if answer is None:
            raise Wrong(f"no reply to {request}")
        self.take(request, moment, answer, wanted)
        self.state = states[-1]

    def kill_request(self):
        kind, request, does = self.requests.drawn(self.state)
        states, wanted = after(self.state, does)
        usual = statistics.median(self.times[kind] or [0.001])
        cut = self.chance.randrange(100) if self.chance.random() < 0.1 else None
        moment = int(time.time())
        answer = self.server.send(request, (cut, self.chance.uniform(0, 1.5) * usual))
        if answer is not None:
            self.take(request, moment, answer, wanted)
        self.settle(states, len(states) - 1 if answer else 0)

    def kill_command(self):
        self.server.kill()
        words, does = self.chance.choice(COMMANDS)
        states = after_command(self.state, does)
        usual = statistics.median(self.times[words[0]] or [0.01])
        begin = time.perf_counter()
        process = subprocess.Popen([self.server.program, words[0], "--db", self.server.db, *words[1:]], stdout=subprocess.PIPE, text=True)
        if self.times[words[0]] and self.chance.random() < 0.9:
            time.sleep(self.chance.uniform(0, 1.2) * usual)
            process.kill()
            printed = process.communicate()[0].count("\n")
        else:
            printed = process.communicate()[0].count("\n")
            self.times[words[0]].append(time.perf_counter() - begin)
            if printed != len(states) - 1:
                raise Wrong(f"{words} printed {printed} lines, and not {len(states) - 1}")
        self.counts["answered"] += printed
        self.settle(states, printed)

    def kill_opening(self):
        self.server.kill()
        is_old = self.chance.random() < 0.5
        if is_old:
            self.server.leave_modes_out()
        self.server.serve()
        time.sleep(self.chance.uniform(0, 1.2) * statistics.median(self.server.took))
        self.server.kill()
        if is_old:
            self.counts[f"version {self.server.look(version_of)}"] += 1
        self.settle([self.state], 0)

    def settle(self, states, first):
        """The file must stand for one of these states, and not for one before the first that was answered."""
        tables, tokens = self.server.look(tables_of)
        found = [place for place, state in enumerate(states) if state.tables() == tables]
        if not found or found[-1] < first:
            last = states[-1].tables()
            others = {name: (tables[name], last[name]) for name in tables if tables[name] != last[name]}
            raise Wrong(f"the file stands for another state ({found} of {len(states)}, answered {first}): {others}"[:3000])
        if any(tokens[one][0] != token for one, token in self.requests.tokens.items() if one in tokens):
            raise Wrong("a token is another")
        if any(tokens[one][1] < moment for one, moment in self.heard.items() if one in tokens):
            raise Wrong("an attempt was heard of later than the file says")
        self.requests.tokens.update({one: token for one, (token, _) in tokens.items()})
        before = "before the answer, when it had happened" if found[0] else "before the answer, when nothing had"
        self.counts["behind the answer" if first else before] += 1
        self.state = states[found[-1]]
        self.server.start()
        self.show()

    def show(self):
        """The routes show the state, swept."""
        state = self.state = [self.state, *sweeps(self.state)][-1]
        for pipeline in list(state.pipelines)[-3:]:
            status, body = self.server.send(self.requests.of_project("GET", f"pipelines/{pipeline}")) or (None, b"{}")
            shown = json.loads(body)
            found = status, shown.get("status"), [(job["name"], job["status"]) for job in shown.get("jobs", [])]
            if found != (200, state.status(pipeline), state.shown(pipeline)):
                raise Wrong(f"pipeline {pipeline} is shown as {found}, and not as {state.status(pipeline)} {state.shown(pipeline)}")
        for one in list(state.attempts)[-3:]:
            job = state.attempts[one]["job"]
            last = state.attempts_of(job)[-1]
            if self.server.send(self.requests.of_project("GET", f"jobs/{job}/trace")) != (200, state.traces[last]):
                raise Wrong(f"the trace of attempt {last} is another")

    def run(self, kills):
        for _ in range(kills):
            for _ in range(self.chance.randrange(6)):
                self.ask()
            kind = self.chance.random()
            (self.kill_request if kind < 0.85 else self.kill_command if kind < 0.95 else self.kill_opening)()


def run(program, seed, kills, counts):
    chance, times = random.Random(seed), collections.defaultdict(list)
    for done in range(0, kills, KILLS_OF_A_FILE):
        with tempfile.TemporaryDirectory() as folder:
            trial = Trial(program, folder, chance, counts, times)
            try:
                trial.run(min(KILLS_OF_A_FILE, kills - done))
            finally:
                trial.server.kill()


def main():
    words = sys.argv[1:]
    if not 1 <= len(words) <= 3 or not re.fullmatch(r"[^-].*", words[0]):
        sys.exit(__doc__)
    seed, kills = (int(word) for word in [*words[1:], *["1", "1000"][len(words) - 1:]])
    socket.setdefaulttimeout(20)
    counts, wrong, begin = collections.Counter(), None, time.monotonic()
    try:
        run(os.path.abspath(words[0]), seed, kills, counts)
    except (Wrong, OSError, ValueError) as fault:
        wrong = fault
        print(f"wrong: {type(fault).__name__}: {fault}")
    calls, before, behind = (counts.pop(kind, 0) for kind in ("answered", "version 1", "version 2"))
    said = ", ".join(f"{counts[kind]} {kind}" for kind in sorted(counts))
    print(f"seed {seed}: {sum(counts.values())} kills in {time.monotonic() - begin:.0f} s: {said}; {calls} answered calls; "
          f"of {before + behind} migrations {behind} had happened")
    sys.exit(wrong is not None)


if __name__ == "__main__":
    main()
