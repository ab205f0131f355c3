#!/usr/bin/env python3
"""A server in memory that answers the routes which the page and a runner use, as docs/HTTP.md and docs/MODEL.md say: for tests of the page alone.

    web/tests/mock.py [PORT]

It keeps nothing, knows few of the refusals, and of CI files only lines `name:` and, two blanks further in, `key: value`. It prints the tokens of project 1
and of two runners, and the port that it listens on.
"""
import itertools
import json
import re
import secrets
import sys
import threading
import time
from http.server import BaseHTTPRequestHandler, ThreadingHTTPServer

CAUSES = ("script_failure", "api_failure", "stuck_or_timeout_failure", "runner_system_failure", "job_execution_timeout")


class Refusal(Exception):
    """A refusal: its status, its code, and fields of the reply."""

    def __init__(self, status, code, **fields):
        super().__init__(code)
        self.status, self.code, self.fields = status, code, fields


def value_of(text):
    """A value of a CI file: a list in brackets, true or false, or a text."""
    text = text.strip()
    if text.startswith("["):
        return [value_of(part) for part in text[1:-1].split(",") if part.strip()]
    if text[:1] in "\"'" and text[-1:] == text[:1] and len(text) > 1:
        return text[1:-1]
    return {"true": True, "false": False}.get(text, text)


def read_file(text):
    """The stages and jobs of a CI file."""
    stages, jobs, job = ["build", "test", "deploy"], {}, None
    for line in text.splitlines():
        if not line.strip() or line.lstrip().startswith("#"):
            continue
        key, _, value = line.strip().rpartition(":") if line.rstrip().endswith(":") else line.strip().partition(": ")
        key = value_of(key)
        if line.startswith("  "):
            job[key] = value_of(value)
        elif key == "stages":
            stages = value_of(value)
        else:
            job = jobs[key] = {}
    return stages, jobs


class Job:
    def __init__(self, number, pipeline, name, given):
        self.id, self.pipeline, self.name = number, pipeline, name
        self.stage, self.when = given.get("stage", "test"), given.get("when", "on_success")
        self.allowed = given.get("allow_failure", False)
        self.tags, self.group, self.retries = sorted(given.get("tags", [])), given.get("resource_group"), int(given.get("retry", 0))
        self.script = [given.get("script", "true")]
        self.gives = "needs" in given
        self.needs, self.attempts, self.aside, self.played, self.cancelled = [], [], 0, False, False

    def live(self):
        return self.attempts[-1] if self.attempts and self.attempts[-1]["status"] == "running" else None


class World:
    """Projects, runners and what becomes of jobs. Every request holds the lock."""

    def __init__(self):
        self.lock, self.jobs, self.pipelines, self.modes, self.traces, self.tokens = threading.Lock(), {}, {}, {}, {}, {}
        self.numbers = {kind: itertools.count(1) for kind in ("pipeline", "job", "attempt")}
        self.token = f"p1-{secrets.token_hex(16)}"
        self.runners, self.memo = {}, {}
        self.file = None

    def add_runner(self, name, tags=(), untagged=False):
        number = len(self.runners) + 1
        token = f"r{number}-{secrets.token_hex(16)}"
        self.runners[token] = {"id": number, "name": name, "tags": set(tags), "untagged": untagged}
        return token

    # ---- statuses

    def effect(self, job, gives):
        status, allowed = self.status(job), job.allowed
        if status == "success":
            return "good"
        if status == "skipped":
            return "barred" if gives else "good"
        if status in ("failed", "canceled", "manual"):
            return "good" if allowed else {"failed": "failed", "canceled": "barred", "manual": "open"}[status]
        return "open"

    def status(self, job):
        """Its status; each is worked out once between two changes."""
        if job.id not in self.memo:
            self.memo[job.id] = self.worked_out(job)
        return self.memo[job.id]

    def worked_out(self, job):
        counted = job.attempts[job.aside:]
        if job.live():
            return "running"
        if job.cancelled:
            return "canceled"
        if counted and counted[-1]["status"] == "success":
            return "success"
        if counted and (counted[-1]["status"] == "canceled" or len(counted) > job.retries):
            return "failed"
        effects = [self.effect(self.jobs[it], job.gives) for it in job.needs]
        return "pending" if counted else self.idle(job, effects)

    @staticmethod
    def idle(job, effects):
        if "open" in effects:
            return "created"
        if job.when == "always":
            return "pending"
        if job.when == "on_failure":
            return "pending" if "failed" in effects else "skipped"
        if "failed" in effects or "barred" in effects:
            return "skipped"
        return "pending" if job.when != "manual" or job.played else "manual"

    def holder(self, group):
        return next((job for job in self.jobs.values() if job.group == group and job.live()), None)

    def must_wait(self, job):
        if job.group is None:
            return False
        mode, others = self.modes.get(job.group), [it for it in self.jobs.values() if it.group == job.group]
        older = any(it.pipeline < job.pipeline and self.status(it) in ("created", "pending") for it in others)
        newer = any(it.pipeline > job.pipeline and self.status(it) == "pending" for it in others)
        return bool(self.holder(job.group)) or mode == "oldest_first" and older or mode == "newest_ready_first" and newer

    def printed(self, job):
        status = self.status(job)
        return "waiting_for_resource" if status == "pending" and self.must_wait(job) else status

    def of(self, pipeline):
        return [job for job in self.jobs.values() if job.pipeline == pipeline]

    def whole(self, pipeline):
        jobs = [(self.status(job), job.allowed) for job in self.of(pipeline)]
        statuses = {status for status, _ in jobs}
        bound = {status for status, allowed in jobs if not allowed}
        tried = any(job.attempts for job in self.of(pipeline))
        if "running" in statuses or "pending" in statuses and tried:
            return "running"
        if "pending" in statuses:
            return "pending"
        for status in ("manual", "failed", "canceled"):
            if status in bound:
                return status
        return "skipped" if statuses <= {"skipped", "manual"} else "success"

    # ---- what is told

    def told(self, job):
        return {"id": job.id, "name": job.name, "stage": job.stage, "status": self.printed(job)}

    def shown(self, pipeline):
        one = self.pipelines[pipeline]
        return {"id": pipeline, "jobs": [self.told(job) for job in self.of(pipeline)], "ref": one["ref"], "source": one["source"], "status": self.whole(pipeline)}

    def listed_job(self, job):
        keys = ("exit_code", "failure_reason", "heard_at", "id", "runner", "started_at", "status")
        return {"allow_failure": job.allowed, "attempts": [{key: it[key] for key in keys} for it in job.attempts], "id": job.id, "name": job.name, "needs": job.needs,
                "resource_group": job.group, "stage": job.stage, "status": self.printed(job), "tag_list": job.tags, "when": job.when}

    def listed_groups(self):
        keys = sorted(set(self.modes) | {job.group for job in self.jobs.values() if job.live() and job.group})
        holders = {key: self.holder(key) for key in keys}
        return [{"holder": holders[key] and holders[key].id, "key": key, "process_mode": self.modes.get(key, "unordered")} for key in keys]

    # ---- what users do

    def create(self, order):
        if self.file is None:
            raise Refusal(400, "M13")
        if not isinstance(order.get("ref"), str) or not order["ref"]:
            raise Refusal(400, "H7")
        keys = [it["key"] for it in order.get("variables", [])]
        if len(set(keys)) < len(keys) or not all(re.fullmatch(r"[A-Za-z_][A-Za-z0-9_]*", key) for key in keys):
            raise Refusal(400, "M14", detail="K12")
        stages, jobs = read_file(self.file)
        number = next(self.numbers["pipeline"])
        self.pipelines[number] = {"created_at": stamp(), "id": number, "ref": order["ref"], "source": order.get("source", "api"), "tag": order.get("tag", False)}
        made = {}
        for name, given in sorted(jobs.items(), key=lambda it: stages.index(it[1].get("stage", "test"))):
            job = made[name] = Job(next(self.numbers["job"]), number, name, given)
            before = [it for it in made.values() if stages.index(it.stage) < stages.index(job.stage)]
            job.needs = [made[it].id for it in given["needs"]] if "needs" in given else [it.id for it in before]
            self.jobs[job.id] = job
        return self.shown(number)

    def cancel(self, jobs, answer):
        jobs = [job for job in jobs if self.status(job) in ("created", "pending", "running", "manual")]
        if not jobs:
            raise Refusal(403, "M12")
        for job in jobs:
            job.cancelled = True
            if job.live():
                job.live()["status"] = "canceled"
        self.memo.clear()
        return answer()

    def play(self, job):
        if self.status(job) != "manual":
            raise Refusal(400, "M10")
        job.played = True
        self.memo.clear()
        return self.told(job)

    def retry(self, job):
        if self.status(job) not in ("success", "failed", "canceled"):
            raise Refusal(403, "M11")
        job.aside, job.cancelled = len(job.attempts), False
        self.memo.clear()
        return self.told(job)

    # ---- what runners do

    def grant(self, runner):
        for job in self.jobs.values():
            fits = set(job.tags) <= runner["tags"] if job.tags else runner["untagged"]
            if self.status(job) == "pending" and fits and not self.must_wait(job):
                number = next(self.numbers["attempt"])
                token = f"j{number}-{secrets.token_hex(16)}"
                job.attempts.append({"exit_code": None, "failure_reason": None, "heard_at": stamp(), "id": number, "runner": {"id": runner["id"], "name": runner["name"]},
                                     "started_at": stamp(), "status": "running", "token": token})
                self.traces[number] = b""
                self.memo.clear()
                return {"id": number, "job_info": {"name": job.name, "project_id": 1, "stage": job.stage}, "script": job.script, "timeout": 3600, "token": token, "variables": []}
        return None

    def attempt(self, number, token):
        found = [it for job in self.jobs.values() for it in job.attempts if it["id"] == number and it["token"] == token]
        if not found:
            raise Refusal(403, "M5")
        return found[0]

    def update(self, number, order):
        attempt = self.attempt(number, order["token"])
        if attempt["status"] != "running":
            raise Refusal(403, "M6", job_status=attempt["status"])
        if order["state"] == "running":
            attempt["heard_at"] = stamp()
        else:
            reason = order.get("failure_reason") if order.get("failure_reason") in CAUSES else "unknown_failure"
            self.memo.clear()
            attempt.update(status=order["state"], exit_code=order.get("exit_code"), failure_reason=reason if order["state"] == "failed" else None)
        return attempt["status"]

    def piece(self, number, token, start, data):
        attempt = self.attempt(number, token)
        if attempt["status"] != "running":
            raise Refusal(403, "M6", job_status=attempt["status"])
        if start != len(self.traces[number]):
            raise Refusal(416, "M8", range=len(self.traces[number]))
        self.traces[number] += data
        attempt["heard_at"] = stamp()
        return len(self.traces[number])


# So many seconds its clock stands back.
BACK = 0


def stamp():
    return time.strftime("%Y-%m-%dT%H:%M:%SZ", time.gmtime(time.time() - BACK))


PROJECT = r"/api/v4/projects/(\d+)"


class Handler(BaseHTTPRequestHandler):
    """One request a connection, as the server has it."""

    world = None
    protocol_version = "HTTP/1.1"

    def log_message(self, *words):
        pass

    def reply(self, status, value=None, text=None, **fields):
        body = text if text is not None else b"" if value is None else json.dumps(value, separators=(",", ":")).encode()
        self.send_response_only(status)
        for name, told in fields.items():
            self.send_header(name.replace("_", "-"), told)
        if body:
            self.send_header("Content-Type", "application/json" if text is None else "text/plain")
        if status != 204:
            self.send_header("Content-Length", str(len(body)))
        self.send_header("Connection", "close")
        self.end_headers()
        self.wfile.write(body)

    def project(self, number):
        if self.headers.get("PRIVATE-TOKEN") != self.world.token:
            raise Refusal(401, "M1")
        if number != "1":
            raise Refusal(404, "M2")

    def serve(self):
        self.close_connection = True
        path = self.path.split("?")[0]
        self.body = self.rfile.read(int(self.headers.get("Content-Length") or 0))
        for method, form, handle in ROUTES:
            found = re.fullmatch(form, path)
            if not found or method != self.command:
                continue
            with self.world.lock:
                try:
                    words = list(found.groups())
                    if form.startswith(PROJECT):
                        self.project(words.pop(0))
                    handle(self, self.world, *words)
                except Refusal as refusal:
                    told = {"code": refusal.code} | ({"detail": refusal.fields["detail"]} if "detail" in refusal.fields else {})
                    more = {"Job_Status": refusal.fields["job_status"]} if "job_status" in refusal.fields else {}
                    if "range" in refusal.fields:
                        more["Range"] = f"0-{refusal.fields['range']}"
                    self.reply(refusal.status, told, **more)
            return
        self.reply(404, {"code": "H5"})

    do_GET = do_POST = do_PUT = do_PATCH = do_DELETE = serve

    def json(self):
        return json.loads(self.body or b"{}")

    def found(self, kind, number):
        table = {"job": self.world.jobs, "pipeline": self.world.pipelines}[kind]
        if int(number) not in table:
            raise Refusal(404, "M3")
        return table[int(number)]


def set_file(it, world):
    world.file = it.body.decode()
    it.reply(200, {"jobs": len(read_file(world.file)[1])})


def set_mode(it, world, key):
    mode = it.json().get("process_mode")
    if mode not in ("unordered", "oldest_first", "newest_ready_first"):
        raise Refusal(400, "H7")
    world.modes[key] = mode
    if mode == "unordered":
        del world.modes[key]
    it.reply(200, {"key": key, "process_mode": mode})


def pipelines(it, world):
    newest = sorted(world.pipelines.values(), key=lambda one: -one["id"])[:100]
    it.reply(200, [{**{key: one[key] for key in ("created_at", "id", "ref", "source")}, "status": world.whole(one["id"]), "tag": one["tag"]} for one in newest])


def attempt_of(it, job, number):
    found = [one for one in it.found("job", job).attempts if one["id"] == int(number)]
    if not found:
        raise Refusal(404, "M3")
    return found[0]["id"]


def last_trace(it, world, number):
    attempts = it.found("job", number).attempts
    it.reply(200, text=world.traces[attempts[-1]["id"]] if attempts else b"")


def request_job(it, world):
    runner = world.runners.get(it.json().get("token"))
    if not runner:
        raise Refusal(403, "M4")
    granted = world.grant(runner)
    it.reply(*((201, granted) if granted else (204,)))


def piece(it, world, number):
    start = int(it.headers["Content-Range"].split("-")[0])
    size = world.piece(int(number), it.headers.get("JOB-TOKEN"), start, it.body)
    it.reply(202, Job_Status="running", Range=f"0-{size}")


ROUTES = [
    ("GET", "/-/health", lambda it, world: it.reply(200, {"status": "ok"})),
    ("GET", PROJECT, lambda it, world: it.reply(200, {"id": 1, "name": "hello"})),
    ("PUT", f"{PROJECT}/ci_file", set_file),
    ("POST", f"{PROJECT}/pipeline", lambda it, world: it.reply(201, world.create(it.json()))),
    ("GET", f"{PROJECT}/pipelines", pipelines),
    ("GET", rf"{PROJECT}/pipelines/(\d+)", lambda it, world, n: it.reply(200, world.shown(it.found("pipeline", n)["id"]))),
    ("GET", rf"{PROJECT}/pipelines/(\d+)/jobs", lambda it, world, n: it.reply(200, [world.listed_job(job) for job in world.of(it.found("pipeline", n)["id"])])),
    ("POST", rf"{PROJECT}/pipelines/(\d+)/cancel", lambda it, world, n: it.reply(200, world.cancel(world.of(it.found("pipeline", n)["id"]), lambda: world.shown(int(n))))),
    ("GET", rf"{PROJECT}/jobs/(\d+)", lambda it, world, n: it.reply(200, world.told(it.found("job", n)))),
    ("GET", rf"{PROJECT}/jobs/(\d+)/attempts", lambda it, world, n: it.reply(200, world.listed_job(it.found("job", n))["attempts"])),
    ("GET", rf"{PROJECT}/jobs/(\d+)/attempts/(\d+)/trace", lambda it, world, n, m: it.reply(200, text=world.traces[attempt_of(it, n, m)])),
    ("GET", rf"{PROJECT}/jobs/(\d+)/trace", last_trace),
    ("POST", rf"{PROJECT}/jobs/(\d+)/play", lambda it, world, n: it.reply(200, world.play(it.found("job", n)))),
    ("POST", rf"{PROJECT}/jobs/(\d+)/retry", lambda it, world, n: it.reply(200, world.retry(it.found("job", n)))),
    ("POST", rf"{PROJECT}/jobs/(\d+)/cancel", lambda it, world, n: it.reply(200, world.cancel([it.found("job", n)], lambda: world.told(it.found("job", n))))),
    ("GET", f"{PROJECT}/resource_groups", lambda it, world: it.reply(200, world.listed_groups())),
    ("GET", f"{PROJECT}/resource_groups/([^/]+)", lambda it, world, key: it.reply(200, {"key": key, "process_mode": world.modes.get(key, "unordered")})),
    ("PUT", f"{PROJECT}/resource_groups/([^/]+)", set_mode),
    ("POST", "/api/v4/jobs/request", request_job),
    ("PUT", r"/api/v4/jobs/(\d+)", lambda it, world, n: it.reply(200, Job_Status=world.update(int(n), it.json()))),
    ("PATCH", r"/api/v4/jobs/(\d+)/trace", piece),
]


class Server(ThreadingHTTPServer):
    daemon_threads = True
    allow_reuse_address = True


def served(world, port=0):
    """A server of this world, on a port; it is served by a thread of its own."""
    handler = type("Of", (Handler,), {"world": world})
    server = Server(("127.0.0.1", port), handler)
    threading.Thread(target=server.serve_forever, kwargs={"poll_interval": 0.05}, daemon=True).start()
    return server


def main():
    world = World()
    told = {"project": world.token, "shell": world.add_runner("shell", (), True), "gpu": world.add_runner("gpu", ("gpu",))}
    told["port"] = served(world, int(sys.argv[1]) if len(sys.argv) > 1 else 0).server_address[1]
    print(json.dumps(told), flush=True)
    threading.Event().wait()


if __name__ == "__main__":
    main()
