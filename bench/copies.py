#!/usr/bin/env python3
"""A thousand copies of the file of a server that serves, and what stands in each.

copies.py PROGRAM [COPIES [WAY [PAUSE]]]: PROGRAM is bin/ciserver, COPIES (1000 without it) how many there are, and WAY how they are made: `script`
(without it) by examples/backup.sh, `paused` by it while the server stands still, `file-first` by `cp` of the file and then of its log, `log-first`
the other way round. The files lie in the folder of TMPDIR; in /dev/shm the most happens while one is copied.

While a copy is made, one client sends requests one after the other, with PAUSE milliseconds (0 without it) between them: a variable is set anew, a pipeline made, its job granted, three pieces of a trace, the end of the
attempt. So what stands in the file after so many of them is known. Each copy is opened by the program, where the script hasn't done that, and by the
C library. It is good where both find it sound, and it holds what is known of a number of requests that is no less than were answered before the copy
was begun, and no more than were sent before it was done. Every fifty copies there is a new file.

It ends with a line of counts: good copies, and others by what is wrong with them. With the script it ends with 1 where one isn't good. It wants nothing
but Python's own library, and sends to 127.0.0.1 alone.
"""
import collections
import json
import multiprocessing
import os
import random
import shutil
import sqlite3
import statistics
import subprocess
import sys
import tempfile
import time
from contextlib import closing

from pending import Server

COPIES_OF_A_FILE = 20
WAYS = ["script", "paused", "file-first", "log-first"]
PIECES = [500, 3000, 20]
EVENTS = 4 + len(PIECES)
SCRIPT = os.path.join(os.path.dirname(os.path.abspath(__file__)), "..", "examples", "backup.sh")
RUNNING, SUCCESS, FAILED, PENDING = "running", "success", "failed", "pending"
STATUSES = ["created", PENDING, RUNNING, SUCCESS, FAILED]
STATES = [RUNNING, SUCCESS, FAILED]


def text(attempt, begin, end):
    """Bytes of an attempt's trace, other ones for each attempt."""
    return (b"%07d " % attempt * (end // 8 + 1))[begin:end]


def end_of(attempt):
    return FAILED if attempt % 3 == 0 else SUCCESS


class Client(Server):
    """A server that is asked the same events again and again, and how many of them were sent and answered."""

    def __init__(self, program, folder, pause):
        super().__init__(program, folder)
        self.pause = pause
        self.process.terminate()
        self.process.wait()
        self.asks = json.loads(self.say("runner-add", "--name", "r", "--untagged"))["token"]
        self.start()
        assert self.ask("PUT", "projects/1/ci_file", "job:\n  script: x\n", self.project)[0] == 200
        self.sent, self.answered, self.goes_on = (multiprocessing.Value("q", 0, lock=False) for _ in range(3))

    def done(self, status, *words):
        time.sleep(self.pause)
        while not self.goes_on.value:
            time.sleep(0.002)
        self.sent.value += 1
        found, body, _ = self.ask(*words)
        assert found == status, (found, body, words)
        self.answered.value += 1
        return body

    def cycle(self, number):
        self.done(200, "PUT", "projects/1/variables/KEY", json.dumps({"value": str(number)}), self.project)
        self.done(201, "POST", "projects/1/pipeline", json.dumps({"ref": f"b{number}"}), self.project)
        grant = json.loads(self.done(201, "POST", "jobs/request", json.dumps({"token": self.asks})))
        begin = 0
        for size in PIECES:
            fields = f"JOB-TOKEN: {grant['token']}\r\nContent-Range: {begin}-{begin + size - 1}\r\n"
            self.done(202, "PATCH", f"jobs/{number}/trace", text(number, begin, begin + size).decode(), None, fields)
            begin += size
        self.done(200, "PUT", f"jobs/{number}", json.dumps({"token": grant["token"], "state": end_of(number)}))

    def load(self):
        number = 1
        while True:
            self.cycle(number)
            number += 1


def known(events):
    """What stands in the file after so many events."""
    cycles, part = divmod(events, EVENTS)
    now = cycles + 1
    status = [None, None, PENDING, *[RUNNING] * (EVENTS - 3)][part]
    jobs = {number: end_of(number) for number in range(1, now)} | ({now: status} if status else {})
    attempts = {number: jobs[number] for number in jobs if jobs[number] != PENDING}
    traces = {number: text(number, 0, sum(PIECES)) for number in range(1, now)}
    if part > 3:
        traces[now] = text(now, 0, sum(PIECES[:part - 3]))
    return {"variable": str(cycles + (part > 0)) if events else None, "pipelines": len(jobs), "jobs": jobs, "attempts": attempts, "traces": traces,
            "next": [len(attempts) + 1, len(jobs) + 1, len(jobs) + 1]}


def found(path):
    """What stands in a copy, by the C library; None where it isn't sound."""
    with closing(sqlite3.connect(path)) as connection:
        ask = lambda query: connection.execute(query).fetchall()
        if ask("PRAGMA integrity_check") + ask("PRAGMA foreign_key_check") != [("ok",)]:
            return None
        traces = collections.defaultdict(bytes)
        for attempt, piece in ask("SELECT attempt, bytes FROM piece ORDER BY attempt, seq"):
            traces[attempt] += piece
        return {
            "variable": dict(ask("SELECT key, value FROM variable")).get("KEY"), "pipelines": ask("SELECT count(*) FROM pipeline")[0][0],
            "jobs": {job: STATUSES[status] for job, status in ask("SELECT job.id, status FROM job LEFT JOIN board ON job = id")},
            "attempts": {attempt: STATES[state] for attempt, state in ask("SELECT id, state FROM attempt")}, "traces": dict(traces),
            "next": [row[0] for row in ask("SELECT num FROM meta WHERE key IN ('next_attempt', 'next_job', 'next_pipeline') ORDER BY key")],
        }


def events_of(rows):
    """After how many events these rows stand in the file; None where they never do."""
    ended = sum(state != RUNNING for state in rows["attempts"].values())
    begun = ended + 1
    part = int(rows["variable"] or 0) - ended
    if part:
        size = len(rows["traces"].get(begun, b""))
        part += (begun in rows["jobs"]) + (begun in rows["attempts"]) + sum(sum(PIECES[:place + 1]) <= size for place in range(len(PIECES)))
    events = ended * EVENTS + part
    return events if known(events) == rows else None


class Copies:
    def __init__(self, program, way, pause):
        self.program, self.way, self.pause = program, way, pause
        self.counts, self.tries, self.took, self.busy, self.requests = collections.Counter(), [], [], 0, 0

    def make(self, client, copy):
        """Makes a copy: was it refused, and by what?"""
        if self.way in ("script", "paused"):
            server = [str(client.process.pid)] if self.way == "paused" else []
            done = subprocess.run([SCRIPT, client.db, copy, *server], env=dict(os.environ, CISERVER=self.program), capture_output=True, text=True, check=False)
            if done.returncode == 0:
                self.tries.append(int(done.stdout.split()[1]))
            return f"refused: {done.returncode} {done.stderr}" if done.returncode else None
        for end in ["", "-wal"] if self.way == "file-first" else ["-wal", ""]:
            subprocess.run(["cp", client.db + end, copy + end], check=True)
        return None

    def told(self, client, copy):
        """What a copy is. The client sends requests while it is made."""
        woken = time.perf_counter()
        client.goes_on.value = True
        time.sleep(random.uniform(0, 0.1))
        before, begin = client.answered.value, time.perf_counter()
        refused = self.make(client, copy)
        self.took.append(time.perf_counter() - begin)
        after = client.sent.value
        client.goes_on.value = False
        self.busy += time.perf_counter() - woken
        if refused:
            return refused
        done = subprocess.run([self.program, "migrate", "--db", copy], capture_output=True, text=True, check=False)
        if done.stdout != "version: 2\n":
            return "refused by the program"
        rows = found(copy)
        if rows is None:
            return "not sound"
        events = events_of(rows)
        if events is None:
            return "of no moment"
        return "lacking what was answered" if events < before else "with what was never asked" if events > after else "good"

    def run(self, copies):
        for done in range(0, copies, COPIES_OF_A_FILE):
            with tempfile.TemporaryDirectory() as folder:
                client = Client(self.program, folder, self.pause)
                load = multiprocessing.Process(target=client.load, daemon=True)
                load.start()
                try:
                    for _ in range(min(COPIES_OF_A_FILE, copies - done)):
                        room = tempfile.mkdtemp(dir=folder)
                        self.counts[self.told(client, os.path.join(room, "copy.db"))] += 1
                        shutil.rmtree(room)
                        if not load.is_alive():
                            sys.exit("the client ended")
                finally:
                    load.kill()
                    client.process.kill()
                self.requests += client.answered.value
            print(f"so far {dict(self.counts)}", file=sys.stderr, flush=True)


def main():
    words = sys.argv[1:]
    if not 1 <= len(words) <= 4 or (words[2:] or WAYS)[0] not in WAYS:
        sys.exit(__doc__)
    count, way, pause = [*words[1:], *["1000", "script", "0"][len(words) - 1:]]
    copies = Copies(os.path.abspath(words[0]), way, float(pause) / 1000)
    copies.run(int(count))
    print(f"{sum(copies.counts.values())} copies beside {copies.requests / copies.busy:.0f} requests a second: " +
          ", ".join(f"{count} {what}" for what, count in copies.counts.most_common()))
    print(f"a copy took {statistics.median(copies.took) * 1e3:.0f} ms in the median, {max(copies.took) * 1e3:.0f} at most" +
          (f"; tries {dict(sorted(collections.Counter(copies.tries).items()))}" if copies.tries else ""))
    sys.exit(copies.way in WAYS[:2] and set(copies.counts) != {"good"})


if __name__ == "__main__":
    main()
