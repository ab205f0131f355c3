#!/usr/bin/env python3
"""A take-over on one machine: a server whose file system is cut off in the middle of its work, and another one that opens what the volume held by then.

takeover.py PROGRAM [TIMES]: PROGRAM is bin/ciserver, TIMES how often (5). The file and its log are on an ext4 of their own, over a loop device in the folder of TMPDIR. While four clients
take jobs through, the file system is shut down without a word (EXT4_IOC_SHUTDOWN), as a fence does: from then on nothing more reaches the volume, and the server, which still runs, answers M17.
A copy of the volume, the other machine's, is mounted, and a second server serves it at the same port; the first one is killed. The clients send again what wasn't answered. Then the file is
looked into: every trace and final state that was answered stands, and what else has begun is a grant whose reply was lost, one for each client at most. It wants Linux, root, mkfs.ext4 and
Python's own library. It says how long nothing was answered; nothing is replicated in it, and a fence that leaks isn't tried.
"""
import fcntl
import json
import os
import random
import shutil
import sqlite3
import struct
import subprocess
import sys
import tempfile
import threading
import time

from jobs import CLIENTS, ask, fill, free_port, made, serve

SHUTDOWN, WITHOUT_LOG = 0x8004587D, 2  # _IOR('X', 125, __u32), EXT4_GOING_FLAGS_NOLOGFLUSH
SUCCESS = 1
STILL_RUNS = 0.1  # seconds for which the old server runs and answers behind the cut


class Volume:
    """An image with a file system, mounted."""

    def __init__(self, image, at):
        os.makedirs(at, exist_ok=True)
        subprocess.run(["mount", "-o", "loop", image, at], check=True)
        self.at = at

    def cut_off(self):
        folder = os.open(self.at, os.O_RDONLY)
        fcntl.ioctl(folder, SHUTDOWN, struct.pack("I", WITHOUT_LOG))
        os.close(folder)

    def unmount(self):
        subprocess.run(["umount", self.at], check=True)


class Clients:
    """Clients that take jobs through, and keep what they were answered."""

    def __init__(self, port, runner):
        self.port, self.runner = port, runner
        self.lock = threading.Lock()
        self.traces, self.ended, self.answers, self.unsure = {}, set(), [], 0
        self.refused = 0  # answers of M17
        self.over = False
        self.threads = [threading.Thread(target=self.work) for _ in range(CLIENTS)]
        for thread in self.threads:
            thread.start()

    def say(self, *words):
        """Sends a request until it is answered, and not by M17; answers what came, and whether it had to be sent again."""
        again = False
        while True:
            try:
                status, body = ask(self.port, *words)
            except (OSError, IndexError, ValueError):
                status = 0
            if status not in (0, 503):
                self.answers.append(time.monotonic())
                return status, body, again
            self.refused += status == 503
            again = True
            time.sleep(0.01)

    def work(self):
        while not self.over:
            status, body, again = self.say("POST", "jobs/request", json.dumps({"token": self.runner}).encode())
            with self.lock:
                self.unsure += again
            if status != 201:
                return
            grant = json.loads(body)
            number, token, trace = grant["id"], grant["token"], os.urandom(random.randrange(1, 5000))
            status, _, again = self.say("PATCH", f"jobs/{number}/trace", trace, f"JOB-TOKEN: {token}", f"Content-Range: 0-{len(trace) - 1}")
            # Sent again it may have been taken before: the trace ends behind it then.
            assert status == 202 or again and status == 416, status
            with self.lock:
                self.traces[number] = trace
            status, _, _ = self.say("PUT", f"jobs/{number}", json.dumps({"token": token, "state": "success"}).encode())
            assert status == 200, status
            with self.lock:
                self.ended.add(number)

    def join(self):
        for thread in self.threads:
            thread.join()


def look(db, clients):
    """How many attempts the file has, and how many of them nobody was answered; each trace and each end that was answered must stand."""
    file = sqlite3.connect(db)
    assert file.execute("PRAGMA integrity_check").fetchone() == ("ok",)
    states = dict(file.execute("SELECT id, state FROM attempt"))
    for number, trace in clients.traces.items():
        held = b"".join(piece for (piece,) in file.execute("SELECT bytes FROM piece WHERE attempt = ? ORDER BY seq", (number,)))
        assert held == trace, number
    for number in clients.ended:
        assert states[number] == SUCCESS, number
    jobs = [job for (job,) in file.execute("SELECT job FROM attempt WHERE state = 0")]
    assert len(jobs) == len(set(jobs)), "two live leases of a job"
    unheard = set(states) - set(clients.traces)
    assert len(unheard) <= clients.unsure, unheard
    file.close()
    return len(states), len(unheard)


class Place:
    """A server over the file of a volume."""

    def __init__(self, program, volume, port):
        self.volume, self.db = volume, os.path.join(volume.at, "ci.db")
        self.tokens = None if os.path.exists(self.db) else made(program, self.db)
        self.server = serve(program, self.db, port)

    def stop(self):
        self.server.kill()
        self.server.wait()


def taken_over(program, first, image, other, port):
    """Cuts the volume off from its server, and has another server open what it held by then; answers that, its volume, and when the cut was."""
    first.volume.cut_off()
    cut = time.monotonic()
    time.sleep(STILL_RUNS)
    shutil.copyfile(image, other)
    first.stop()
    return Place(program, Volume(other, first.volume.at + "-other"), port), cut


def one(program, folder, number):
    image, other, port = os.path.join(folder, "image"), os.path.join(folder, "other"), free_port()
    with open(image, "wb") as file:
        file.truncate(256 << 20)
    subprocess.run(["mkfs.ext4", "-q", image], check=True)
    first = Place(program, Volume(image, os.path.join(folder, str(number))), port)
    project, runner = first.tokens
    fill(port, project, 10)
    clients = Clients(port, runner)
    time.sleep(random.uniform(0.2, 1.5))
    second, cut = taken_over(program, first, image, other, port)
    clients.join()
    second.stop()
    attempts, unheard = look(second.db, clients)
    before, after = ([moment for moment in clients.answers if (moment > cut + STILL_RUNS) == late] for late in (False, True))
    assert clients.refused and before and after, "the cut was seen by nobody"
    first.volume.unmount()
    second.volume.unmount()
    print(f"{attempts} attempts, {len(clients.ended)} ends that were answered stand, {unheard} grants whose reply was lost; {clients.refused} answers of M17, {len(after)} answers after "
          f"the take-over; nothing was answered for {min(after) - max(before):.2f} s", flush=True)


def main():
    program, times = os.path.abspath(sys.argv[1]), int(sys.argv[2]) if len(sys.argv) > 2 else 5
    folder = tempfile.mkdtemp()
    try:
        for number in range(times):
            one(program, folder, number)
    finally:
        for name in os.listdir(folder):
            if os.path.ismount(os.path.join(folder, name)):
                subprocess.run(["umount", "--lazy", os.path.join(folder, name)], check=False)
        shutil.rmtree(folder, ignore_errors=True)


if __name__ == "__main__":
    main()
