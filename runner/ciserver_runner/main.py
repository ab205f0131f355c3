"""The runner: asks for jobs, one for each that it has room for, until it is told to end."""
from __future__ import annotations

import fcntl
import json
import os
import signal
import threading
import time

from . import store, where
from .api import Api, Unanswered
from .clock import now
from .config import Config, Fault, from_words
from .job import GRACE, Job, say

LAST_WORDS = 10  # seconds that the words to the server may take once the runner is told to end
SWEEP = 600  # seconds from one look for expired artifacts to the next
REFUSED_PAUSE = 60


class Runner:
    def __init__(self, config: Config):
        self.config = config
        self.api = Api(config.url, config.ca_file)
        self.jobs: dict[int, Job | None] = {place: None for place in range(config.concurrent)}
        self.changed = threading.Condition()
        self.draining = False  # no more jobs are asked for
        self.ended_at: float | None = None
        self.swept = 0.0
        self.ended_jobs = 0

    def is_over(self) -> bool:
        """Whether the time is over that the last words to the server may take."""
        return self.ended_at is not None and now() > self.ended_at + GRACE + LAST_WORDS

    def _begin(self, grant: bytes, asked: float, place: int) -> None:
        try:
            job = Job(self, json.loads(grant), asked, place)
        except (KeyError, TypeError, ValueError) as fault:
            say(f"a grant can't be read: {type(fault).__name__} {fault}")
            return
        with self.changed:
            self.jobs[place] = job
            if self.ended_at is not None:
                job.stop("end")
        try:
            threading.Thread(target=self._serve, args=(job, place), daemon=True).start()
        except RuntimeError:
            self.jobs[place] = None
            raise

    def _serve(self, job: Job, place: int) -> None:
        try:
            job.serve()
        finally:
            with self.changed:
                self.jobs[place] = None
                self.ended_jobs += 1
                self.changed.notify_all()

    # The thread that asks.

    def ask(self) -> None:
        pause = 1.0
        while (place := self._free_place()) is not None:
            try:
                pause = self._asked(place, pause)
                self._sweep()
            except (Unanswered, OSError, RuntimeError) as fault:  # the last one where the machine has no room for a thread
                say(str(fault))
                pause = self._wait(pause)

    def _asked(self, place: int, pause: float) -> float:
        """Asks once, and waits where there is no job. Answers how long to wait the next time."""
        asked = now()
        answer = self.api.request_job(self.config.token)
        if answer.status == 201:
            self._begin(answer.body, asked, place)
            return 1.0
        if answer.status == 204:
            return self._wait(pause)
        say(f"the server refuses: {answer.status} {answer.code}")
        return self._wait(REFUSED_PAUSE)

    def _free_place(self) -> int | None:
        """Waits for room for a job; none where no more are to be asked for."""
        with self.changed:
            while not self.draining:
                for place, job in self.jobs.items():
                    if job is None:
                        return place
                self.changed.wait()
        return None

    def _wait(self, pause: float) -> float:
        """Waits, less long where a job ends meanwhile: others may wait for it. Answers the next pause."""
        with self.changed:
            ended, until = self.ended_jobs, time.monotonic() + pause
            while not self.draining and (left := until - time.monotonic()) > 0:
                self.changed.wait(left)
                if self.ended_jobs > ended:
                    return 1.0
        return min(pause * 1.5, self.config.longest_pause)

    def _sweep(self) -> None:
        if now() > self.swept + SWEEP:
            self.swept = now()
            store.remove_expired(self.config.artifacts_folder)

    # The thread that hears signals.

    def end(self, number: int) -> None:
        """SIGQUIT: no more jobs are taken. SIGTERM, SIGINT: besides, those that run end."""
        with self.changed:
            self.draining = True
            self.changed.notify_all()
            if number != signal.SIGQUIT and self.ended_at is None:
                self.ended_at = now()
                for job in filter(None, self.jobs.values()):
                    job.stop("end")

    def run(self) -> None:
        told: list[int] = []
        for number in (signal.SIGTERM, signal.SIGINT, signal.SIGQUIT):
            signal.signal(number, lambda number, _: told.append(number))
        asking = threading.Thread(target=self.ask, daemon=True)
        asking.start()
        while asking.is_alive() or any(self.jobs.values()):
            if told:
                self.end(told.pop(0))
            # A poll is waited for, since a job may be in its answer; but not without an end.
            if self.ended_at is not None and now() > self.ended_at + GRACE + LAST_WORDS + 10:
                break
            time.sleep(0.1)


def _locked(folder: str):
    """The lock of a runner's folder, which one runner at a time holds."""
    os.makedirs(folder, exist_ok=True)
    file = open(os.path.join(folder, "lock"), "w", encoding="utf-8")
    try:
        fcntl.flock(file, fcntl.LOCK_EX | fcntl.LOCK_NB)
    except BlockingIOError as fault:
        raise Fault(f"another runner uses {folder}") from fault
    return file


def main(words: list[str]) -> int:
    os.umask(0o077)
    try:
        config = from_words(words)
        lock = _locked(config.folder)
    except (Fault, OSError) as fault:
        say(f"ciserver-runner: {fault}")
        return 2
    with lock:
        where.remove_left(config)
        where.remove_folder(config, os.path.join(config.folder, "jobs"))
        say(f"runner {config.number} ({config.name}) asks {config.url} for jobs, {config.concurrent} at once")
        Runner(config).run()
        say("ended")
    return 0
