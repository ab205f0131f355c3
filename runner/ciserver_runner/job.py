"""One attempt: its job is run by one thread, and another one speaks with the server, which has to hear of it while it runs."""
from __future__ import annotations

import os
import re
import threading
import time
from typing import TYPE_CHECKING, Callable

from . import git, store, where
from .api import Answer, Unanswered
from .clock import now
from .command import Command
from .refused import Refused, Stopped
from .script import expanded
from .trace import LEAST_MASKED, PIECE, Mask, Trace, values_to_mask

if TYPE_CHECKING:
    from .main import Runner

HELD = 117  # seconds that a lease is surely held after it was last renewed: the server has 120, and counts in whole seconds
GRACE = 10  # seconds from SIGTERM to SIGKILL
EARLY = 2  # a job is gone so many seconds before its time limit, so that the server still takes why it ended
HEARTBEAT = 10
CALL = 30  # seconds that a call of the server may take

# Why a job ends before its script has: what its trace tells, and the cause that the server is told. Without one nothing is said any more.
TOLD = {
    "timeout": ("its time limit", "job_execution_timeout"),
    "end": ("the runner was told to end", "runner_system_failure"),
    "lease": ("the server wasn't heard for two minutes", "stuck_or_timeout_failure"),
    "canceled": ("it was cancelled", None),
    "lost": ("the server took nothing more of it", None),
}


def say(text: str) -> None:
    """Says it on standard error. Where that can't be, as on a full disk, the runner goes on."""
    try:
        os.write(2, f"{text}\n".encode(errors="backslashreplace"))
    except OSError:
        pass


class Job:
    def __init__(self, runner: Runner, grant: dict, asked: float, place: int):
        self.runner, self.config, self.api = runner, runner.config, runner.api
        self.attempt, self.token = int(grant["id"]), str(grant["token"])
        info = grant["job_info"]
        self.name, self.stage, self.project = str(info["name"]), str(info["stage"]), int(info["project_id"])
        self.script = [str(line) for line in grant["script"]]
        self.granted = {str(it["key"]): str(it["value"]) for it in grant["variables"]}
        self.room = os.path.join(self.config.folder, "jobs", str(self.attempt))
        self.folder = os.path.join(self.room, "project")
        self.variables: dict[str, str] = {}
        self.learn(self._known(place))
        self.masked = [*self.config.masked, *re.findall(r"\w+", self.granted.get("CI_MASKED", ""), re.ASCII)]
        self.trace = Trace(Mask(self._masked()))
        self.lease, self.limit = asked + HELD, asked + int(grant["timeout"]) - EARLY
        self.heard = asked
        self.sent, self.full = 0, False
        self.reason = ""  # why it is to end, as in TOLD
        self.lock = threading.Lock()
        self.command: Command | None = None
        self.stopping = threading.Event()
        self.worked = threading.Event()  # nothing of the job runs any more
        self.over = False  # the server takes nothing more of the attempt
        self.has_kept = False  # it has artifacts, or tells that it has none
        self.result: tuple[str, str, int] | None = None  # of a script that ended by itself: state, cause, exit code

    def _known(self, place: int) -> dict[str, str]:
        config, ref = self.config, self.granted.get("CI_COMMIT_REF_NAME", "")
        return {
            "CI_PROJECT_DIR": self.folder, "CI_BUILDS_DIR": os.path.dirname(self.room), "CI_CONCURRENT_ID": str(place),
            "CI_SERVER_URL": config.url, "CI_API_V4_URL": config.url + "/api/v4", "CI_SERVER_HOST": self.api.host,
            "CI_RUNNER_ID": config.number, "CI_RUNNER_DESCRIPTION": config.name,
            "CI_JOB_STARTED_AT": time.strftime("%Y-%m-%dT%H:%M:%SZ", time.gmtime()),
            "CI_COMMIT_REF_SLUG": re.sub(r"[^a-z0-9]", "-", ref.lower())[:63].strip("-"),
        }

    def learn(self, values: dict[str, str]) -> None:
        """Values that the runner knows; those of the grant go before them."""
        self.variables = self.variables | values | self.granted

    def expanded(self, name: str) -> str:
        return expanded(self.variables.get(name, ""), self.variables)

    def _masked(self) -> list[bytes]:
        values = [self.granted[name] for name in self.masked if name in self.granted]
        values += [project.password for project in self.config.projects.values()]
        return values_to_mask([*values, self.token, self.config.token])

    # What the thread of the job does.

    def work(self) -> None:
        try:
            self.result = self._worked()
        except Stopped:
            pass
        except (Refused, OSError) as fault:
            self.trace.line(f"the runner failed: {fault}")
        except Exception as fault:  # the job fails, and the runner goes on
            self.trace.line(f"the runner failed by a fault of its own: {type(fault).__name__}")
            say(f"attempt {self.attempt}: {type(fault).__name__}: {fault}")
        self.worked.set()

    def _worked(self) -> tuple[str, str, int]:
        config = self.config
        self.trace.line(f"runner {config.number} ({config.name}), attempt {self.attempt}: {self.name}")
        for name in self.masked:
            if name in self.granted and not values_to_mask([self.granted[name]]):
                self.trace.line(f"{name} isn't masked: it has under {LEAST_MASKED} bytes")
        if self.project not in config.projects:
            raise Refused(f"its configuration has no repository for project {self.project}")
        store.remove_tree(self.room)
        os.makedirs(self.folder)
        os.chmod(self.folder, 0o755)
        git.lay(self, config.projects[self.project])
        store.lay_caches(self)
        store.lay_artifacts(self)
        code = where.run_script(self)
        self.trace.line(f"ended: exit code {code}")
        store.keep_artifacts(self, code == 0)
        if code == 0:
            store.keep_caches(self)
        self.check()
        return ("success", "", code) if code == 0 else ("failed", "script_failure", code)

    def run(self, words: list[str], environment: dict[str, str], sink: Callable[[bytes], None] | None = None, stdin: bytes = b"",
            folder: str = "/", after: list[list[str]] | None = None, leave: bool = False) -> int:
        """Runs a command for the job, and answers its exit code."""
        with self.lock:
            self.check()
            self.command = Command(words, folder, environment, self._until(), stdin, after, leave)
        try:
            code = self.command.run(sink or self.trace.write)
        finally:
            with self.lock:
                self.command = None
        self.watch()
        self.check()
        if code < 0:
            raise Refused(f"the process over {words[0]} was killed")
        return code

    def check(self) -> None:
        if self.reason:
            raise Stopped

    def pause(self, seconds: float) -> None:
        self.stopping.wait(seconds)
        self.check()

    # What the thread that speaks with the server does.

    def serve(self) -> None:
        """Has the job run, and tells the server of it until it has ended there."""
        if now() - self.heard >= HEARTBEAT:  # the grant came late: its lease is asked for before anything runs
            self._say_running()
        try:
            threading.Thread(target=self.work, daemon=True).start()
        except RuntimeError as fault:  # the machine has no room for it
            self.trace.line(f"the runner failed: {fault}")
            self.worked.set()
        try:
            while not self.worked.wait(0 if self._speak() else 0.3):
                self.watch()
            self._finish()
        finally:
            self.stop("lost")  # it runs still only where this thread failed
            self.worked.wait()
            where.remove_folder(self.config, self.room)
            if os.path.lexists(self.room):
                say(f"{self.room} can't be removed, and stays")

    def stop(self, reason: str) -> None:
        """Has the job end: at once where the server says that it is no longer its runner's."""
        with self.lock:
            if not self.reason:
                self.reason = reason
                self.stopping.set()
                if self.command:
                    self.command.end(GRACE)
            if reason == "lost" and self.command:
                self.command.end(0)

    def watch(self) -> None:
        """Ends a job whose time is nearly over, so that it is gone then."""
        if now() >= self.limit - GRACE:
            self.stop("timeout")
        elif now() >= self.lease - GRACE:
            self.stop("lease")

    def _until(self) -> float:
        return min(self.lease, self.limit)

    def _speak(self) -> bool:
        """Sends what the trace has more, or else says from time to time that the job runs. Answers whether there is much more to send."""
        piece = b"" if self.full or self.over else self.trace.piece(self.sent)
        try:
            if piece and (len(piece) == PIECE or now() - self.heard >= 1):
                self._send(piece)
                return len(piece) == PIECE
        except Unanswered as fault:
            self._say_unanswered(fault)
            return False
        if not self.over and now() - self.heard >= HEARTBEAT:
            self._say_running()
        return False

    def _say_running(self) -> None:
        try:
            self._call(lambda seconds: self.api.put_state(self.attempt, self.token, {"state": "running"}, seconds))
        except Unanswered as fault:
            self._say_unanswered(fault)

    def _say_unanswered(self, fault: Unanswered) -> None:
        say(f"attempt {self.attempt}: {fault}")
        time.sleep(0.5)

    def _send(self, piece: bytes) -> None:
        answer = self._call(lambda seconds: self.api.send_piece(self.attempt, self.token, self.sent, piece, seconds))
        if answer.status == 202:
            self.sent += len(piece)
        elif answer.status == 416:
            self.sent = answer.size  # this piece came before, and its reply was lost
        elif answer.status == 413:
            self.full = True

    def _call(self, call: Callable[[float], Answer]) -> Answer:
        """Calls the server about the attempt, and does what the answer says of its lease."""
        begun = now()
        answer = call(max(1, min(CALL, self.lease - begun)) if begun < self.lease else CALL)
        if answer.status in (200, 202) and answer.job_status != "canceled":
            if self.command:
                self.watch()  # what was to end by the lease as it was ends, though it is renewed
            with self.lock:
                self.heard, self.lease = begun, begun + HELD
                if self.command:
                    self.command.extend(self._until())
        elif answer.status not in (413, 416):
            self.over = True
            self.stop("canceled" if answer.job_status == "canceled" else "lost")
        return answer

    def _finish(self) -> None:
        """Tells how the job ended: the server, as far as that takes it, and who reads what the runner says."""
        state, cause, code = self.result or ("failed", "runner_system_failure", None)
        told = cause or state
        if self.reason and not self.result:
            told, cause = TOLD[self.reason]
            self.trace.line(f"ended: {told}")
        self.trace.close()
        answer = self._tell({"state": state, "failure_reason": cause} | ({} if code is None else {"exit_code": code}))
        if self.has_kept and not (self.result and answer and answer.status == 200):
            store.drop_artifacts(self)
        untold = ", but the server took nothing more of it" if self.over else ", and the server wasn't told"
        if (answer and answer.status == 200) or told in (TOLD["canceled"][0], TOLD["lost"][0]):
            untold = ""
        say(f"attempt {self.attempt} of {self.name}, project {self.project}: {told}{untold}")

    def _tell(self, said: dict) -> Answer | None:
        """Sends the rest of the trace and a final state, again until the server answers."""
        while not self.over:
            try:
                while not self.full and not self.over and (piece := self.trace.piece(self.sent)):
                    self._send(piece)
                if not self.over:
                    return self._call(lambda seconds: self.api.put_state(self.attempt, self.token, said, seconds))
            except Unanswered as fault:
                say(f"attempt {self.attempt}: {fault}")
                if self.runner.is_over():
                    break
                time.sleep(1)
        return None
