"""A process over one command: it runs it, and ends it with all that it has started.

It is a program of its own, so that no job outlives its runner or its lease, whatever becomes of the runner. Its words are two descriptors:
what the command has on standard input, and what is asked, as JSON: `words`, `folder`, `environment`, `until` (the second of the clock by which
all must be gone), `after` (commands that take away what isn't below this process, as containers), `leave` (what it started stays where it ends
by itself). On standard input it is told `until SECOND` and `end SECONDS`; that this closes means that the runner is gone.
It ends as the command did; by a signal N with 128 + N. The process that does all this has one over itself, which kills what is left where a command
kills its parent, and has that go on where a command stops it.
"""
import ctypes
import json
import os
import select
import signal
import subprocess
import sys
import time

GRACE = 10  # seconds from SIGTERM to SIGKILL
PR_SET_PDEATHSIG, PR_SET_CHILD_SUBREAPER = 1, 36
prctl = ctypes.CDLL(None, use_errno=True).prctl


def now():
    return time.clock_gettime(time.CLOCK_BOOTTIME)


class Supervisor:
    def __init__(self, asked, stdin):
        self.until = asked["until"]
        self.after = asked["after"]
        self.leave = asked["leave"]
        self.killed_at = None  # where it is to end: the second of the SIGKILL
        self.told = b""
        self.woken, waker = os.pipe()
        os.set_blocking(waker, False)
        signal.signal(signal.SIGCHLD, lambda *_: None)
        signal.set_wakeup_fd(waker, warn_on_full_buffer=False)
        self.heard = True
        self.status = None
        self.child = subprocess.Popen(
            asked["words"], cwd=asked["folder"], env=asked["environment"], stdin=stdin, start_new_session=True, preexec_fn=die_with_parent)
        os.close(stdin)

    def supervise(self):
        while not self.has_ended():
            self.listen()
            if self.killed_at is None and now() >= self.until - GRACE:
                self.end(GRACE)
            if self.killed_at is not None and now() >= min(self.killed_at, self.until):
                take_away(self.after)
                kill_all()
        if self.killed_at is not None or not self.leave:
            kill_all()
            take_away(self.after)
        return self.status if self.status >= 0 else 128 - self.status

    def listen(self):
        """Waits a tenth of a second for a word, or until a process has ended."""
        ready = select.select([0, self.woken] if self.heard else [self.woken], [], [], 0.1)[0]
        if self.woken in ready:
            os.read(self.woken, 4096)
        if 0 not in ready:
            return
        data = os.read(0, 4096)
        *lines, self.told = (self.told + data).split(b"\n")
        for line in lines:
            word, value = line.split()
            if word == b"until":
                self.until = float(value)
            else:
                self.end(float(value))
        if not data:
            self.heard = False
            self.end(GRACE)

    def end(self, seconds):
        at = now() + seconds
        if self.killed_at is None and seconds:
            self.signal_group(signal.SIGTERM)
        self.killed_at = at if self.killed_at is None else min(at, self.killed_at)

    def has_ended(self):
        """Takes leave of every process that has ended, those that were left by others too."""
        try:
            while True:
                child, status = os.waitpid(-1, os.WNOHANG)
                if child == 0:
                    break
                if child == self.child.pid:
                    self.status = os.waitstatus_to_exitcode(status)
        except ChildProcessError:
            pass
        return self.status is not None

    def signal_group(self, number):
        try:
            os.killpg(self.child.pid, number)
        except (ProcessLookupError, PermissionError):
            pass


def kill_all():
    """Kills what is below this process, until nothing is: what left the group or lost its parent too."""
    for _ in range(200):
        found = below(os.getpid())
        if not found:
            break
        for process in found:
            try:
                os.kill(process, signal.SIGKILL)
            except (ProcessLookupError, PermissionError):
                pass
        time.sleep(0.01)


def take_away(after):
    for words in after:
        try:
            subprocess.run(words, stdin=subprocess.DEVNULL, stdout=subprocess.DEVNULL, stderr=subprocess.DEVNULL, timeout=30, check=False)
        except (OSError, subprocess.TimeoutExpired):
            pass


def below(process):
    """The processes that descend from this one, but for those that only wait to be taken leave of."""
    parents, ended = {}, set()
    for name in os.listdir("/proc"):
        if name.isdigit():
            try:
                with open(f"/proc/{name}/stat", "rb") as file:
                    state, parent = file.read().rpartition(b")")[2].split()[:2]
            except OSError:
                continue
            parents[int(name)] = int(parent)
            if state in b"ZX":
                ended.add(int(name))
    found = {process}
    while True:
        more = {child for child, parent in parents.items() if parent in found} - found
        if not more:
            return found - {process} - ended
        found |= more


def die_with_parent():
    prctl(PR_SET_PDEATHSIG, signal.SIGKILL)


def supervised(asked, stdin):
    prctl(PR_SET_CHILD_SUBREAPER, 1)
    try:
        supervisor = Supervisor(asked, stdin)
    except OSError as fault:
        print(f"cannot run {asked['words'][0]}: {fault.strerror}", flush=True)
        return 127
    return supervisor.supervise()


def main():
    stdin = int(sys.argv[1])
    with open(int(sys.argv[2]), encoding="utf-8") as file:
        asked = json.load(file)
    prctl(PR_SET_CHILD_SUBREAPER, 1)
    os.umask(0o022)  # nobody else comes into the runner's folder
    for number in (signal.SIGTERM, signal.SIGINT, signal.SIGHUP):
        signal.signal(number, lambda *_: None)  # the runner says when to end; a command has these signals as ever
    process = os.fork()
    if not process:
        return supervised(asked, stdin)
    os.close(stdin)
    while os.WIFSTOPPED(ended := os.waitpid(process, os.WUNTRACED)[1]):
        os.kill(process, signal.SIGCONT)
    status = os.waitstatus_to_exitcode(ended)
    if status < 0:
        kill_all()
        take_away(asked["after"])
        print("\nthe process over the command was killed", flush=True)
        return 128 - status
    return status


if __name__ == "__main__":
    sys.exit(main())
