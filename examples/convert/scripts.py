"""The script of a job."""
from __future__ import annotations

import dataclasses
import functools
import re
import shutil
import subprocess

from .notes import Notes
from .tree import Map, Refused, Text, flat
MOST_PARTS = 256
MAY_GO_ON = re.compile(r"^\s*(if|for|while|until|case|select)\b|\b(then|do|else)\s*$|[{(]\s*$|(\\|&&|\|\||\|)\s*$")

# Round a script and its after_script: each runs in a shell of its own, and the second one also where the first one failed or was asked to end.
BEFORE = """trap : TERM
set +e
(
set -e"""
BETWEEN = """)
job_exit_code=$?
(
set -e
export CI_JOB_STATUS=success
[ $job_exit_code = 0 ] || CI_JOB_STATUS=failed"""
BEHIND = """)
exit $job_exit_code"""


@dataclasses.dataclass
class Script:
    putting: list[str]  # the lines that put variables into values
    lines: list[str]
    after: list[str]

    def parts(self, most: int = MOST_PARTS) -> list[str]:
        """The texts of the script as they are written."""
        lines = [block([BEFORE, *self.lines, BETWEEN, *self.after, BEHIND])] if self.after else self.lines
        lines = ([block(self.putting)] if self.putting else []) + lines
        return lines if len(lines) <= most else [block(lines)]


class Scripts:
    def __init__(self, notes: Notes):
        self.notes = notes

    def script(self, job: Map, putting: list[str]) -> Script:
        lines = whole(self.lines(job.get("before_script")) + self.lines(job.get("script")))
        made = Script(putting, lines, self.lines(job.get("after_script")))
        if made.after:
            cause = "in one block with it: a job that is killed at once doesn't come to it"
            self.notes.add(job.places["after_script"], f"after_script: it stands behind the script now, {cause}")
        if len(made.parts(MOST_PARTS + len(made.lines))) > MOST_PARTS:
            self.notes.add(job.places["script"], f"script: its {len(made.lines)} parts are one block now")
        return made

    def lines(self, value) -> list[str]:
        found = []
        for it in flat(value):
            if not isinstance(it, Text):
                raise Refused(it.place, "a line of a script is a map: put the line in quotes")
            if not it.strip():
                continue
            clean = re.sub(r"\ufeff|\r(?=\n|\Z)", "", it)
            if clean != it:
                self.notes.add(it.place, "script: marks of byte order and carriage returns at line ends are gone")
            blank = re.sub(r"(?m)^ +$", "", clean)
            if blank != clean and "\n" in clean:
                self.notes.add(it.place, "script: lines of spaces alone are empty now")
            found.append(blank)
        return found


def block(lines: list[str]) -> str:
    return "\n".join(it.rstrip("\n") for it in lines) + "\n"


def whole(lines: list[str]) -> list[str]:
    """The lines with commands that go over several of them in one: a runner runs each by itself."""
    made: list[str] = []
    at = 0
    while at < len(lines):
        count = 1
        if MAY_GO_ON.search(lines[at]):
            count = next((it for it in range(1, len(lines) - at + 1) if is_whole(tuple(lines[at : at + it]))), 1)
        made.append(lines[at] if count == 1 else block(lines[at : at + count]))
        at += count
    return made


@functools.cache
def shell() -> str | None:
    return shutil.which("bash") or shutil.which("sh")


@functools.cache
def is_whole(lines: tuple[str, ...]) -> bool:
    """Whether a shell finds no fault in what these lines say; it runs nothing."""
    if not shell():
        return True
    said = subprocess.run([shell(), "-n", "-c", block(list(lines))], stdin=subprocess.DEVNULL, capture_output=True, check=False)
    return said.returncode == 0 and not re.search(r"(&&|\|\||\||\\)\s*$", lines[-1])
