"""What is said of a file: what was dropped or changed, each with its place."""
from __future__ import annotations

from .tree import Place


def shown(line: str) -> str:
    """A line for a terminal: what it may take for a command is replaced."""
    return "".join(it if it.isprintable() else "\ufffd" for it in line)


class Notes:
    """What is to be said on standard error, each with the jobs that it is about."""

    def __init__(self) -> None:
        self.job: str | None = None  # the job that is looked at
        self.said: dict[tuple[Place, str], dict[str, None]] = {}

    def add(self, place: Place, what: str) -> None:
        jobs = self.said.setdefault((place, what), {})
        if self.job is not None:
            jobs[self.job] = None

    def lines(self) -> list[str]:
        return [f"{file}:{line}: {named(list(self.said[(file, line), what]))}{what}" for (file, line), what in sorted(self.said)]


def named(jobs: list[str]) -> str:
    """The words for these jobs that a line begins with."""
    if not jobs:
        return ""
    more = f" and {len(jobs) - 3} more" if len(jobs) > 3 else ""
    return f"job{'s' if len(jobs) > 1 else ''} {', '.join(f'`{it}`' for it in jobs[:3])}{more}: "
