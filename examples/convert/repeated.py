"""What stands in several scripts, written once: in a variable of the top level that the jobs `eval`."""
from __future__ import annotations

import dataclasses

from .scripts import Script, block

MOST_VARIABLES = 100
BEGIN, END = object(), object()


class Repeated:
    def __init__(self, scripts: list[Script], taken: set[str], room: int):
        """At most so many variables are made, with other names than those that are taken."""
        self.lists = [part for it in scripts for part in (it.putting, it.lines, it.after)]
        self.variables: dict[str, str] = {}
        runs = sorted(self.runs(), key=lambda it: it[1], reverse=True)[:room]
        names = (name for i in range(1, 10_000) if (name := f"SCRIPT_{i}") not in taken)
        self.heads: dict[str, tuple[int, str]] = {}  # the line that a run begins with: how many it has, and its variable
        for run, _ in runs:
            name = next(names)
            self.variables[name] = block(run)
            self.heads[run[0]] = len(run), name

    def runs(self) -> list[tuple[list[str], int]]:
        """The lines that stand together wherever one of them stands, as long as they go, each with the bytes that it saves."""
        before: dict[str, set] = {}
        behind: dict[str, set] = {}
        count: dict[str, int] = {}
        for lines in self.lists:
            for left, it, right in zip([BEGIN, *lines], lines, [*lines[1:], END]):
                before.setdefault(it, set()).add(left)
                behind.setdefault(it, set()).add(right)
                count[it] = count.get(it, 0) + 1
        after = {it: right for it, (right, *more) in behind.items() if not more and right is not END and len(before[right]) == 1}
        followed = set(after.values())
        found = []
        for it in count:
            if it not in followed and count[it] > 1:
                run = [it]
                while run[-1] in after:
                    run.append(after[run[-1]])
                found.append((run, saved(run, count[it])))
        return [it for it in found if it[1] > 0]

    def without(self, script: Script) -> Script:
        """The script with each run replaced by its variable."""
        return dataclasses.replace(script, putting=self.shorter(script.putting), lines=self.shorter(script.lines), after=self.shorter(script.after))

    def shorter(self, lines: list[str]) -> list[str]:
        made, at = [], 0
        while at < len(lines):
            count, name = self.heads.get(lines[at], (1, ""))
            made.append(f'eval "${name}"' if name else lines[at])
            at += count
        return made


def saved(run: list[str], count: int) -> int:
    """The bytes that a run which stands so often takes less, once it is in a variable; each of its lines has some for its indent and dash."""
    size = sum(len(it.encode()) + 8 * (it.count("\n") + 1) for it in run)
    return count * size - (size + 40 + count * len('      - eval "$SCRIPT_10"\n'))
