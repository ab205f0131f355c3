"""Names the predefined variables of GitLab that a file uses and that nothing defines here."""
from __future__ import annotations

import re

from .keywords import PREDEFINED, SET_BY_RUNNER
from .notes import Notes
from .tree import Map, Place, Text, flat


def tell_unknown(config: Map, made: dict, sources: dict[str, Map], names: dict[str, list[str]], notes: Notes) -> None:
    """Each is told at its first place, with all jobs that use it."""
    told: dict[str, tuple[Place, str]] = {}

    def tell(key: str, value, known: set[str]) -> None:
        for it in texts(value):
            for used in re.findall(r"\$\{?(CI_[A-Z0-9_]+|GITLAB_[A-Z0-9_]+)", it):
                if used not in known:
                    said = unknown(used, key)
                    notes.add(*told.setdefault(said, (it.place, said)))

    common = PREDEFINED | made.get("variables", {}).keys()
    notes.job = None
    tell("variables", config.get("variables"), common)
    tell("rules", config.get("workflow"), common)
    for name, job in sources.items():
        notes.job = name
        mine = made[names[name][0]]
        own = {key for it in (mine, *mine.get("rules", [])) for key in it.get("variables", {})}
        for key in ("variables", "rules", "only", "except", "before_script", "script", "after_script",
                    "image", "services", "cache", "artifacts"):
            given = {"CI_JOB_STATUS"} if key == "after_script" else set()
            tell(key, job.get(key), given | common | own)


def texts(value) -> list[Text]:
    if isinstance(value, Map):
        return [it for part in value.values() for it in texts(part)]
    found = flat(value)
    return [it for part in found for it in ([part] if isinstance(part, Text) else texts(part))]


def unknown(name: str, key: str) -> str:
    if name == "CI_DEFAULT_BRANCH":
        found = "nothing defines `$CI_DEFAULT_BRANCH` here: no branch is equal to it, and a tag's missing `$CI_COMMIT_BRANCH` is"
        return found + "; set the variable of the project, or give --default-branch"
    if key in ("rules", "only", "except"):
        return f"nothing defines `${name}` here: in rules it is null"
    return f"`${name}` is set by ciserver-runner, and not by examples/runner.sh" if name in SET_BY_RUNNER else f"nothing defines `${name}` here"
