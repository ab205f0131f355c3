"""Variables that tell the runner of a job's image, services, artifacts and cache, and of the jobs whose artifacts it gets."""
from __future__ import annotations

import re

from .durations import seconds_of
from .notes import Notes
from .tree import Map, Place, Refused, Text, boolean, flat, text, words_of

KEYS = (
    "CI_JOB_IMAGE", "CI_JOB_SERVICES", "CI_JOB_CACHE", "CI_JOB_ARTIFACTS", "CI_JOB_ARTIFACTS_EXCLUDE", "CI_JOB_ARTIFACTS_WHEN",
    "CI_JOB_ARTIFACTS_EXPIRE", "CI_JOB_ARTIFACTS_NAME", "CI_JOB_DEPENDENCIES",
)
POLICIES = ("pull-push", "pull", "push")
MOST_DEPENDENCIES = 300  # bytes; where a job has no `needs`, the runner lays out the artifacts of earlier stages by itself


class ForRunner:
    def __init__(self, notes: Notes):
        self.notes = notes
        self.first: dict[str, Place] = {}

    def variables(self, job: Map) -> dict[str, Text]:
        made: dict[str, str] = {}
        for key, read in (("image", self.image), ("services", self.services), ("cache", self.cache), ("artifacts", self.artifacts)):
            said = read(job[key]) if key in job else {}
            if any(said.values()):
                what = f"{key}: ciserver-runner does as it says, examples/runner.sh doesn't"
                self.notes.add(self.first.setdefault(key, job.places[key]), what)
            made |= said
        return {key: text(it, job.place, raw=True) for key, it in made.items() if it}

    def drop(self, keyword: str, given: Map, *kept: str) -> None:
        for key in given.without(*kept):
            self.notes.add(given.places[key], f"{keyword}: `{key}` is dropped")

    def image(self, given) -> dict[str, str]:
        if isinstance(given, Map):
            self.drop("image", given, "name")
            given = given.get("name")
        return {"CI_JOB_IMAGE": " ".join(words_of(given, "image"))}

    def services(self, given) -> dict[str, str]:
        lines = []
        for it in flat(given):
            alias = ""
            if isinstance(it, Map):
                self.drop("services", it, "name", "alias")
                alias, it = it.get("alias", ""), it.get("name", "")
            if not isinstance(it, Text) or not isinstance(alias, str):
                raise Refused(getattr(given, "place", ("", 0)), "services: a service is neither a name nor a map with one")
            alias, *others = re.split(r"[\s,]+", alias.strip(" ,"))
            if others:
                self.notes.add(it.place, f"services: of several aliases `{alias}` alone is kept")
            lines.append(f"{it} {alias}".strip())
        return {"CI_JOB_SERVICES": "\n".join(lines)}

    def cache(self, given) -> dict[str, str]:
        lines = []
        for it in flat(given):
            if not isinstance(it, Map):
                raise Refused(it.place, "cache: it is no map")
            self.drop("cache", it, "key", "paths", "policy")
            paths = words_of(it.get("paths"), "cache")
            if paths:
                lines.append("\t".join([self.key(it.get("key")), self.policy(it), *paths]))
            elif it:
                self.notes.add(it.place, "cache: dropped: it has no paths")
        return {"CI_JOB_CACHE": "\n".join(lines)}

    def key(self, given) -> str:
        if not isinstance(given, Map):
            return " ".join(" ".join(words_of(given, "cache")).split()) or "default"
        made = "-".join(words_of(given.get("prefix"), "cache") + words_of(given.get("files"), "cache")) or "default"
        self.notes.add(given.place, f"cache: the key is `{made}` now, whatever the files hold")
        return made

    def policy(self, given: Map) -> str:
        policy = given.get("policy", POLICIES[0])
        if policy in POLICIES or "$" in policy:
            return policy
        self.notes.add(given.places["policy"], f"cache: `policy: {policy}` is dropped")
        return POLICIES[0]

    def artifacts(self, given) -> dict[str, str]:
        if not isinstance(given, Map):
            raise Refused(given.place, "artifacts: it is no map")
        self.drop("artifacts", given, "paths", "exclude", "when", "expire_in", "name", "reports")
        reports = given.get("reports")
        for key in reports if isinstance(reports, Map) else ():
            cause = "the dotenv report is dropped: no other job gets the variables in it"
            self.notes.add(reports.places[key], f"artifacts: {cause if key == 'dotenv' else f'the report `{key}` is dropped: nothing reads it'}")
        made = {
            "CI_JOB_ARTIFACTS": "\n".join(words_of(given.get("paths"), "artifacts")),
            "CI_JOB_ARTIFACTS_EXCLUDE": "\n".join(words_of(given.get("exclude"), "artifacts")),
            "CI_JOB_ARTIFACTS_WHEN": self.artifacts_when(given),
            "CI_JOB_ARTIFACTS_EXPIRE": self.expiry(given),
            "CI_JOB_ARTIFACTS_NAME": " ".join(words_of(given.get("name"), "artifacts")),
        }
        return made if made["CI_JOB_ARTIFACTS"] else {}

    def artifacts_when(self, given: Map) -> str:
        when = given.get("when", "on_success")
        if when in ("on_success", "on_failure", "always"):
            return "" if when == "on_success" else when
        self.notes.add(given.places["when"], f"artifacts: `when: {when}` is dropped")
        return ""

    def expiry(self, given: Map) -> str:
        time = given.get("expire_in", "")
        seconds = seconds_of(time) if isinstance(time, str) else None
        if time == "never":
            self.notes.add(given.places["expire_in"], "artifacts: `expire_in: never` is dropped: the runner says how long they are kept")
        elif time and seconds is None:
            self.notes.add(given.places["expire_in"], f"artifacts: `{time}` is dropped: it is no time")
        return str(seconds) if seconds is not None else ""


def stages_of(made: dict) -> list[str]:
    listed = made.get("stages", ["build", "test", "deploy"])
    return [".pre", *[it for it in listed if it not in (".pre", ".post")], ".post"]


def put_dependencies(notes: Notes, made: dict, names: dict[str, list[str]], sources: dict[str, Map]) -> None:
    """Names to each job those that have artifacts which it gets; nothing, where no job has any."""
    giving = [name for name, job in made.items() if "CI_JOB_ARTIFACTS" in (job.get("variables", {}) if isinstance(job, dict) else {})]
    stages = stages_of(made)
    for source, job in sources.items():
        notes.job = source
        for name in names[source] if giving else ():
            found = wanted_by(notes, made, name, job, names)
            if found is None:
                stage = made[name].get("stage", "test")
                before = stages[: stages.index(stage)] if stage in stages else []
                found = [it for it in giving if made[it].get("stage", "test") in before]
                if not found or len("\n".join(found).encode()) > MOST_DEPENDENCIES:
                    continue
            value = text("\n".join(it for it in found if it in giving), job.place, raw=True)
            made[name]["variables"] = made[name].get("variables", {}) | {"CI_JOB_DEPENDENCIES": value}


def wanted_by(notes: Notes, made: dict, name: str, job: Map, names: dict[str, list[str]]) -> list[str] | None:
    """The jobs whose artifacts a job asks for, by its `dependencies` or else its `needs`; None where it says nothing."""

    def copies(of: str) -> list[str]:
        return names.get(of) or ([of] if of in made else [])

    if "dependencies" in job:
        wanted = words_of(job["dependencies"], "dependencies")
        for it in wanted:
            if not copies(it):
                notes.add(job.places["dependencies"], f"dependencies: `{it}` is dropped: there is no such job")
        return [each for it in wanted for each in copies(it)]
    if "needs" not in made[name]:
        return None
    without = {str(it["job"]) for it in flat(job["needs"]) if isinstance(it, Map) and "job" in it and boolean(it.get("artifacts")) is False}
    refused = {each for it in without for each in copies(it)}
    needed = [it["job"] if isinstance(it, dict) else it for it in made[name]["needs"]]
    return [it for it in needed if it not in refused]


def share(made: dict) -> None:
    """Puts at the top level what all jobs have: the value that most of them have."""
    jobs = [it for key, it in made.items() if key not in ("stages", "variables")]
    for key in KEYS:
        values = [job.get("variables", {}).get(key) for job in jobs]
        common = max(values, key=values.count, default=None)
        if None in values or values.count(common) < 2 or key in made.get("variables", {}):
            continue
        made["variables"] = made.get("variables", {}) | {key: common}
        for job in jobs:
            if job["variables"][key] == common:
                job["variables"] = {name: it for name, it in job["variables"].items() if name != key}
