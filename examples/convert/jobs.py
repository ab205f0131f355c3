"""Makes the jobs of the profile of those of GitLab's file."""
from __future__ import annotations

import fnmatch
import re
from typing import Sequence

from .durations import duration
from .for_runner import ForRunner, put_dependencies, share
from .keywords import CAUSES, DEFAULTS, LEFT_OUT, ORDER, TAKEN, TOP, TOP_DEFAULTS
from .needs import STARTS_ANOTHER, Needs
from .notes import Notes
from .repeated import MOST_VARIABLES, Repeated
from .rules import Rules
from .scripts import Scripts
from .tree import List, Map, Place, Refused, Text, boolean, flat, is_null, number, rows_of, text, words_of
from .unknown import tell_unknown
from .variables import IS_NAME, NAMED, Putting, Variables, names_in, tell_number
from .workflow import Workflow

MOST_JOBS = 1_000


class Converter:
    """Makes the map that is written of the map of GitLab's file."""

    def __init__(self, config: Map, notes: Notes, values: dict[str, str], lacks: dict[str, str] | None = None, strict: bool = False,
                 without: Sequence[str] = ()):
        """`lacks` has the jobs that take what isn't there, where a file that is included isn't here, each with the cause. `without` has patterns
        of jobs that are left out."""
        self.config = config
        self.notes = notes
        self.names: dict[str, list[str]] = {}  # those of the jobs that one of GitLab's stands for
        self.sources: dict[str, Map] = {}
        self.left_out = dict(lacks or {})
        self.lacks, self.strict, self.without = lacks is not None, strict, without
        self.made: dict = {}
        self.defaults = self.all_defaults()
        self.variables = Variables(notes)
        self.globals = self.variables.of(config.get("variables"))
        self.globals |= {key: text(it, ("", 0), raw=True) for key, it in values.items() if key not in self.globals}
        self.rules = Rules(notes, self.globals, self.variables, Workflow(notes, config.get("workflow"), self.globals, self.variables))
        self.scripts = Scripts(notes)
        self.for_runner = ForRunner(notes)

    def whole(self) -> dict:
        stages = self.config.get("stages", self.config.get("types"))
        if stages is not None and not is_null(stages):
            self.made["stages"] = words_of(stages, "stages")
        if self.globals:
            self.made["variables"] = self.globals
        for name, value in self.config.items():
            if self.is_job(name):
                self.notes.job = name
                self.add_jobs(name, value)
        Needs(self.notes, self.made, self.names, self.sources, self.left_out, self.strict).put(self.lacks)
        put_dependencies(self.notes, self.made, self.names, self.sources)
        share(self.made)
        tell_unknown(self.config, self.made, self.sources, self.names, self.notes)
        self.notes.job = None
        return self.in_order()

    def jobs(self) -> dict[str, dict]:
        return {key: it for key, it in self.made.items() if key not in ("stages", "variables")}

    def in_order(self) -> dict:
        """What was made, with the keys of each map in their order; empty ones are left out."""
        made = {key: self.made[key] for key in ("stages", "variables") if self.made.get(key)}
        for name, job in self.jobs().items():
            made[name] = {key: job[key] for key in ORDER if key in job and (key != "variables" or job[key])}
            made[name]["script"] = job["script"].parts()
        return made

    def shorter(self) -> dict:
        """The same with what stands in several scripts written once."""
        jobs = list(self.jobs().values())
        variables = self.made.get("variables", {})
        taken = {key for it in [self.made, *jobs] for key in it.get("variables", {})}
        repeated = Repeated([it["script"] for it in jobs], taken, MOST_VARIABLES - len(variables))
        self.made["variables"] = variables | repeated.variables
        for job in jobs:
            job["script"] = repeated.without(job["script"])
        return self.in_order()

    def is_job(self, key: str) -> bool:
        return key[0:1] != "." and key not in TOP

    def all_defaults(self) -> Map:
        """What jobs take that don't say it themselves."""
        given = self.config.get("default")
        defaults = Map()
        for key in TOP_DEFAULTS:
            if key in self.config:
                defaults.put(key, self.config[key], self.config.places[key])
        if isinstance(given, Map):
            for key in given:
                if key in DEFAULTS:
                    defaults.put(key, given[key], given.places[key])
                else:
                    self.tell_left_out(key, given.places[key])
        return defaults

    def tell_left_out(self, key: str, place: Place) -> None:
        self.notes.add(place, f"{key}: dropped: {LEFT_OUT.get(key, 'there is no such keyword here')}")

    def add_jobs(self, name: str, source) -> None:
        """Makes the jobs that one of GitLab's stands for."""
        place = self.config.places[name]
        if not isinstance(source, Map):
            raise Refused(place, "it is no map")
        job = self.inherited(source)
        for key in job:
            if key not in TAKEN:
                self.tell_left_out(key, job.places[key])
        self.names[name] = []
        jobs = self.parallel("pages-job" if name == "pages" else name, job)
        for each in (name, *jobs):
            if re.search(r"[\x00-\x1f\x7f]", each) or not 1 <= len(each.encode()) <= 255:
                raise Refused(place, f"`{each[:40]}` is no name: that has 1 to 255 bytes, and no control characters")
        wanted = {each: extra for each, extra in jobs.items() if not self.is_unwanted(each)}
        cause = None
        if self.is_unwanted(name) or not wanted:
            cause = "--without names it"
        elif not self.scripts.lines(job.get("script")):
            cause = STARTS_ANOTHER if "trigger" in job else "it has no script"
        if cause:
            self.left_out[name] = cause
            self.notes.add(place, f"left out: {cause}; jobs of later stages don't wait for it")
            return
        if name == "pages":
            self.notes.add(place, "named `pages-job`: `pages` is a keyword, and nothing is published by the server")
        for each in jobs.keys() - wanted.keys():
            self.notes.add(place, f"`{each}` is left out: --without names it")
        self.put_jobs(place, job, wanted)
        self.names[name] = list(wanted)
        self.sources[name] = job

    def is_unwanted(self, name: str) -> bool:
        return any(name == it or fnmatch.fnmatchcase(name, it) for it in self.without)

    def put_jobs(self, place: Place, job: Map, jobs: dict[str, dict[str, Text]]) -> None:
        for each, extra in jobs.items():
            if each in self.made:
                raise Refused(place, f"two jobs would be named `{each}`")
            if len(self.made) > MOST_JOBS:
                raise Refused(place, f"there are over {MOST_JOBS} jobs")
            self.made[each] = self.made_of(job, extra)

    def inherited(self, source: Map) -> Map:
        """A job with the defaults that it inherits, and without what is null: to GitLab that isn't there."""
        inherit = source.get("inherit")
        wanted = inherit.get("default") if isinstance(inherit, Map) else None
        if isinstance(inherit, Map) and "variables" in inherit:
            self.notes.add(inherit.places["variables"], "inherit: dropped: each job sees all variables of the top level")
        job = Map(source.place)
        for key, value in self.defaults.items():
            if boolean(wanted) is not False and (not isinstance(wanted, List) or key in wanted):
                job.put(key, value, self.defaults.places[key])
        job.join(source.without_nulls())
        return job.without_nulls()

    def parallel(self, name: str, job: Map) -> dict[str, dict[str, Text]]:
        """The names of a job's copies, each with the variables that it has besides."""
        given = job.get("parallel")
        if given is None:
            return {name: {}}
        place = job.places["parallel"]
        count = number(given)
        if count is not None and 1 <= count <= 200:
            rows = {f"{name} {i}/{count}": {"CI_NODE_INDEX": str(i), "CI_NODE_TOTAL": str(count)} for i in range(1, count + 1)}
        elif isinstance(given, Map) and "matrix" in given:
            self.look_at_matrix(given["matrix"])
            rows = {f"{name}: [{', '.join(row.values())}]": row for row in rows_of(given["matrix"], place)}
        else:
            raise Refused(place, "parallel: it is neither a number from 1 to 200 nor a matrix")
        return {each: {key: text(it, place, raw=not names_in(it)) for key, it in row.items()} for each, row in rows.items()}

    def look_at_matrix(self, matrix) -> None:
        for part in flat(matrix):
            for key, value in part.items() if isinstance(part, Map) else ():
                if not IS_NAME.fullmatch(key):
                    raise Refused(part.places[key], f"parallel: `{key}` is no name of a variable")
                for it in flat(value):
                    tell_number(self.notes, "parallel", it)

    def made_of(self, job: Map, extra: dict[str, Text]) -> dict:
        made: dict = {}
        if isinstance(job.get("stage"), Text):
            made["stage"] = str(job["stage"])
        variables = self.variables.of(job.get("variables")) | extra
        if variables:
            made["variables"] = variables
        known = self.globals | variables
        tags = words_of(job.get("tags"), "tags")
        if tags:
            made["tags"] = [self.put_in("tags", job, it, known) for it in tags]
        if isinstance(job.get("resource_group"), Text):
            made["resource_group"] = self.put_in("resource_group", job, job["resource_group"], known)
        self.rules.put_when(made, job)
        self.put_retry(made, job)
        self.put_timeout(made, job)
        interruptible = boolean(job.get("interruptible"))
        if interruptible is not None:
            made["interruptible"] = interruptible
        putting = Putting(self.notes, self.globals, variables, [it.get("variables", {}) for it in made.get("rules", [])])
        made["script"] = self.scripts.script(job, putting.lines)
        told = self.for_runner.variables(job)
        if told:
            made["variables"] = variables | told
        return made

    def put_in(self, keyword: str, job: Map, value: str, known: dict[str, Text]) -> str:
        """A value that the server takes as it is written, with the variables of the file put in."""
        place = job.places[keyword]

        def put(found: re.Match) -> str:
            name = found[1] or found[2]
            if name not in known:
                self.notes.add(place, f"{keyword}: `{found[0]}` stays as it is written")
                return found[0]
            self.notes.add(place, f"{keyword}: `{name}` is put in as the file has it: what a project or a request sets changes nothing of it")
            return self.put_in(keyword, job, known[name], {key: it for key, it in known.items() if key != name})

        return NAMED.sub(put, value)

    def put_retry(self, made: dict, job: Map) -> None:
        given = job.get("retry")
        if given is None:
            return
        count = number(given.get("max") if isinstance(given, Map) else given)
        if count is None or not 0 <= count <= 2:
            self.notes.add(job.places["retry"], "retry: dropped: it has no number from 0 to 2")
            return
        if not isinstance(given, Map):
            made["retry"] = count
            return
        for key in given.without("max", "when"):
            self.notes.add(given.places[key], f"retry: `{key}` is dropped")
        causes = words_of(given.get("when"), "retry")
        for it in causes:
            if it not in CAUSES:
                self.notes.add(given.places["when"], f"retry: the cause `{it}` is dropped: it doesn't come about here")
        kept = [it for it in causes if it in CAUSES]
        if kept or not causes:
            made["retry"] = {"max": count, "when": kept} if kept else count

    def put_timeout(self, made: dict, job: Map) -> None:
        given = job.get("timeout")
        if given is None:
            return
        made_of = duration(given) if isinstance(given, Text) else None
        if made_of is None:
            self.notes.add(job.places["timeout"], f"timeout: `{given}` is dropped: it is no time from a minute to 30 days")
        else:
            made["timeout"] = made_of
