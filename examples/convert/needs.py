"""Which jobs wait for which, once all jobs are known."""
from __future__ import annotations

from .for_runner import stages_of
from .notes import Notes
from .tree import Map, Place, Refused, Text, boolean, flat, rows_of

STARTS_ANOTHER = "it starts another pipeline"


class Needs:
    def __init__(self, notes: Notes, made: dict, names: dict[str, list[str]], sources: dict[str, Map], left_out: dict[str, str],
                 strict: bool):
        self.notes = notes
        self.made = made
        self.names = names  # of the jobs that one of GitLab's stands for
        self.sources = sources
        self.strict = strict
        self.left_out = left_out  # the jobs that are no more there, each with the cause

    def put(self, lacks: bool) -> None:
        for name, job in list(self.sources.items()) if lacks else ():
            stage = job.get("stage", "test")
            if stage not in stages_of(self.made):
                self.notes.job = name
                self.leave_out(name, job.places.get("stage", job.place), f"its stage `{stage}` isn't there")
        while any([self.leave_out_without_needs(name) for name in list(self.sources)]):
            pass
        for name, job in self.sources.items():
            self.notes.job = name
            if "needs" in job:
                needs = self.written(job)
                for each in self.names[name]:
                    self.made[each]["needs"] = needs

    def items(self, job: Map) -> list[tuple[object, Text, bool]]:
        """What a job needs of this file: each with the name of the job, and whether it is optional."""
        found = []
        for item in flat(job.get("needs")):
            name, optional = item, False
            if isinstance(item, Map):
                name, optional = item.get("job"), boolean(item.get("optional")) or False
                if not isinstance(name, Text) or "project" in item or "pipeline" in item:
                    self.notes.add(item.place, "needs: dropped: it is no job of this file")
                    continue
            found.append((item, name, optional))
        return found

    def leave_out_without_needs(self, name: str) -> bool:
        """Leaves a job out that needs one that isn't there; whether it did."""
        self.notes.job = name
        for item, needed, optional in self.items(self.sources[name]):
            if self.left_out.get(needed) == STARTS_ANOTHER:
                raise Refused(item.place, f"needs: `{needed}` is left out, so that this job would begin too early")
            if needed in self.left_out or not (optional or self.needed(item, needed)):
                cause = f"it needs rows of `{needed}` that it doesn't have" if self.names.get(needed) else f"it needs `{needed}`, which isn't there"
                self.leave_out(name, item.place, cause)
                return True
        return False

    def leave_out(self, name: str, place: Place, cause: str) -> None:
        if self.strict:
            raise Refused(place, cause)
        self.notes.add(place, f"left out: {cause}; jobs of later stages don't wait for it")
        self.left_out[name] = cause
        del self.sources[name]
        for each in self.names.pop(name):
            del self.made[each]

    def written(self, job: Map) -> list:
        needs: list = []
        for item, name, optional in self.items(job):
            names = self.needed(item, name)
            if not names:
                self.notes.add(item.place, f"needs: `{name}` is dropped: there is no such job")
            needs += [{"job": it, "optional": True} if optional else it for it in names if it not in needs]
        return needs

    def needed(self, item, name: Text) -> list[str]:
        """The jobs that one need stands for: all copies of a job, or those of the rows that it names."""
        names = self.names.get(name, [str(name)] if name in self.made else [])
        rows = item.get("parallel") if isinstance(item, Map) else None
        if not isinstance(rows, Map) or "matrix" not in rows:
            return names
        wanted = rows_of(rows["matrix"], item.place)
        return [it for it in names if any(row.items() <= self.made[it].get("variables", {}).items() for row in wanted)]
