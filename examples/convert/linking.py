"""Puts in what `extends` and !reference name."""
from __future__ import annotations

from typing import Callable

from .keywords import TOP
from .notes import Notes
from .tree import MOST_NODES, List, Map, Reference, Refused, Text, merged, words_of

DEEPEST_EXTENDS = 11


class Missing(Exception):
    """What a job takes from elsewhere isn't there: with the place and the cause."""


class Linker:
    def __init__(self, config: Map, notes: Notes, lenient: bool):
        """Where it is lenient, a file that is included isn't here: a job that takes what isn't there is left out."""
        self.config = config
        self.notes = notes
        self.lenient = lenient
        self.left_out: dict[str, str] = {}
        self.values = 0

    def whole(self) -> Map:
        self.config = self.each(lambda key, value: self.extended(key, ()))
        return self.each(lambda key, value: self.resolved(value, ()))

    def each(self, linked: Callable) -> Map:
        """The values of all keys with what they name put in, but for those that name what isn't there."""
        made = Map(self.config.place)
        for key, value in self.config.items():
            self.notes.job = key if key[0:1] != "." and key not in TOP else None
            try:
                made.put(key, linked(key, value), self.config.places[key])
            except Missing as fault:
                place, cause = fault.args
                if not self.lenient or key in TOP:
                    raise Refused(place, cause) from None
                if self.notes.job:
                    self.left_out[key] = cause
                    self.notes.add(place, f"left out: {cause}; jobs of later stages don't wait for it")
        self.notes.job = None
        return made

    def extended(self, key: str, above: tuple[str, ...]):
        job = self.config[key]
        if not isinstance(job, Map) or "extends" not in job:
            return job
        place = job.places["extends"]
        if key in above or len(above) > DEEPEST_EXTENDS:
            raise Refused(place, f"`{key}` extends itself" if key in above else "`extends` goes too deep")
        base = Map(job.place)
        for name in words_of(job["extends"], "extends"):
            if not isinstance(self.config.get(name), Map):
                raise Missing(place, f"`{name}`, which is extended, isn't there")
            base = merged(base, self.extended(name, above + (key,)))
        return merged(base, job.without("extends"))

    def resolved(self, value, above: tuple[tuple[str, ...], ...]):
        """A value with each !reference in it replaced."""
        self.values += 1
        if self.values > MOST_NODES:
            raise Refused(self.config.place, "the file is too big, written out")
        if isinstance(value, Reference):
            if not all(isinstance(it, Text) for it in value):
                raise Refused(value.place, "!reference: it is no list of keys")
            path = tuple(value)
            if path in above or len(above) > 10:
                raise Refused(value.place, f"!reference [{', '.join(path)}] goes round in a circle, or too deep")
            found = self.config
            for key in path:
                if not isinstance(found, Map) or key not in found:
                    raise Missing(value.place, f"!reference [{', '.join(path)}] leads nowhere")
                found = found[key]
            return self.resolved(found, above + (path,))
        if isinstance(value, Map):
            made = Map(value.place)
            for key, part in value.items():
                made.put(key, self.resolved(part, above), value.places[key])
            return made
        if isinstance(value, List):
            made = List(self.resolved(part, above) for part in value)
            made.place = value.place
            return made
        return value
