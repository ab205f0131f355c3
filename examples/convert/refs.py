"""Rules in the place of `only` and `except`."""
from __future__ import annotations

import re

from .conditions import tell_patterns, tell_sources
from .expressions import PATTERN, expression, formula, pattern_of
from .keywords import SOURCES
from .notes import Notes
from .tree import Map, Refused, Text, flat, is_null

OF_PROJECT = re.compile(r"(/.*/[ismU]*|[^/@][^@]*)@(.*)", re.S)


class Refs:
    def __init__(self, notes: Notes, values: dict[str, str]):
        self.notes = notes
        self.values = values

    def rules(self, job: Map, when: str) -> list[dict]:
        made = []
        for parts in self.lists(job, "except"):
            made += [{"if": it, "when": "never"} for it in parts]
        wanted = self.lists(job, "only")
        if not wanted:
            return made + [{"when": when}]
        if [] in wanted:
            return []
        if len(wanted) == 1:
            return made + [{"if": it} for it in wanted[0]]
        return made + [{"if": " && ".join(f"({' || '.join(parts)})" if len(parts) > 1 else parts[0] for parts in wanted)}]

    def lists(self, job: Map, keyword: str) -> list[list[str]]:
        """The expressions of an `only` or `except`, each list of them joined by or; an empty list never holds."""
        given = job.get(keyword)
        if given is None:
            return []
        parts = {"refs": given}
        if isinstance(given, Map):
            parts = given
            for key in given.without("refs", "variables"):
                cause = ": there are no files to look at" if key == "changes" else ""
                self.notes.add(given.places[key], f"{keyword}: `{key}` is dropped{cause}")
        return [[it for it in map(lambda part: self.said(keyword, key, part), flat(parts[key])) if it]
                for key in ("refs", "variables") if key in parts and not is_null(parts[key])]

    def said(self, keyword: str, key: str, given) -> str | None:
        """The expression of one entry; None where it never holds."""
        found = None
        if isinstance(given, Text):
            if key == "refs" and not self.is_of_project(keyword, given):
                return None
            found = ref(given) if key == "refs" else expression(given, self.values)
        if found is None or formula(found) is None:
            raise Refused(given.place, f"{keyword}: `{given}` can't be said here")
        tell_sources(self.notes, found, given.place)
        if key == "variables":
            tell_patterns(self.notes, given, given.place)
        return found

    def is_of_project(self, keyword: str, given: Text) -> bool:
        """Whether an entry is of this project; it is taken to be where nothing says which one this is."""
        found = OF_PROJECT.fullmatch(given)
        if not found or "CI_PROJECT_PATH" in self.values:
            return not found or found[2] == self.values["CI_PROJECT_PATH"]
        cause = "as if the file were of that project alone: --set CI_PROJECT_PATH=.. tells of which it is"
        self.notes.add(given.place, f"{keyword}: `@{found[2]}` is dropped, {cause}")
        return True


def ref(given: str) -> str | None:
    """The expression of one entry of refs: a word, a pattern or a name, which a project may stand behind."""
    found = OF_PROJECT.fullmatch(given)
    name = found[1] if found else given
    if name == "branches":
        return "$CI_COMMIT_BRANCH"
    if name == "tags":
        return "$CI_COMMIT_TAG"
    if name in SOURCES:
        return f'$CI_PIPELINE_SOURCE == "{SOURCES[name]}"'
    if PATTERN.fullmatch(name):
        return f"$CI_COMMIT_REF_NAME =~ {pattern_of(name, {})}"
    quote = "'" if '"' in name else '"'
    return None if quote in name else f"$CI_COMMIT_REF_NAME == {quote}{name}{quote}"
