"""Conditions of rules."""
from __future__ import annotations

import re

from .expressions import expression
from .keywords import SOURCES_ELSEWHERE
from .notes import Notes
from .tree import Map, Place, Text


def condition(notes: Notes, keyword: str, rule: Map, values: dict[str, Text]) -> tuple[bool, str | None]:
    """Whether a rule can be said, and the expression that it asks for, if any."""
    for key in ("changes", "exists"):
        if key in rule and rule.get("when") == "never":
            notes.add(rule.places[key], f"{keyword}: the rule is left out: there are no files to look at for `{key}`")
            return False, None
        if key in rule:
            notes.add(rule.places[key], f"{keyword}: `{key}` is dropped, as if it were true: there are no files to look at")
    if "if" not in rule:
        return True, None
    found = expression(rule["if"], values) if isinstance(rule["if"], Text) else None
    if found is None:
        notes.add(rule.places["if"], f"{keyword}: the rule is left out: `{rule['if']}` can't be said here")
        return False, None
    tell_sources(notes, found, rule.places["if"])
    tell_patterns(notes, rule["if"], rule.places["if"])
    return True, found


def tell_sources(notes: Notes, source: str, place: Place) -> None:
    for word in re.findall(r"[\"']([a-z_]+)[\"']", source):
        if word in SOURCES_ELSEWHERE:
            notes.add(place, f"a pipeline has the source `{word}` only where its request sets the variable `CI_PIPELINE_SOURCE` so")


def tell_patterns(notes: Notes, source: str, place: Place) -> None:
    for name in re.findall(r"[=!]~\s*\$([A-Za-z0-9_]+)", source):
        notes.add(place, f"the pattern in `{name}` is put in as it stands in the file: what a project or a request sets changes nothing of it")
