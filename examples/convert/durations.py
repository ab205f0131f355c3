"""Durations."""
from __future__ import annotations

import re

UNITS = {"s": 1, "sec": 1, "second": 1, "m": 60, "min": 60, "minute": 60, "h": 3600, "hr": 3600, "hour": 3600, "d": 86400, "day": 86400}
UNITS |= {"w": 604800, "wk": 604800, "week": 604800, "mo": 2592000, "month": 2592000, "y": 31557600, "yr": 31557600, "year": 31557600}


def seconds_of(source: str) -> int | None:
    """How long a duration of GitLab lasts; a number alone is of seconds."""
    if re.fullmatch(r"[0-9]{1,9}", source):
        return int(source)
    pairs = re.findall(r"([0-9]{1,9})\s*([a-z]+)", source.lower())
    rest = re.sub(r"[0-9]{1,9}\s*[a-z]+", "", source.lower())
    if not pairs or re.sub(r"[\s,]|\band\b", "", rest):
        return None
    total = 0
    for count, unit in pairs:
        unit = unit if unit in UNITS else unit.removesuffix("s")
        if unit not in UNITS:
            return None
        total += int(count) * UNITS[unit]
    return total


def duration(source: str) -> str | None:
    total = seconds_of(source)
    if total is None or not 60 <= total <= 2592000:
        return None
    if re.fullmatch(r"([0-9]+ *(s|seconds?|m|minutes?|h|hours?|d|days?) *)+", source) and source[-1] != " ":
        return source
    for unit, size in (("days", 86400), ("hours", 3600), ("minutes", 60), ("seconds", 1)):
        if total % size == 0:
            return f"{total // size} {unit}"
    return None
