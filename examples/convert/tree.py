"""What the files hold: texts, lists and maps, each with its place."""
from __future__ import annotations

import itertools
import re

Place = tuple[str, int]
MOST_NODES = 100_000


class Refused(Exception):
    """The file can't be written out: with the place and the cause."""


class Unread(Exception):
    """A file can't be read: with the place that includes it, if any, and the cause."""


class Text(str):
    """A scalar, as it was written; `plain` where it stood without quotes, `raw` where a `$` in it is a `$`."""

    place: Place = ("", 0)
    plain = False
    raw = False


class List(list):
    place: Place = ("", 0)


class Reference(list):
    """A !reference: the keys that lead to its value."""

    place: Place = ("", 0)


class Map(dict):
    """A map, with the places of its keys."""

    def __init__(self, place: Place = ("", 0)):
        super().__init__()
        self.place = place
        self.places: dict[str, Place] = {}

    def put(self, key: str, value, place: Place) -> None:
        self[key] = value
        self.places[key] = place

    def join(self, other: "Map") -> None:
        """Takes the entries of another map, in the place of its own."""
        for key, value in other.items():
            self.put(key, value, other.places[key])

    def without(self, *keys: str) -> "Map":
        rest = Map(self.place)
        for key, value in self.items():
            if key not in keys:
                rest.put(key, value, self.places[key])
        return rest

    def without_nulls(self) -> "Map":
        """The map as GitLab has it: a key whose value is null isn't there."""
        return self.without(*[key for key, value in self.items() if is_null(value)])


def text(value: str, place: Place, plain: bool = False, raw: bool = False) -> Text:
    made = Text(value)
    made.place, made.plain, made.raw = place, plain, raw
    return made


def merged(lower: Map, upper: Map) -> Map:
    """Both maps in one, as GitLab merges them: the upper one counts, but maps in both are merged."""
    both = Map(upper.place)
    both.join(lower)
    for key, value in upper.items():
        below = both.get(key)
        if isinstance(value, Map) and isinstance(below, Map):
            value = merged(below, value)
        both.put(key, value, upper.places[key])
    return both


def is_null(value) -> bool:
    return isinstance(value, Text) and value.plain and value in ("", "~", "null", "Null", "NULL")


def boolean(value) -> bool | None:
    """The truth that GitLab reads in a value, if it reads one."""
    if isinstance(value, Text) and value.plain:
        return {"true": True, "yes": True, "on": True, "false": False, "no": False, "off": False}.get(value.lower())
    return None


def number(value) -> int | None:
    if isinstance(value, Text) and value.plain and re.fullmatch(r"0|-?[1-9][0-9]{0,15}", value):
        return int(value)
    return None


def handed_out(value: Text) -> str:
    """The text that GitLab hands out for a scalar; of a number, the one that is written."""
    if is_null(value):
        return ""
    truth = boolean(value)
    return str(value) if truth is None else "true" if truth else "false"


def flat(value) -> list:
    """The values of a list and of the lists in it; a single value is a list of one."""
    if value is None or is_null(value):
        return []
    if not isinstance(value, list):
        return [value]
    return [it for part in value for it in (flat(part) if isinstance(part, list) else [part])]


def texts_of(value, what: str) -> list[Text]:
    """The texts of a list."""
    found = flat(value)
    for it in found:
        if not isinstance(it, Text):
            raise Refused(it.place, f"{what}: a map stands where a text is due")
    return found


def words_of(value, what: str) -> list[str]:
    """The texts of a list, each once."""
    return list(dict.fromkeys(map(str, texts_of(value, what))))


def rows_of(matrix, place: Place) -> list[dict[str, str]]:
    """The rows of a matrix: each of its variables with a value."""
    rows: list[dict[str, str]] = []
    for part in flat(matrix):
        if not isinstance(part, Map):
            raise Refused(place, "parallel: the matrix is no list of maps")
        values = [dict.fromkeys(map(handed_out, texts_of(it, "parallel"))) for it in part.values()]
        rows += itertools.islice((dict(zip(part, it)) for it in itertools.product(*values)), 201)
    if not 1 <= len(rows) <= 200:
        raise Refused(place, f"parallel: the matrix has {'over 200' if rows else 'no'} rows")
    return rows
