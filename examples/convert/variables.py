"""Variables and their values."""
from __future__ import annotations

import re

from .keywords import GIT_READ, OF_RUNNER
from .notes import Notes
from .tree import Map, Place, Refused, Text, boolean, handed_out, text

NAMED = re.compile(r"\$\$|\$\{([A-Za-z_][A-Za-z0-9_]*)\}|\$([A-Za-z_][A-Za-z0-9_]*)")
# What YAML 1.1 takes for a number, but for those that are handed out as they are written.
NUMBER = re.compile(
    r"[-+]?([0-9][0-9_,]*\.[0-9_]*|\.[0-9]+)([eE][-+]?[0-9]+)?|[-+]?0[0-9]+|[-+]?0[xb][0-9a-fA-F_]+|\+[0-9]+|-0|[-+]?[0-9]+[_,][0-9_,]*"
    r"|[-+]?[0-9][0-9_]*(:[0-5]?[0-9])+(\.[0-9_]*)?|[-+]?\.(inf|Inf|INF)|\.(nan|NaN|NAN)"
)
IS_NAME = re.compile(r"[A-Za-z_][A-Za-z0-9_]{0,254}")


class Variables:
    def __init__(self, notes: Notes):
        self.notes = notes

    def of(self, given) -> dict[str, Text]:
        """The variables of a map, each as it is handed out."""
        values: dict[str, Text] = {}
        for key, value in given.items() if isinstance(given, Map) else ():
            place, raw = given.places[key], False
            if isinstance(value, Map):
                for word in value.without("value", "description", "options", "expand"):
                    self.notes.add(value.places[word], f"variables: `{word}` is dropped")
                raw = boolean(value.get("expand")) is False
                value = value.get("value", text("", place))
            if not IS_NAME.fullmatch(key):
                self.notes.add(place, f"variables: `{key}` is dropped: it is no name of a variable")
            elif not isinstance(value, Text):
                raise Refused(place, f"the value of the variable `{key}` is no text")
            else:
                self.tell_of_runner(key, place)
                tell_number(self.notes, "variables", value)
                made = handed_out(value)
                values[key] = text(made if raw or names_in(made) else made.replace("$$", "$"), place, raw=raw or not names_in(made))
        return values

    def tell_of_runner(self, key: str, place: Place) -> None:
        if key in GIT_READ:
            self.notes.add(place, f"variables: `{key}`: ciserver-runner does as it says, examples/runner.sh doesn't")
        elif OF_RUNNER.fullmatch(key):
            self.notes.add(place, f"variables: no runner here looks at `{key}`")


def tell_number(notes: Notes, keyword: str, value) -> None:
    if isinstance(value, Text) and value.plain and NUMBER.fullmatch(value):
        notes.add(value.place, f"{keyword}: `{value}` is a number to GitLab, which may hand out another text for it")


def names_in(value: str) -> list[str]:
    """The variables that a value names."""
    return [it[1] or it[2] for it in NAMED.finditer(value) if it[0] != "$$"]


class Putting:
    """The lines of a script that put into values what they name. The server hands values out as they are written, and a variable of the
    project, of the request or of a rule may be another than that of the file: only the shell of the job sees which one it is."""

    def __init__(self, notes: Notes, below: dict[str, Text], own: dict[str, Text], above: list[dict[str, Text]]):
        """The variables of the top level, of the job and of its rules."""
        self.notes = notes
        self.lines: list[str] = []
        self.seen: dict[str, bool] = {}
        self.values: dict[str, dict[str, Text]] = {}
        for layer in [{key: it for key, it in below.items() if key not in own}, own, *above]:
            for name, value in layer.items():
                if not value.raw and names_in(value):
                    self.values.setdefault(name, {})[str(value)] = value
        for name in self.values:
            self.visit(name)

    def visit(self, name: str) -> bool:
        """Adds the lines for a variable behind those for what it names; false where it names itself."""
        if name in self.seen or name not in self.values:
            return self.seen.get(name, True)
        self.seen[name] = False
        sound = True
        for source, value in self.values[name].items():
            if all([self.visit(it) for it in names_in(source)]):
                self.lines.append(f'[ "${name}" != {quoted(source)} ] || export {name}="{in_double_quotes(source)}"')
                self.notes.add(value.place, f"variables: `{name}` is put together where a script begins: rules see it as it is written")
            else:
                sound = False
                self.notes.add(value.place, f"variables: `{name}` names itself: nothing is put in")
        self.seen[name] = sound
        return sound


def quoted(value: str) -> str:
    """A text as one word of a shell."""
    return "'" + value.replace("'", "'\\''") + "'"


def in_double_quotes(value: str) -> str:
    """A value between the double quotes of a shell, with its variables put in there; one that isn't there is empty."""
    made, at = "", 0
    for it in NAMED.finditer(value):
        made += re.sub(r'([\\"`$])', r"\\\1", value[at : it.start()])
        made += "\\$" if it[0] == "$$" else f"${{{it[1] or it[2]}-}}"
        at = it.end()
    return made + re.sub(r'([\\"`$])', r"\\\1", value[at:])
