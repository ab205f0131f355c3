"""Reading: the tree of a file, with its includes."""
from __future__ import annotations

import os
import re
import sys

import yaml

from .inputs import filled, values_of
from .notes import Notes
from .tree import MOST_NODES, List, Map, Place, Reference, Refused, Text, Unread, flat, is_null, merged, text

MOST_FILES = 150


class Loader(yaml.SafeLoader):
    """Reads YAML as GitLab's reader does, where that of the module differs."""

    def compose_node(self, parent, index):
        """An anchor may be defined again: an alias names the last one before it."""
        anchor = None if self.check_event(yaml.AliasEvent) else self.peek_event().anchor
        self.anchors.pop(anchor, None)
        return super().compose_node(parent, index)

    def compose_scalar_node(self, anchor):
        node = super().compose_scalar_node(anchor)
        if re.search("[\ud800-\udfff]", node.value):
            raise yaml.MarkedYAMLError(problem="an escape is no character", problem_mark=node.start_mark)
        return node

    def scan_to_next_token(self) -> None:
        """Tabs may stand before what can't be a key of a map."""
        super().scan_to_next_token()
        while self.peek() == "\t" and (self.flow_level or not self.allow_simple_key):
            self.forward()
            super().scan_to_next_token()

    def scan_plain_spaces(self, indent, start_mark):
        """Tabs may stand in a plain text, and behind it."""
        count = 0
        while self.peek(count) in " \t":
            count += 1
        if "\t" not in self.prefix(count):
            return super().scan_plain_spaces(indent, start_mark)
        blanks = self.prefix(count)
        self.forward(count)
        return super().scan_plain_spaces(indent, start_mark) if self.peek() in "\r\n\x85\u2028\u2029" else [blanks]

    def nodes(self) -> list[yaml.Node]:
        """Those of all documents."""
        found = []
        try:
            while self.check_node():
                found.append(self.get_node())
        except (ValueError, OverflowError):
            raise yaml.MarkedYAMLError(problem="an escape is no character", problem_mark=self.get_mark()) from None
        return found


class Reader:
    def __init__(self, root: str, notes: Notes):
        self.root = os.path.realpath(root)
        self.notes = notes
        self.nodes = 0
        self.files = 0
        self.lacks = False  # whether a file that is included isn't here

    def load(self, name: str, content: str, given: Map | None = None) -> Map:
        """The map that a file's text is, with the inputs that are given."""
        try:
            nodes = Loader(content).nodes()
        except yaml.MarkedYAMLError as fault:
            mark = fault.problem_mark or fault.context_mark
            raise Refused((name, mark.line + 1 if mark else 1), f"this is no YAML: {fault.problem or fault.context}") from None
        except yaml.YAMLError as fault:
            raise Refused((name, 1), f"this is no YAML: {' '.join(str(fault).split())}") from None
        made = [self.value(node, name) for node in nodes]
        if not made or not isinstance(made[-1], Map):
            raise Refused((name, 1), "the file is no map of keywords and jobs")
        if len(made) == 2 and isinstance(made[0], Map) and list(made[0]) == ["spec"]:
            return filled(made[1], values_of(made[0], given, self.notes))
        if len(made) > 1:
            self.notes.add(made[0].place, "what stands before the last `---` is dropped")
        return made[-1]

    def value(self, node, name: str):
        place = (name, node.start_mark.line + 1)
        self.nodes += 1
        if self.nodes > MOST_NODES:
            raise Refused(place, "the file is too big, written out")
        if isinstance(node, yaml.ScalarNode):
            return text(node.value, place, node.style is None)
        if isinstance(node, yaml.SequenceNode):
            made = Reference() if node.tag == "!reference" else List()
            made.extend(self.value(it, name) for it in node.value)
            made.place = place
            return made
        return self.map_of(node, name, place)

    def map_of(self, node, name: str, place: Place) -> Map:
        """A map; a merge key takes its part where it stands, so what follows it counts, as in GitLab's own reader."""
        made, own = Map(place), set()
        for key_node, value_node in node.value:
            key_place = (name, key_node.start_mark.line + 1)
            if not isinstance(key_node, yaml.ScalarNode):
                raise Refused(key_place, "a key is no text")
            value = self.value(value_node, name)
            if key_node.value == "<<" and key_node.style is None:
                for part in reversed(value if isinstance(value, List) else [value]):
                    if not isinstance(part, Map):
                        raise Refused(key_place, "a merge key wants maps")
                    made.join(part)
                continue
            if key_node.value in own:
                self.notes.add(key_place, f"`{key_node.value}` stands twice: the last one counts")
            own.add(key_node.value)
            made.put(key_node.value, value, key_place)
        return made

    def read(self, path: str, name: str, by: Place | None = None, given: Map | None = None) -> Map:
        """A file's map; the place that includes it is told where it can't be read."""
        self.files += 1
        if self.files > MOST_FILES:
            raise Refused((name, 1), f"over {MOST_FILES} files are included")
        try:
            if path == "-":
                content = sys.stdin.buffer.read()
            else:
                with open(path, "rb") as file:
                    content = file.read()
            return self.load(name, content.decode(), given)
        except OSError as fault:
            raise Unread(by, f"cannot read {name}: {fault.strerror}") from None
        except UnicodeDecodeError:
            raise Unread(by, f"cannot read {name}: it is not UTF-8") from None

    def with_includes(self, config: Map, above: tuple[str, ...] = ()) -> Map:
        """A file's map with those that it includes below it."""
        lower = Map(config.place)
        for item in flat(config.get("include")):
            for path in self.included(item, config.places["include"]):
                if path in above:
                    raise Refused(config.places["include"], f"`{os.path.relpath(path, self.root)}` includes itself")
                given = item.get("inputs") if isinstance(item, Map) else None
                found = self.read(path, os.path.relpath(path, self.root), item.place or config.places["include"], given)
                lower = merged(lower, self.with_includes(found, above + (path,)))
        return merged(lower, config.without("include"))

    def included(self, item, place: Place) -> list[str]:
        """The paths of the files that one include names; none where they aren't of this project."""
        place = item.place or place
        if isinstance(item, Map):
            if not isinstance(item.get("local"), Text):
                self.lacks = True
                self.notes.add(place, f"include: dropped: nothing of `{', '.join(item)}` is fetched; save the file and include it as local")
                return []
            for key in item.without("local", "inputs"):
                self.notes.add(item.places[key], f"include: `{key}` is dropped: the file is always included")
            if not isinstance(item.get("inputs", item), Map) and not is_null(item["inputs"]):
                raise Refused(item.places["inputs"], "include: `inputs` is no map")
            item = item["local"]
        if re.match(r"https?://", item):
            self.lacks = True
            self.notes.add(place, "include: dropped: nothing is fetched; save the file and include it as local")
            return []
        if "\0" in item:
            raise Refused(place, "include: it is no name of a file")
        paths = self.matching(item.lstrip("/")) if "*" in item else [os.path.join(self.root, item.lstrip("/"))]
        if not paths:
            self.notes.add(place, f"include: no file here is of the pattern `{item}`")
        for path in paths:
            if os.path.commonpath([os.path.realpath(path), self.root]) != self.root:
                raise Refused(place, f"`{item}` is outside of the project")
        return paths

    def matching(self, pattern: str) -> list[str]:
        """The paths of the files of a pattern, in their order: `*` is of one folder, and `**` of those below it as well."""
        parts = {"**": ".*", "*": "[^/]*"}
        wanted = re.compile("".join(parts.get(it) or re.escape(it) for it in re.split(r"(\*\*|\*)", pattern)), re.S)
        top = os.path.join(self.root, os.path.dirname(pattern[: pattern.index("*")]))
        found = []
        for folder, folders, names in os.walk(top):
            folders[:] = [it for it in folders if it != ".git"]
            found += [path for path in (os.path.join(folder, it) for it in names) if wanted.fullmatch(os.path.relpath(path, self.root))]
        return sorted(found)
