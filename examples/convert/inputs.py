"""Inputs: what the header of a file asks for, put into what stands behind it."""
from __future__ import annotations

import re

from .notes import Notes
from .tree import List, Map, Place, Reference, Refused, Text, handed_out, text
from .variables import tell_number

WANTED = re.compile(r"\$\[\[\s*(.*?)\s*\]\]")


def values_of(header: Map, given: Map | None, notes: Notes) -> dict:
    """The value of each input: that which the include gives, or its default."""
    spec = header["spec"]
    asked = spec.get("inputs") if isinstance(spec, Map) else None
    found = {}
    for name, said in asked.items() if isinstance(asked, Map) else ():
        if isinstance(given, Map) and name in given:
            found[name] = given[name]
        elif isinstance(said, Map) and "default" in said:
            found[name] = said["default"]
        else:
            raise Refused(asked.places[name], f"the input `{name}` has no value")
        tell_number(notes, "inputs", found[name])
    return found


def filled(value, inputs: dict):
    """A value with the inputs put in."""
    if isinstance(value, Map):
        made = Map(value.place)
        for key, part in value.items():
            made.put(str(filled(text(key, value.places[key]), inputs)), filled(part, inputs), value.places[key])
        return made
    if isinstance(value, list):
        made = Reference() if isinstance(value, Reference) else List()
        made.extend(filled(it, inputs) for it in value)
        made.place = value.place
        return made
    whole = WANTED.fullmatch(value)
    if whole and WANTED.sub("", value) == "":
        found = one(whole[1], value.place, inputs)
        return text(found, value.place, found.plain) if isinstance(found, Text) else found
    return text(WANTED.sub(lambda it: in_text(it[1], value.place, inputs), value), value.place, value.plain)


def one(asked: str, place: Place, inputs: dict):
    name = re.fullmatch(r"inputs\.([A-Za-z0-9_-]+)", asked)
    if not name or name[1] not in inputs:
        raise Refused(place, f"`$[[ {asked} ]]` can't be said here")
    return inputs[name[1]]


def in_text(asked: str, place: Place, inputs: dict) -> str:
    found = one(asked, place, inputs)
    if not isinstance(found, Text):
        raise Refused(place, f"`$[[ {asked} ]]` is no text")
    return handed_out(found)
