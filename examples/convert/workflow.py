"""Which pipelines there are, by the rules of `workflow`, said as rules of each job."""
from __future__ import annotations

import dataclasses

from .conditions import condition
from .expressions import Unsaid, alternatives, formula, joined, negated, variables_in, with_values, words_of_formula
from .notes import Notes
from .tree import Map, Place, Refused, Text, flat, is_null
from .variables import Variables


@dataclasses.dataclass
class Case:
    """A rule of the workflow: what it asks for, if anything, whether it lets a pipeline be, and the variables that this has then."""

    said: tuple | None
    lets: bool
    values: dict[str, Text]
    place: Place


class Workflow:
    def __init__(self, notes: Notes, given, globals: dict[str, Text], variables: Variables):
        self.notes = notes
        self.globals = globals
        self.all: list[Case] | None = None
        self.cases: list[Case] = []  # those of the job that is looked at which let a pipeline be
        if not isinstance(given, Map):
            return
        for key in given.without("rules"):
            notes.add(given.places[key], f"workflow: `{key}` is dropped")
        if "rules" in given and not is_null(given["rules"]):
            self.all = self.read(flat(given["rules"]), variables)

    def read(self, rules: list, variables: Variables) -> list[Case]:
        made = []
        for rule in rules:
            if not isinstance(rule, Map):
                raise Refused(rule.place, "a rule is no map")
            rule = rule.without_nulls()
            for key in rule.without("if", "when", "variables", "changes", "exists"):
                self.notes.add(rule.places[key], f"workflow: `{key}` is dropped")
            kept, said = condition(self.notes, "workflow", rule, self.globals)
            if kept:
                found = formula(said) if said is not None else None
                made.append(Case(found, rule.get("when") != "never", variables.of(rule.get("variables")), rule.places.get("if", rule.place)))
        return made

    def seen_by(self, own: dict[str, Text]) -> list[Case]:
        """The rules as a job says them that has these variables: they ask for those of the top level."""
        made = []
        for case in self.all or []:
            hidden = sorted(own.keys() & variables_in(case.said)) if case.said else []
            for key in hidden:
                cause = "for the job has its own: what a project or a request sets changes nothing of it"
                self.notes.add(case.place, f"workflow: `{key}` is put in as the top level has it, {cause}")
            said = put_into(case.said, {key: self.globals.get(key) for key in hidden}, case.place) if hidden else case.said
            if said is not False:
                made.append(dataclasses.replace(case, said=None if said is True else said))
            if said in (None, True):
                break
        return made

    def rules(self, rules: list[dict] | None, when: str, own: dict[str, Text]) -> list[dict] | None:
        """The rules of a job, or none, with those of the workflow before and in them."""
        if rules == [] or self.all is None:
            return rules
        seen = self.seen_by(own)
        never = never_by([(it.lets, it.said) for it in seen])
        self.cases = [it for it in seen if it.lets]
        if not never and not any(it.values for it in self.cases):
            return rules
        made = [{"if": it, "when": "never"} if it else {"when": "never"} for it in never]
        if None in never:
            return made
        for rule in [{}] if rules is None else rules:
            found = self.asked(rule, when, own)
            if found is None:
                found = [rule] if rule.get("when") == "never" else self.split(rule, when, own)
            made += found
        return made

    def split(self, rule: dict, when: str, own: dict[str, Text]) -> list[dict]:
        """A rule for each set of variables that a pipeline may have where it holds."""
        cases = [(it.said, given(it.values, rule, own)) for it in self.cases]
        while len(cases) > 1 and cases[-2][1] == cases[-1][1]:
            del cases[-2]
        asked = formula(rule["if"]) if "if" in rule else None
        made = []
        for said, values in cases[:-1] + [(None, cases[-1][1])]:
            asks = [it for it in (said, asked) if it is not None]
            head = {"if": words_of_formula(joined("&&", asks))} if asks else {"when": when}
            made.append(written(head, rule, values))
        return made

    def asked(self, rule: dict, when: str, own: dict[str, Text]) -> list[dict] | None:
        """The rules in the place of one that asks for variables of the workflow: one for each case, with the values that they have there.
        None where it doesn't."""
        asked = formula(rule.get("if", ""))
        names = variables_in(asked) - own.keys() if asked else set()
        if not any(names & it.values.keys() for it in self.cases):
            return None
        made, before = [], []
        for case in self.cases:
            known = {key: it for key, it in case.values.items() if key in names}
            for key, it in known.items():
                cause = "what a project or a request sets changes nothing of it"
                self.notes.add(it.place, f"workflow: `{key}` is put into rules as the workflow has it: {cause}")
            rest = put_into(asked, known, case.place)
            asks = [it for it in (case.said, *before, None if rest is True else rest) if it is not None]
            if rest is not False:
                head = {"if": words_of_formula(joined("&&", asks))} if asks else {"when": when}
                made.append(written(head, rule, {} if rule.get("when") == "never" else given(case.values, rule, own)))
            if case.said is not None:
                before.append(negated(case.said))
        return made


def put_into(said: tuple, values: dict[str, Text | None], place: Place):
    try:
        return with_values(said, values)
    except Unsaid as fault:
        raise Refused(place, f"workflow: {fault}") from None


def given(values: dict[str, Text], rule: dict, own: dict[str, Text]) -> dict[str, Text]:
    """The variables of a rule with those of the workflow."""
    return {key: it for key, it in values.items() if key not in own} | rule.get("variables", {})


def written(head: dict, rule: dict, values: dict[str, Text]) -> dict:
    rest = {key: it for key, it in rule.items() if key not in ("if", "variables")}
    return head | rest | ({"variables": values} if values else {})


def never_by(ends: list[tuple]) -> list[str | None]:
    """The conditions of which each says that there is no pipeline: that the first rule which holds is `never`, or none does."""
    if not ends:
        return [None]
    lets, found = ends[0]
    if found is None:
        return [] if lets else [None]
    rest = never_by(ends[1:])
    if not lets:
        return [None] if None in rest else [*alternatives(words_of_formula(found)), *rest]
    none_before = negated(found)
    if rest == []:
        return []
    later = [formula(it) for it in rest if it is not None]
    asked = [none_before] if None in rest else [none_before, joined("||", later)]
    return alternatives(words_of_formula(joined("&&", asked)))
