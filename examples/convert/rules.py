"""When a job runs."""
from __future__ import annotations

from .conditions import condition
from .expressions import alternatives
from .notes import Notes
from .refs import Refs
from .tree import Map, Refused, Text, boolean, flat, number
from .variables import Variables
from .workflow import Workflow


class Rules:
    def __init__(self, notes: Notes, globals: dict[str, Text], variables: Variables, workflow: Workflow):
        self.notes = notes
        self.workflow = workflow
        self.globals = globals
        self.variables = variables

    def put_when(self, made: dict, job: Map) -> None:
        when = self.when(job.get("when"))
        if when:
            made["when"] = when
        allowed = job.get("allow_failure")
        if isinstance(allowed, Map):
            codes = [number(it) for it in flat(allowed.get("exit_codes"))]
            if not codes or None in codes:
                raise Refused(allowed.place, "allow_failure: `exit_codes` is no number, and no list of them")
            made["allow_failure"] = {"exit_codes": codes}
        elif boolean(allowed) is not None:
            made["allow_failure"] = boolean(allowed)
        values = self.globals | made.get("variables", {})
        rules = None
        if "rules" in job:
            rules = self.rules(job["rules"], values, when or "on_success")
        elif "only" in job or "except" in job:
            rules = Refs(self.notes, values).rules(job, when or "on_success")
        rules = self.workflow.rules(rules, when or "on_success", made.get("variables", {}))
        if rules is None:
            return
        made["rules"] = rules
        if when == "manual" and allowed is None:
            made["allow_failure"] = True

    def when(self, value) -> str | None:
        if value == "delayed":
            self.notes.add(value.place, "when: `delayed` is `on_success` now: a job begins as soon as it may")
            return "on_success"
        return str(value) if isinstance(value, Text) else None

    def rules(self, given, values: dict[str, Text], when: str) -> list[dict]:
        """The rules; one of which nothing is left says what the job does by itself."""
        made = []
        for rule in flat(given):
            if not isinstance(rule, Map):
                raise Refused(rule.place, "a rule is no map")
            rule = rule.without_nulls()
            parts = self.if_parts(rule, values)
            if parts is None:
                continue
            rest = self.rule_rest(rule)
            made += [part | rest if part | rest else {"when": when} for part in parts]
        return made

    def if_parts(self, rule: Map, values: dict[str, Text]) -> list[dict] | None:
        """The condition of a rule, or of several in its place; None where the rule goes."""
        kept, found = condition(self.notes, "rules", rule, values)
        if not kept:
            return None
        return [{}] if found is None else [{"if": it} for it in alternatives(found)]

    def rule_rest(self, rule: Map) -> dict:
        made: dict = {}
        for key, value in rule.items():
            if key == "when" and isinstance(value, Text):
                made["when"] = self.when(value)
            elif key == "allow_failure" and boolean(value) is not None:
                made["allow_failure"] = boolean(value)
            elif key == "variables":
                variables = self.variables.of(value)
                made |= {"variables": variables} if variables else {}
            elif key not in ("if", "changes", "exists"):
                self.notes.add(rule.places[key], f"rules: `{key}` is dropped")
        return made
