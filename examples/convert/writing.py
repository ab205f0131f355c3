"""Writing a map as a file of the profile."""
from __future__ import annotations

import re

from .tree import Refused

MOST_BYTES = 65_536
NUMBER_LIKE = re.compile(
    r"[-+]?(\.[0-9]+|[0-9][0-9_,:.]*)([eE][-+]?[0-9]+)?|[-+]?0[xo][0-9a-fA-F]+|[-+]?\.(inf|nan)|[0-9]{4}-[0-9][0-9]?-.*", re.I
)
WORD_LIKE = re.compile(r"true|false|yes|no|on|off|y|n|null|~|<<|=", re.I)


def is_plain(value: str, in_flow: bool = False) -> bool:
    """Whether a text may stand without quotes, and is read as this text by any reader of YAML."""
    if not value or value != value.strip() or not value.isprintable() or value[0] in ",[]{}#&*!|>'\"%@`":
        return False
    if re.search(r": | #|:$|^[-?:]($| )|^(---|\.\.\.)", value) or in_flow and re.search(r"[\[\]{},]|^[-?]", value):
        return False
    return not NUMBER_LIKE.fullmatch(value) and not WORD_LIKE.fullmatch(value)


def header(value: str) -> str | None:
    """The header of the literal block that a text is, where it can be one."""
    if not re.search(r"[\x00-\x08\x0a-\x1f\x7f]", value) or not value.strip("\n "):
        return None
    if value.lstrip("\n")[0] == " " or re.search(r"(?m)^ +$", value) or re.search(r"\r(\n|\Z)|\ufeff", value):
        return None
    body = value.rstrip("\n")
    return {0: "|-", 1: "|"}.get(len(value) - len(body), "|+")


def scalar(value) -> str:
    """A scalar on one line."""
    if isinstance(value, bool):
        return "true" if value else "false"
    if isinstance(value, int):
        return str(value)
    if is_plain(value):
        return value
    if not re.search(r"[^ -~\u00a0-\ufefe\uff00-\U0010ffff]|[\u2028\u2029]", value):
        return "'" + value.replace("'", "''") + "'"
    if re.search(r"[\x00-\x08\x0b-\x1f\x7f\ufeff]", value):
        raise Refused(getattr(value, "place", None), f"`{value[:40]}` can't be written: a control character or a mark of byte order can't stand in it")
    return '"' + value.replace("\\", "\\\\").replace('"', '\\"').replace("\n", "\\n").replace("\t", "\\t") + '"'


def entry(head: str, value, indent: int) -> list[str]:
    """The lines of a key or dash with its value; those below stand deeper than the indent."""
    pad = " " * indent
    if isinstance(value, dict):
        return [head.rstrip()] + map_lines(value, indent + 2)
    if isinstance(value, list):
        short = all(not isinstance(it, dict) and (isinstance(it, int) or is_plain(it, True)) for it in value)
        flow = ", ".join(map(scalar, value)) if short else ""
        if short and len(flow) < 100 and (not head.strip().startswith("script:") or not value):
            return [f"{head}[{flow}]"]
        return [head.rstrip()] + [line for it in value for line in item_lines(it, indent + 2)]
    sign = header(value) if isinstance(value, str) else None
    if sign is None:
        return [head + scalar(value)]
    body = value.split("\n")[:-1] if value.endswith("\n") else value.split("\n")
    return [head + sign] + [pad + "  " + line if line else "" for line in body]


def item_lines(value, indent: int) -> list[str]:
    if isinstance(value, dict):
        lines = map_lines(value, indent + 2)
        return [" " * indent + "- " + lines[0][indent + 2 :]] + lines[1:]
    return entry(" " * indent + "- ", value, indent)


def map_lines(value: dict, indent: int) -> list[str]:
    lines = []
    for key, part in value.items():
        lines += entry(" " * indent + scalar(str(key)) + ": ", part, indent)
    return lines


def written(made: dict) -> str:
    """The whole file; an empty line at the end of a block is part of its text, and none is put behind it."""
    parts = ["\n".join(entry(scalar(key) + ": ", value, 0)) + "\n" for key, value in made.items()]
    return "".join(it if it.endswith("\n\n") else it + "\n" for it in parts[:-1]) + "".join(parts[-1:])


def over_limits(made: dict, content: str) -> list[str]:
    """What is over a limit of the profile."""
    jobs = {key: it for key, it in made.items() if key not in ("stages", "variables")}
    counts = [("bytes", len(content.encode()), MOST_BYTES), ("jobs", len(jobs), 200)]
    counts += [("stages", len(made.get("stages", [])), 32), ("variables", len(made.get("variables", {})), 100)]
    for name, job in jobs.items():
        for key, most in (("variables", 100), ("rules", 64), ("tags", 32), ("needs", 50)):
            counts.append((f"{key} of job `{name}`", len(job.get(key, [])), most))
        for rule in job.get("rules", []):
            counts.append((f"bytes of an `if` of job `{name}`", len(rule.get("if", "").encode()), 1024))
    hints = {"jobs": ": --without leaves jobs out"}
    told = [f"{count} {what}, and {most} is the limit{hints.get(what, '')}" for what, count, most in counts if count > most]
    return told + ([] if jobs else ["no job is left"])
