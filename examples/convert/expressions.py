"""Expressions of rules."""
from __future__ import annotations

import re

TOKEN = re.compile(
    r"""\s*(&&|\|\||==|!=|=~|!~|[()]|\$[A-Za-z_][A-Za-z0-9_]*|"[^"]*"|'[^']*'|null\b|/(?:[^/\\]|\\.)*/[ismU]*)""", re.S
)
PATTERN = re.compile(r"/(.*)/([ismU]*)", re.S)
# The patterns that say the same to Python as to the server.
ALIKE = re.compile(
    r"""(?:\(\?[is]+\))?(?:
    [^\\\[\](){}*+?] | \\[dDwWsSbBAnrt] | \\[^\w\s<>] | \((?:\?:|(?!\?)) | \)
    | (?:[*+?]|\{[1-9][0-9]*(?:,[1-9][0-9]*)?\})\??(?![*+?{])
    | \[\^?(?:[^\\\[\]&~-]|\\[dDwWsSnrt]|\\[^\w\s<>]|-(?![-~&]))+\]
    )*""", re.X
)


class Unsaid(Exception):
    """An expression can't be said with the values that it is to have: with the cause."""


def tokens_of(source: str) -> list[str] | None:
    found, at = [], 0
    source = source.strip()
    while at < len(source):
        token = TOKEN.match(source, at)
        if not token:
            return None
        found.append(token[1])
        at = token.end()
    return found


def spelled(tokens: list[str]) -> str:
    made = ""
    for token in tokens:
        made += ("" if made[-1:] in ("", "(") or token == ")" else " ") + token
    return made


def pattern_of(token: str, values: dict[str, str]) -> str | None:
    """The pattern that stands behind a `=~`, also where it is in quotes or is the value of a variable of the file."""
    if token[0] == "$":
        token = values.get(token[1:], "")
    elif token[0] in "\"'":
        token = token[1:-1]
    found = PATTERN.fullmatch(token)
    if not found:
        return None
    source = re.sub(r"\\.|/", lambda it: "\\/" if it[0] == "/" else it[0], found[1], flags=re.S)
    flags = found[2]
    others = "".join(sorted(set(flags) - {"i"}))
    return f"/{f'(?{others})' if others else ''}{source}/{'i' if 'i' in flags else ''}"


def expression(source: str, values: dict[str, str]) -> str | None:
    """The same expression in the profile's language; None where it can't be said there."""
    tokens = tokens_of(source)
    if not tokens:
        return None
    made: list[str] = []
    while tokens:
        if tokens[0] in ("&&", "||", "(", ")"):
            made.append(tokens.pop(0))
            continue
        if len(tokens) < 3 or tokens[1] not in ("==", "!=", "=~", "!~"):
            if tokens[0][0] != "$":
                return None
            made.append(tokens.pop(0))
            continue
        left, sign, right = tokens[:3]
        del tokens[:3]
        if sign in ("==", "!=") and left[0] != "$":
            left, right = right, left
        if sign in ("=~", "!~"):
            right = pattern_of(right, values) or ""
        if left[0] != "$" or not right or right[0] in "&|()=!" or sign[1] == "=" and right[0] == "/":
            return None
        made += [left, sign, right]
    found = spelled(made) if made != tokens_of(source) or "\n" in source else source.strip()
    return found if formula(found) is not None else None


def alternatives(source: str) -> list[str]:
    """The parts of an expression that is too long, of which one has to be true: rules in the place of one rule."""
    if len(source.encode()) <= 1024:
        return [source]
    parts, depth = [[]], 0
    for token in tokens_of(source) or []:
        depth += {"(": 1, ")": -1}.get(token, 0)
        if token == "||" and depth == 0:
            parts.append([])
        else:
            parts[-1].append(token)
    made = [spelled(parts[0])]
    for part in map(spelled, parts[1:]):
        joined = f"{made[-1]} || {part}"
        if len(joined.encode()) <= 1024:
            made[-1] = joined
        else:
            made.append(part)
    return made


# Formulas: ("is", tokens) of a variable or a comparison, ("&&", formulas) and ("||", formulas).

OPPOSITE = {"==": "!=", "!=": "==", "=~": "!~", "!~": "=~"}


def formula(source: str):
    """What an expression of the profile says; None where it is none."""
    tokens = tokens_of(source) or []
    found = part_of(tokens, "||")
    return None if tokens else found


def part_of(tokens: list[str], sign: str):
    """Takes what stands at the beginning of the tokens: parts joined by this sign, which may be parts joined by `&&` themselves."""
    parts = []
    while True:
        part = part_of(tokens, "&&") if sign == "||" else atom_of(tokens)
        if part is None:
            return None
        parts.append(part)
        if tokens[:1] != [sign]:
            return parts[0] if len(parts) == 1 else (sign, parts)
        del tokens[0]


def atom_of(tokens: list[str]):
    if tokens[:1] == ["("]:
        del tokens[0]
        inside = part_of(tokens, "||")
        if inside is None or tokens[:1] != [")"]:
            return None
        del tokens[0]
        return inside
    if not tokens or tokens[0][0] != "$":
        return None
    count = 3 if tokens[1:2] and tokens[1] in OPPOSITE else 1
    atom, tokens[:count] = tokens[:count], []
    return ("is", atom) if len(atom) == count else None


def negated(said):
    kind, parts = said
    if kind != "is":
        return ("||" if kind == "&&" else "&&", [negated(it) for it in parts])
    if len(parts) == 1:
        return ("||", [("is", [parts[0], "==", "null"]), ("is", [parts[0], "==", '""'])])
    return ("is", [parts[0], OPPOSITE[parts[1]], parts[2]])


def joined(sign: str, formulas: list):
    """Formulas joined by a sign, without more parentheses than they need."""
    parts = [part for it in formulas for part in (it[1] if it[0] == sign else [it])]
    return parts[0] if len(parts) == 1 else (sign, parts)


def words_of_formula(said, within: str = "||") -> str:
    kind, parts = said
    if kind == "is":
        return " ".join(parts)
    made = f" {kind} ".join(words_of_formula(it, kind) for it in parts)
    return f"({made})" if kind == "||" and within == "&&" else made


def variables_in(said) -> set[str]:
    kind, parts = said
    if kind != "is":
        return {it for part in parts for it in variables_in(part)}
    return {it[1:] for it in parts if it[0] == "$"}


def with_values(said, values: dict[str, str | None]):
    """A formula in which these variables have these values, None where they aren't there: a formula, or whether it holds."""
    kind, parts = said
    if kind == "is":
        return comparison(parts, values)
    made = [with_values(it, values) for it in parts]
    strong = kind == "||"  # the truth that decides all
    if strong in made:
        return strong
    made = [it for it in made if not isinstance(it, bool)]
    return joined(kind, made) if made else not strong


def comparison(parts: list[str], values: dict[str, str | None]):
    """The same of a variable or a comparison."""
    if not any(it[1:] in values for it in parts if it[0] == "$"):
        return ("is", parts)
    left = values.get(parts[0][1:])
    if len(parts) == 1:
        return bool(left)
    sign, right = parts[1:]
    if sign in ("=~", "!~"):
        return found_in(right, left or "") == (sign == "=~")
    if right[0] == "$" and right[1:] not in values:
        return ("is", [right, sign, literal(left)])
    if parts[0][1:] not in values:
        return ("is", [parts[0], sign, literal(values[right[1:]])])
    other = values[right[1:]] if right[0] == "$" else None if right == "null" else right[1:-1]
    return (left == other) == (sign == "==")


def found_in(pattern: str, value: str) -> bool:
    """Whether a pattern is found in a value, as the server would look for it."""
    source, flags = PATTERN.fullmatch(pattern).groups()
    try:
        if ALIKE.fullmatch(source) and not ("$" in source and value.endswith("\n")):
            return bool(re.search(source, value, re.I if flags else 0))
    except re.error:
        pass
    raise Unsaid(f"`{pattern}` can't be looked for in a value of the file")


def literal(value: str | None) -> str:
    if value is not None and '"' in value and "'" in value:
        raise Unsaid(f"`{value}` can't stand in an expression, for it has quotes of both kinds")
    return "null" if value is None else f"'{value}'" if '"' in value else f'"{value}"'
