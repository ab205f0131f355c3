"""Text and a part of Markdown as roff, in the macros of man(7): titles, paragraphs, lists, tables, blocks of code, marks within a line."""
from __future__ import annotations

import re

SIGNS = {"\\": "\\e", "-": "\\-", "'": "\\(aq", "`": "\\(ga", "^": "\\(ha", "~": "\\(ti"}
MARKS = re.compile(r"(?P<ticks>``?)(?P<code>.+?)(?P=ticks)|\*\*(?P<strong>.+?)\*\*|(?<![\w*])\*(?P<weak>[^*]+?)\*(?![\w*])|(?<!!)\[(?P<text>(?:`[^`]*`|[^\]`])+)\]\([^)]*\)")
ITEM = re.compile(r"( *)(-|\d+\.) +(.*)")


def line(text: str) -> str:
    """A text that stands for itself, also at the beginning of a line."""
    said = "".join(SIGNS.get(sign, sign) for sign in text)
    return f"\\&{said}" if said.startswith((".", "'")) else said


def bold(text: str) -> str:
    return f"\\fB{line(text)}\\fP"


def marked(text: str) -> str:
    """A text of Markdown with its marks: code and strong words are bold, weak ones italic, of a link its text stays."""
    parts, at = [], 0
    for found in MARKS.finditer(text):
        parts.append(line(text[at:found.start()]).removeprefix("\\&"))
        at = found.end()
        if found["code"]:
            code = found["code"].strip() if found["ticks"] == "``" else found["code"]
            parts.append(bold(code.replace("\\|", "|")))
        elif found["strong"]:
            # \fP would lead back to the font of what is marked within.
            parts.append("\\fB" + marked(found["strong"]).replace("\\fP", "\\fB").removeprefix("\\&") + "\\fR")
        elif found["weak"]:
            parts.append(f"\\fI{line(found['weak'])}\\fP")
        else:
            parts.append(marked(found["text"]).removeprefix("\\&"))
    parts.append(line(text[at:]).removeprefix("\\&"))
    said = "".join(parts)
    return f"\\&{said}" if said.startswith((".", "'")) else said


def cells_of(row: str) -> list[str]:
    """The cells of a table's row, which `|` parts but behind a backslash."""
    return [cell.strip().replace("\\|", "|") for cell in re.split(r"(?<!\\)\|", row.strip().removeprefix("|").removesuffix("|"))]


def table(rows: list[str]) -> list[str]:
    """A table as a list: the first cell is what it is about, and each other one stands with its column's name where there are several."""
    names, lines = cells_of(rows[0]), []
    for row in rows[2:]:
        first, *rest = cells_of(row)
        lines += [".TP", marked(first) or "\\&"]
        said = [(name, cell) for name, cell in zip(names[1:], rest) if cell]
        told = [marked(cell) if len(names) == 2 else f"\\fI{line(name.replace('`', ''))}:\\fP {marked(cell)}" for name, cell in said]
        lines += "\n.br\n".join(told).split("\n") if told else ["\\&"]
    return lines


def code(lines: list[str]) -> list[str]:
    return [".PP", ".RS 4", ".nf", *(line(text) or "\\&" for text in lines), ".fi", ".RE"]


class Blocks:
    """The blocks of a text of Markdown, one after the other."""

    def __init__(self, text: str):
        self.left = text.split("\n")
        self.lines: list[str] = []

    def take(self) -> str:
        return self.left.pop(0)

    def block(self) -> None:
        """Takes the block with which the rest begins; within a list's item it is indented as that is."""
        text = self.left[0].strip()
        if not text:
            self.take()
        elif text.startswith("```"):
            self.code()
        elif text.startswith("    ") or self.left[0].startswith("    ") and not ITEM.fullmatch(self.left[0]):
            self.indented()
        elif text.startswith("#"):
            depth, title = re.fullmatch(r"(#+) +(.*)", self.take()).groups()
            self.lines += [f"{'.SH' if len(depth) == 1 else '.SS'} {marked(title)}"]
        elif text.startswith("|"):
            self.rows()
        elif ITEM.fullmatch(self.left[0]):
            self.item()
        else:
            self.lines += [".PP", *self.paragraph()]

    def code(self) -> None:
        opening = self.take()
        depth, held = len(opening) - len(opening.lstrip()), []
        while not self.left[0].strip().startswith("```"):
            held.append(self.take()[depth:])
        self.take()
        self.lines += code(held)

    def indented(self) -> None:
        held = []
        while self.left and (self.left[0].startswith("    ") or not self.left[0].strip() and len(self.left) > 1 and self.left[1].startswith("    ")):
            held.append(self.take()[4:])
        self.lines += code(held)

    def rows(self) -> None:
        held = []
        while self.left and self.left[0].startswith("|"):
            held.append(self.take())
        self.lines += table(held)

    def paragraph(self) -> list[str]:
        """Lines up to an empty one, or to what begins another block."""
        held = [self.take().strip()]
        while self.left and self.left[0].strip() and not self.left[0].startswith(("```", "|", "#")) and not ITEM.fullmatch(self.left[0]):
            held.append(self.take().strip())
        return [marked(" ".join(held))]

    def item(self) -> None:
        depth, sign, text = ITEM.fullmatch(self.take()).groups()
        self.left.insert(0, text)
        said = self.paragraph()
        begin = f'.IP {"•" if sign == "-" else sign} 3'
        self.lines += [".RS 3", begin, *said, ".RE"] if depth else [begin, *said]


def from_markdown(text: str) -> list[str]:
    blocks = Blocks(text.strip("\n"))
    while blocks.left:
        blocks.block()
    return blocks.lines


def sections_of(text: str) -> dict[str, str]:
    """The sections of a document (`## TITLE`), by their titles."""
    parts = re.split(r"(?m)^## (.*)\n", text)
    return dict(zip(parts[1::2], parts[2::2]))
