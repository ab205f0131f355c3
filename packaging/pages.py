#!/usr/bin/env python3
"""Writes the pages of the manual, from what the programs print for --help and from docs/.

    packaging/pages.py [--ciserver PROGRAM] FOLDER

ciserver.1 has the help of each command and sections of docs/OPERATING.md, ciserver-runner.1 the runner's help and its README.md, ciserver-convert.1 and
ciserver-page.1 the help of examples/convert.py and examples/page.py, ciserver-backup.1 the section Copies, ciserver-gitlab-ci.5 docs/PROFILE.md. It wants
python3 alone. A section that isn't there any more ends it with 1.
"""
from __future__ import annotations

import argparse
import os
import re
import subprocess
import sys

from roff import bold, from_markdown, line, sections_of

ROOT = os.path.dirname(os.path.dirname(os.path.abspath(__file__)))
OPERATING = ["Before a team uses it", "The commands", "Reports for programs", "A pipeline before it runs", "While it serves", "What it is doing", "What it logs", "Jobs that wait for a resource group",
             "After a stop, and after a fault", "From other machines", "From a push", "The page", "The file is an ordinary SQLite file", "Upgrades", "Old pipelines"]
# What the documents name by its place in the repository, and how it is called where it is installed.
NAMES = [(r"(?<![\w./])bin/ciserver\b", "ciserver"), (r"(?<![\w./])examples/convert\.py\b", "ciserver-convert"), (r"(?<![\w./])examples/page\.py\b", "ciserver-page"),
         (r"(?<![\w./])examples/backup\.sh\b", "ciserver-backup"), (r"(?<![\w./])examples/post-receive\b", "post-receive"), (r"(?<![\w./])examples/ciserver\.service\b", "ciserver.service"),
         (r"(?<![\w./])(runner/)?(ciserver-runner(\.service)?)\b", r"\2")]
FILES = [("/var/lib/ciserver/ci.db", "the server's file, where the unit for systemd has it; its log is ci.db-wal"),
         ("/etc/default/ciserver", "the port of the unit")]


def help_of(*words: str, program: str | None = None) -> list[str]:
    """What a program prints for --help, in lines that aren't broken. It is called as the first word says, also where its file has another name."""
    ran = subprocess.run([*words, "--help"], executable=program, capture_output=True, text=True, check=True, env={**os.environ, "COLUMNS": "500"})
    return ran.stdout.splitlines()


def rows_of(lines: list[str], title: str) -> list[tuple[str, str]]:
    """The rows below a title, each of a left side and what is said of it: they are indented, and two blanks or a line's end part the sides."""
    rows: list[tuple[str, str]] = []
    if title in lines:
        for text in lines[lines.index(title) + 1:]:
            if not text.strip():
                break
            left, _, right = text.strip().partition("  ")
            if text.startswith(" " * 12) and rows:
                rows[-1] = (rows[-1][0], f"{rows[-1][1]} {text.strip()}".strip())
            else:
                rows.append((left, right.strip()))
    return rows


def tagged(rows: list[tuple[str, str]]) -> list[str]:
    return [part for left, right in rows for part in (".TP", bold(left), line(right))]


def usage_of(lines: list[str]) -> str:
    at = next(number for number, text in enumerate(lines) if text.lower().startswith("usage:"))
    end = at + 1
    while end < len(lines) and lines[end].startswith("  "):
        end += 1
    return " ".join(text.strip() for text in lines[at:end])[len("usage:"):].strip()


def head(name: str, section: int, version: str, what: str) -> list[str]:
    return [f'.TH {name.upper()} {section} "" "ciserver {version}" "ciserver"', ".SH NAME", f"{line(name)} \\- {line(what)}"]


def seen_also(*names: str) -> list[str]:
    where = ("The documents and examples that are named here are in share/doc/ciserver, below the prefix of the installation: /usr, where a package brought them. "
             "What isn't there is in the repository alone.")
    return [".SH SEE ALSO", ", ".join(f"\\fB{line(name)}\\fP({section})" for name, section in (pair.split(".") for pair in names)), ".PP", line(where)]


def read(path: str) -> str:
    with open(os.path.join(ROOT, path), encoding="utf-8") as file:
        text = file.read()
    for place, name in NAMES:
        text = re.sub(place, name, text)
    return text


def server_page(program: str, version: str) -> list[str]:
    main = help_of("ciserver", program=program)
    page = head("ciserver", 1, version, "a continuous integration server")
    page += [".SH SYNOPSIS", bold("ciserver") + " \\fICOMMAND\\fP [\\fIOPTIONS\\fP]", ".SH DESCRIPTION"]
    page += from_markdown(read("docs/OPERATING.md").split("\n## ")[0].split("\n", 1)[1])
    page += [".SH COMMANDS", *tagged(rows_of(main, "Commands:")), ".SH OPTIONS", *tagged(rows_of(main, "Options:"))]
    for name, about in rows_of(main, "Commands:"):
        if name == "help":
            continue
        lines = help_of("ciserver", name, program=program)
        page += [f".SS ciserver {line(name)}", line(about) + ".", ".PP", bold(usage_of(lines))]
        page += tagged(rows_of(lines, "Arguments:")) + tagged(rows_of(lines, "Options:"))
    sections = sections_of(read("docs/OPERATING.md"))
    for title in OPERATING:
        page += [f".SH {line(title.upper())}", *from_markdown(sections[title])]
    page += [".SH FILES", *tagged(FILES)]
    return page + seen_also("ciserver-gitlab-ci.5", "ciserver-backup.1", "ciserver-convert.1", "ciserver-page.1", "ciserver-runner.1")


def script_page(name: str, script: str, about: str) -> list[str]:
    lines = help_of(sys.executable, "-B", os.path.join(ROOT, script))
    page = [".SH SYNOPSIS", bold(usage_of(lines).replace(os.path.basename(script), name)), ".SH DESCRIPTION", *from_markdown(about)]
    page += [".SH OPTIONS", *tagged(rows_of(lines, "positional arguments:")), *tagged(rows_of(lines, "options:"))]
    return page


def doc_of(script: str) -> str:
    """What a script says of itself in the text that it begins with, behind the first line of words."""
    return read(script).split('"""')[1]


def runner_page(version: str) -> list[str]:
    intro, *_ = read("runner/README.md").split("\n## ")
    page = head("ciserver-runner", 1, version, "runs jobs of a ciserver")
    page += script_page("ciserver-runner", "runner/ciserver-runner", intro.split("\n", 1)[1])
    for title, text in sections_of(read("runner/README.md")).items():
        if title != "Tests":
            page += [f".SH {line(title.upper())}", *from_markdown(text)]
    page += [".SH FILES", *tagged([("/etc/ciserver-runner/config.toml", "the configuration, where the unit for systemd has it"),
                                   ("/var/lib/ciserver-runner", "clones, the folders of jobs, artifacts and caches")])]
    return page + seen_also("ciserver.1", "ciserver-gitlab-ci.5")


def convert_page(version: str) -> list[str]:
    text = doc_of("examples/convert.py").replace("convert.py", "ciserver-convert").replace("Its modules are in the folder convert beside it.", "")
    page = head("ciserver-convert", 1, version, "writes a GitLab CI file out into the profile that ciserver reads")
    return page + script_page("ciserver-convert", "examples/convert.py", text) + seen_also("ciserver.1", "ciserver-gitlab-ci.5")


def look_page(version: str) -> list[str]:
    page = head("ciserver-page", 1, version, "writes an HTML page with the pipelines of a project of a ciserver")
    text = sections_of(read("docs/OPERATING.md"))["A page without a server"]
    return page + script_page("ciserver-page", "examples/page.py", text) + seen_also("ciserver.1")


def backup_page(version: str) -> list[str]:
    page = head("ciserver-backup", 1, version, "copies the file of a ciserver, also while it serves")
    page += [".SH SYNOPSIS", bold("ciserver-backup") + " \\fIFILE COPY\\fP [\\fIPID\\fP]", ".SH DESCRIPTION", *from_markdown(sections_of(read("docs/OPERATING.md"))["Copies"])]
    return page + seen_also("ciserver.1")


def profile_page(version: str) -> list[str]:
    page = head("ciserver-gitlab-ci", 5, version, "what a CI file may say that ciserver reads")
    return page + [".SH DESCRIPTION", *from_markdown(read("docs/PROFILE.md").split("\n", 1)[1])] + seen_also("ciserver.1", "ciserver-convert.1")


def main() -> int:
    parser = argparse.ArgumentParser(description="Writes the pages of the manual.")
    parser.add_argument("--ciserver", default=os.path.join(ROOT, "bin", "ciserver"), metavar="PROGRAM", help="the program (bin/ciserver)")
    parser.add_argument("folder", metavar="FOLDER", help="where they are written")
    words = parser.parse_args()
    program = os.path.abspath(words.ciserver)
    version = subprocess.run([program, "--version"], capture_output=True, text=True, check=True).stdout.split()[1]
    try:
        pages = {"ciserver.1": server_page(program, version), "ciserver-runner.1": runner_page(version), "ciserver-convert.1": convert_page(version),
                 "ciserver-page.1": look_page(version), "ciserver-backup.1": backup_page(version), "ciserver-gitlab-ci.5": profile_page(version)}
    except KeyError as fault:
        print(f"docs/OPERATING.md has no section {fault}", file=sys.stderr)
        return 1
    os.makedirs(words.folder, exist_ok=True)
    for name, lines in pages.items():
        with open(os.path.join(words.folder, name), "w", encoding="utf-8") as file:
            file.write("\n".join(lines) + "\n")
    return 0


if __name__ == "__main__":
    sys.dont_write_bytecode = True
    sys.exit(main())
