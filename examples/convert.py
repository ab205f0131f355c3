#!/usr/bin/env python3
"""Writes a GitLab CI file out into the profile that ciserver reads (docs/PROFILE.md).

convert.py [--root FOLDER] [--set NAME=VALUE].. [--default-branch NAME] [--strict] [--without JOB].. FILE > .gitlab-ci.yml

It writes out anchors and merge keys, local includes and their inputs, extends, !reference, default, before_script, after_script, only
and except of refs and variables, the rules of workflow, parallel, and texts over several lines. What was dropped or changed it says on
standard error, each with its place, as `FILE:LINE: job `NAME`: what`. FILE may be - for standard input; local includes are looked for
in FOLDER, which is the folder of FILE where it isn't given. What a file of another project, of a template or of an address would
bring isn't fetched: a job that needs it is left out, or with --strict refused. With --set the file gets this variable, where it has
none of the name: --set CI_PROJECT_PATH=group/project for one that GitLab would set. --default-branch NAME is
--set CI_DEFAULT_BRANCH=NAME. With --without the jobs of this name or pattern are left out.

Status: 0 written; 1 refused (nothing is written), or what was written is over a limit of the profile; 2 wrong words; 3 a file can't be
read, or there is no python3-yaml, which it wants. Its modules are in the folder convert beside it.
"""
from __future__ import annotations

import argparse
import importlib.util
import os
import re
import sys

if importlib.util.find_spec("yaml") is None:
    print("convert.py: there is no python3-yaml here", file=sys.stderr)
    sys.exit(3)

from convert.jobs import Converter
from convert.linking import Linker
from convert.notes import Notes, named, shown
from convert.reading import Reader
from convert.tree import Place, Refused, Unread
from convert.writing import MOST_BYTES, over_limits, written


def variable(word: str) -> tuple[str, str]:
    """The name and the value of a --set."""
    found = re.fullmatch(r"([A-Za-z_][A-Za-z0-9_]{0,254})=(.*)", word, re.S)
    if not found:
        raise argparse.ArgumentTypeError(f"`{word}` is no NAME=VALUE")
    return found[1], found[2]


def arguments(words: list[str] | None = None) -> argparse.Namespace:
    parser = argparse.ArgumentParser(description="Writes a GitLab CI file out into the profile that ciserver reads.")
    parser.add_argument("--root", help="the folder of the project, in which local includes are looked for")
    parser.add_argument("--set", metavar="NAME=VALUE", action="append", default=[], type=variable, help="gives the file a variable")
    parser.add_argument("--default-branch", metavar="NAME", help="gives the file the variable CI_DEFAULT_BRANCH")
    parser.add_argument("--strict", action="store_true", help="refuses a file where a job would be left out for what isn't there")
    parser.add_argument("--without", metavar="JOB", action="append", default=[], help="leaves a job out; JOB may be a pattern")
    parser.add_argument("file", metavar="FILE", help="the file, or - for standard input")
    return parser.parse_args(words)


def placed(place: Place | None, what: str) -> str:
    return f"{place[0]}:{place[1]}: {what}" if place else what


def convert(words: argparse.Namespace, notes: Notes) -> tuple[str, list[str]]:
    """The text that is written, and what is over a limit."""
    reader = Reader(words.root or (os.path.dirname(words.file) if words.file != "-" else "") or ".", notes)
    config = reader.with_includes(reader.read(words.file, words.file))
    values = ({"CI_DEFAULT_BRANCH": words.default_branch} if words.default_branch else {}) | dict(words.set)
    linker = Linker(config, notes, reader.lacks and not words.strict)
    converter = Converter(linker.whole(), notes, values, linker.left_out if linker.lenient else None, words.strict, words.without)
    made = converter.whole()
    content = written(made)
    size = len(content.encode())
    if size > MOST_BYTES:
        made = converter.shorter()
        content = written(made)
        notes.add((words.file, 1), f"written out it would have {size} bytes: what stands in several scripts is in variables now, which jobs `eval`")
    return content, [f"{words.file}: over a limit: {it}" for it in over_limits(made, content)]


def main() -> int:
    words = arguments()
    notes = Notes()
    content, told = "", []
    try:
        content, told = convert(words, notes)
        status = 1 if told else 0
    except Refused as fault:
        place, cause = fault.args
        told, status = [placed(place, f"{named([notes.job] if notes.job else [])}refused: {cause}")], 1
    except RecursionError:
        told, status = [placed((words.file, 1), "refused: it goes too deep")], 1
    except Unread as fault:
        told, status = [placed(*fault.args)], 3
    for line in notes.lines() + told:
        print(shown(line), file=sys.stderr)
    sys.stdout.buffer.write(content.encode(errors="replace"))
    return status


if __name__ == "__main__":
    sys.exit(main())
