"""The toolchain's command `rt` as a module: it knows the crates, the words of a check, and how an edit is read and tried. And what a check of a crate takes beside its own words."""
import contextlib
import importlib.machinery
import importlib.util
import os
import re
import shutil
import sys
import tempfile


def load():
    command = shutil.which("rt")
    if not command:
        sys.exit("the toolchain is wanted, and there is no `rt` in PATH")
    loader = importlib.machinery.SourceFileLoader("rt_command", os.path.realpath(command))
    module = importlib.util.module_from_spec(importlib.util.spec_from_loader("rt_command", loader))
    loader.exec_module(module)
    return module


sys.dont_write_bytecode = True
rt = load()


@contextlib.contextmanager
def room_of(folder, prefix):
    """Gives a folder whose name begins so, with copies of what a check reads of the crate in this folder."""
    with tempfile.TemporaryDirectory(prefix=prefix) as room:
        for part in ("src", "specs", "proofs"):
            if os.path.isdir(f"{folder}/{part}"):
                shutil.copytree(f"{folder}/{part}", f"{room}/{part}")
        yield room


def build_all(libraries):
    """Builds those of these libraries that aren't built yet, and returns the name of the first that can't be, or None."""
    for library in libraries:
        if not os.path.isdir(library.rlib) and library.build_rlib(["--jobs", "1"], anew=False):
            return library.name
    return None


def build_below(crate):
    """Does so for the libraries below the crate."""
    return build_all(crate.below())


def crates_in(tree):
    """Returns the crates of a tree by their names."""
    return {it.name: it for it in rt.rtlib.crates_below(os.path.realpath(tree))}


def crate_in(name, tree):
    """Returns the crate of this name in a tree."""
    return crates_in(tree)[name]


def checkable(name, tree):
    """Returns the crate of this name in a tree, with those below it built there; ends where one of them can't be."""
    crate = crate_in(name, tree)
    if unproved := build_below(crate):
        sys.exit(f"{unproved} isn't proved")
    return crate


def check_by(words):
    """Returns the command of a check by these words."""
    return [*rt.rtlib.guarded(), rt.rtlib.RATTLE, "check", *words]


def check_of(crate, *words):
    """Returns the command that checks the crate, on one processor, with these words behind its own."""
    return check_by([*crate.words(["--jobs", "1"], keeps=False), *words])


def times_of(process):
    """Returns when a process began, as the kernel counts it, and the seconds of a processor that it took, with its children that have ended."""
    with open(f"/proc/{process}/stat", encoding="utf-8", errors="replace") as opened:
        fields = opened.read().rpartition(")")[2].split()
    return fields[19], sum(map(int, fields[11:15])) / os.sysconf("SC_CLK_TCK")


def heard(running):
    """Returns what a running check with `--progress` says; for each function but the first the seconds of a processor from the end of the one before to its own; and those of the whole check.
    Before the first function what is below is loaded."""
    said, took, last = [], {}, None
    for line in running.stdout:
        said.append(line)
        if found := re.match(r"checked (\S+), \d+ of ", line):
            now = times_of(running.pid)[1]
            if last is not None:
                took[found[1]] = now - last
            last = now
    return "".join(said), took, times_of(running.pid)[1]
