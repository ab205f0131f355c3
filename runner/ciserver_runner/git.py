"""A project's commit in a job's folder: fetched into a clone that is kept, and checked out from there."""
from __future__ import annotations

import fcntl
import os
import re
import shlex
import subprocess
import urllib.parse
from typing import TYPE_CHECKING

from . import store
from .config import Project
from .refused import Refused

if TYPE_CHECKING:
    from .job import Job

TRIES = 3
LONGEST = 60_000  # bytes of what is told of a commit: with a variable of over 131,000 no program begins
COMMIT = r"[0-9a-f]{40}|[0-9a-f]{64}"
FIELDS = {"CI_COMMIT_TITLE": "%s", "CI_COMMIT_AUTHOR": "%an <%ae>", "CI_COMMIT_TIMESTAMP": "%cI", "CI_COMMIT_MESSAGE": "%B",
          "CI_COMMIT_DESCRIPTION": "%b"}


def clone_of(job: Job) -> str:
    """The clone of a job's project that is kept."""
    return os.path.join(job.config.folder, "repositories", f"{job.project}.git")


def lay(job: Job, project: Project) -> None:
    """Lays the commit of a job's pipeline into the job's folder, and tells the variables of the commit."""
    strategy = job.variables.get("GIT_STRATEGY", "clone")
    if strategy in ("none", "empty"):
        job.trace.line(f"no repository is laid: GIT_STRATEGY is {strategy}")
        return
    if strategy not in ("clone", "fetch"):
        raise Refused(f"GIT_STRATEGY is clone, fetch, none or empty, and not {strategy!r}")
    kept = clone_of(job)
    with _Locked(job, kept + ".lock"):
        commit = _fetched(job, project, kept)
        _run(job, ["clone", "--quiet", "--shared", "--no-checkout", kept, job.folder])
    _asked(job.folder, "remote", "set-url", "origin", project.repository)
    _run(job, ["-C", job.folder, "-c", "advice.detachedHead=false", "checkout", "--quiet", "--detach", commit])
    _submodules(job, project)
    job.learn({"CI_COMMIT_SHA": commit, "CI_COMMIT_SHORT_SHA": commit[:8], "CI_REPOSITORY_URL": project.repository, **_told(job, commit)})
    job.trace.line(f"commit {commit} of {_ref(job)[1]} from {project.repository}")


def _fetched(job: Job, project: Project, kept: str) -> str:
    """The commit of a job's pipeline, which the kept clone has then."""
    wanted = job.variables.get("CI_COMMIT_SHA", "")
    if wanted and not re.fullmatch(COMMIT, wanted):
        raise Refused("CI_COMMIT_SHA is no full number of a commit")
    _remove_locks(kept)
    left = TRIES
    while not _fetch(job, project, kept):
        left -= 1
        if not left:
            _make_anew(job, project, kept)
            break
        job.pause(2)
    commit = _found(job, project, kept, wanted)
    if not commit and job.run(["git", "--git-dir", kept, "fsck", "--connectivity-only", "--no-dangling"], _environment(project), lambda _: None) != 0:
        _make_anew(job, project, kept)
        commit = _found(job, project, kept, wanted)
    if not re.fullmatch(COMMIT, commit):
        raise Refused(f"{f'commit {wanted}' if wanted else _ref(job)[1]} isn't in {project.repository}")
    return commit


def _fetch(job: Job, project: Project, clone: str, *refs: str) -> bool:
    """Fetches refs into a clone, or else all branches and tags. Answers whether that went well."""
    if not os.path.exists(os.path.join(clone, "HEAD")):
        _run(job, ["init", "--quiet", "--bare", clone])
    fetch = ["git", "--git-dir", clone, "-c", "gc.autoDetach=false", "fetch", "--quiet", "--force"]
    words = [project.repository, *refs] if refs else ["--prune", project.repository, "+refs/heads/*:refs/heads/*", "+refs/tags/*:refs/tags/*"]
    return job.run([*fetch, *words], _environment(project)) == 0


def _remove_locks(kept: str) -> None:
    """Removes what a git that was killed left in a kept clone, which one job at a time changes: each fetch would fail by it."""
    for folder, _, names in os.walk(kept):
        for name in names:
            if name.endswith(".lock"):
                os.unlink(os.path.join(folder, name))


def _make_anew(job: Job, project: Project, kept: str) -> None:
    """Puts a new clone in place of a kept one, which may be damaged. Where the repository can't be fetched that stays."""
    new = kept + ".new"
    store.remove_tree(new)
    try:
        if not _fetch(job, project, new):
            raise Refused(f"{project.repository} can't be fetched")
        store.remove_tree(kept)
        os.rename(new, kept)
    finally:
        store.remove_tree(new)


def _found(job: Job, project: Project, kept: str, wanted: str) -> str:
    """The commit of a job's pipeline in a kept clone; nothing where it isn't there."""
    if not wanted:
        tip = _asked(kept, "show-ref", "--verify", "--hash", _ref(job)[0])
        return _asked(kept, "rev-parse", "--verify", "--quiet", f"{tip}^{{commit}}") if tip else ""
    if _asked(kept, "cat-file", "-t", wanted) != "commit":
        _fetch(job, project, kept, wanted)  # no branch leads to it any more
    return wanted if _asked(kept, "cat-file", "-t", wanted) == "commit" else ""


def _ref(job: Job) -> tuple[str, str]:
    """The full name of the ref of a job's pipeline, and how it is told."""
    tag = job.granted.get("CI_COMMIT_TAG")
    if tag is not None:
        return f"refs/tags/{tag}", f"tag {tag}"
    branch = job.granted.get("CI_COMMIT_BRANCH", job.granted.get("CI_COMMIT_REF_NAME", ""))
    return f"refs/heads/{branch}", f"branch {branch}"


def _told(job: Job, commit: str) -> dict[str, str]:
    text = _asked(job.folder, "log", "-1", "--format=" + "%x00".join(FIELDS.values()), commit)
    values = (value.strip("\n").encode(errors="replace")[:LONGEST].decode(errors="ignore") for value in text.split("\0"))
    return dict(zip(FIELDS, values))


def _submodules(job: Job, project: Project) -> None:
    strategy = job.variables.get("GIT_SUBMODULE_STRATEGY", "none")
    if strategy not in ("none", "normal", "recursive"):
        raise Refused(f"GIT_SUBMODULE_STRATEGY is none, normal or recursive, and not {strategy!r}")
    if strategy != "none":
        recursive = ["--recursive"] if strategy == "recursive" else []
        _run(job, ["-C", job.folder, "submodule", "--quiet", "update", "--init", *recursive], _environment(project))


def _run(job: Job, words: list[str], environment: dict[str, str] | None = None) -> None:
    if job.run(["git", *words], environment or _environment(Project(""))) != 0:
        raise Refused("git failed")


def _asked(folder: str, *words: str) -> str:
    """What git says at once of a clone, without the last line end; nothing where it fails."""
    done = subprocess.run(["git", "-C", folder, *words], env=_environment(Project("")), stdin=subprocess.DEVNULL, stdout=subprocess.PIPE,
                          stderr=subprocess.DEVNULL, check=False)
    return done.stdout.decode(errors="replace").rstrip("\n") if done.returncode == 0 else ""


def _environment(project: Project) -> dict[str, str]:
    """The environment of git. A password is for the repository's own host alone, and on no command line."""
    values = {name: os.environ[name] for name in ("PATH", "HOME") if name in os.environ}
    values |= {"LANG": "C.UTF-8", "GIT_TERMINAL_PROMPT": "0"}
    if project.ssh_key:
        values["GIT_SSH_COMMAND"] = f"ssh -i {shlex.quote(project.ssh_key)} -o IdentitiesOnly=yes -o BatchMode=yes"
    if project.password:
        parts = urllib.parse.urlsplit(project.repository)
        helper = "!f() { test \"$1\" != get || printf 'username=%s\\npassword=%s\\n' \"$RUNNER_USER\" \"$RUNNER_PASSWORD\"; }; f"
        host = parts.netloc.rpartition("@")[2]
        values |= {"RUNNER_USER": project.user, "RUNNER_PASSWORD": project.password, "GIT_CONFIG_COUNT": "1",
                   "GIT_CONFIG_KEY_0": f"credential.{parts.scheme}://{host}.helper", "GIT_CONFIG_VALUE_0": helper}
    return values


class _Locked:
    """Holds a file's lock, so that one job at a time changes a kept clone."""

    def __init__(self, job: Job, path: str):
        self.job, self.path = job, path

    def __enter__(self) -> None:
        os.makedirs(os.path.dirname(self.path), exist_ok=True)
        self.file = open(self.path, "w", encoding="utf-8")
        while True:
            try:
                fcntl.flock(self.file, fcntl.LOCK_EX | fcntl.LOCK_NB)
                return
            except BlockingIOError:
                self.job.pause(0.1)

    def __exit__(self, *_: object) -> None:
        self.file.close()
