"""What is kept between jobs: artifacts of a pipeline's jobs, and caches."""
from __future__ import annotations

import glob
import hashlib
import json
import os
import subprocess
import time
from typing import TYPE_CHECKING

from .pack import matching, pack, unpack
from .refused import Refused

if TYPE_CHECKING:
    from .job import Job

LEFT = 86_400  # seconds after which a file that is being written is one that nobody writes


def _lines(job: Job, name: str) -> list[str]:
    return [line.strip() for line in job.expanded(name).splitlines() if line.strip()]


def _files(count: int) -> str:
    return f"{count} file{'s' if count != 1 else ''}"


def lay_artifacts(job: Job) -> None:
    """Lays the artifacts of earlier jobs into the job's folder: of those that CI_JOB_DEPENDENCIES names, else of all of other stages."""
    _wishes(job)
    latest: dict[str, dict] = {}
    for path in glob.glob(os.path.join(glob.escape(_folder(job)), "*.json")):
        record = _record(path)
        if record and record["attempt"] > latest.get(record["job"], {"attempt": 0})["attempt"]:
            latest[record["job"]] = record
    named = job.variables.get("CI_JOB_DEPENDENCIES")
    if named is None:
        records = [record for record in latest.values() if record["stage"] != job.stage]
    else:
        names = [line.strip() for line in named.splitlines() if line.strip()]
        for name in names:
            if name not in latest:
                job.trace.line(f"artifacts of {name}: none are here")
        records = [latest[name] for name in names if name in latest]
    for record in sorted(records, key=lambda record: record["attempt"]):
        path = os.path.join(_folder(job), f"{record['attempt']}.tar")
        if record["kept"] and os.path.exists(path):
            count = unpack(path, job.folder, job.check)
            job.trace.line(f"artifacts of {record['job']}: {_files(count)}")


def keep_artifacts(job: Job, success: bool) -> None:
    """Keeps the files that the job's variables name, and notes for later jobs whether there are any."""
    patterns = _lines(job, "CI_JOB_ARTIFACTS")
    if not patterns:
        return
    when, seconds = _wishes(job)
    kept = when == "always" or (when == "on_failure") != success
    os.makedirs(_folder(job), exist_ok=True)
    job.has_kept = True
    path = os.path.join(_folder(job), str(job.attempt))
    if kept:
        names = matching(job.folder, patterns, _lines(job, "CI_JOB_ARTIFACTS_EXCLUDE"), job.check)
        files = _pack(job, names, path + ".tar", job.config.artifacts_limit)
        job.trace.line(f"artifacts: {_files(files)} kept" if files else "artifacts: no file matches")
    record = {"job": job.name, "stage": job.stage, "attempt": job.attempt, "kept": kept, "expires": time.time() + seconds}
    with open(path + ".new", "w", encoding="utf-8") as file:
        json.dump(record, file)
    os.rename(path + ".new", path + ".json")


def drop_artifacts(job: Job) -> None:
    """Takes back what an attempt kept that the server didn't take the end of."""
    for end in (".json", ".tar"):
        _remove(os.path.join(_folder(job), f"{job.attempt}{end}"))


def remove_expired(root: str) -> None:
    """Removes artifacts whose time is over, what a runner that was killed left of some, and folders of pipelines that are left without any."""
    for path in glob.glob(os.path.join(glob.escape(root), "*", "*", "*.json")):
        record = _record(path)
        if not record or record["expires"] < time.time():
            _remove(path)
            _remove(path.removesuffix(".json") + ".tar")
    for path in glob.glob(os.path.join(glob.escape(root), "*", "*", "*")):
        if path.endswith(".new") or not os.path.exists(path.removesuffix(".tar").removesuffix(".json") + ".json"):
            _remove_old(path)
    for folder in glob.glob(os.path.join(glob.escape(root), "*", "*")):
        try:
            os.rmdir(folder)
        except OSError:
            pass  # it isn't empty


def _remove_old(path: str) -> None:
    """Removes a file that nobody has written for a day."""
    try:
        if os.stat(path).st_mtime < time.time() - LEFT:
            os.unlink(path)
    except FileNotFoundError:
        pass


def _wishes(job: Job) -> tuple[str, int]:
    """When a job's artifacts are kept, and for how many seconds."""
    when = job.expanded("CI_JOB_ARTIFACTS_WHEN").strip() or "on_success"
    if when not in ("on_success", "on_failure", "always"):
        raise Refused(f"CI_JOB_ARTIFACTS_WHEN is on_success, on_failure or always, and not {when!r}")
    seconds = job.expanded("CI_JOB_ARTIFACTS_EXPIRE").strip() or str(job.config.artifacts_keep)
    if not seconds.isdecimal():
        raise Refused("CI_JOB_ARTIFACTS_EXPIRE is no number of seconds")
    return when, min(int(seconds), job.config.artifacts_keep)


def _folder(job: Job) -> str:
    pipeline = job.granted.get("CI_PIPELINE_ID", "")
    if not pipeline.isdecimal():
        raise Refused("CI_PIPELINE_ID is no number: some variable of the project or the file has its name")
    return os.path.join(job.config.artifacts_folder, str(job.project), pipeline)


def _record(path: str) -> dict | None:
    """What is noted of an attempt's artifacts; nothing where it can't be read."""
    try:
        with open(path, encoding="utf-8") as file:
            record = json.load(file)
    except (OSError, ValueError):
        return None
    kinds = {"job": str, "stage": str, "attempt": int, "kept": bool, "expires": float}
    return record if isinstance(record, dict) and all(type(record.get(key)) is kind for key, kind in kinds.items()) else None


def caches(job: Job) -> list[tuple[str, str, list[str]]]:
    """The key, the policy and the paths of each cache of a job."""
    found = []
    for line in job.expanded("CI_JOB_CACHE").splitlines():
        key, *rest = line.split("\t")
        if line.strip():
            if len(rest) < 2 or rest[0] not in ("pull-push", "pull", "push"):
                raise Refused("a line of CI_JOB_CACHE is KEY, POLICY and paths, with tabs between them")
            found.append((key, rest[0], [path for path in rest[1:] if path]))
    return found


def lay_caches(job: Job) -> None:
    """Lays a job's caches. One that can't be laid is removed, so that it fails no job, and the job makes it anew."""
    for key, policy, _ in caches(job):
        path = _cache(job, key)
        if policy != "push" and os.path.exists(path):
            try:
                os.utime(path)
                job.trace.line(f"cache {key}: {_files(unpack(path, job.folder, job.check))}")
            except (Refused, FileNotFoundError) as fault:
                job.trace.line(f"cache {key} isn't laid, and goes: {fault}")
                _remove(path)


def keep_caches(job: Job) -> None:
    for key, policy, paths in caches(job):
        if policy == "pull":
            continue
        path = _cache(job, key)
        try:
            os.makedirs(os.path.dirname(path), exist_ok=True)
            names = matching(job.folder, paths, [], job.check)
            if names:
                _pack(job, names, path, job.config.cache_limit)
            job.trace.line(f"cache {key}: kept" if names else f"cache {key}: no file matches")
        except (Refused, OSError) as fault:
            job.trace.line(f"cache {key} isn't kept: {fault}")
    try:
        make_room(job.config.cache_folder, job.config.cache_total)
    except OSError as fault:
        job.trace.line(f"no room is made for caches: {fault}")


def make_room(root: str, limit: int) -> None:
    """Removes the caches that were used longest ago, until the others are within a limit, and what a runner that was killed left of some."""
    left = limit
    for path in glob.glob(os.path.join(glob.escape(root), "*", "*.new")):
        _remove_old(path)
    paths = glob.glob(os.path.join(glob.escape(root), "*", "*.tar"))
    for path in sorted(paths, key=_used, reverse=True):
        try:
            left -= os.stat(path).st_size
        except OSError:
            continue
        if left < 0:
            _remove(path)


def _used(path: str) -> float:
    try:
        return os.stat(path).st_mtime
    except OSError:
        return 0


def _cache(job: Job, key: str) -> str:
    return os.path.join(job.config.cache_folder, str(job.project), hashlib.sha256(key.encode(errors="replace")).hexdigest() + ".tar")


def _pack(job: Job, names: list[str], path: str, limit: int) -> int:
    """Makes a tar file whole, or not at all; answers how many files it has."""
    new = f"{path}.{job.attempt}.new"
    try:
        count = pack(job.folder, names, new, limit, job.check)
        os.rename(new, path)
        return count
    finally:
        _remove(new)


def _remove(path: str) -> None:
    try:
        os.unlink(path)
    except FileNotFoundError:
        pass


def remove_tree(path: str) -> None:
    """Removes a folder with all that a job left in it, folders that may not be written too, and however deep they are."""
    for words in (["rm", "-rf"], ["chmod", "-R", "u+rwX"], ["rm", "-rf"]):
        if os.path.lexists(path):
            subprocess.run([*words, path], stdin=subprocess.DEVNULL, stderr=subprocess.DEVNULL, check=False)
