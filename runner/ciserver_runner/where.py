"""Where a job's script runs: in a shell of this machine, or in a container."""
from __future__ import annotations

import hashlib
import os
import re
import shutil
import subprocess
from typing import TYPE_CHECKING

from . import store
from .config import Config
from .git import clone_of
from .refused import Refused
from .script import READ_ALL, in_bash_or_sh, text_of

if TYPE_CHECKING:
    from .job import Job

LABEL = "ciserver-runner"
FAILED = (125, 126, 127)  # an engine ends so where it can't make a container, or begin what it is to run


def run_script(job: Job) -> int:
    """Runs the script of a job, and answers its exit code."""
    image = job.expanded("CI_JOB_IMAGE").strip()
    if job.config.where == "container":
        image = image or job.config.image
        if shutil.which(job.config.engine):
            if not image:
                raise Refused("the job names no image, and the runner's configuration has none")
            return _in_container(job, image)
        if not job.config.images_in_shell:
            raise Refused(f"there is no {job.config.engine} on this machine")
    if image and not job.config.images_in_shell:
        raise Refused(f"the job wants the image {image}, and this runner has no containers")
    return _in_shell(job)


def _in_shell(job: Job) -> int:
    job.trace.line(f"script in {job.config.shell}, without a container")
    environment = {"PATH": job.config.path, "HOME": os.path.join(job.room, "home"), "LANG": "C.UTF-8"}
    os.mkdir(environment["HOME"])
    return job.run([job.config.shell, "-c", READ_ALL], environment, stdin=text_of(job.variables, job.script), folder=job.folder)


def _in_container(job: Job, image: str) -> int:
    engine, name = job.config.engine, _name(job)
    services = [line.split() for line in job.expanded("CI_JOB_SERVICES").splitlines() if line.strip()]
    network = job.config.network
    after = [_removal(engine, name)]
    try:
        if services:
            network = name
            after += _begin_services(job, services)
        # The container's user may be another one; nobody else comes into the folder that this one is in.
        job.run(["chmod", "-R", "a+rwX", job.room], {"PATH": job.config.path})
        job.trace.line(f"script in a container of {image} ({engine})")
        words = [engine, "run", "--rm", "--init", "--interactive", "--name", name, "--label", label(job.config), "--workdir", job.folder,
                 "--volume", f"{job.room}:{job.room}", "--entrypoint", "sh", *(["--network", network] if network else [])]
        if os.path.isdir(clone_of(job)):
            words += ["--volume", f"{clone_of(job)}:{clone_of(job)}:ro"]
        began = os.path.join(job.room, "began")
        words += [*job.config.options, image, "-c", in_bash_or_sh(began)]
        # Git refuses a folder of another user, as it may be for a container's.
        trusted = {"GIT_CONFIG_COUNT": "1", "GIT_CONFIG_KEY_0": "safe.directory", "GIT_CONFIG_VALUE_0": "*"}
        code = job.run(words, dict(os.environ), stdin=text_of(trusted | job.variables, job.script), after=after)
        if code in FAILED and not os.path.lexists(began):
            raise Refused(f"no shell began in a container of {image}: {engine} ended with {code}")
        return code
    except BaseException:  # it may not have begun
        for command in after:
            _quiet(command)
        raise


def _begin_services(job: Job, services: list[list[str]]) -> list[list[str]]:
    """Begins the services of a job in a network of its own, and answers what takes them away."""
    engine, network = job.config.engine, _name(job)
    names = [f"{network}-{number}" for number in range(len(services))]
    after = [[*_removal(engine, ""), *names], [engine, "network", "rm", network]]
    after[0].remove("")
    inside = ["--internal"] if job.config.network == "none" else []
    values = os.path.join(job.room, "services.env")
    with open(values, "w", encoding="utf-8") as file:
        file.writelines(f"{key}={value}\n" for key, value in job.granted.items() if "\n" not in value)
    try:
        _must(job, [engine, "network", "create", *inside, "--label", label(job.config), network])
        for name, (image, *alias) in zip(names, services):
            job.trace.line(f"service {' '.join([image, *alias])}")
            aliases = [word for it in alias[:1] or aliases_of(image) for word in ("--network-alias", it)]
            _must(job, [engine, "run", "--detach", "--name", name, "--label", label(job.config), "--network", network, *aliases,
                        "--env-file", values, image])
    except BaseException:
        for command in after:
            _quiet(command)
        raise
    return after


def aliases_of(image: str) -> list[str]:
    """The names under which a service is found: of registry/group/postgres:15 `registry__group__postgres` and `registry-group-postgres`."""
    path = re.sub(r"(@.*|:[^/]*)$", "", image)
    return sorted({path.replace("/", "__").replace(":", ""), path.replace("/", "-").replace(":", "")})


def label(config: Config) -> str:
    """The label of all that a runner makes, by which the next run of it finds what was left."""
    return f"{LABEL}={hashlib.sha256(config.folder.encode()).hexdigest()[:16]}"


def remove_left(config: Config) -> None:
    """Removes the containers and networks that an earlier run of this runner left."""
    if config.where != "container" or not shutil.which(config.engine):
        return
    for kind, removal in ((["ps", "--all"], _removal(config.engine, "")[:-1]), (["network", "ls"], [config.engine, "network", "rm"])):
        listed = subprocess.run([config.engine, *kind, "--quiet", "--filter", f"label={label(config)}"], stdin=subprocess.DEVNULL,
                                stdout=subprocess.PIPE, stderr=subprocess.DEVNULL, text=True, check=False)
        if listed.stdout.split():
            _quiet([*removal, *listed.stdout.split()])


def remove_folder(config: Config, path: str) -> None:
    """Removes a folder of jobs. What other users of a container without root made in it, the engine alone may remove."""
    store.remove_tree(path)
    if os.path.lexists(path) and config.where == "container" and config.engine == "podman" and shutil.which("podman"):
        _quiet(["podman", "unshare", "rm", "-rf", path])


def _name(job: Job) -> str:
    return f"ciserver-{label(job.config).partition('=')[2]}-{job.attempt}"


def _removal(engine: str, name: str) -> list[str]:
    """Kills a container and takes it away."""
    return [engine, "rm", "--force", "--volumes", *(["--time", "0"] if engine == "podman" else []), name]


def _must(job: Job, words: list[str]) -> None:
    printed: list[bytes] = []
    if job.run(words, dict(os.environ), printed.append, leave=True) != 0:
        job.trace.write(b"".join(printed))
        raise Refused(f"{' '.join(words[:3])} failed")


def _quiet(words: list[str]) -> None:
    subprocess.run(words, stdin=subprocess.DEVNULL, stdout=subprocess.DEVNULL, stderr=subprocess.DEVNULL, check=False)
