"""What a runner is told: a file in TOML, or words."""
from __future__ import annotations

import argparse
import os
import re
import ssl
import tomllib
import urllib.parse
from dataclasses import dataclass, field

MEBIBYTE = 1_048_576


class Fault(Exception):
    """The configuration can't be used, with a sentence."""


@dataclass
class Project:
    repository: str
    user: str = ""
    password: str = ""
    ssh_key: str = ""


@dataclass
class Config:
    url: str = ""
    token: str = ""
    token_file: str = ""
    name: str = ""
    folder: str = ""
    ca_file: str = ""
    concurrent: int = 1
    longest_pause: int = 10
    where: str = "shell"
    shell: str = "/bin/bash"
    path: str = "/usr/local/sbin:/usr/local/bin:/usr/sbin:/usr/bin:/sbin:/bin"
    images_in_shell: bool = False
    masked: list[str] = field(default_factory=list)
    engine: str = "podman"
    image: str = ""
    network: str = ""
    options: list[str] = field(default_factory=list)
    artifacts_folder: str = ""
    artifacts_limit: int = 100 * MEBIBYTE
    artifacts_keep: int = 7 * 86_400
    cache_folder: str = ""
    cache_limit: int = 500 * MEBIBYTE
    cache_total: int = 5_000 * MEBIBYTE
    projects: dict[int, Project] = field(default_factory=dict)

    @property
    def number(self) -> str:
        """The runner's number, which its token begins with."""
        match = re.match(r"r(\d+)-", self.token)
        return match[1] if match else ""


# The key of a table, the field that it fills, the kind of its value, and what a number is multiplied by.
TOP = {
    "url": ("url", str, 1), "token": ("token", str, 1), "token_file": ("token_file", str, 1), "name": ("name", str, 1), "folder": ("folder", str, 1),
    "ca_file": ("ca_file", str, 1),
    "concurrent": ("concurrent", int, 1), "longest_pause_seconds": ("longest_pause", int, 1), "where": ("where", str, 1),
    "shell": ("shell", str, 1), "path": ("path", str, 1), "images_in_shell": ("images_in_shell", bool, 1), "masked": ("masked", list, 1),
}
TABLES = {
    "container": {"engine": ("engine", str, 1), "image": ("image", str, 1), "network": ("network", str, 1), "options": ("options", list, 1)},
    "artifacts": {"folder": ("artifacts_folder", str, 1), "limit_megabytes": ("artifacts_limit", int, MEBIBYTE),
                  "keep_days": ("artifacts_keep", int, 86_400)},
    "cache": {"folder": ("cache_folder", str, 1), "limit_megabytes": ("cache_limit", int, MEBIBYTE),
              "total_megabytes": ("cache_total", int, MEBIBYTE)},
}
WORDS = {"url": "the server's address", "token-file": "the file with the runner's token", "name": "how it is called in traces (the machine's name)",
         "folder": "its folder: clones, the folders of jobs, artifacts and caches", "where": "shell (as without it) or container"}
KINDS = {str: "a text", int: "a whole number over 0", bool: "true or false", list: "a list of texts"}


def from_words(words: list[str]) -> Config:
    """The configuration that the words of the command line tell, over that of a file which they name."""
    parser = argparse.ArgumentParser(prog="ciserver-runner", description="Asks a ciserver for jobs and runs them.")
    parser.add_argument("--config", metavar="FILE", help="a file in TOML, as config.example.toml")
    for word, told in WORDS.items():
        parser.add_argument(f"--{word}", help=told)
    parser.add_argument("--concurrent", type=int, help="so many jobs at once (1)")
    parser.add_argument("--project", action="append", default=[], metavar="NUMBER=REPOSITORY",
                        help="the repository of a project, by its number; it may stand several times")
    asked = parser.parse_args(words)
    table = _read(asked.config) if asked.config else {}
    _check_projects(table)
    if asked.token_file:
        table.pop("token", None)
    for word in ("url", "token_file", "name", "folder", "where", "concurrent"):
        if getattr(asked, word) is not None:
            table[word] = getattr(asked, word)
    for pair in asked.project:
        number, _, repository = pair.partition("=")
        table.setdefault("projects", {})[number] = {"repository": repository}
    return from_table(table)


def from_table(table: dict) -> Config:
    config = Config()
    _check_projects(table)
    rest = dict(table)
    projects = rest.pop("projects", {})
    for name, keys in TABLES.items():
        _fill(config, keys, rest.pop(name, {}), f"{name}.")
    _fill(config, TOP, rest, "")
    if config.token_file and not config.token:
        config.token = _first_line(config.token_file)
    config.projects = {_number(key): _project(key, value) for key, value in projects.items()}
    _check(config)
    config.url = config.url.rstrip("/")
    config.folder = os.path.abspath(config.folder)
    config.artifacts_folder = os.path.abspath(config.artifacts_folder or os.path.join(config.folder, "artifacts"))
    config.cache_folder = os.path.abspath(config.cache_folder or os.path.join(config.folder, "cache"))
    return config


def _check(config: Config) -> None:
    for key in ("url", "token", "folder"):
        if not getattr(config, key):
            raise Fault(f"`{key}` is missing")
    if not _is_address(config.url):
        raise Fault("`url` is http://HOST or https://HOST, with a port where it has another one")
    if config.ca_file:
        try:
            ssl.create_default_context(cafile=config.ca_file)
        except OSError as fault:
            raise Fault(f"cannot read certificates of {config.ca_file}: {fault.strerror or fault}") from fault
    if config.where not in ("shell", "container"):
        raise Fault("`where` is `shell` or `container`")
    if config.engine not in ("podman", "docker"):
        raise Fault("`container.engine` is `podman` or `docker`")
    if not config.name:
        config.name = os.uname().nodename


def _is_address(url: str) -> bool:
    try:
        parts = urllib.parse.urlsplit(url)
        return parts.scheme in ("http", "https") and bool(parts.hostname) and parts.port != 0
    except ValueError:
        return False


def _check_projects(table: dict) -> None:
    if not isinstance(table.get("projects", {}), dict):
        raise Fault("`projects` is a table")


def _read(path: str) -> dict:
    try:
        with open(path, "rb") as file:
            return tomllib.load(file)
    except OSError as fault:
        raise Fault(f"cannot read {path}: {fault.strerror}") from fault
    except ValueError as fault:
        raise Fault(f"{path}: {fault}") from fault


def _first_line(path: str) -> str:
    try:
        with open(path, encoding="utf-8") as file:
            return file.readline().strip()
    except (OSError, UnicodeDecodeError) as fault:
        raise Fault(f"cannot read {path}: {fault}") from fault


def _fill(config: Config, keys: dict, table: object, place: str) -> None:
    if not isinstance(table, dict):
        raise Fault(f"`{place.rstrip('.')}` is a table")
    for key, value in table.items():
        if key not in keys:
            raise Fault(f"`{place}{key}` is unknown")
        name, kind, times = keys[key]
        good = type(value) is kind and not (kind is int and value < 1)
        if not good or (kind is list and not all(isinstance(item, str) for item in value)):
            raise Fault(f"`{place}{key}` is {KINDS[kind]}")
        setattr(config, name, value * times if kind is int else value)


def _number(key: str) -> int:
    if not re.fullmatch(r"[1-9]\d*", key, re.ASCII):
        raise Fault(f"`projects.{key}`: a project is told by its number")
    return int(key)


def _project(key: str, table: object) -> Project:
    place = f"projects.{key}"
    if not isinstance(table, dict) or not all(isinstance(value, str) for value in table.values()):
        raise Fault(f"`{place}` is a table of texts")
    unknown = set(table) - {"repository", "user", "password_file", "ssh_key"}
    if unknown:
        raise Fault(f"`{place}.{min(unknown)}` is unknown")
    repository = table.get("repository", "")
    if not repository or repository.startswith("-"):
        raise Fault(f"`{place}.repository` is the address of a Git repository, or a path")
    try:
        parts = urllib.parse.urlsplit(repository)
    except ValueError as fault:
        raise Fault(f"`{place}.repository`: {fault}") from fault
    if parts.password:
        raise Fault(f"`{place}.repository` has a password: it belongs into a file, and that into `password_file`")
    password = _first_line(table["password_file"]) if "password_file" in table else ""
    # Git runs in other folders than the runner.
    repository = os.path.abspath(repository) if os.path.exists(repository) else repository
    ssh_key = os.path.abspath(table["ssh_key"]) if table.get("ssh_key") else ""
    return Project(repository, table.get("user") or urllib.parse.unquote(parts.username or ""), password, ssh_key)
