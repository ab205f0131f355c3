#!/usr/bin/env python3
"""Writes one HTML page with the pipelines of a project, out of a server's file.

page.py [--last N] [--trace BYTES] FILE PROJECT > page.html

FILE is a copy of the server's file, or the file of a server that is stopped: it is opened to be read alone. PROJECT is the number of
a project. The page has the last N pipelines (20), the newest first: the jobs of each as boxes by stage, with lines from what is waited
for to what waits, and for each job its attempts and the last BYTES of their traces (65536). The file doesn't say how long a job took,
but how long it was heard of: from its grant to its last piece of a trace or word that it runs. The page fetches nothing and has no
script. It has no tokens and no values of variables, but scripts and traces as they are.

Status: 0 written; 1 there is no such project; 2 wrong words; 3 the file can't be read. It wants nothing but Python's own library.
"""
from __future__ import annotations

import argparse
import datetime
import html
import json
import os
import re
import sqlite3
import sys
import unicodedata
import urllib.parse
from dataclasses import dataclass, field
from itertools import accumulate

FORMAT, VERSIONS = 1128878163, (1, 2)
STATUSES = ("created", "pending", "running", "success", "failed", "canceled", "skipped", "manual")
SIGNS = {
    "created": "○", "pending": "◔", "waiting_for_resource": "◔", "running": "▶", "success": "✓", "failed": "✗", "canceled": "⊘",
    "skipped": "»", "manual": "☞",
}
STATES = ("live", "success", "failed", "canceled")
CAUSES = (
    "unknown_failure", "script_failure", "api_failure", "stuck_or_timeout_failure", "runner_system_failure", "job_execution_timeout",
)
SOURCES = ("push", "web", "schedule", "api", "trigger")
OLDEST_FIRST, NEWEST_READY_FIRST = 1, 2
MOST_NUMBER = 9_007_199_254_740_991

# The places of a picture, in pixels.
WIDE, HIGH, ACROSS, DOWN, HEAD = 178, 46, 58, 16, 30


class Unread(Exception):
    """The file can't be read, or isn't one of a server."""


@dataclass
class Attempt:
    number: int
    runner: str
    granted: int
    seen: int
    state: str
    cause: str | None
    exit: int | None
    size: int
    trace: bytes


@dataclass
class Job:
    number: int
    name: str
    stage: str
    spec: dict
    aside: int
    status: str
    attempts: list[Attempt] = field(default_factory=list)
    waits_for: list["Job"] = field(default_factory=list)
    column: int = 0
    row: int = 0

    def may_fail(self) -> bool:
        allowed = self.spec["allow_failure"]
        if isinstance(allowed, bool):
            return allowed
        return self.status == "failed" and bool(self.attempts) and self.attempts[-1].exit in allowed

    @property
    def left(self) -> int:
        return 2 + self.column * (WIDE + ACROSS)

    @property
    def top(self) -> int:
        return HEAD + self.row * (HIGH + DOWN)

    @property
    def middle(self) -> float:
        return self.top + HIGH / 2

    def seconds(self) -> int | None:
        """How long its last attempt was heard of, which is as much as the file has of how long it took."""
        return self.attempts[-1].seen - self.attempts[-1].granted if self.attempts else None


@dataclass
class Pipeline:
    number: int
    ref: str
    kind: str
    source: str
    created: int
    jobs: list[Job]

    def status(self) -> str:
        """The status of the whole, as docs/MODEL.md has it."""
        binding = {job.status for job in self.jobs if not job.may_fail()}
        statuses = {job.status for job in self.jobs}
        if "running" in statuses:
            return "running"
        if statuses & {"pending", "waiting_for_resource"}:
            return "running" if any(job.attempts for job in self.jobs) else "pending"
        for status in ("manual", "failed", "canceled"):
            if status in binding:
                return status
        return "skipped" if statuses <= {"skipped", "manual"} else "success"


# Reading.


def opened(path: str) -> sqlite3.Connection:
    """The server's file, to be read alone. A copy without a log is all there is, so it may lie where nothing may be written."""
    mode = "mode=ro"
    if not os.path.exists(path + "-wal") and not os.access(os.path.dirname(os.path.abspath(path)), os.W_OK):
        mode = "immutable=1"
    try:
        file = sqlite3.connect(f"file:{urllib.parse.quote(path)}?{mode}", uri=True, timeout=1)
        meta = dict(file.execute("SELECT key, num FROM meta WHERE key IN ('format', 'version')"))
    except sqlite3.Error as fault:
        if "locked" in str(fault):
            raise Unread(f"{path} is in use: stop the server, or give a copy") from None
        raise Unread(f"cannot read {path}: {fault}") from None
    if meta.get("format") != FORMAT or meta.get("version") not in VERSIONS:
        raise Unread(f"{path} is no server's file of version {VERSIONS[0]} or {VERSIONS[1]}")
    return file


class Groups:
    """The resource groups of a project: which are held, and which pipelines have jobs that go before others, where a mode says so."""

    def __init__(self, file: sqlite3.Connection, project: int):
        self.held = {row[0] for row in file.execute("SELECT grp FROM holder WHERE project = ?", (project,))}
        # A file of version 1 has no modes.
        has_modes = file.execute("SELECT 1 FROM sqlite_master WHERE name = 'mode'").fetchone()
        self.modes = dict(file.execute("SELECT grp, mode FROM mode WHERE project = ?", (project,)) if has_modes else ())
        self.created: dict[str, set[int]] = {}
        self.pending: dict[str, set[int]] = {}
        rows = file.execute(
            "SELECT pipeline, spec, status FROM job JOIN board ON job = job.id JOIN pipeline ON pipeline = pipeline.id "
            "WHERE project = ? AND status IN (0, 1)",
            (project,),
        )
        for pipeline, spec, status in rows if self.modes else ():
            of = (self.created, self.pending)[status]
            of.setdefault(json.loads(spec)["resource_group"], set()).add(pipeline)

    def must_wait(self, group: str | None, pipeline: int) -> bool:
        """Whether a pending job of a pipeline waits for its group."""
        mode, pending = self.modes.get(group), self.pending.get(group, set())
        if mode == OLDEST_FIRST and any(it < pipeline for it in pending | self.created.get(group, set())):
            return True
        return group in self.held or mode == NEWEST_READY_FIRST and any(it > pipeline for it in pending)


def pipelines_of(file: sqlite3.Connection, project: int, last: int, most: int) -> list[Pipeline]:
    found = []
    groups = Groups(file, project)
    rows = file.execute(
        "SELECT id, ref, kind, source, created FROM pipeline WHERE project = ? ORDER BY id DESC LIMIT ?", (project, last)
    ).fetchall()
    for number, ref, kind, source, created in rows:
        jobs = jobs_of(file, number, groups, most)
        found.append(Pipeline(number, ref, ("branch", "tag")[kind], SOURCES[source], created, jobs))
    return found


def jobs_of(file: sqlite3.Connection, pipeline: int, groups: Groups, most: int) -> list[Job]:
    """The jobs of a pipeline in their order, with what they wait for."""
    jobs: dict[int, Job] = {}
    for number, name, stage, spec, aside, status in file.execute(
        "SELECT id, name, stage, spec, aside, status FROM job JOIN board ON job = id WHERE pipeline = ? ORDER BY pos", (pipeline,)
    ):
        job = Job(number, name, stage, json.loads(spec), aside, STATUSES[status])
        if job.status == "pending" and groups.must_wait(job.spec["resource_group"], pipeline):
            job.status = "waiting_for_resource"
        jobs[number] = job
    for job in jobs.values():
        job.attempts = attempts_of(file, job.number, most)
        rows = file.execute("SELECT pred FROM need WHERE job = ? ORDER BY pred", (job.number,))
        job.waits_for = [jobs[pred] for (pred,) in rows]
    return list(jobs.values())


def attempts_of(file: sqlite3.Connection, job: int, most: int) -> list[Attempt]:
    found = []
    for number, runner, granted, seen, state, cause, code in file.execute(
        "SELECT attempt.id, name, granted, seen, state, cause, exit FROM attempt JOIN runner ON runner = runner.id "
        "WHERE job = ? ORDER BY attempt.id",
        (job,),
    ):
        (size,) = file.execute("SELECT coalesce(sum(length(bytes)), 0) FROM piece WHERE attempt = ?", (number,)).fetchone()
        blocks = file.execute(
            "SELECT bytes FROM piece WHERE attempt = ? AND seq >= ? ORDER BY seq", (number, max(0, size - most) // 16384)
        )
        trace = b"".join(block for (block,) in blocks)
        trace = trace[max(0, len(trace) - most) :]
        named = None if cause is None else CAUSES[cause]
        found.append(Attempt(number, runner, granted, seen, STATES[state], named, code, size, trace))
    return found


# Words.

HIDDEN = re.compile(r"[\x00-\x08\x0b-\x1f\x7f-\x9f\u200e\u200f\u202a-\u202e\u2066-\u2069\ufeff\ufffe\uffff\ud800-\udfff]")
TERMINAL = re.compile(r"\x1b(\[[0-?]*[ -/]*[@-~]|\][^\x07\x1b]*(\x07|\x1b\\)|[@-Z\\-_])")


def text(value: object) -> str:
    """A text of the file as HTML: what has a meaning there is escaped, and what can't be seen is replaced."""
    return html.escape(HIDDEN.sub("\ufffd", str(value)))


def trace_text(trace: bytes) -> str:
    """A trace as HTML, without the commands to a terminal; of a line that was written over, its last writing."""
    plain = TERMINAL.sub("", trace.decode(errors="replace"))
    lines = [line.rstrip("\r").rpartition("\r")[2] for line in plain.split("\n")]
    return text("\n".join(lines))


def moment(seconds: int) -> str:
    epoch = datetime.datetime(1970, 1, 1)
    return f"{epoch + datetime.timedelta(seconds=seconds):%Y-%m-%d %H:%M:%S}"


def lasting(seconds: int) -> str:
    if seconds < 60:
        return f"{seconds} s"
    if seconds < 3600:
        return f"{seconds // 60} min {seconds % 60} s"
    return f"{seconds // 3600} h {seconds % 3600 // 60} min"


def columns(letter: str) -> int:
    """How wide a letter is: some are twice as wide as most, and some stand on the one before."""
    if unicodedata.combining(letter):
        return 0
    return 2 if unicodedata.east_asian_width(letter) in "WF" else 1


def short(name: str, most: int = 21) -> str:
    """As much of a name as a box has room for."""
    ends = list(accumulate(map(columns, name)))
    if not ends or ends[-1] <= most:
        return name
    return name[: sum(end < most for end in ends)] + "…"


def chip(status: str) -> str:
    return f'<span class="chip {status}">{SIGNS[status]} {status.replace("_", " ")}</span>'


# The picture of a pipeline.


def ancestors(jobs: list[Job]) -> dict[int, set[int]]:
    """All that each job waits for, by way of others too."""
    found = {}
    for job in jobs:
        reached: set[int] = set()
        ahead = list(job.waits_for)
        while ahead:
            pred = ahead.pop()
            if pred.number not in reached:
                reached.add(pred.number)
                ahead += pred.waits_for
        found[job.number] = reached
    return found


def place(jobs: list[Job]) -> list[tuple[str, int]]:
    """Gives each box its column and row; answers the stages, each with its first column."""
    stages: list[tuple[str, int]] = []
    first = 0
    for stage in dict.fromkeys(job.stage for job in jobs):
        own = [job for job in jobs if job.stage == stage]
        depth = {job.number: 0 for job in own}
        for _ in own:
            for job in own:
                below = [depth[pred.number] + 1 for pred in job.waits_for if pred.number in depth]
                depth[job.number] = min(max(below, default=0), len(own))
        used: dict[int, int] = {}
        for job in own:
            job.column = first + depth[job.number]
            job.row = used.get(job.column, 0)
            used[job.column] = job.row + 1
        stages.append((stage, first))
        first = max(used) + 1
    return stages


def curve(left: float, top: float, right: float, bottom: float) -> str:
    half = (left + right) / 2
    return f"C{half:g} {top:g} {half:g} {bottom:g} {right:g} {bottom:g}"


class Lines:
    """The lines of a picture. What is waited for by way of another job has none; jobs that wait for the same ones share a knot."""

    def __init__(self, jobs: list[Job]):
        self.jobs = jobs
        self.rows: dict[int, int] = {}
        for job in jobs:
            self.rows[job.column] = max(self.rows.get(job.column, 0), job.row + 1)
        self.drawn: list[str] = []

    def height(self, pred: Job, column: int, row: int) -> float:
        """Where a line runs past the columns between: straight where no box is in its way, else between two rows."""
        filled = max((self.rows.get(it, 0) for it in range(pred.column + 1, column)), default=0)
        if pred.row >= filled:
            return pred.middle
        if row >= filled:
            return HEAD + row * (HIGH + DOWN) + HIGH / 2
        beside = pred.top - DOWN / 2 if row < pred.row else pred.top + HIGH + DOWN / 2
        return beside + (pred.column % 3 - 1) * 3

    def draw(self, pred: Job, column: int, row: int, right: float, bottom: float, end: bool) -> None:
        """A line from a box to a point before a column; with an arrow's tip where that is its end."""
        left, before = pred.left + WIDE, 2 + column * (WIDE + ACROSS) - ACROSS
        path = f"M{left:g} {pred.middle:g}"
        if before > left:
            run = self.height(pred, column, row)
            path += curve(left, pred.middle, left + ACROSS, run) + f"H{before:g}" + curve(before, run, right, bottom)
        else:
            path += curve(left, pred.middle, right, bottom)
        mark = ' marker-end="url(#tip)"' if end else ""
        self.drawn.append(f'<path d="{path}"{mark}/>')

    def all(self) -> list[str]:
        above = ancestors(self.jobs)
        by_number = {job.number: job for job in self.jobs}
        groups: dict[tuple[int, ...], list[Job]] = {}
        for job in self.jobs:
            others = [above[it.number] for it in job.waits_for]
            near = tuple(it.number for it in job.waits_for if not any(it.number in other for other in others))
            if near:
                groups.setdefault((*near, -job.column), []).append(job)
        for at, (key, waiting) in enumerate(groups.items()):
            preds = [by_number[it] for it in key[:-1]]
            if len(preds) > 1 and len(waiting) + len(preds) > 3:
                self.knot(preds, waiting, (at % 3 - 1) * 5)
                continue
            for job in waiting:
                for pred in preds:
                    self.draw(pred, job.column, job.row, job.left - 2, job.middle, True)
        return self.drawn

    def knot(self, preds: list[Job], waiting: list[Job], aside: int) -> None:
        """The lines of jobs of one column that wait for the same ones: they meet in a point before the column."""
        column = waiting[0].column
        across = waiting[0].left - ACROSS / 2 + aside
        rows = sorted(it.row for it in waiting)
        down = sum(it.middle for it in waiting) / len(waiting)
        for pred in preds:
            self.draw(pred, column, rows[len(rows) // 2], across, down, False)
        for job in waiting:
            path = f"M{across:g} {down:g}" + curve(across, down, job.left - 2, job.middle)
            self.drawn.append(f'<path d="{path}" marker-end="url(#tip)"/>')
        self.drawn.append(f'<circle cx="{across:g}" cy="{down:g}" r="3"/>')


def box(job: Job) -> str:
    seconds = job.seconds()
    below = job.status.replace("_", " ") + (f" · ≥ {lasting(seconds)}" if seconds else "")
    below += f" · try {len(job.attempts)}" if len(job.attempts) > 1 else ""
    below += " · allowed" if job.status == "failed" and job.may_fail() else ""
    return (
        f'<a href="#job-{job.number}"><title>{text(job.name)}: {below}</title>'
        f'<rect class="{job.status}" x="{job.left}" y="{job.top}" width="{WIDE}" height="{HIGH}" rx="6"/>'
        f'<text x="{job.left + 12}" y="{job.top + 19}" class="name">{text(short(job.name))}</text>'
        f'<text x="{job.left + 12}" y="{job.top + 36}" class="sign {job.status}">{SIGNS[job.status]} {below}</text></a>'
    )


def picture(pipeline: Pipeline) -> str:
    stages = place(pipeline.jobs)
    wide = max((job.left for job in pipeline.jobs), default=0) + WIDE + 2
    high = max((job.top for job in pipeline.jobs), default=0) + HIGH + 4
    heads = [
        f'<text x="{2 + column * (WIDE + ACROSS)}" y="16" class="stage">{text(short(stage, 26))}</text>' for stage, column in stages
    ]
    parts = heads + Lines(pipeline.jobs).all() + [box(job) for job in pipeline.jobs]
    return f'<div class="wide"><svg width="{wide}" height="{high}" role="img" aria-label="jobs by stage">{"".join(parts)}</svg></div>'


# The words of a pipeline.


def facts(job: Job) -> list[tuple[str, str]]:
    """What the file fixed of a job, where it isn't as ever."""
    spec = job.spec
    found = [("stage", text(job.stage))]
    if job.waits_for:
        links = [f'<a href="#job-{it.number}">{text(it.name)}</a>' for it in job.waits_for]
        found.append(("waits for", ", ".join(links)))
    if spec["when"] != "on_success":
        found.append(("when", text(spec["when"])))
    if spec["allow_failure"]:
        codes = spec["allow_failure"]
        found.append(("may fail", "yes" if codes is True else "with exit code " + text(", ".join(map(str, codes)))))
    if spec["retry"]["max"]:
        found.append(("tried again", f"{text(spec['retry']['max'])} times at most"))
    if spec["tags"]:
        found.append(("tags", text(", ".join(spec["tags"]))))
    if spec["resource_group"] is not None:
        found.append(("resource group", text(spec["resource_group"])))
    if spec["timeout"] != 3600:
        found.append(("timeout", lasting(int(spec["timeout"]))))
    return found


def ended(attempt: Attempt) -> str:
    if attempt.state == "live":
        return chip("running")
    said = chip(attempt.state)
    if attempt.cause:
        said += f" {attempt.cause.replace('_', ' ')},"
    return said if attempt.exit is None else f"{said} exit code {attempt.exit},"


def attempt_part(job: Job, at: int) -> str:
    attempt = job.attempts[at]
    old = ", set aside by a retry" if at < job.aside else ""
    head = (
        f"<p>Attempt {attempt.number}{old}: {ended(attempt)} granted {moment(attempt.granted)} to "
        f"<bdi>{text(attempt.runner)}</bdi>, heard of for {lasting(attempt.seen - attempt.granted)}</p>"
    )
    if not attempt.size:
        return head
    left_out = attempt.size - len(attempt.trace)
    cut = f'<p class="cut">The first {left_out:,} bytes are left out.</p>' if left_out else ""
    is_open = " open" if at == len(job.attempts) - 1 and job.status in ("failed", "running") else ""
    return f"{head}<details{is_open}><summary>trace, {attempt.size:,} bytes</summary>{cut}<pre>{trace_text(attempt.trace)}</pre></details>"


def job_part(job: Job) -> str:
    rows = "".join(f"<span><small>{name}</small> {value}</span> " for name, value in facts(job))
    script = text("\n".join(line.rstrip("\n") for line in job.spec["script"]))
    attempts = "".join(attempt_part(job, at) for at in range(len(job.attempts)))
    return (
        f'<article id="job-{job.number}"><h3>{chip(job.status)} <bdi>{text(job.name)}</bdi> <small>job {job.number}</small></h3>'
        f'<p class="facts">{rows}</p><details><summary>script</summary><pre>{script}</pre></details>{attempts}</article>'
    )


def pipeline_part(pipeline: Pipeline, is_first: bool) -> str:
    ends = sum(job.status in ("success", "failed", "canceled", "skipped") for job in pipeline.jobs)
    return (
        f'<details class="pipeline" id="pipeline-{pipeline.number}"{" open" if is_first else ""}><summary>{chip(pipeline.status())} '
        f"<b>pipeline {pipeline.number}</b> of {pipeline.kind} <bdi>{text(pipeline.ref)}</bdi> "
        f"<small>by {pipeline.source}, {moment(pipeline.created)}, {ends} of {len(pipeline.jobs)} jobs at their end</small></summary>"
        f"{picture(pipeline)}{''.join(job_part(job) for job in pipeline.jobs)}</details>"
    )


STYLE = """
:root{color-scheme:light dark;--back:#fff;--ink:#1f2328;--soft:#656d76;--edge:#d0d7de;--line:#8c959f;--shade:#f6f8fa;
--success:#1a7f37;--failed:#cf222e;--running:#0969da;--pending:#9a6700;--canceled:#57606a;--skipped:#6e7781;--manual:#8250df}
@media (prefers-color-scheme:dark){:root{--back:#0d1117;--ink:#e6edf3;--soft:#8d96a0;--edge:#30363d;--line:#6e7681;--shade:#161b22;
--success:#3fb950;--failed:#f85149;--running:#4493f8;--pending:#d29922;--canceled:#9198a1;--skipped:#9198a1;--manual:#ab7df8}}
.success{--tone:var(--success)}.failed{--tone:var(--failed)}.running{--tone:var(--running)}.manual{--tone:var(--manual)}
.pending,.waiting_for_resource{--tone:var(--pending)}.canceled{--tone:var(--canceled)}.skipped,.created{--tone:var(--skipped)}
body{margin:0 auto;max-width:1800px;padding:1.5rem;font:15px/1.5 system-ui,sans-serif;background:var(--back);color:var(--ink)}
h1{font-size:1.5rem;margin:0}h3{font-size:1rem;margin:0}small,.cut{color:var(--soft);font-weight:400;font-size:.87rem}
.pipeline{border:1px solid var(--edge);border-radius:8px;margin:1rem 0;padding:.7rem 1rem}
summary{cursor:pointer}.pipeline>summary{overflow-wrap:anywhere}
.chip{display:inline-block;border:1px solid var(--tone);border-radius:1rem;color:var(--tone);font-size:.8rem;font-weight:600;padding:0 .6rem;
white-space:nowrap}
.wide{overflow-x:auto;margin:1rem 0}svg{display:block}svg a{text-decoration:none}
rect{fill:var(--shade);stroke:var(--tone);stroke-width:1.5}a:hover rect{stroke-width:3}rect.skipped,rect.created{stroke-dasharray:4 3}
path{fill:none;stroke:var(--line);stroke-width:1.3}circle,marker path{fill:var(--line);stroke:none}
text{fill:var(--ink);font:600 13px system-ui,sans-serif}text.sign{fill:var(--tone);font-weight:400;font-size:12px}
text.stage{fill:var(--soft);font-size:13px}
article{border-top:1px solid var(--edge);padding:.6rem 0}article:target h3{background:var(--shade);outline:.4rem solid var(--shade)}
p{margin:.4rem 0 .2rem}.facts span{margin-right:1.2rem;overflow-wrap:anywhere}
pre{background:var(--shade);border-radius:6px;margin:.4rem 0;max-height:30rem;overflow:auto;padding:.7rem;font-size:13px}
a{color:var(--running)}
"""


def page(name: str, pipelines: list[Pipeline], total: int, now: int) -> str:
    shown = "no pipeline yet" if not total else f"{len(pipelines)} of {total} pipelines, the newest first"
    parts = "".join(pipeline_part(it, at == 0) for at, it in enumerate(pipelines))
    tip = '<path d="M0 0L8 4L0 8z"/>'
    tip = f'<marker id="tip" viewBox="0 0 8 8" refX="6" refY="4" markerWidth="6" markerHeight="6" orient="auto">{tip}</marker>'
    return (
        '<!DOCTYPE html>\n<html lang="en"><head><meta charset="utf-8">'
        "<meta http-equiv=\"Content-Security-Policy\" content=\"default-src 'none'; style-src 'unsafe-inline'\">"
        '<meta name="viewport" content="width=device-width, initial-scale=1">'
        f"<title>{text(name)}: pipelines</title><style>{STYLE}</style></head><body>"
        f'<svg width="0" height="0" aria-hidden="true"><defs>{tip}</defs></svg>'
        f"<h1><bdi>{text(name)}</bdi></h1><p><small>{shown}; moments are in UTC; written {moment(now)}</small></p>"
        f"{parts}</body></html>\n"
    )


def number(least: int):
    def read(word: str) -> int:
        if not re.fullmatch(r"0|[1-9][0-9]{0,15}", word) or not least <= int(word) <= MOST_NUMBER:
            raise argparse.ArgumentTypeError(f"{word!r} is no number from {least} on")
        return int(word)

    return read


def arguments() -> argparse.Namespace:
    parser = argparse.ArgumentParser(description="Writes one HTML page with the pipelines of a project, out of a server's file.")
    parser.add_argument("--last", type=number(1), default=20, metavar="N", help="how many pipelines (20)")
    parser.add_argument("--trace", type=number(0), default=65536, metavar="BYTES", help="how much of the end of each trace (65536)")
    parser.add_argument("file", metavar="FILE", help="a copy of the server's file, or that of a server that is stopped")
    parser.add_argument("project", metavar="PROJECT", type=number(1), help="the number of a project")
    return parser.parse_args()


def main() -> int:
    words = arguments()
    try:
        file = opened(words.file)
        named = file.execute("SELECT name FROM project WHERE id = ?", (words.project,)).fetchone()
        if named is None:
            print(f"{words.file} has no project {words.project}", file=sys.stderr)
            return 1
        (total,) = file.execute("SELECT count(*) FROM pipeline WHERE project = ?", (words.project,)).fetchone()
        pipelines = pipelines_of(file, words.project, words.last, words.trace)
    except Unread as fault:
        print(fault, file=sys.stderr)
        return 3
    except (sqlite3.Error, ValueError, LookupError, TypeError) as fault:
        print(f"cannot read {words.file}: {fault}", file=sys.stderr)
        return 3
    now = int(datetime.datetime.now(datetime.timezone.utc).timestamp())
    sys.stdout.buffer.write(page(named[0], pipelines, total, now).encode(errors="replace"))
    return 0


if __name__ == "__main__":
    sys.exit(main())
