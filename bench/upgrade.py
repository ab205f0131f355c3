#!/usr/bin/env python3
"""How long it takes to make a file of version 1 one of version 2, beside an opening of the same file once it is of version 2.

upgrade.py PROGRAM [MB ..]: PROGRAM is bin/ciserver, each MB a size of files in megabytes (10 and 100 without one). For each size there are two
files of version 1, behind the rows of .ci/version1: one of finished jobs with traces of 64 KiB, and one of pipelines of two jobs whose
traces are empty, so of small rows alone. `migrate` is run on five copies of each, and then once more on each: the median of both is told in
seconds, and in milliseconds for a megabyte of the file. The files lie in the folder of TMPDIR. It wants `sqlite3`, and nothing but Python's own library.
"""
import os
import re
import shutil
import sqlite3
import statistics
import subprocess
import sys
import tempfile
import time

RUNS = 5
BLOCKS = 4
SPEC = ('{"allow_failure":false,"interruptible":false,"needs":false,"resource_group":null,"retry":{"causes":[],"max":0},"script":["make"],'
        '"tags":[],"timeout":3600,"when":"on_success"}')
VARIABLES = [("CI", "true"), ("CI_COMMIT_BRANCH", "main"), ("CI_COMMIT_REF_NAME", "main"), ("CI_JOB_NAME", "build"), ("CI_JOB_STAGE", "build"),
             ("CI_PIPELINE_SOURCE", "api"), ("CI_PROJECT_ID", "1")]
ROOT = os.path.join(os.path.dirname(os.path.abspath(__file__)), "..")


def pipeline(file, number, jobs, blocks):
    """A finished pipeline of so many jobs, each with an attempt whose trace has so many blocks."""
    file.execute("INSERT INTO pipeline VALUES (?, 1, 'main', 0, 3, 1000)", (number,))
    for pos in range(jobs):
        job = number * 2 + pos
        file.execute("INSERT INTO job VALUES (?, ?, ?, ?, 'build', ?, 0, 0, 0)", (job, number, pos, f"job {pos}", SPEC))
        file.executemany("INSERT INTO jobvar VALUES (?, ?, ?)", [(job, *variable) for variable in VARIABLES])
        file.execute("INSERT INTO attempt VALUES (?, ?, 1, ?, 1010, 1020, 1, NULL, 0)", (job, job, f"j{job}-{job:032x}"))
        file.executemany("INSERT INTO piece VALUES (?, ?, ?)", [(job, seq, os.urandom(16384)) for seq in range(blocks)])
        file.execute("INSERT INTO board VALUES (?, 3, 0, 0, 0)", (job,))


def make(path, size, jobs, blocks):
    """A file of version 1 of this size in bytes, at least."""
    subprocess.run([os.path.join(ROOT, ".ci/version1"), path], check=True)
    file = sqlite3.connect(path, isolation_level=None)
    number = 10
    while os.path.getsize(path) < size:
        file.execute("BEGIN")
        for _ in range(20):
            pipeline(file, number, jobs, blocks)
            number += 1
        file.execute("COMMIT")
    for key, num in (("next_pipeline", number), ("next_job", number * 2), ("next_attempt", number * 2)):
        file.execute("UPDATE meta SET num = ? WHERE key = ?", (num, key))
    file.close()


def took(program, path, wanted):
    """The seconds that `migrate` takes, which must say this."""
    begin = time.perf_counter()
    said = subprocess.run([program, "migrate", "--db", path], check=True, capture_output=True, text=True).stdout
    seconds = time.perf_counter() - begin
    if said != wanted:
        sys.exit(f"migrate said {said!r}, and not {wanted!r}")
    return seconds


def measured(program, folder, kind, size, jobs, blocks):
    old, new = os.path.join(folder, "old.db"), os.path.join(folder, "new.db")
    make(old, size, jobs, blocks)
    migrations, openings = [], []
    for _ in range(RUNS):
        shutil.copy(old, new)
        migrations.append(took(program, new, "migrated: 1 to 2\n"))
        openings.append(took(program, new, "version: 2\n"))
    megabytes = os.path.getsize(old) / 1e6
    os.remove(old)
    both = [f"{statistics.median(times):10.3f}{statistics.median(times) / megabytes * 1e3:8.2f}" for times in (migrations, openings)]
    print(f"{kind:12}{megabytes:8.1f}{''.join(both)}", flush=True)


def main():
    words = sys.argv[1:]
    if not words or not all(re.fullmatch("[1-9][0-9]{0,3}", word) for word in words[1:]):
        sys.exit(__doc__)
    program = os.path.abspath(words[0])
    print(f"{'file':12}{'MB':>8}{'migrated':>10}{'ms/MB':>8}{'opened':>10}{'ms/MB':>8}")
    for word in words[1:] or ["10", "100"]:
        for kind, jobs, blocks in (("traces", 1, BLOCKS), ("small rows", 2, 0)):
            with tempfile.TemporaryDirectory() as folder:
                measured(program, folder, kind, int(word) * 1_000_000, jobs, blocks)


if __name__ == "__main__":
    main()
