#!/usr/bin/env python3
"""Pipelines of a hundred jobs and of two hundred: fifty jobs that fifty others, or a hundred and fifty, need each; ten stages of ten, and twenty.

fanout.py PROGRAM [ROUNDS]: PROGRAM is bin/ciserver. For each of the four shapes there is a new file in the folder of TMPDIR, where
/dev/shm leaves out what a sync costs; the pipeline is created ROUNDS times (3 without it), shown, and each of its jobs granted and ended;
and then it is created as often and cancelled. It prints the median of each kind of request, and the processor time of one request of all.
It wants Linux and nothing but Python's own library.
"""
import json
import os
import re
import statistics
import sys
import tempfile

from pending import Server

SHOWS = 4


def needs(then):
    first = [f"a{n}:\n  stage: a\n  script: x\n  tags: [fit]\n" for n in range(50)]
    all_needed = ", ".join(f"a{n}" for n in range(50))
    others = [f"b{n}:\n  stage: b\n  needs: [{all_needed}]\n  script: x\n  tags: [fit]\n" for n in range(then)]
    return 50 + then, "stages: [a, b]\n" + "".join(first + others)


def stages(count):
    jobs = [f"j{n}:\n  stage: s{n // 10}\n  script: x\n  tags: [fit]\n" for n in range(10 * count)]
    return 10 * count, f"stages: [{', '.join(f's{n}' for n in range(count))}]\n" + "".join(jobs)


def rounds(server, jobs, text, count):
    assert server.ask("PUT", "projects/1/ci_file", text, server.project)[0] == 200
    times = {"create": [], "request": [], "finish": [], "show": [], "cancel": []}
    before = server.used()
    for pipeline in range(1, count + 1):
        times["create"].append(server.create(f"r{pipeline}"))
        for done in range(jobs):
            if done % (jobs // SHOWS) == 0:
                status, _, micros = server.ask("GET", f"projects/1/pipelines/{pipeline}", "", server.project)
                assert status == 200
                times["show"].append(micros)
            body, micros = server.poll(server.runner, 201)
            times["request"].append(micros)
            times["finish"].append(server.finish(json.loads(body)))
    for pipeline in range(count + 1, 2 * count + 1):
        server.create(f"r{pipeline}")
        status, _, micros = server.ask("POST", f"projects/1/pipelines/{pipeline}/cancel", "", server.project)
        assert status == 200
        times["cancel"].append(micros)
    used = (server.used() - before) / (sum(map(len, times.values())) + count) * 1e6
    return "".join(f"{statistics.median(those):10.0f}" for those in times.values()) + f"{used:10.0f}"


def main():
    if len(sys.argv) < 2 or not re.fullmatch(r"[^-].*", sys.argv[1]):
        sys.exit(__doc__)
    count = int(sys.argv[2]) if len(sys.argv) > 2 else 3
    print(f"{'':12}{'create':>10}{'request':>10}{'finish':>10}{'show':>10}{'cancel':>10}{'cpu':>10}   (microseconds)")
    for name, (jobs, text) in (("needs50x50", needs(50)), ("needs50x150", needs(150)), ("stages10x10", stages(10)), ("stages20x10", stages(20))):
        with tempfile.TemporaryDirectory() as folder:
            server = Server(os.path.abspath(sys.argv[1]), folder)
            try:
                print(f"{name:<12}{rounds(server, jobs, text, count)}", flush=True)
            finally:
                server.process.kill()
                server.process.wait()


main()
