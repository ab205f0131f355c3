#!/usr/bin/env python3
"""Pictures of each view, light, dark and of a telephone's width, over a project with something of everything: to be looked at.

    web/tests/pictures.py [--server CISERVER] FOLDER [PICTURE..]        as in: web/tests/pictures.py shots pipeline-light
"""
import os
import sys

from run import missing

if lacking := missing():
    sys.exit(f"for want of packages: apt-get install {' '.join(lacking)}")

import mock
from browser import Browser
from stand import Stand, until

SMALL = """
stages: [build, test, deploy]
compile:
  stage: build
  script: make
unit:
  stage: test
  script: make test
publish:
  stage: deploy
  script: make publish
"""

LARGE = """
stages: [prepare, build, test, package, deploy]
fetch-sources:
  stage: prepare
  script: make fetch
compile-linux:
  stage: build
  script: make
compile-arm64:
  stage: build
  script: make ARCH=arm64
documentation:
  stage: build
  needs: []
  script: make docs
unit:
  stage: test
  needs: [compile-linux]
  script: make unit
integration:
  stage: test
  needs: [compile-linux, compile-arm64]
  script: make integration
style:
  stage: test
  needs: []
  allow_failure: true
  script: make lint
gpu-kernels:
  stage: test
  tags: [gpu]
  needs: [compile-linux]
  script: make gpu
benchmarks:
  stage: test
  tags: [bare-metal, quiet]
  needs: [compile-linux]
  script: make bench
debian-package:
  stage: package
  needs: [unit, integration]
  script: make deb
container-image:
  stage: package
  needs: [unit]
  script: make image
staging:
  stage: deploy
  needs: [debian-package, container-image]
  resource_group: staging
  script: make deploy
production:
  stage: deploy
  needs: [staging]
  resource_group: production
  when: manual
  script: make deploy TO=production
"""

TRACE = """\x1b[0Ksection_start:1700000000:prepare\r\x1b[0K\x1b[36;1mPreparing the shell\x1b[0m
Running on \x1b[1mrunner-7\x1b[0m with git 2.39
section_end:1700000003:prepare\r\x1b[0K
section_start:1700000003:sources\r\x1b[0K\x1b[36;1mGetting the sources\x1b[0m
Fetching changes with git depth set to 20...
\x1b[32;1mChecking out 8f2c1d4e as main...\x1b[0;m
section_end:1700000009:sources\r\x1b[0K
section_start:1700000009:script\r\x1b[0K\x1b[36;1mRunning the script\x1b[0m
\x1b[32;1m$ make integration\x1b[0m
cc -O2 -Wall -Wextra -Werror -c src/queue.c -o build/queue.o
cc -O2 -Wall -Wextra -Werror -c src/lease.c -o build/lease.o
\x1b[33mwarning:\x1b[0m tests/lease_test.c:41: this case takes over a second
test lease::renews_when_heard ... \x1b[32mok\x1b[0m
test lease::ends_after_silence ... \x1b[32mok\x1b[0m
test queue::oldest_first ... \x1b[32mok\x1b[0m
test queue::skips_held_groups ... \x1b[31;1mFAILED\x1b[0m
\x1b[41;97m failure \x1b[0m expected job 3, found job 5 in tests/queue_test.c:118
10%\r40%\r100% of artifacts looked at
test result: \x1b[31mFAILED\x1b[0m. 3 passed; 1 failed
"""


def ago(stand, minutes):
    """From here on the mock's clock stands so far back; a ciserver has its own."""
    if not stand.is_real:
        mock.BACK = minutes * 60


def run_all(stand, began, fails=()):
    """Each job takes two minutes, the first one so many minutes ago."""
    while True:
        ago(stand, began)
        grant = stand.take()
        if grant is None:
            return
        began -= 2.1
        ago(stand, began)
        grant.says(f"\x1b[32;1m$ {grant.name}\x1b[0m\ndone\n")
        grant.ends(*(("failed", 1) if grant.name in fails else ()))


def filled(stand):
    """Pipelines of each kind."""
    ago(stand, 2900)
    stand.pipeline(SMALL, "main", source="push")
    run_all(stand, 2899.8)
    ago(stand, 310)
    stand.pipeline(SMALL, "feature/lease-renewal", source="push")
    run_all(stand, 309.9, ["unit"])
    ago(stand, 190)
    stand.pipeline(SMALL, "v1.4.0", tag=True, source="push")
    run_all(stand, 189.8)
    ago(stand, 71)
    cancelled = stand.pipeline(SMALL, "fix/typo", source="web")
    stand.user("POST", f"/pipelines/{cancelled['id']}/cancel")
    ago(stand, 44)
    stand.pipeline(SMALL, "main", source="schedule")
    run_all(stand, 43.9)
    ago(stand, 9)
    large = stand.pipeline(LARGE, "main", source="push")["id"]
    grants = {}
    while grant := stand.take():
        ago(stand, {"fetch-sources": 8.6, "unit": 4, "integration": 3.2, "container-image": 1.5}.get(grant.name, 6.2))
        if grant.name in ("integration",):
            grants[grant.name] = grant
            grant.says(TRACE)
            if len(grants) == 1:
                grant.ends("failed", 2)
                stand.user("POST", f"/jobs/{stand.job(large, 'integration')}/retry")
                grants["again"] = stand.take()
                grants["again"].says(TRACE[:900])
            continue
        grant.says("\x1b[32;1m$ make\x1b[0m\nok\n").ends(*(("failed", 1) if grant.name == "style" else ()))
    stand.take("gpu").says("$ make gpu\ncompiling kernels\n")
    ago(stand, 0)
    stand.user("PUT", "/resource_groups/production", {"process_mode": "oldest_first"})
    stand.pipeline("stages: [deploy]\nship:\n  stage: deploy\n  resource_group: staging\n  script: x\nshipped-late:\n  stage: deploy\n  resource_group: staging\n  script: x\n", "hotfix/login", source="web")
    stand.take()
    return large


class Shots:
    """Takes pictures into a folder: all, or those that are named."""

    def __init__(self, browser, folder, wanted):
        self.browser, self.folder, self.wanted = browser, folder, wanted

    def take(self, name, where, prepare=lambda: None, full=False, is_in=True):
        if self.wanted and name not in self.wanted:
            return
        self.browser.metrics(*((390, 844, True) if name.endswith("phone") else (1400, 900)))
        self.browser.open(where, is_in)
        prepare()
        self.browser.shot(f"{self.folder}/{name}.png", full=full)

    def settled(self):
        """Until the view is there, and has asked for what it shows."""
        until(lambda: self.browser.run("return document.querySelectorAll('.row, .box, .line').length") > 2)
        until(lambda: False, 5)

    def dialog(self):
        self.browser.press("[data-act=run]")
        self.browser.press("dialog form > .button")


def views_of(stand, large):
    job = stand.job(large, "integration")
    first = next(it for it in stand.user("GET", f"/pipelines/{large}/jobs") if it["id"] == job)["attempts"][0]["id"]
    whole = f"#/pipelines/{large}/jobs/{job}"
    return {"pipelines": "#/pipelines", "pipeline": f"#/pipelines/{large}", "job": whole, "line": f"{whole}/attempts/{first}/lines/15", "waiting": "#/waiting", "groups": "#/groups"}


def main():
    words = sys.argv[1:]
    program = None
    if words[:1] == ["--server"]:
        program, words = words[1], words[2:]
    if not words:
        sys.exit(__doc__)
    folder = words[0]
    os.makedirs(folder, exist_ok=True)
    stand = Stand(program)
    browser = Browser().at(stand)
    shots = Shots(browser, folder, words[1:])
    try:
        views = views_of(stand, filled(stand))
        for scheme, kind in (("light", "light"), ("dark", "dark"), ("light", "phone")):
            browser.scheme(scheme)
            for name, where in views.items():
                shots.take(f"{name}-{kind}", where, shots.settled, full=kind == "phone")
            shots.take(f"token-{kind}", "", lambda: browser.sees("form.card"), is_in=False)
            shots.take(f"run-{kind}", "#/pipelines", shots.dialog)
        for fault in browser.faults():
            print(fault)
    finally:
        browser.end()
        stand.end()


if __name__ == "__main__":
    main()
