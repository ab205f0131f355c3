#!/usr/bin/env python3
"""Tries the page in a browser, over a server in memory (mock.py), or over a ciserver: each test by its name, and at the end `N passed, M failed`.

    web/tests/run.py [--server CISERVER] [TEST..]        as in: web/tests/run.py --server bin/ciserver loses_the_server

It wants Debian's chromium, chromium-driver, nginx and python3-selenium.
"""
import importlib.util
import os
import shutil
import signal
import sys
import time
import traceback

sys.dont_write_bytecode = True
WANTED = {"chromium": "chromium", "chromedriver": "chromium-driver", "nginx": "nginx"}
PATH = os.environ["PATH"] = os.environ["PATH"] + ":/usr/sbin"
SERVED = [it for it in ("/usr/bin/python3",) if os.path.realpath(sys.executable) != os.path.realpath(it)]


def missing():
    """The packages that aren't there."""
    names = [package for program, package in WANTED.items() if not shutil.which(program)]
    if importlib.util.find_spec("selenium") is None:
        # Debian's own python3 may have it where another one comes first.
        if SERVED and os.path.exists(SERVED[0]) and "PAGE_TESTS" not in os.environ:
            os.environ["PAGE_TESTS"] = "1"
            os.execv(SERVED[0], [SERVED[0], *sys.argv])
        names.append("python3-selenium")
    return names


def tried(test, browser, program):
    """Why a test failed, or None. It has a server and an nginx of its own; the browser is the same for all."""
    from stand import Stand
    stand = None
    try:
        stand = Stand(program)
        browser.at(stand)
        test(stand, browser)
        assert (faults := browser.faults()) == [], faults
        return None
    except Exception:
        return traceback.format_exc()
    finally:
        if stand:
            stand.end()


def main():
    words = sys.argv[1:]
    program = None
    if words[:1] == ["--server"]:
        program, words = words[1], words[2:]
    lacking = missing()
    if lacking:
        print(f"not tried, for want of packages: apt-get install {' '.join(lacking)}")
        print("0 passed, 1 failed")
        return 1
    import cases
    import traces
    from browser import Browser
    tests = {name[5:]: test for name, test in (vars(cases) | vars(traces)).items() if name.startswith("test_")}
    unknown = [word for word in words if word not in tests]
    if unknown:
        print(f"no such test: {', '.join(unknown)}", file=sys.stderr)
        return 2
    passed = failed = 0
    # Where it is told to end, it ends what it began.
    signal.signal(signal.SIGTERM, lambda *_: sys.exit(143))
    browser = Browser()
    try:
        for name in words or tests:
            begin = time.monotonic()
            why = tried(tests[name], browser, program)
            passed, failed = passed + (why is None), failed + (why is not None)
            print(f"ok {name} ({time.monotonic() - begin:.1f} s)" if why is None else f"failed {name}\n{why}", flush=True)
    finally:
        browser.end()
    print(f"{passed} passed, {failed} failed")
    return 1 if failed or not passed else 0


if __name__ == "__main__":
    sys.exit(main())
