#!/usr/bin/env python3
"""Runs the runner's tests, several at a time, and tells those that failed; the last line is `N passed, M failed`.

    runner/tests/run.py [CISERVER]        as in: runner/tests/run.py bin/ciserver
"""
import concurrent.futures
import os
import subprocess
import sys
import unittest

HERE = os.path.dirname(os.path.realpath(__file__))


def names(suite) -> list[str]:
    return [name for part in suite for name in (names(part) if isinstance(part, unittest.TestSuite) else [part.id()])]


def tried(name: str) -> tuple[str, subprocess.CompletedProcess]:
    words = [sys.executable, "-m", "unittest", name]
    return name, subprocess.run(words, cwd=HERE, stdin=subprocess.DEVNULL, stdout=subprocess.PIPE, stderr=subprocess.STDOUT, text=True, check=False)


def main() -> int:
    os.environ["CISERVER"] = os.path.realpath(sys.argv[1] if len(sys.argv) > 1 else os.path.join(HERE, "../../bin/ciserver"))
    if not os.access(os.environ["CISERVER"], os.X_OK):
        print("there is no bin/ciserver: make build", file=sys.stderr)
        return 1
    found = names(unittest.defaultTestLoader.discover(HERE))
    passed = failed = 0
    skipped = []
    # Most of a test is waiting.
    with concurrent.futures.ThreadPoolExecutor(4 * (os.cpu_count() or 1)) as pool:
        for name, done in pool.map(tried, found):
            if "(skipped=" in done.stdout:
                skipped.append(name)
            elif done.returncode == 0:
                passed += 1
            else:
                failed += 1
                print(f"{name}\n{done.stdout}", flush=True)
    for name in skipped:
        print(f"not tried: {name}: podman runs no container here")
    print(f"{passed} passed, {failed} failed")
    return 1 if failed or not passed else 0


if __name__ == "__main__":
    sys.exit(main())
