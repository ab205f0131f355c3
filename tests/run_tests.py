#!/usr/bin/env python3
"""Runs the tests of test_*.py, or of the modules that are named, over the program, as many at a time as there are processors.

It prints `ok NAME` for each, or why it failed; `not tried: NAME`, and why, for one that wants what isn't there; and at the end how many passed and failed.
"""
import io
import os
import sys
import time
import unittest
from concurrent.futures import ProcessPoolExecutor, as_completed

from world import shim

HERE = os.path.dirname(os.path.abspath(__file__))


def names(suite):
    for test in suite:
        if isinstance(test, unittest.TestSuite):
            yield from names(test)
        else:
            yield test.id()


def ran(name):
    """A test: its seconds, why it failed, if it did, and why it wasn't tried, if it wasn't."""
    begin, told = time.monotonic(), io.StringIO()
    result = unittest.TextTestRunner(told, verbosity=0).run(unittest.defaultTestLoader.loadTestsFromName(name))
    is_good = result.wasSuccessful() and result.testsRun == 1
    return name, time.monotonic() - begin, None if is_good else told.getvalue(), result.skipped[0][1] if result.skipped else None


def main(modules):
    shim()
    modules = modules or sorted(name[:-3] for name in os.listdir(HERE) if name.startswith('test_') and name.endswith('.py'))
    tests = list(names(unittest.defaultTestLoader.loadTestsFromNames(modules)))
    passed = failed = 0
    with ProcessPoolExecutor(os.cpu_count()) as pool:
        for future in as_completed([pool.submit(ran, name) for name in tests]):
            name, seconds, why, untried = future.result()
            failed += why is not None
            passed += why is None and untried is None
            if untried is not None:
                print(f'not tried: {name}: {untried}', flush=True)
            else:
                print(f'ok {name} ({seconds:.1f} s)' if why is None else f'failed {name}\n{why}', flush=True)
    print(f'{passed} passed, {failed} failed')
    return 1 if failed or not tests else 0


if __name__ == '__main__':
    sys.exit(main(sys.argv[1:]))
