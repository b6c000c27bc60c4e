#!/usr/bin/env python3
"""Runs the tests of the tools, on the program that was built.

    tests/all.py [WWT]

WWT is the built program, crates/wwt/out/wwt if it isn't given. What needs a program that isn't
there (the built one, Chromium, a compiler for RISC-V, Dask) is skipped, and a line says so.
"""
import os
import sys
import unittest


def main():
    if len(sys.argv) > 2 or sys.argv[1:2] in (["-h"], ["--help"]):
        sys.exit(__doc__)
    here = os.path.dirname(os.path.abspath(__file__))
    if len(sys.argv) == 2:
        os.environ["WWT"] = os.path.abspath(sys.argv[1])
    tests = unittest.defaultTestLoader.discover(here, pattern="test_*.py", top_level_dir=here)
    result = unittest.TextTestRunner(verbosity=1).run(tests)
    for test, reason in result.skipped:
        print(f"skipped: {test}: {reason}", file=sys.stderr)
    sys.exit(0 if result.wasSuccessful() else 1)


if __name__ == "__main__":
    main()
