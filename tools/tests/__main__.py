#!/usr/bin/env python3
"""python3 tools/tests [NAME..]

Tests of what stands around the program: tools/play, tools/show and its page, tools/insert_lines.py, tools/sheet, how
the tools are called and installed, tools/against, the editor modes; of `load`, of how large a file grows, and of what documents say
of the crates.

They play through build/wm, or $WM. A test that lacks something, as a browser, is skipped and says so.
"""
import sys
import unittest
from pathlib import Path

HERE = Path(__file__).resolve().parent
sys.path[:0] = [str(HERE), str(HERE.parent), str(HERE.parent / "show")]

from called import see_to_python

see_to_python()


def main():
    loader = unittest.TestLoader()
    names = sys.argv[1:]
    suite = loader.loadTestsFromNames(names) if names else loader.discover(str(HERE))
    result = unittest.TextTestRunner(verbosity=1).run(suite)
    for test, reason in result.skipped:
        print(f"skipped {test}: {reason}")
    return 0 if result.wasSuccessful() and result.testsRun else 1


if __name__ == "__main__":
    sys.exit(main())
