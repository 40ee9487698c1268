#!/usr/bin/env python3
"""Runs the tests of the tools: prints each failure and at the end `tools: N passed, N failed`. A test with several failures
counts once. Ends with 1 where one fails."""
from __future__ import annotations

import io
import os
import sys
import unittest
from pathlib import Path

HERE = Path(__file__).resolve().parent


def main() -> int:
    sys.path[:0] = [str(HERE.parent), str(HERE)]
    os.environ["PYTHONDONTWRITEBYTECODE"] = "1"
    sys.dont_write_bytecode = True
    tests = unittest.TestLoader().discover(str(HERE), pattern=sys.argv[1] if len(sys.argv) > 1 else "test_*.py", top_level_dir=str(HERE))
    text = io.StringIO()
    result = unittest.TextTestRunner(stream=text, verbosity=0).run(tests)
    failed = {test.id().split(" ")[0] for test, _ in result.failures + result.errors}
    if failed:
        print(text.getvalue())
    print(f"tools: {result.testsRun - len(failed)} passed, {len(failed)} failed")
    return 1 if failed or not result.testsRun else 0


if __name__ == "__main__":
    sys.exit(main())
