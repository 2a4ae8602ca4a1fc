"""Runs the tests of one module for `checks/lines`. The last line of the output counts them, as JSON."""
from __future__ import annotations

import json
import sys
import unittest
from pathlib import Path
from typing import Set

sys.path.append(str(Path(__file__).resolve().parents[4] / "tools"))
from tap import NotedResult  # noqa: E402


def main() -> int:
    """Runs the module that the first argument names."""
    tests = unittest.defaultTestLoader.loadTestsFromName(sys.argv[1])
    result = unittest.TextTestRunner(sys.stderr, resultclass=NotedResult).run(tests)
    bad: Set[str] = {test.id() for test, _ in (*result.errors, *result.failures)}
    bad |= {test.id() for test in result.unexpectedSuccesses}
    skipped = sorted({f"{test.id()}: {reason}" for test, reason in result.skipped})
    print(json.dumps({"passed": result.passed, "failed": len(bad), "skipped": skipped}))
    return 1 if bad else 0


if __name__ == "__main__":
    sys.exit(main())
