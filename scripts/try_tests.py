#!/usr/bin/env python3
"""Runs all tests with nothing proved, in minutes, as many crates at once as there are processors.

    scripts/try_tests.py [NAME..]      the tests of these crates, or of all that have tests

It needs `rt`, and prints a line for each crate and each test that does not pass. The last line is `N passed, M failed`. Each crate's
tests stop after LIMIT seconds. Exits with 0 if all tests pass. `rt ci` proves these tests and runs them too.
"""
import re
import subprocess
import sys
from concurrent.futures import ThreadPoolExecutor
from os import sched_getaffinity
from pathlib import Path
from typing import NamedTuple

CRATES = Path(__file__).resolve().parent.parent / "crates"
LIMIT = 3600

OUTCOME = re.compile(r"^test (\S+) \.\.\. (.+)$", re.MULTILINE)
RESULT = re.compile(r"^test result: \w+\. (\d+) passed; (\d+) failed", re.MULTILINE)


class Tried(NamedTuple):
    name: str
    passed: int
    failed: int
    said: str


def with_tests() -> list:
    """The crates that have a function under #[test]."""
    return [crate.name for crate in sorted(CRATES.iterdir()) if any("#[test]" in path.read_text() for path in crate.glob("src/**/*.rt"))]


def tests_of(name: str) -> int:
    return sum(path.read_text().count("#[test]") for path in (CRATES / name).glob("src/**/*.rt"))


def tried(name: str) -> Tried:
    """Runs the tests of a crate. Tests that did not end count as failed."""
    words = ["rt", "try", "--test", "--seconds", str(LIMIT)]
    ran = subprocess.run(words, cwd=CRATES / name, capture_output=True, text=True, errors="replace", check=False)
    said = ran.stdout + ran.stderr
    wrong = [f"{name}: {test}: {outcome}" for test, outcome in OUTCOME.findall(said) if outcome != "ok"]
    found = RESULT.search(said)
    passed = int(found[1]) if found else len(OUTCOME.findall(said)) - len(wrong)
    failed = tests_of(name) - passed
    if not found:
        wrong.append(f"{name}: the tests did not end: {said.strip().splitlines()[-1] if said.strip() else 'nothing was said'}")
    return Tried(name, passed, failed, "\n".join(wrong))


def main() -> int:
    names = sys.argv[1:] or with_tests()
    with ThreadPoolExecutor(len(sched_getaffinity(0))) as pool:
        all_tried = []
        for one in pool.map(tried, names):
            print(*filter(None, [one.said, f"{one.name}: {one.passed} passed, {one.failed} failed"]), sep="\n", flush=True)
            all_tried.append(one)
    failed = sum(one.failed for one in all_tried)
    print(f"{sum(one.passed for one in all_tried)} passed, {failed} failed")
    return 1 if failed else 0


if __name__ == "__main__":
    sys.exit(main())
