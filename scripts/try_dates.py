#!/usr/bin/env python3
"""Moves each day from 0001-01-01 to 9999-12-31 by one day, there and back, by the program, and compares it with Python's
calendar; days that there are not become empty.

    scripts/try_dates.py BINARY

It makes files of 4,000 values of 28 dates at most. Then, where strace is there, a file changes between the two readings of `+rm key`: the
output has to be that of its new bytes with the days of the first patient. Exits with 0 if all are as they should be.
"""
import datetime
import os
import shutil
import subprocess
import sys
import tempfile
import time
from pathlib import Path

from elements import LITTLE, OWN, even_leaf, file_of, leaf, open_item, open_sequence, tag_bytes

HEAD = file_of(LITTLE, b"")
IMAGES, STUDY_DATE, ID = 0x00081140, 0x00080020, 0x00100020
DATES_OF_A_VALUE = 28
VALUES_OF_A_FILE = 4_000


def sequence_of(values: list) -> bytes:
    """A sequence in which each item has a StudyDate."""
    return open_sequence(IMAGES, b"".join(open_item(even_leaf(STUDY_DATE, "DA", value)) for value in values))


def moved(binary: str, days: int, values: list) -> bytes:
    """What the program makes of a file of these values, behind its head."""
    run = subprocess.run([binary, "dcmdeid", "+rm", str(days), "-", "-"], input=HEAD + sequence_of(values), capture_output=True)
    if run.returncode != 0:
        sys.exit(f"status {run.returncode}: {run.stderr!r}")
    return run.stdout[len(HEAD) + len(OWN):]


def text(date: datetime.date) -> bytes:
    return b"%04d%02d%02d" % (date.year, date.month, date.day)


def parted(items: list, size: int) -> list:
    return [items[i:i + size] for i in range(0, len(items), size)]


def expect(binary: str, days: int, values: list, wanted: list) -> int:
    wrong = 0
    for some, others in zip(parted(values, VALUES_OF_A_FILE), parted(wanted, VALUES_OF_A_FILE)):
        if not moved(binary, days, some).startswith(sequence_of(others)):
            print(f"{days:+} days: values from {some[0]!r} on are wrong")
            wrong += 1
    return wrong


def of_patient(name: bytes, date: datetime.date) -> bytes:
    """A file of a patient, with a date."""
    return file_of(LITTLE, even_leaf(STUDY_DATE, "DA", text(date)) + even_leaf(ID, "LO", name))


def dates_in(output: bytes) -> list:
    """The date of an output."""
    at = output.index(tag_bytes(STUDY_DATE, LITTLE)) + len(leaf(STUDY_DATE, "DA", b""))
    return [datetime.datetime.strptime(output[at:at + 8].decode(), "%Y%m%d").date()]


# the second opening of the file waits for so long, and the file changes meanwhile; the openings before it: two of the loader, the key,
# and the first of the file
SECOND_OPENING, WAITS, CHANGES_AFTER = 5, 1.0, 0.4


def changes_between(binary: str) -> int:
    """Whether something is wrong where a file changes between its readings."""
    strace = shutil.which("strace")
    if not strace:
        print("strace is not here: no file changes between its readings")
        return 0
    first, second = of_patient(b"1234", datetime.date(2024, 1, 31)), of_patient(b"99", datetime.date(2001, 2, 3))
    with tempfile.TemporaryDirectory() as folder:
        key, path, output = (os.path.join(folder, name) for name in ("key", "file", "output"))
        Path(key).write_bytes(bytes(range(32)))
        words = [binary, "dcmdeid", "+k", key]
        Path(path).write_bytes(first)
        subprocess.run([*words, "+rm", "key", path, output], check=True)
        days = (dates_in(Path(output).read_bytes())[0] - dates_in(first)[0]).days
        wanted = subprocess.run([*words, "+rm", str(days), "-", "-"], input=second, capture_output=True, check=True).stdout
        os.remove(output)
        slow = f"inject=openat:delay_enter={int(WAITS * 1e6)}:when={SECOND_OPENING}"
        with subprocess.Popen([strace, "-o", os.devnull, "-e", "trace=openat", "-e", slow, *words, "+rm", "key", path, output]) as run:
            time.sleep(CHANGES_AFTER)
            Path(path).write_bytes(second)
        if run.returncode or Path(output).read_bytes() != wanted:
            print("a file that changed between its readings: another output")
            return 1
    print(f"a file that changed between its readings: the new bytes, moved by {days} days")
    return 0


def main(binary: str) -> int:
    all_days = [text(datetime.date.fromordinal(n)) for n in range(1, datetime.date.max.toordinal() + 1)]
    before, after = all_days[:-1], all_days[1:]
    joined = [b"\\".join(part) for part in parted(before, DATES_OF_A_VALUE)]
    later = [b"\\".join(part) for part in parted(after, DATES_OF_A_VALUE)]
    there = set(all_days)
    none = [b"%04d%02d%02d" % (y, m, d) for y in (0, 1, 4, 1900, 1999, 2000, 2023, 2024, 2100, 9999)
            for m in range(0, 14) for d in range(0, 33)]
    none = [day for day in none if day not in there]
    wrong = expect(binary, 1, joined, later) + expect(binary, -1, later, joined)
    wrong += expect(binary, 1, none + [all_days[-1]], [b""] * (len(none) + 1)) + expect(binary, -1, [all_days[0]], [b""])
    print(f"{len(all_days):,} days, {len(none):,} that there are not: {wrong} files wrong")
    wrong += changes_between(os.path.abspath(binary))
    return 1 if wrong else 0


if __name__ == "__main__":
    sys.exit(main(*sys.argv[1:]))
