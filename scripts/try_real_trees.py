#!/usr/bin/python3
"""Takes identity out of a tree of real files, with cuts, and looks at what is left.

    scripts/try_real_trees.py BINARY FOLDER.. [--files N] [--cuts N]

The DICOM files below the folders are copied until there are N (3000), each with a SOPInstanceUID of its own (by dcmodify) where that can
be set, below folders that are named as patients. `dcmdeid +bi +k KEY +pi +rm key +r IN OUT` is cut off by SIGKILL at random moments (10);
each time its part is removed, and it goes on with `+c`. Then:

- Each name has one row in the last run, and what stands in OUTPUT is what the rows name, and no more.
- Each output is, to the byte, what dcmdeid writes of that file alone, has its mode, and has the name of the identifiers that pydicom
  (Debian's python3-pydicom) reads in it. What a run of that file alone refuses has a row that says so, and no output.
- No name of a folder or a file of IN is in a path of OUTPUT. Files of one PatientID have one pseudonym, and their dates are moved by
  the same days.
- A second run with `+c` changes nothing, and its rows are `there` where they were `written`.

The last line is `N files, M outputs, K findings`; the status is 1 where K is not 0."""
import argparse
import collections
import csv
import io
import os
import random
import signal
import stat
import subprocess
import sys
import tempfile
import time
import warnings
from pathlib import Path

sys.dont_write_bytecode = True

import pydicom

from try_identity import parts, patient, placed, sources

OPTIONS = ["+bi", "+pi", "+rm", "key"]
# a run is cut off within so many seconds for each file
CUT_WITHIN = 0.0002
STATUS = {"refused": 2, "unnamed": 2, "pixels": 3}


def run(words, **more):
    return subprocess.run(words, capture_output=True, check=False, **more)


def make_tree(binary, folders, folder, count):
    """Copies real files until there are so many. Answers their names."""
    found, names = list(sources(folders)), []
    for number in range(count):
        source = found[number % len(found)]
        name = f"Doe{number % 97}^Jane/{number // 97} {source.stem}"
        path = os.path.join(folder, name)
        os.makedirs(os.path.dirname(path), exist_ok=True)
        edit = ["dcmodify", "+dict", "-m", f"SOPInstanceUID=1.2.3.{number}"]
        if run([binary, *edit, str(source), path]).returncode:
            Path(path).write_bytes(source.read_bytes())
        os.chmod(path, 0o600 if number % 3 else 0o640)
        names.append(name)
    return names


def cut_off(words, limit):
    """Starts a run, and kills it at a random moment. Answers whether it had not ended."""
    with subprocess.Popen(words, stdout=subprocess.DEVNULL, stderr=subprocess.DEVNULL) as process:
        time.sleep(random.uniform(0, limit))
        process.send_signal(signal.SIGKILL)
    return process.returncode == -signal.SIGKILL


def rows_of(done):
    return list(csv.reader(io.StringIO(done.stdout.decode("utf-8"), newline="")))[1:]


def files_below(folder):
    return {os.path.relpath(path, folder): path for path in map(str, Path(folder).rglob("*")) if not os.path.isdir(path)}


def identifiers(path):
    """The name that the identifiers in a file give it."""
    data = pydicom.dcmread(path, force=True, stop_before_pixels=True)
    return f"{data.StudyInstanceUID}/{data.SeriesInstanceUID}/{data.SOPInstanceUID}.dcm"


def days_between(source, output):
    """By how many days the dates of an output are moved."""
    before, after = (dict(placed(pydicom.dcmread(path, force=True, stop_before_pixels=True))) for path in (source, output))
    moves = set()
    for place, element in after.items():
        if element.VR in ("DA", "DT"):
            for old, new in zip(parts(before[place]), parts(element)):
                if new:
                    old_day, new_day = (time.strptime(text[:8], "%Y%m%d") for text in (old, new))
                    moves.add(round((time.mktime(new_day) - time.mktime(old_day)) / 86400))
    return moves


def wrong_files(binary, key, source, output, row, alone):
    """What is wrong with what became of a file, against a run of it alone."""
    done = run([binary, "dcmdeid", "+k", key, *OPTIONS, source, alone])
    if row[2] in STATUS:
        return [] if done.returncode == STATUS[row[2]] or row[2] == "unnamed" else [f"{row}: alone status {done.returncode}"]
    if done.returncode:
        return [f"{row}: alone status {done.returncode}"]
    wrong = [] if Path(alone).read_bytes() == Path(output).read_bytes() else [f"{row}: other bytes than alone"]
    if row[2] == "written" and stat.S_IMODE(os.stat(source).st_mode) & 0o755 != stat.S_IMODE(os.stat(output).st_mode):
        wrong.append(f"{row}: another mode")
    if identifiers(output) != row[1]:
        wrong.append(f"{row}: named by other identifiers: {identifiers(output)}")
    os.remove(alone)
    return wrong


def wrong_patients(pairs):
    """What is wrong with pseudonyms and days of (old PatientID, new PatientID, days)."""
    wrong = []
    for index, what in ((0, "PatientID"), (1, "pseudonym")):
        groups = collections.defaultdict(set)
        for pair in pairs:
            groups[pair[index]].add(pair[1 - index])
        wrong += [f"{what} {name!r}: {sorted(others)}" for name, others in groups.items() if len(others) > 1]
    moves = collections.defaultdict(set)
    for old, _, days in pairs:
        moves[old] |= set(days)
    return wrong + [f"PatientID {old!r}: moved by {sorted(days)}" for old, days in moves.items() if len(days) > 1]


def main():
    parser = argparse.ArgumentParser(usage=__doc__)
    parser.add_argument("binary")
    parser.add_argument("folders", nargs="+")
    parser.add_argument("--files", type=int, default=3000)
    parser.add_argument("--cuts", type=int, default=10)
    given = parser.parse_args()
    binary = os.path.abspath(given.binary)
    warnings.simplefilter("ignore")
    os.environ["TZ"] = "UTC"
    os.umask(0o022)
    found = []
    with tempfile.TemporaryDirectory() as folder:
        key, tree, outputs = (os.path.join(folder, name) for name in ("key", "in", "out"))
        Path(key).write_bytes(os.urandom(32))
        names = make_tree(binary, given.folders, tree, given.files)
        before = {name: (os.stat(path).st_mtime_ns, os.stat(path).st_size) for name, path in files_below(tree).items()}
        words = [binary, "dcmdeid", "+k", key, *OPTIONS, "+c", "+r", tree, outputs]
        cuts = 0
        for _ in range(given.cuts):
            cuts += cut_off(words, CUT_WITHIN * given.files)
            if os.path.exists(os.path.join(outputs, ".part.1")):
                os.remove(os.path.join(outputs, ".part.1"))
        done = run(words)
        rows = rows_of(done)
        print(f"{cuts} runs were cut off; the last one: status {done.returncode}")
        if sorted(row[0] for row in rows) != sorted(names):
            found.append("the rows are not one for each name")
        left = files_below(outputs)
        named = {row[1] for row in rows if row[1]}
        if set(left) != named:
            found.append(f"OUTPUT has {len(left)} files, and rows name {len(named)}: {sorted(set(left) ^ named)[:3]}")
        if before != {name: (os.stat(path).st_mtime_ns, os.stat(path).st_size) for name, path in files_below(tree).items()}:
            found.append("IN has changed")
        pairs = []
        for row in rows:
            source = os.path.join(tree, row[0])
            output = os.path.join(outputs, row[1])
            found += wrong_files(binary, key, source, output, row, os.path.join(folder, "alone"))
            if row[1]:
                pairs.append((patient(source), patient(output), tuple(days_between(source, output))))
                if any(part in row[1] for part in row[0].replace(" ", "/").split("/") if len(part) > 3 and not part.isdigit()):
                    found.append(f"{row}: an old name in a new one")
        found += wrong_patients(pairs)
        again = run(words)
        if sorted(rows_of(again)) != sorted([name, output, "there" if output else status] for name, output, status in rows):
            found.append("a second run has other rows")
        if {name: os.stat(path).st_ino for name, path in files_below(outputs).items()} != {name: os.stat(path).st_ino for name, path in left.items()}:
            found.append("a second run has other files")
        counts = collections.Counter(row[2] for row in rows)
        print(", ".join(f"{count} {word}" for word, count in counts.most_common()) + f"; {len({pair[0] for pair in pairs})} patients")
        for line in found:
            print(line)
        print(f"{len(names)} files, {len(left)} outputs, {len(found)} findings")
    return 1 if found else 0


if __name__ == "__main__":
    sys.exit(main())
