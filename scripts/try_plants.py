#!/usr/bin/env python3
"""Plants wrong bodies in crates by `rt plant`, and reads what became of each.

    scripts/try_plants.py NAME..           plants in these crates, which takes minutes, and notes what became of the bodies
    scripts/try_plants.py --read NAME=FILE notes what `rt plant NAME --all` printed into a file
    scripts/try_plants.py --check          says in a second which crates changed since
    scripts/try_plants.py --table          prints the record, and which crates changed since

The record is scripts/edits/plants.tsv: crate, checksum of its sources and definitions (but not of comments), day, and how many bodies
were refused, of how many a goal stayed open at a limit, in how many functions no more could be planted; then what proves, and why it is
right. That last column is written by hand. A body that proves has to be named there by its function.

What `rt plant` calls not judged is one of two things. A goal of the body stays open where a tactic gave up at a limit: the check refuses
such a body, as it refuses an edit. Or the tactics alone do not prove the unchanged call of a function, or cannot tell which line of the
check is its own, so that no more was planted there. Such a function has to have an edit (`try_edits.py`), which is tried with the
function's own proof. It ends with 0 where each body is refused, named as right, or so answered by edits.
"""
import datetime
import functools
import importlib.machinery
import io
import os
import re
import shutil
import sys
import types
from contextlib import redirect_stdout
from pathlib import Path
from typing import NamedTuple

import try_edits
from try_edits import ROOT

RECORD = try_edits.OTHERS / "plants.tsv"

ROW = re.compile(r"(?P<kind>[\w-]+) +(?P<file>src/[\w/]+\.rt):\d+ (?P<path>.*?): \{ ?(?P<body>.*?) ?\}(?:  \((?P<why>.*)\))?$")
AT_A_LIMIT = "the tactics met a limit"

# How many bodies are planted at most, and for how many minutes: more than any crate has, or takes.
MOST, MINUTES = "3000", "120"


class Planted(NamedTuple):
    kind: str
    file: str
    path: str
    body: str
    why: str

    def name(self) -> str:
        return re.sub(r".*::", "", self.path)


class Counts(NamedTuple):
    """Bodies that were refused, those of which a goal stayed open at a limit, and functions in which no more was planted."""

    refused: int
    at_a_limit: int
    no_more: int


def planted_of(said: str) -> list[Planted]:
    """The bodies that a run planted. A line that is not understood fails."""
    found = []
    for line in said.splitlines():
        if re.match(r"(untested|no-ensures|note:|plants crate=)", line):
            continue
        row = ROW.match(line)
        if not row:
            sys.exit(f"this line is not understood: {line}")
        found.append(Planted(row["kind"], row["file"], row["path"], row["body"], row["why"] or ""))
    return found


def counts_of(planted: list[Planted]) -> Counts:
    not_judged = [it for it in planted if it.kind == "not-judged"]
    at_a_limit = [it for it in not_judged if it.why == AT_A_LIMIT]
    others = {(it.file, it.path) for it in not_judged if it.why != AT_A_LIMIT}
    return Counts(sum(it.kind == "refused" for it in planted), len(at_a_limit), len(others))


def unanswered(crate: str, planted: list[Planted], right: str) -> list[str]:
    """What nothing answers: bodies that prove and are not named as right, those that were not tried, and functions in which no more was
    planted and which no edit turns."""
    named = set(re.findall(r"`([\w:]+)`", right))
    bare = {(it.file, it.name) for it in try_edits.functions_without_edit(crate)}
    page = set(re.findall(r"`([\w:]+)`", PAGE.read_text()))
    lines = []
    for it in planted:
        what = f"{crate} {it.file} {it.path}: {{ {it.body} }}"
        if it.kind == "proves" and it.name() not in named:
            lines.append(f"{what} proves, and the record does not say why it is right")
        if it.kind == "not-run":
            lines.append(f"{what} was not tried")
        has_no_edit = (it.file, it.name()) in bare and it.name() not in page
        if it.kind == "not-judged" and has_no_edit:
            lines.append(f"{what} was not judged ({it.why}), and no edit turns the function")
    return lines


# ---- the record

def record() -> dict[str, list[str]]:
    return try_edits.rows_of(RECORD)


def right_of(crate: str) -> str:
    row = record().get(crate, [])
    return row[5] if len(row) > 5 else ""


def checksum(crate: str) -> str:
    """Of what a plant meets: the sources without comments, and the definitions."""
    return try_edits.checksum_of(crate, ("src", "specs"), ())


def note(crate: str, counts: Counts) -> None:
    row = [checksum(crate), datetime.date.today().isoformat(), *map(str, counts), right_of(crate)]
    head = "# crate\tchecksum\tday\trefused\topen at a limit\tfunctions without more\twhat proves, and is right"
    try_edits.note_row(RECORD, head, crate, row)


def check() -> int:
    rows = record()
    changed = [name for name in rows if rows[name][0] != checksum(name)]
    for name in changed:
        print(f"{name}: changed since bodies were planted in it")
    return 1 if changed else 0


def table() -> int:
    rows = record()
    print("crate\tday\trefused\topen at a limit\tfunctions without more\twhat proves, and is right")
    for name, row in rows.items():
        _, day, refused, at_a_limit, no_more, *right = row
        changed = ", changed since" if row[0] != checksum(name) else ""
        print(name, day + changed, refused, at_a_limit, no_more, " ".join(right), sep="\t")
    return 0


# ---- the planting

def plant(crate: str) -> str:
    """What `rt plant` prints of a crate. The kit's command reads the sources of a library once for each way to it: here once."""
    path = Path(os.path.realpath(shutil.which("rt") or "rt")).parent / "rt-plant"
    kit = types.ModuleType("kit_plant")
    kit.__file__ = str(path)
    importlib.machinery.SourceFileLoader("kit_plant", str(path)).exec_module(kit)
    kit.rt.Crate.stamp = functools.cache(kit.rt.Crate.stamp)
    os.chdir(ROOT / "crates" / crate)
    with redirect_stdout(io.StringIO()) as said:
        kit.main("--all", "--max", MOST, "--minutes", MINUTES)
    return said.getvalue()


def take(crate: str, said: str) -> int:
    """Notes what was printed of a crate, and answers how much of it nothing answers."""
    planted = planted_of(said)
    counts = counts_of(planted)
    lines = unanswered(crate, planted, right_of(crate))
    for line in lines:
        print(f"!! {line}")
    note(crate, counts)
    print(f"{crate}: {counts.refused} refused, {counts.at_a_limit} open at a limit, {counts.no_more} functions without more, {len(lines)} unanswered")
    return len(lines)


def main(words: list[str]) -> int:
    if words == ["--check"]:
        return check()
    if words == ["--table"]:
        return table()
    if words[:1] == ["--read"]:
        pairs = [word.partition("=") for word in words[1:]]
        return 1 if sum(take(crate, Path(file).read_text()) for crate, _, file in pairs) else 0
    if not words:
        sys.exit("name crates: each takes minutes")
    return 1 if sum(take(crate, plant(crate)) for crate in words) else 0


if __name__ == "__main__":
    sys.exit(main(sys.argv[1:]))
