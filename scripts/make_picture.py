#!/usr/bin/env python3
"""Draws the way of an element through the crates into docs/engineers/ARCHITECTURE.md.

    scripts/make_picture.py            writes the picture
    scripts/make_picture.py --check    ends with 1 where the page has another picture, or crates.txt has no such use

Each row of ROWS is a box: how deep the box stands, its crate, and what the crate does. A box uses the crate of the box that it stands
under, or is used by that crate: one of both has to be in crates.txt.
"""
import sys
from pathlib import Path

sys.dont_write_bytecode = True

from made_pages import write_or_check

ROOT = Path(__file__).resolve().parent.parent
PAGE = ROOT / "docs/engineers/ARCHITECTURE.md"
BEGIN = "<!-- picture: drawn by scripts/make_picture.py -->"
END = "<!-- end of picture -->"

ROWS = [
    (0, "dcmtools", "main"),
    (1, "dcm_tables", "the program: the words of a command line lead to one run"),
    (2, "dcm_trees", "runs over folders and lists (+r)"),
    (2, "dcm_each", "many files by their names: tables and dumps"),
    (2, "dcm_cli", "one file: opens, runs, reports"),
    (3, "dcm_words", "what the words mean"),
    (3, "dcm_files", "opens files, and gives their bytes in pieces"),
    (3, "dcm_head", "the preamble and the meta group"),
    (3, "dcm_stream", "the data set: bytes to tokens"),
    (4, "dcm_sinks", "tokens to a dump, or to a file in another syntax"),
    (5, "dcm_value", "a value as text"),
    (5, "dcm_editor", "tokens with edits, to the sink of a file"),
    (5, "dcm_deid", "tokens without identity, to the sink of a file"),
    (5, "dcm_build", "lines of a dump to tokens, to the sink of a file"),
    (4, "dcm_table", "tokens to the cells of a row"),
]
MOST_BOXES = 15


def uses() -> dict:
    """The crates that each crate uses."""
    lines = [line.split(":") for line in (ROOT / "crates.txt").read_text().splitlines() if ":" in line]
    return {name.split()[0]: set(used.split()) for name, used in lines}


def parent(place: int) -> str:
    """The crate of the box that a box stands under."""
    return next(crate for depth, crate, _ in reversed(ROWS[:place]) if depth < ROWS[place][0])


def faults() -> list:
    """The boxes that no use of a crate leads to."""
    used = uses()
    wrong = [f"more than {MOST_BOXES} boxes"] if len(ROWS) > MOST_BOXES else []
    for place, (depth, crate, _) in enumerate(ROWS):
        if depth and crate not in used.get(parent(place), set()) and parent(place) not in used.get(crate, set()):
            wrong.append(f"neither of {parent(place)} and {crate} uses the other")
    return wrong


def picture() -> str:
    width = max(3 * depth + len(crate) for depth, crate, _ in ROWS) + 3
    return "\n".join(f"    {'   ' * depth}{crate}".ljust(width + 4) + f"  {text}" for depth, crate, text in ROWS)


if __name__ == "__main__":
    sys.exit(write_or_check(PAGE, BEGIN, END, picture(), faults()))
