#!/usr/bin/env python3
"""Makes what becomes of the elements of PS3.15 table E.1-1, and the numbers of those that are always kept, from data/deidentify.tsv.

    scripts/make_actions.py > crates/dcm_deid/src/table.rt
    scripts/make_actions.py --kept-numbers > crates/dcm_deid/src/kept_numbers.rt
    scripts/make_actions.py --check        ends with 1 where one of the two is another one

Rows of ranges (curves and overlays, 50xx and 60xx) are left out: the data dictionary has no element of theirs, so they
are removed as what is unknown. The data file says where each row is from.
"""
import contextlib
import io
import re
import sys
from pathlib import Path

DATA = Path(__file__).parent.parent / "data/deidentify.tsv"
SOURCES = Path(__file__).parent.parent / "crates/dcm_deid/src"
FATES = {"remove": "Remove", "empty": "Empty", "replace": "Replace", "uid": "Anew(NewValue::Uid)", "keep": "Keep"}
OPTIONS = {"u": "Uids", "d": "Device", "i": "Institution", "p": "Patient", "l": "Dates"}
HEADER = """//! What becomes of the elements of PS3.15 table E.1-1, edition 2021b, and of those that this project adds.
//! `scripts/make_actions.py` wrote this file from `data/deidentify.tsv`.
use crate::fate::{{Fate, NewValue, Retain}};

/// A row: the number of a tag, what becomes of the element, and the options that keep it.
pub type Action = (u32, Fate, &'static [Retain]);

/// The rows, in tag order.
#[rattlefmt::skip]
pub const ACTIONS: [Action; {count}] = [
"""
MARKS_HEADER = """
/// The marks, 64 to a word, the lowest bit first: that of each row is set, and those of nearly all other numbers are
/// not.
#[rattlefmt::skip]
pub const MARKS: [u64; {words}] = [
"""
KEPT_HEADER = """//! Numbers of elements that are kept whatever the options are.
//! `scripts/make_actions.py --kept-numbers` wrote this file from `data/deidentify.tsv`.
"""
KEPT_TABLE_HEADER = """
/// The tags of {what} that each option keeps at all depths. Each tag has a place of its own, by its
/// hash. A place without such a tag holds any of them.
#[rattlefmt::skip]
pub const {name}: [u32; {places}] = [
"""
# how the code finds the mark of a number: `mark_of` in crates/dcm_deid/src/fate.rt, by `spread` of dcm_base
SPREAD = 0x9E37_79B9
NUMBERS_OF_A_MARK = 0x8_0000
ALL_NUMBERS = 0x1_0000_0000
MARKS_OF_A_WORD = 64
WORDS_OF_A_LINE = 4
# how the code finds the place of a number that is always kept: `kept_place` there
KEPT_PLACES = 2_048
NUMBERS_OF_A_LINE = 8
DICTIONARY = Path(__file__).parent.parent / "crates/dcm_base/src/dictionary/standard.rt"
# what is emptied or moved
OTHER_REPRESENTATIONS = {"DA", "TM", "DT", "PN"}
SEQUENCE = "SQ"
# what says what was done
PUT = {0x0012_0062, 0x0012_0063, 0x0012_0064, 0x0028_0303}
# the groups of the modules that images and reports share, whose elements come first; of acquisition those of all modalities alone
COMMON_GROUPS = {0x0008, 0x0010, 0x0018, 0x0020, 0x0028, 0x0040, 0x0054}
ACQUISITION, FIRST_OF_SOME = 0x0018, 0x2000


def rows():
    """The number, fate and options of each row of one tag."""
    for line in DATA.read_text().splitlines():
        if line.startswith(("#", "tag")):
            continue
        tag, _, _, fate, kept_by, _ = line.split("\t")
        if "-" not in tag:
            group, element = tag.split(",")
            yield int(group + element, 16), FATES[fate], [OPTIONS[letter] for letter in kept_by]


def marks(numbers):
    """The words of the marks of these numbers."""
    words = [0] * (ALL_NUMBERS // NUMBERS_OF_A_MARK // MARKS_OF_A_WORD)
    for number in numbers:
        mark = number * SPREAD % ALL_NUMBERS // NUMBERS_OF_A_MARK
        words[mark // MARKS_OF_A_WORD] |= 1 << mark % MARKS_OF_A_WORD
    return words


def standard_elements():
    """The number and the value representation of each element of the dictionary."""
    for number, vr in re.findall(r"\((0x[\dA-F_]+), Vr::(\w\w), \d+, \d+\)", DICTIONARY.read_text()):
        yield int(number, 16), vr


def is_rare(number):
    """Whether few images and reports have an element."""
    group, element = number >> 16, number & 0xFFFF
    return group not in COMMON_GROUPS or group == ACQUISITION and element >= FIRST_OF_SOME


def always_kept(numbers, are_sequences):
    """At each place the first number that has it, of the common ones before the others; where there is none, the first of all. The
    elements of these numbers have another fate."""
    kept = [
        number for number, vr in standard_elements()
        if (vr == SEQUENCE) == are_sequences and vr not in OTHER_REPRESENTATIONS and number not in numbers | PUT and number & 0xFFFF
    ]
    places = {}
    for number in sorted(kept, key=lambda number: (is_rare(number), number)):
        places.setdefault(number * SPREAD % ALL_NUMBERS // (ALL_NUMBERS // KEPT_PLACES), number)
    return [places.get(place, kept[0]) for place in range(KEPT_PLACES)]


def word(value):
    """A word as the code writes it."""
    return "0x" + "_".join(f"{value >> shift & 0xFFFF:04X}" for shift in (48, 32, 16, 0))


def print_table(table):
    """The rows and the marks."""
    print(HEADER.format(count=len(table)), end="")
    for number, fate, kept_by in table:
        options = ", ".join(f"Retain::{name}" for name in kept_by)
        print(f"    (0x{number >> 16:04X}_{number & 0xFFFF:04X}, Fate::{fate}, &[{options}]),")
    print("];")
    words = marks(number for number, _, _ in table)
    print(MARKS_HEADER.format(words=len(words)), end="")
    for start in range(0, len(words), WORDS_OF_A_LINE):
        print("    " + ", ".join(map(word, words[start:start + WORDS_OF_A_LINE])) + ",")
    print("];")


def print_kept_numbers(table):
    """The numbers that are always kept."""
    print(KEPT_HEADER, end="")
    for name, what, are_sequences in (("KEPT_VALUES", "elements with a value", False), ("KEPT_SEQUENCES", "sequences", True)):
        kept = always_kept({number for number, _, _ in table}, are_sequences)
        print(KEPT_TABLE_HEADER.format(what=what, name=name, places=len(kept)), end="")
        for start in range(0, len(kept), NUMBERS_OF_A_LINE):
            line = (f"0x{number >> 16:04X}_{number & 0xFFFF:04X}" for number in kept[start:start + NUMBERS_OF_A_LINE])
            print("    " + ", ".join(line) + ",")
        print("];")


def text_of(print_it, table):
    """What a function prints of the table."""
    with contextlib.redirect_stdout(io.StringIO()) as text:
        print_it(table)
    return text.getvalue()


def check(table):
    """Ends with 1 where a file is not what this script writes."""
    for name, print_it in (("table.rt", print_table), ("kept_numbers.rt", print_kept_numbers)):
        if (SOURCES / name).read_text() != text_of(print_it, table):
            sys.exit(f"{SOURCES / name} is not what this script writes")
    print("the rows are those of data/deidentify.tsv")


def main():
    table = sorted(rows())
    if sys.argv[1:] == ["--check"]:
        check(table)
    elif sys.argv[1:] == ["--kept-numbers"]:
        print_kept_numbers(table)
    else:
        print_table(table)


if __name__ == "__main__":
    main()
