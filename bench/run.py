#!/usr/bin/env python3
"""Measures the tools of dcmtools beside `cat`, and beside DCMTK's where they are installed; but dcmodify, of which DCMTK's
changes its input, beside `dcmconv +t=`.

    bench/run.py [--binary PATH] [--before PATH] [--mebibytes N] [--full-mebibytes N] [--rounds N] [--starts N]
        [--table-files N] [--only-tables] [--only-trees] [--tree-files N] [--small-files N] [--only-texts]

With --before an older build of dcmtools takes turns with the others, so that a change is measured in one run.

The inputs are made in a temporary directory, which takes a little more than five times `--mebibytes` and is removed at
the end. They are read from the page cache. Dumps go to /dev/null. A conversion, or a file that is built from a dump, is
written into the same directory, as is that of `cat FILE > OUTPUT` beside it, and each starts without that file; so is a
file with edits. One run prints thirteen tables: time and memory of tables of files, throughput of dumps, of conversions, of files that
are built and of files with edits (the median of the rounds, in which the programs take turns, over the bytes of the input), time of
dumps of small elements beside a bound, of other work on them, and of items in UN and at many levels, edits of them and the same work with each dictionary (the best of
the rounds), time of a whole process on a small file, and peak memory, of files with edits in a table of its own. The bound is
dump_bound.c, built with `cc` where there is one.

With --only-trees trees of files are measured, and nothing else: one run of a tool over 3,000 slices of 30 to 500 KB, and over 10,000 files
of some hundred bytes, beside the same tool called once a file by a loop that spawns, and beside DCMTK's and GDCM's programs where they are
installed. Each round has a new OUTPUT beside the input; the best of the rounds counts. Peak memory is that of 100 and of 10,000 files.

With --only-texts dumps with `+u8` are measured beside dumps without it, and nothing else: of a structured report, whose texts are ASCII, of
names in Japanese by ISO 2022 IR 87, and of comments in UTF-8. So are tables of names and comments of 10,000 files.

A table of two columns is made of many files of 20 to 500 KB, 2.6 GB of them by default, in /dev/shm where there is one, and of
fewer where it has no room. Beside it is `dcmdump -q -M +F +P` of DCMTK, also with `+st`, which ends each file after the last column.
"""

import argparse
import os
import random
import re
import shutil
import statistics
import struct
import subprocess
import sys
import tempfile
import time
from pathlib import Path
from typing import NamedTuple

MEBIBYTE = 1 << 20
UNDEFINED = 0xFFFFFFFF
LONG_FORM = {"OB", "OD", "OF", "OL", "OV", "OW", "SQ", "SV", "UC", "UN", "UR", "UT", "UV"}

IMPLICIT = "1.2.840.10008.1.2"
LITTLE = "1.2.840.10008.1.2.1"
BIG = "1.2.840.10008.1.2.2"
JPEG = "1.2.840.10008.1.2.4.50"

NESTED_OUTER = 1_000
NESTED_INNER = 10

# frames with seven values in five sequences each
FRAMES = 18_000

# dates that are taken, that are kept, and that are moved
DATES = ([], ["+rl"], ["+rm", "-1234"])

# as many edits as there may be, with the two that look at each element
PATH_EDITS = 62

# numbers of edits that are asked of each element, at all depths, and elements that each dictionary knows, by their group
ERASED = 1, 8, 32, 62
KNOWN = {
    "0028": "0002 0004 0006 0008 0009 0010 0011 0030 0100 0101 0102 0103 1050 1051 1052 1053",
    "0020": "0010 0011 0012 0013 0032 0037 0052 1041",
    "0018": "0015 0050 0060 1020 1030 5100 9087",
    "0010": "0010 0020 0030 0040 1010 1020 1030 4000",
    "0008": "0005 0008 0012 0013 0020 0021 0022 0023 002A 0030 0031 0032 0033 0050 0060 0070 0080 0090 1030 103E 1090 2112 0102",
}

# elements of the structured report, and of the files of many that are empty
REPORT_ELEMENTS = 200_000
EMPTY = 1_000_000

# elements UN that hold an item each, and sequences of as many levels as may be open
UNKNOWN_ITEMS = 40_000
DEEP_SEQUENCES = 300
MOST_LEVELS = 64

# the files of a table, and their pixels, at least and at most
TABLE_FILES = 10_000
TABLE_PIXELS = 20_000, 500_000
TABLE_COLUMNS = "PatientID", "Modality"

# trees of slices and of small files, and how many runs share one
TREE_FILES, SLICE_PIXELS = 3_000, (30_000, 500_000)
SMALL_FILES, SMALL_PIXELS = 10_000, (100, 900)
FEW_FILES, PARTS = 100, 4
DEEP_FOLDERS = 64
FILES_OF_A_FOLDER = 100
SHARED_MEMORY = "/dev/shm"

# texts that are shown by characters
TEXTS = 50_000
KANJI_NAME = "Yamada^Tarou=山田^太郎=やまだ^たろう".encode("iso2022_jp")
COMMENT = "Größe der Läsion: 5 µm, am 3. März; Übergang über die Brücke geprüft".encode()
TEXT_COLUMNS = "PatientName", "PatientComments"
# the sets that each file of a table names, a name and a comment
TABLE_TEXTS = {
    "ASCII": (b"", b"Yamada^Tarou", b"the lesion has a size of 5 mm, seen on 3 March; its margin was checked"),
    "Japanese": (b"\\ISO 2022 IR 87", KANJI_NAME, KANJI_NAME),
    "UTF-8": (b"ISO_IR 192", "Müller^Jörg".encode(), COMMENT),
}

TOP = Path(__file__).resolve().parent.parent


# ---- the bytes of an input (PS3.5 7, PS3.10 7.1)


def even(value, vr):
    pad = b"\0" if vr in LONG_FORM | {"UI"} else b" "
    return value + pad if len(value) % 2 else value


def head(syntax, group, element, vr, length):
    order = ">" if syntax == BIG else "<"
    tag = struct.pack(order + "HH", group, element)
    if syntax == IMPLICIT or group == 0xFFFE:
        return tag + struct.pack(order + "I", length)
    if vr in LONG_FORM:
        return tag + vr.encode() + b"\0\0" + struct.pack(order + "I", length)
    return tag + vr.encode() + struct.pack(order + "H", length)


def leaf(syntax, group, element, vr, value):
    value = even(value, vr)
    return head(syntax, group, element, vr, len(value)) + value


def short(syntax, number):
    return struct.pack(">H" if syntax == BIG else "<H", number)


def meta(uid):
    group = b"".join(
        leaf(LITTLE, 0x0002, element, vr, value)
        for element, vr, value in [
            (0x0001, "OB", b"\0\1"),
            (0x0002, "UI", b"1.2.840.10008.5.1.4.1.1.7"),
            (0x0003, "UI", b"2.25.1"),
            (0x0010, "UI", uid.encode()),
            (0x0012, "UI", b"2.25.2"),
        ]
    )
    length = leaf(LITTLE, 0x0002, 0x0000, "UL", struct.pack("<I", len(group)))
    return bytes(128) + b"DICM" + length + group


def front(syntax):
    return b"".join(
        leaf(syntax, group, element, vr, value)
        for group, element, vr, value in [
            (0x0008, 0x0060, "CS", b"OT"),
            (0x0010, 0x0010, "PN", b"Bench^Mark"),
            (0x0028, 0x0010, "US", short(syntax, 16384)),
            (0x0028, 0x0011, "US", short(syntax, 16384)),
            (0x0028, 0x0100, "US", short(syntax, 16)),
        ]
    )


def write_blocks(out, mebibytes):
    block = random.Random(1).randbytes(MEBIBYTE)
    for _ in range(mebibytes):
        out.write(block)


def make_native(path, syntax, mebibytes):
    with open(path, "wb") as out:
        out.write(meta(syntax) + front(syntax))
        out.write(head(syntax, 0x7FE0, 0x0010, "OW", mebibytes * MEBIBYTE))
        write_blocks(out, mebibytes)


def make_fragments(path, mebibytes):
    with open(path, "wb") as out:
        out.write(meta(JPEG) + front(LITTLE))
        out.write(head(LITTLE, 0x7FE0, 0x0010, "OB", UNDEFINED))
        out.write(head(LITTLE, 0xFFFE, 0xE000, "", 0))
        for _ in range(mebibytes):
            out.write(head(LITTLE, 0xFFFE, 0xE000, "", MEBIBYTE))
            write_blocks(out, 1)
        out.write(head(LITTLE, 0xFFFE, 0xE0DD, "", 0))


# elements by their tags, which ascend without repeats
NESTED_TAGS = [
    ("SH", (0x0008, 0x0100)), ("SH", (0x0008, 0x0102)), ("LO", (0x0008, 0x0104)), ("UI", (0x0008, 0x1150)),
    ("UI", (0x0008, 0x1155)), ("LO", (0x0010, 0x0020)), ("LO", (0x0010, 0x1000)), ("SH", (0x0010, 0x2160)),
    ("LO", (0x0018, 0x1000)), ("LO", (0x0018, 0x1020)), ("UI", (0x0020, 0x000D)), ("UI", (0x0020, 0x000E)),
    ("SH", (0x0020, 0x0010)), ("UI", (0x0020, 0x0052)), ("LO", (0x0020, 0x1040)), ("SH", (0x0020, 0x9056)),
    ("LO", (0x0032, 0x1060)), ("LO", (0x0040, 0x0007)), ("SH", (0x0040, 0x0009)), ("UI", (0x0040, 0xA124)),
]


def nested_leaf(number):
    vr, (group, element) = NESTED_TAGS[number]
    value = {"SH": b"T-%05d" % number, "LO": b"a meaning of number %d" % number, "UI": b"2.25.%d" % number}[vr]
    return leaf(LITTLE, group, element, vr, value)


def make_nested(path, after=b""):
    """200,000 elements, in items of known length within items of undefined length, and what is to come after them."""
    leaves = b"".join(nested_leaf(number) for number in range(len(NESTED_TAGS)))
    item = head(LITTLE, 0xFFFE, 0xE000, "", len(leaves)) + leaves
    inner = item * NESTED_INNER
    outer = (
        head(LITTLE, 0xFFFE, 0xE000, "", UNDEFINED)
        + head(LITTLE, 0x0008, 0x1140, "SQ", len(inner))
        + inner
        + head(LITTLE, 0xFFFE, 0xE00D, "", 0)
    )
    with open(path, "wb") as out:
        out.write(meta(LITTLE) + front(LITTLE))
        out.write(head(LITTLE, 0x0040, 0xA730, "SQ", UNDEFINED))
        for _ in range(NESTED_OUTER):
            out.write(outer)
        out.write(head(LITTLE, 0xFFFE, 0xE0DD, "", 0))
        out.write(after)


def make_private(path):
    """The same with a private element, so that `-ep` finds a place."""
    make_nested(path, leaf(LITTLE, 0x0041, 0x0010, "LO", b"a creator"))


# ---- a structured report: many small elements in items of undefined length


def undefined_sequence(group, element, items):
    item, end = head(LITTLE, 0xFFFE, 0xE000, "", UNDEFINED), head(LITTLE, 0xFFFE, 0xE00D, "", 0)
    body = b"".join(item + contents + end for contents in items)
    return head(LITTLE, group, element, "SQ", UNDEFINED) + body + head(LITTLE, 0xFFFE, 0xE0DD, "", 0)


def report_code(number):
    code = leaf(LITTLE, 0x0008, 0x0100, "SH", b"%d" % (121000 + number % 900))
    code += leaf(LITTLE, 0x0008, 0x0102, "SH", b"DCM")
    code += leaf(LITTLE, 0x0008, 0x0104, "LO", b"Meaning number %d" % (number % 900))
    return undefined_sequence(0x0040, 0xA043, [code])


def report_item(number, depth, left):
    """An item of the report with its items, at most as many as elements are left to make."""
    left[0] -= 6
    value = b"CONTAINER" if depth else b"TEXT"
    front = leaf(LITTLE, 0x0040, 0xA040, "CS", value) + report_code(number)
    if depth == 0:
        return front + leaf(LITTLE, 0x0040, 0xA160, "UT", b"Finding %d: nothing remarkable in slice %d" % (number, number % 512))
    inner = []
    while len(inner) < 8 and left[0] > 0:
        inner.append(report_item(number * 8 + len(inner), depth - 1, left))
    return front + (undefined_sequence(0x0040, 0xA730, inner) if inner else b"")


def make_report(path):
    left, items = [REPORT_ELEMENTS], []
    while left[0] > 0:
        items.append(report_item(len(items) + 1, 4, left))
    Path(path).write_bytes(meta(LITTLE) + front(LITTLE) + undefined_sequence(0x0040, 0xA730, items))


def frame_item(number):
    """What an image of many frames says of one of them, all of which is kept where identity is taken out."""
    position = leaf(LITTLE, 0x0020, 0x0032, "DS", b"-125.5\\-125.5\\%d" % number)
    orientation = leaf(LITTLE, 0x0020, 0x0037, "DS", b"1\\0\\0\\0\\1\\0")
    measures = leaf(LITTLE, 0x0018, 0x0050, "DS", b"2.5") + leaf(LITTLE, 0x0028, 0x0030, "DS", b"0.5\\0.5")
    window = leaf(LITTLE, 0x0028, 0x1050, "DS", b"40") + leaf(LITTLE, 0x0028, 0x1051, "DS", b"400")
    content = leaf(LITTLE, 0x0020, 0x9157, "UL", struct.pack("<I", number))
    parts = [(0x0020, 0x9111, content), (0x0020, 0x9113, position), (0x0020, 0x9116, orientation)]
    parts += [(0x0028, 0x9110, measures), (0x0028, 0x9132, window)]
    return b"".join(undefined_sequence(group, element, [part]) for group, element, part in parts)


def make_frames(path):
    frames = [frame_item(number) for number in range(1, FRAMES + 1)]
    Path(path).write_bytes(meta(LITTLE) + front(LITTLE) + undefined_sequence(0x5200, 0x9230, frames))


def make_texts(path, sets, group, element, vr, value):
    """Many items with a text, behind what names its sets."""
    named = leaf(LITTLE, 0x0008, 0x0005, "CS", sets)
    items = [leaf(LITTLE, group, element, vr, value)] * TEXTS
    Path(path).write_bytes(meta(LITTLE) + named + front(LITTLE) + undefined_sequence(0x0040, 0xA730, items))


def make_empty_elements(path):
    """Many elements with no value."""
    Path(path).write_bytes(meta(LITTLE) + front(LITTLE) + leaf(LITTLE, 0x0010, 0x0020, "LO", b"") * EMPTY)


def make_empty_items(path):
    """Many items with no element, in a sequence of undefined length."""
    items = head(LITTLE, 0xFFFE, 0xE000, "", 0) * EMPTY
    sequence = head(LITTLE, 0x0040, 0xA730, "SQ", UNDEFINED) + items + head(LITTLE, 0xFFFE, 0xE0DD, "", 0)
    Path(path).write_bytes(meta(LITTLE) + front(LITTLE) + sequence)


def implicit_leaf(group, element, value):
    return head(IMPLICIT, group, element, "", len(value)) + value


def make_unknown_items(path):
    """Many elements UN of known length, each a sequence by the whole dictionary with one item."""
    code = implicit_leaf(0x0008, 0x0100, b"T-D0050 ") + implicit_leaf(0x0008, 0x0104, b"a meaning ")
    item = head(IMPLICIT, 0xFFFE, 0xE000, "", len(code)) + code
    element = head(LITTLE, 0x0040, 0xA043, "UN", len(item)) + item
    Path(path).write_bytes(meta(LITTLE) + front(LITTLE) + element * UNKNOWN_ITEMS)


def make_levels(path):
    """Sequences of as many levels as may be open, each with a value."""
    levels = b""
    for _ in range(MOST_LEVELS):
        levels = undefined_sequence(0x0040, 0xA730, [leaf(LITTLE, 0x0040, 0xA040, "CS", b"TEXT") + levels])
    Path(path).write_bytes(meta(LITTLE) + front(LITTLE) + levels * DEEP_SEQUENCES)


def report_edits():
    """As many edits as there may be beside two others, each of a code in an item of an item of an item."""
    items = [f"ContentSequence[0].ContentSequence[{number // 8}].ContentSequence[{number % 8}]" for number in range(PATH_EDITS)]
    return [word for item in items for word in ("-m", f"{item}.ConceptNameCodeSequence[0].CodeMeaning=another meaning")]


def make_small(path):
    Path(path).write_bytes(meta(LITTLE) + front(LITTLE))


class Work(NamedTuple):
    """What a tool has to do with an input. A dump goes to standard output, and has no other. A label is for many options."""

    tool: str
    name: str
    options: list
    path: str
    output: str | None = None
    label: str | None = None


def label_of(work):
    return work.label or " ".join(work.options)


def path_edits():
    paths = [f"ContentSequence[{number}].ReferencedImageSequence[*].CodeMeaning" for number in range(PATH_EDITS)]
    return [word for path in paths for word in ("-m", f"{path}=another meaning")]


def erased(count):
    """Edits that erase so many elements wherever they are."""
    tags = [f"({group},{element})" for group, elements in KNOWN.items() for element in elements.split()]
    return [word for tag in tags[:count] for word in ("-ea", tag)]


def make_dump(binary, path, dump):
    with open(dump, "wb") as out:
        subprocess.run([binary, "dcmdump", "+L", path], stdout=out, check=True)


def make_inputs(binary, folder, mebibytes, full_mebibytes):
    """The dumps, the conversions, the files that are built, those with edits, one without identity, and a small file."""
    path = lambda name: os.path.join(folder, name)
    dump = lambda name, option, file: Work("dcmdump", name, [option], path(file))
    convert = lambda name, option, file: Work("dcmconv", name, [option], path(file), path("output"))
    build = lambda name, file: Work("dump2dcm", name, [], path(file), path("output"))
    modify = lambda name, edits, file, label=None: Work("dcmodify", name, edits, path(file), path("output"), label)
    make_native(path("little"), LITTLE, mebibytes)
    make_native(path("big"), BIG, mebibytes)
    make_native(path("implicit"), IMPLICIT, mebibytes)
    make_fragments(path("fragments"), mebibytes)
    make_native(path("full_little"), LITTLE, full_mebibytes)
    make_native(path("full_big"), BIG, full_mebibytes)
    make_nested(path("nested"))
    make_private(path("private"))
    make_dump(binary, path("nested"), path("nested.dump"))
    make_small(path("small"))
    little = f"native little endian, {mebibytes} MiB of OW"
    big = f"native big endian, {mebibytes} MiB of OW"
    implicit = f"implicit, {mebibytes} MiB of OW"
    nested = "200,000 elements in nested sequences"
    dumps = [
        dump(little, "-L", "little"),
        dump(big, "-L", "big"),
        dump(implicit, "-L", "implicit"),
        dump(f"{mebibytes} fragments of 1 MiB", "-L", "fragments"),
        dump(nested, "-L", "nested"),
        dump(nested, "+L", "nested"),
        dump(f"native little endian, {full_mebibytes} MiB of OW", "+L", "full_little"),
        dump(f"native big endian, {full_mebibytes} MiB of OW", "+L", "full_big"),
    ]
    conversions = [
        convert(little, "+t=", "little"),
        convert(little, "+tb", "little"),
        convert(big, "+te", "big"),
        convert(implicit, "+te", "implicit"),
        convert(f"{mebibytes} fragments of 1 MiB", "+t=", "fragments"),
        convert(nested, "+t=", "nested"),
    ]
    builds = [build(f"the dump of {nested}", "nested.dump")]
    all_depths = ["-ma", "PatientID=7", "-ep"]
    modifications = [
        modify(little, ["-m", "PatientName=Mark^Bench"], "little"),
        modify(nested, ["-ep"], "private"),
        modify(nested, all_depths, "private"),
        modify(nested, all_depths + path_edits(), "private", f"-ma, -ep and {PATH_EDITS} of -m with paths"),
    ]
    identities = [Work("dcmdeid", little, ["+bi", *dates], path("little"), path("output")) for dates in DATES]
    # what is still to be written to the disk would slow what writes
    os.sync()
    return dumps, conversions, builds, modifications, identities, Work("dcmdump", "small", [], path("small"))


def make_small_elements(binary, folder):
    """The dumps of files of small elements, and the other work on the structured report."""
    path = lambda name: os.path.join(folder, name)
    make_report(path("report"))
    make_empty_elements(path("empty_elements"))
    make_empty_items(path("empty_items"))
    make_frames(path("frames"))
    make_unknown_items(path("unknown_items"))
    make_levels(path("levels"))
    frames = f"{FRAMES:,} frames, {7 * FRAMES:,} values"
    make_dump(binary, path("report"), path("report.dump"))
    converted = {option: path(f"report{option}") for option in ("+ti", "+tb")}
    for option, file in converted.items():
        subprocess.run([binary, "dcmconv", option, path("report"), file], check=True)
    report = "a structured report of 200,000 elements"
    dumps = [
        Work("dcmdump", name, [option], path(file))
        for name, file in [
            (report, "report"),
            (f"{EMPTY:,} elements with no value", "empty_elements"),
            (f"{EMPTY:,} items with no element", "empty_items"),
            (frames, "frames"),
        ]
        for option in ("-L", "+L")
    ]
    others = [Work("dcmconv", report, [option], path("report"), path("output")) for option in ("+t=", "+ti", "+tb")]
    others += [
        Work("dcmconv", f"the same, {name}", ["+te"], converted[option], path("output"))
        for option, name in [("+ti", "implicit"), ("+tb", "big endian")]
    ]
    others.append(Work("dump2dcm", "its full dump", [], path("report.dump"), path("output")))
    unknown = f"{UNKNOWN_ITEMS:,} UN that hold an item each"
    levels = f"{DEEP_SEQUENCES} sequences of {MOST_LEVELS} levels"
    of_items = [
        Work("dcmdump", unknown, ["+dict"], path("unknown_items")),
        Work("dcmconv", unknown, ["+dict", "+te"], path("unknown_items"), path("output")),
        Work("dcmdump", levels, ["-L"], path("levels")),
        Work("dcmconv", levels, ["+te"], path("levels"), path("output")),
    ]
    edits = ["-ma", "CodeValue=T-1", "-m", "PatientName=Mark^Bench", *report_edits()]
    label = f"-ma, -m and {PATH_EDITS} of -m with paths"
    modifications = [Work("dcmodify", report, edits, path("report"), path("output"), label)]
    one_edit = [Work("dcmodify", report, ["-m", "PatientName=Mark^Bench"], path("report"), path("output"))]
    erasing = [Work("dcmodify", report, erased(count), path("report"), path("output"), f"{count} of -ea") for count in ERASED]
    identities = [Work("dcmdeid", frames, dates, path("frames"), path("output")) for dates in DATES]
    os.sync()
    return dumps, others, one_edit + modifications + erasing, identities, of_items


# ---- processes


GNU_TIME = "/usr/bin/time"
WRITE = os.O_WRONLY | os.O_CREAT | os.O_TRUNC


def spawn(words, output):
    return os.posix_spawn(words[0], words, os.environ, file_actions=[(os.POSIX_SPAWN_OPEN, 1, output, WRITE, 0o644)])


# an edit that finds no place is told, and all else is done
DONE, NO_PLACE = 0, 3


def check_status(words, status):
    if os.waitstatus_to_exitcode(status) not in (DONE, NO_PLACE):
        sys.exit(f"status {os.waitstatus_to_exitcode(status)} of {' '.join(words)}")


def seconds_of(words, output):
    begin = time.perf_counter()
    process = spawn(words, output)
    _, status = os.waitpid(process, 0)
    elapsed = time.perf_counter() - begin
    check_status(words, status)
    return elapsed


def peak_of(words, output):
    """The peak resident memory in KiB, as GNU time tells it, or nothing where it is not installed.

    ru_maxrss of a child of this process will not do: it counts what the interpreter held before the program took its
    place. What GNU time holds itself is less than any program here.
    """
    if not os.access(GNU_TIME, os.X_OK):
        return None
    with tempfile.NamedTemporaryFile("r") as told:
        seconds_of([GNU_TIME, "-f", "%M", "-o", told.name, *words], output)
        return int(told.read())


# ---- the programs


def cat(work):
    return [shutil.which("cat"), work.path], work.output or os.devnull


def words_behind(work):
    return [*work.options, work.path, *([work.output] if work.output else [])]


def tool_of(binary):
    return lambda work: ([binary, work.tool, *words_behind(work)], os.devnull)


def programs(binary, before):
    """Each program, as a function of the work that gives its words and where its standard output goes."""
    found = {"cat": cat, "dcmtools": tool_of(binary)}
    if before:
        found["before"] = tool_of(before)
    if all(shutil.which(tool) for tool in ("dcmdump", "dcmconv", "dump2dcm")):
        found["DCMTK"] = lambda work: ([shutil.which(work.tool), *words_behind(work)], os.devnull)
    return found


def editing_programs(binary, before):
    """The same for files with edits. DCMTK's dcmodify changes its input, and has no output."""
    return {
        "cat": cat,
        **({"dcmodify before": tool_of(before)} if before else {}),
        "dcmconv +t=": lambda work: ([binary, "dcmconv", "+t=", work.path, work.output], os.devnull),
        "dcmodify": tool_of(binary),
    }


def identity_programs(binary):
    """The same for files of which identity is taken out. The output has its name only once it is whole, and is not there before."""
    return {
        "cat": cat,
        "dcmconv +t=": lambda work: ([binary, "dcmconv", "+t=", work.path, work.output], os.devnull),
        "dcmdeid": tool_of(binary),
    }


def with_dictionary(binary, option):
    """dcmtools with this option, which names a dictionary."""
    return lambda work: ([binary, work.tool, option, *words_behind(work)], os.devnull)


def with_both_dictionaries(run, binary):
    """The programs, and after dcmtools the same with the whole dictionary."""
    first = {"cat": run["cat"], "dcmtools": run["dcmtools"], "dcmtools +dict": with_dictionary(binary, "+dict")}
    return {**first, **run}


def from_implicit(works):
    """The conversion of the structured report from implicit VR."""
    return next(work for work in works if work.tool == "dcmconv" and work.path.endswith("+ti"))


def keywords_of_the_dictionary():
    """The lines that the bound reads: the rows of the dictionary that dcmtools has."""
    source = (TOP / "crates/dcm_base/src/dictionary/extract.rt").read_text()
    rows = re.findall(r'0x([0-9A-F]{4})_([0-9A-F]{4}),\s*Vr::..,\s*"(\w+)"', source)
    return "".join(f"{group}{element} {keyword}\n" for group, element, keyword in rows)


def with_bound(run, folder):
    """The programs for dumps of small elements: DCMTK where it is there, dcmtools, and the bound where `cc` can build it."""
    found = {name: program for name, program in run.items() if name != "cat"}
    compiler = shutil.which("cc")
    if compiler is None:
        return found
    bound, keywords = os.path.join(folder, "dump_bound"), os.path.join(folder, "keywords")
    subprocess.run([compiler, "-O2", "-o", bound, TOP / "bench/dump_bound.c"], check=True)
    Path(keywords).write_text(keywords_of_the_dictionary())
    return {**found, "bound": lambda work: ([bound, work.path, keywords], os.devnull)}


def measured(measure, program, work):
    """What is measured of a program, where no output of an earlier run is there."""
    if work.output and os.path.exists(work.output):
        os.remove(work.output)
    return measure(*program(work))


# ---- the tables


def row(cells):
    return "| " + " | ".join(cells) + " |"


def print_table(title, heading, rows):
    print(f"\n{title}\n")
    print(row(heading))
    print("|" + "---|" * len(heading))
    for cells in rows:
        print(row(cells))


def throughput_row(work, run, rounds):
    size = os.path.getsize(work.path)
    times = {name: [] for name in run}
    for _ in range(rounds):
        for name, program in run.items():
            times[name].append(measured(seconds_of, program, work))
    medians = {name: statistics.median(seconds) for name, seconds in times.items()}
    cells = [work.name, label_of(work)]
    for name, seconds in medians.items():
        cells.append(f"{size / seconds / 1e6:,.0f}")
        if name != "cat":
            cells.append(f"{seconds / medians['cat']:.2f}")
    return cells


def best_row(work, run, rounds):
    """The best times of the programs in milliseconds, and how many times as long as the first each other one takes."""
    best = dict.fromkeys(run, float("inf"))
    for _ in range(rounds):
        for name, program in run.items():
            best[name] = min(best[name], measured(seconds_of, program, work))
    first, *others = best.values()
    cells = [work.name, f"{work.tool} {label_of(work)}".strip(), f"{first * 1e3:.1f}"]
    for seconds in others:
        cells += [f"{seconds * 1e3:.1f}", f"{seconds / first:.2f}"]
    return cells


def print_best(title, works, run, rounds):
    rows = [best_row(work, run, rounds) for work in works]
    first, *others = run
    ratios = [title for name in others for title in (name, f"{name} / {first}")]
    print_table(title, ["Input", "Work", first, *ratios], rows)


def with_ratios(run):
    return [title for program in run for title in ([program] if program == "cat" else [program, "time / cat"])]


def print_throughput(title, works, run, rounds):
    rows = [throughput_row(work, run, rounds) for work in works]
    print_table(title, ["Input", "Options", *with_ratios(run)], rows)


def print_starts(small, run, starts):
    means = {}
    for name, program in run.items():
        means[name] = statistics.mean(measured(seconds_of, program, small) for _ in range(starts))
    cells = []
    for name, seconds in means.items():
        cells.append(f"{seconds * 1e3:.2f}")
        if name != "cat":
            cells.append(f"{seconds / means['cat']:.2f}")
    title = f"Milliseconds from spawn to exit, mean of {starts} dumps of a file of {os.path.getsize(small.path)} bytes"
    print_table(title, with_ratios(run), [cells])


# ---- tables of many files


def make_table_file(path, number, pixels):
    """A file with twenty small elements before its pixels."""
    leaves = leaf(LITTLE, 0x0008, 0x0060, "CS", b"MR") + b"".join(nested_leaf(number) for number in range(len(NESTED_TAGS)))
    with open(path, "wb") as out:
        out.write(meta(LITTLE) + leaves + leaf(LITTLE, 0x7FE0, 0x0010, "OW", pixels))


def make_table_files(folder, files):
    """The paths of files, as many as are wanted or as a quarter of the room is for, and all their bytes."""
    room = shutil.disk_usage(folder).free // 4
    files = min(files, room // TABLE_PIXELS[1])
    numbers, pixels = random.Random(2), random.Random(1).randbytes(TABLE_PIXELS[1])
    paths = [os.path.join(folder, f"f{number:05}.dcm") for number in range(files)]
    for number, path in enumerate(paths):
        make_table_file(path, number, pixels[: numbers.randint(*TABLE_PIXELS)])
    return paths, sum(os.path.getsize(path) for path in paths)


def table_programs(binary, paths, names):
    """The words that make a table of files, which are named in words and in a list."""
    columns = [word for column in TABLE_COLUMNS for word in ("-k", column)]
    found = {
        "dcm2csv FILE..": [binary, "dcm2csv", *columns, *paths],
        "dcm2csv @LIST": [binary, "dcm2csv", *columns, f"@{names}"],
    }
    if dcmdump := shutil.which("dcmdump"):
        searched = [word for column in TABLE_COLUMNS for word in ("+P", column)]
        found["dcmdump -q -M +F +P"] = [dcmdump, "-q", "-M", "+F", *searched, *paths]
        found["the same with +st"] = [dcmdump, "-q", "-M", "+F", "+st", TABLE_COLUMNS[0], *searched, *paths]
    return found


def print_tables(binary, files, rounds):
    """The best times of tables, and the peak memory."""
    with tempfile.TemporaryDirectory(dir=SHARED_MEMORY if os.path.isdir(SHARED_MEMORY) else None) as folder:
        paths, size = make_table_files(folder, files)
        names = os.path.join(folder, "names")
        Path(names).write_text("".join(f"{path}\n" for path in paths))
        run = table_programs(binary, paths, names)
        best = dict.fromkeys(run, float("inf"))
        for _ in range(rounds):
            for name, words in run.items():
                best[name] = min(best[name], seconds_of(words, os.devnull))
        first = next(iter(best.values()))
        rows = []
        for name, words in run.items():
            peak = peak_of(words, os.devnull)
            rows.append([name, f"{best[name] * 1e3:,.0f}", f"{best[name] / first:.2f}", "-" if peak is None else f"{peak:,}"])
    title = f"Tables of {len(TABLE_COLUMNS)} columns of {len(paths):,} files of {size / 1e6:,.0f} MB, the best of {rounds} rounds"
    print_table(title, ["Work", "ms", "time / first", "peak memory in KiB"], rows)


# ---- trees of files


class Tree(NamedTuple):
    """A folder of files of instances, their paths, a key, and where an output goes."""

    folder: str
    paths: list
    key: str
    output: str


def make_tree_file(path, number, pixels):
    """A file of an instance, with an identifier of its own, a patient and pixels."""
    elements = [
        (0x0008, 0x0018, "UI", b"1.2.826.0.1.%d" % number), (0x0008, 0x0020, "DA", b"20240131"), (0x0008, 0x0060, "CS", b"MR"),
        (0x0010, 0x0010, "PN", b"Doe^Jane"), (0x0010, 0x0020, "LO", b"%06d" % (number // FILES_OF_A_FOLDER)),
        (0x0020, 0x000D, "UI", b"1.2.826.0.2.%d" % (number // FILES_OF_A_FOLDER)), (0x0020, 0x000E, "UI", b"1.2.826.0.3.%d" % (number // 10))]
    leaves = b"".join(leaf(LITTLE, group, element, vr, value + b"\0" * (len(value) % 2)) for group, element, vr, value in elements)
    Path(path).write_bytes(meta(LITTLE) + leaves + leaf(LITTLE, 0x7FE0, 0x0010, "OW", pixels))


def make_tree(top, name, files, sizes):
    """A tree of so many files, a hundred in each folder."""
    folder, paths = os.path.join(top, name), []
    numbers, pixels = random.Random(3), random.Random(1).randbytes(sizes[1])
    for number in range(files):
        path = os.path.join(folder, f"d{number // FILES_OF_A_FOLDER:03}", f"f{number:05}.dcm")
        os.makedirs(os.path.dirname(path), exist_ok=True)
        make_tree_file(path, number, pixels[: numbers.randint(*sizes) // 2 * 2])
        paths.append(path)
    key = os.path.join(top, "key")
    Path(key).write_bytes(bytes(range(32)))
    return Tree(folder, paths, key, os.path.join(top, "out"))


def make_deep_tree(top, name):
    """Folders one in another, with a file in each."""
    folder, paths = os.path.join(top, name), []
    within = folder
    for number in range(DEEP_FOLDERS):
        os.mkdir(within)
        paths.append(os.path.join(within, "f.dcm"))
        make_tree_file(paths[-1], number, bytes(SMALL_PIXELS[0]))
        within = os.path.join(within, "d")
    return Tree(folder, paths, os.path.join(top, "key"), os.path.join(top, "out"))


def each_alone(words, tree):
    """A loop that calls a tool once a file."""

    def run():
        os.mkdir(tree.output)
        for number, path in enumerate(tree.paths):
            seconds_of([*words, path, os.path.join(tree.output, str(number))], os.devnull)

    return run


def in_parts(words, tree):
    """Runs of all parts at once."""

    def run():
        started = [spawn([*words, "+part", f"{part + 1}/{PARTS}", "+r", tree.folder, tree.output], os.devnull) for part in range(PARTS)]
        for process in started:
            check_status(words, os.waitpid(process, 0)[1])

    return run


def over_tree(words, tree):
    return lambda: seconds_of([*words, "+r", tree.folder, tree.output], os.devnull)


def on_a_copy(words, tree):
    """Words that change the files themselves, which are copied first."""

    def prepare():
        shutil.copytree(tree.folder, tree.output)

    def run():
        seconds_of([*words, *(path.replace(tree.folder, tree.output) for path in tree.paths)], os.devnull)

    return prepare, run


def best_of_trees(run, tree, rounds, keeps=()):
    """The best times of programs that take turns, each with a new OUTPUT, but those that go on with the one of the program before."""
    best = dict.fromkeys(run, float("inf"))
    for _ in range(rounds):
        for name, program in run.items():
            prepare, program = program if isinstance(program, tuple) else (lambda: None, program)
            if name not in keeps:
                shutil.rmtree(tree.output, ignore_errors=True)
            prepare()
            begin = time.perf_counter()
            program()
            best[name] = min(best[name], time.perf_counter() - begin)
    shutil.rmtree(tree.output, ignore_errors=True)
    return best


def print_trees_of(title, run, tree, rounds, keeps=()):
    best = best_of_trees(run, tree, rounds, keeps)
    first = next(iter(best.values()))
    size = sum(map(os.path.getsize, tree.paths)) / 1e6
    rows = [[name, f"{seconds * 1e3:,.0f}", f"{seconds / first:.2f}"] for name, seconds in best.items()]
    print_table(f"{title}, {len(tree.paths):,} files of {size:,.0f} MB, the best of {rounds} rounds", ["Work", "ms", "time / first"], rows)


def installed(name, words):
    """Words by their name, where the program is installed."""
    found = shutil.which(words[0])
    return {name: [found, *words[1:]]} if found else {}


def print_slices(binary, tree, rounds):
    keyed = [binary, "dcmdeid", "+k", tree.key]
    edits = ["-i", "PatientName=A", "-i", "PatientID=B"]
    of_gdcm = installed("gdcmanon -r", ["gdcmanon", "--dumb", "--empty", "10,10", "--empty", "10,20", "-r", tree.folder, tree.output])
    of_dcmtk = installed("dcmodify -nb -i -i FILE.. of DCMTK, on a copy", ["dcmodify", "-nb", "-i", "(0010,0010)=A", "-i", "(0010,0020)=B"])
    print_trees_of("dcmdeid", {
        "dcmdeid +k +r": over_tree(keyed, tree), "dcmdeid +k, once a file": each_alone(keyed, tree),
        "dcmdeid +k +pi +rm key +r": over_tree([*keyed, "+pi", "+rm", "key"], tree),
        "dcmdeid +k +rl +r": over_tree([*keyed, "+rl"], tree),
        **{name: lambda words=words: seconds_of(words, os.devnull) for name, words in of_gdcm.items()}}, tree, rounds)
    print_trees_of("dcmodify", {
        "dcmodify +r -i -i": over_tree([binary, "dcmodify", *edits], tree), "once a file": each_alone([binary, "dcmodify", *edits], tree),
        **{name: on_a_copy(words, tree) for name, words in of_dcmtk.items()}}, tree, rounds)


def print_small_files(binary, tree, rounds):
    keyed = [binary, "dcmdeid", "+k", tree.key]
    print_trees_of("dcmdeid of small files", {
        "dcmdeid +k +r": over_tree(keyed, tree), "dcmdeid +k, once a file": each_alone(keyed, tree), f"+part 1/{PARTS} to {PARTS}/{PARTS} at once": in_parts(keyed, tree),
        "dcmdeid +k +kn +r": over_tree([*keyed, "+kn"], tree), "+c +kn again": over_tree([*keyed, "+kn", "+c"], tree)}, tree, rounds, keeps=("+c +kn again",))
    print_trees_of("dcmconv of small files", {
        "dcmconv +te +r": over_tree([binary, "dcmconv", "+te"], tree), "once a file": each_alone([binary, "dcmconv", "+te"], tree)}, tree, rounds)
    of_dcmtk = installed("dcmdump +F FILE.. of DCMTK", ["dcmdump", "+F", *tree.paths])
    alone = lambda: [seconds_of([binary, "dcmdump", path], os.devnull) for path in tree.paths]
    print_trees_of("Dumps of small files", {
        "dcmdump +F FILE..": lambda: seconds_of([binary, "dcmdump", "+F", *tree.paths], os.devnull), "once a file": alone,
        **{name: lambda words=words: seconds_of(words, os.devnull) for name, words in of_dcmtk.items()}}, tree, rounds)


def print_memory_of_trees(binary, top):
    rows = []
    for files in (FEW_FILES, SMALL_FILES):
        tree = make_tree(top, f"of{files}", files, SMALL_PIXELS)
        peak = peak_of([binary, "dcmdeid", "+k", tree.key, "+r", tree.folder, tree.output], os.devnull)
        shutil.rmtree(tree.output)
        rows.append([f"{files:,}", "-" if peak is None else f"{peak:,}"])
    tree = make_deep_tree(top, "deep")
    peak = peak_of([binary, "dcmdeid", "+k", tree.key, "+r", tree.folder, tree.output], os.devnull)
    shutil.rmtree(tree.output)
    rows.append([f"{DEEP_FOLDERS}, each in a folder within the one before", "-" if peak is None else f"{peak:,}"])
    print_table("Peak resident memory of dcmdeid +k +r", ["Files", "KiB"], rows)


def print_trees(binary, slices, small, rounds):
    with tempfile.TemporaryDirectory() as folder:
        print_slices(binary, make_tree(folder, "slices", slices, SLICE_PIXELS), rounds)
        print_small_files(binary, make_tree(folder, "small", small, SMALL_PIXELS), rounds)
        print_memory_of_trees(binary, folder)


def print_texts(binary, rounds):
    with tempfile.TemporaryDirectory() as folder:
        inputs = {name: os.path.join(folder, name.replace(" ", "_")) for name in ("report", "Japanese names", "comments in UTF-8")}
        make_report(inputs["report"])
        make_texts(inputs["Japanese names"], b"\\ISO 2022 IR 87", 0x0010, 0x0010, "PN", KANJI_NAME)
        make_texts(inputs["comments in UTF-8"], b"ISO_IR 192", 0x0010, 0x4000, "LT", COMMENT)
        run = {"without": tool_of(binary), "+u8": with_dictionary(binary, "+u8")}
        works = [Work("dcmdump", name, options, path) for name, path in inputs.items() for options in ([], ["+L"])]
        print_best(f"Texts by characters, in milliseconds, the best of {rounds} rounds", works, run, rounds)
        print_memory(works, run)
        print_tables_of_texts(binary, folder, rounds)


def make_named_files(folder, sets, name, comment):
    """Many small files with a name and a comment, and a list of them."""
    os.mkdir(folder)
    elements = [(0x0008, 0x0005, "CS", sets), (0x0010, 0x0010, "PN", name), (0x0010, 0x4000, "LT", comment)]
    whole = meta(LITTLE) + b"".join(leaf(LITTLE, *element) for element in elements)
    paths = [os.path.join(folder, f"f{number:05}.dcm") for number in range(SMALL_FILES)]
    for path in paths:
        Path(path).write_bytes(whole)
    names = os.path.join(folder, "names")
    Path(names).write_text("".join(f"{path}\n" for path in paths))
    return names


def print_tables_of_texts(binary, folder, rounds):
    """Tables of texts with and without `+u8`, in turns."""
    lists = {kind: make_named_files(os.path.join(folder, kind), *texts) for kind, texts in TABLE_TEXTS.items()}
    columns = [word for column in TEXT_COLUMNS for word in ("-k", column)]
    forms = {"without": [], "+u8": ["+u8"]}
    run = {(kind, form): [binary, "dcm2csv", *forms[form], *columns, f"@{lists[kind]}"] for kind in lists for form in forms}
    best = dict.fromkeys(run, float("inf"))
    for _ in range(rounds):
        for name, words in run.items():
            best[name] = min(best[name], seconds_of(words, os.devnull))
    rows = []
    for kind in lists:
        without, decoded = best[kind, "without"], best[kind, "+u8"]
        peaks = [peak_of(run[kind, form], os.devnull) for form in forms]
        told = ["-" if peak is None else f"{peak:,}" for peak in peaks]
        rows.append([kind, f"{without * 1e3:.1f}", f"{decoded * 1e3:.1f}", f"{decoded / without:.2f}", *told])
    title = f"Tables of {len(TEXT_COLUMNS)} texts of {SMALL_FILES:,} files by dcm2csv, in milliseconds, the best of {rounds} rounds"
    print_table(title, ["Texts", "without", "+u8", "+u8 / without", "KiB", "KiB with +u8"], rows)


def print_memory(works, run):
    rows = []
    for work in works:
        peaks = [measured(peak_of, program, work) for program in run.values()]
        cells = ["-" if peak is None else f"{peak:,}" for peak in peaks]
        rows.append([work.name, f"{work.tool} {label_of(work)}".strip(), *cells])
    print_table("Peak resident memory in KiB", ["Input", "Tool", *run], rows)


def machine():
    model = "unknown processor"
    for line in Path("/proc/cpuinfo").read_text().splitlines():
        if line.startswith("model name"):
            model = line.split(":", 1)[1].strip()
            break
    load = ", ".join(f"{average:.2f}" for average in os.getloadavg())
    return f"{model}, {os.cpu_count()} processors, load {load}"


def main():
    options = argparse.ArgumentParser(description=__doc__.splitlines()[0])
    options.add_argument("--binary", default=str(TOP / "crates/dcmtools/out/dcmtools"))
    options.add_argument("--before", help="an older build of dcmtools, to be measured beside it")
    options.add_argument("--mebibytes", type=int, default=512, help="pixels of the large inputs")
    options.add_argument("--full-mebibytes", type=int, default=32, help="pixels of the inputs that are shown whole")
    options.add_argument("--rounds", type=int, default=5)
    options.add_argument("--starts", type=int, default=200)
    options.add_argument("--table-files", type=int, default=TABLE_FILES, help="files of a table")
    options.add_argument("--only-tables", action="store_true", help="tables of files, and nothing else")
    options.add_argument("--only-trees", action="store_true", help="trees of files, and nothing else")
    options.add_argument("--only-texts", action="store_true", help="dumps and tables by characters, and nothing else")
    options.add_argument("--tree-files", type=int, default=TREE_FILES, help="slices of a tree")
    options.add_argument("--small-files", type=int, default=SMALL_FILES, help="small files of a tree")
    chosen = options.parse_args()
    if not os.access(chosen.binary, os.X_OK):
        sys.exit(f"{chosen.binary} is not there: build it by `cd crates/dcmtools && rt run -- dcmdump ../../examples/name.dcm`")
    binary = os.path.abspath(chosen.binary)
    before = chosen.before and os.path.abspath(chosen.before)
    run = programs(binary, before)
    editing = editing_programs(binary, before)
    identity = identity_programs(binary)
    print(f"Before: {machine()}")
    if chosen.only_texts:
        print_texts(binary, chosen.rounds)
        print(f"\nAfter: {machine()}")
        return
    if chosen.only_trees:
        print_trees(binary, chosen.tree_files, chosen.small_files, chosen.rounds)
        print(f"\nAfter: {machine()}")
        return
    print_tables(binary, chosen.table_files, chosen.rounds)
    if chosen.only_tables:
        return
    with tempfile.TemporaryDirectory() as folder:
        inputs = make_inputs(binary, folder, chosen.mebibytes, chosen.full_mebibytes)
        dumps, conversions, builds, modifications, identities, small = inputs
        print_throughput("Dumps, in MB/s of input", dumps, run, chosen.rounds)
        print_throughput("Conversions, in MB/s of input", conversions, run, chosen.rounds)
        print_throughput("Files that are built, in MB/s of input", builds, run, chosen.rounds)
        print_throughput("Files with edits, in MB/s of input", modifications, editing, chosen.rounds)
        print_throughput("Files without identity, in MB/s of input", identities, identity, chosen.rounds)
        dumps_of_small, others_of_small, edits_of_small, identities_of_small, of_items = make_small_elements(binary, folder)
        title = f"small elements, in milliseconds, the best of {chosen.rounds} rounds"
        print_best(f"Dumps of {title}", dumps_of_small, with_bound(run, folder), chosen.rounds)
        others = {name: program for name, program in run.items() if name != "cat"}
        print_best(f"Other work on {title}", others_of_small, others, chosen.rounds)
        own = {name: program for name, program in run.items() if name in ("dcmtools", "before")}
        print_best(f"Items and levels of {title}", of_items, own, chosen.rounds)
        converting_last = dict(reversed([item for item in editing.items() if item[0] != "cat"]))
        print_best(f"Edits of {title}", edits_of_small, converting_last, chosen.rounds)
        without_cat = {name: program for name, program in identity.items() if name != "cat"}
        print_best(f"Identity taken out of {title}", identities_of_small, without_cat, chosen.rounds)
        dictionaries = {option: with_dictionary(binary, option) for option in ("-dict", "+dict")}
        of_report = [dumps_of_small[0], from_implicit(others_of_small), *edits_of_small]
        print_best(f"The same with each dictionary, of {title}", of_report, dictionaries, chosen.rounds)
        print_starts(small, with_both_dictionaries(run, binary), chosen.starts)
        print_memory(dumps + conversions + builds, run)
        print_memory(modifications, editing)
        print_memory(identities, identity)
    print(f"\nAfter: {machine()}")


if __name__ == "__main__":
    main()
