#!/usr/bin/env python3
"""Runs every block of docs/users/COOKBOOK.md that is marked `sh`, each on a tree with the traps of real media, and the commands of README.

Each block is run by bash as it is, once more after `set -o pipefail`, and once in a UTF-8 locale; by root it is run as nobody, so that
the mode of a file forbids its reading. After it no file that was there
may be lost or changed, in content or mode, unless the block says so; no new file may be missing, be of another mode, or be left over;
each file that fails has to be named, and the status is 0 only where none did; and where names are taken out, none is left in the bytes.
Each block is also run on a tree of sound files, on files that are cut, where its folders are there, without each program that it needs
beside the usual ones, with links in place of its files, by signals, and by root on its own files and on a full disk. Of README's table
and of the manual page each command has to end with status 0. sqlite3 and GNU parallel have to be installed. Commands that the page
calls not tried (Slurm) are no blocks, and are not run.

    scripts/try_cookbook.py [BINARY]

BINARY is crates/dcmtools/out/dcmtools if it is not given. Exits with 0 if each block does what the page says.
"""
import csv
import hashlib
import hmac
import io
import os
import re
import shutil
import signal
import stat
import struct
import subprocess
import sys
import tempfile
import time
from typing import Callable, NamedTuple

from elements import IMPLICIT, JPEG, LITTLE, after_prefix, even_leaf as leaf, file_of, group, item, tag_bytes
from try_texts import is_utf8

ROOT = os.path.dirname(os.path.dirname(os.path.abspath(__file__)))
PAGE = os.path.join(ROOT, "docs", "users", "COOKBOOK.md")

NAMES = [b"Meier", b"Huber", b"M\xfcller", b"Hidden"]


# ---- the bytes of files


MODALITY = leaf(0x00080060, "CS", b"CT")
NAME, ID, BIRTH_DATE, DOSES, DOSE, OVERLAY = 0x00100010, 0x00100020, 0x00100030, 0x300A0010, 0x300A0012, 0x60003000


STUDY, SERIES, INSTANCE = 0x0020000D, 0x0020000E, 0x00080018
INSTANCE_UID = b"1.2.3."


def uid(tag, number, syntax=LITTLE):
    return leaf(tag, "UI", INSTANCE_UID + number, syntax)


def scan(name, number=b"7", after=b""):
    return file_of(LITTLE, MODALITY + leaf(NAME, "PN", name) + leaf(ID, "LO", number) + after)


def instance(name, number, after=b"", patient=None, before=b""):
    """A scan with the identifiers of an instance."""
    return file_of(LITTLE, before + uid(INSTANCE, number) + MODALITY + leaf(NAME, "PN", name) + leaf(ID, "LO", patient or number) + uid(STUDY, number)
                   + uid(SERIES, number) + after)


def plan(name):
    """In implicit VR, with a name in a sequence of known length that the extract lacks."""
    inside = leaf(NAME, "", name, IMPLICIT) + leaf(DOSE, "", b"1", IMPLICIT)
    return file_of(IMPLICIT, uid(INSTANCE, b"9", IMPLICIT) + leaf(0x00080060, "", b"RTPLAN", IMPLICIT) + leaf(NAME, "", name, IMPLICIT) + leaf(ID, "", b"9", IMPLICIT)
                   + uid(STUDY, b"9", IMPLICIT) + uid(SERIES, b"9", IMPLICIT)
                   + leaf(DOSES, "", item(inside), IMPLICIT))


OPAQUE = leaf(OVERLAY, "UN", item(leaf(NAME, "", b"Hidden", IMPLICIT)))
UNKNOWN = leaf(DOSES, "UN", item(leaf(NAME, "", b"Hidden", IMPLICIT)))
PRIVATE = leaf(0x00110010, "LO", b"MAKER") + leaf(0x00111001, "UN", item(leaf(NAME, "", b"Hidden", IMPLICIT)))
# a dump of this is larger than what a pipe holds
LARGE = leaf(0x00400275, "SQ", item(leaf(0x00080104, "LO", b"a meaning")) * 1000)

# a DICOMDIR: MediaStorageDirectoryStorage, and a record
RECORD = leaf(0x00041200, "UL", b"\0\0\0\0") + leaf(0x00041220, "SQ", item(leaf(0x00041430, "CS", b"PATIENT")))
DIRECTORY = after_prefix(group(leaf(0x00020002, "UI", b"1.2.840.10008.1.3.10"), leaf(0x00020010, "UI", LITTLE)) + RECORD)

SCAN = scan(b"AB^CD")
PLAN = file_of(IMPLICIT, leaf(0x00080060, "", b"RTPLAN", IMPLICIT) + leaf(DOSES, "", item(leaf(DOSE, "", b"1", IMPLICIT)), IMPLICIT))
SET = leaf(NAME, "", b"Meier^Anna", IMPLICIT) + leaf(ID, "", b"7", IMPLICIT)


class Input(NamedTuple):
    content: bytes
    mode: int = 0o644
    fails: bool = False  # it is no file that can be read
    opens: bool = True  # its mode lets it be read
    converts: bool = True
    named: bool = True  # it has a PatientName in its outermost data set
    opaque: bool = False  # it has opaque values by `+dict`
    shows: bool = False  # it says that its pixels show identity
    directory: bool = False  # it is a DICOMDIR
    seen: bool = True  # its fault is seen by a table


TREE = {
    b"seriesA/IM000001.dcm": Input(instance(b"Meier^Anna", b"7"), 0o600),
    b"seriesB/IM000001.dcm": Input(instance(b"Huber^Otto", b"8")),
    b"media/IM_0001": Input(instance(b"Meier^Max", b"12")),
    b"media/IM_0001.part": Input(instance(b"Meier^Moritz", b"13"), 0o640),
    b"latin.dcm": Input(instance(b"M\xfcller^J\xf6rg", b"38", patient=b"\xfc1", before=leaf(0x00080005, "CS", b"ISO_IR 100"))),
    b"gr\xf6sse.dcm": Input(instance(b"Huber^Eva", b"15"), 0o600),
    b"two words 'and' \"quotes\" $HOME\nand a newline": Input(instance(b"Huber^Ida", b"16")),
    b"-ends in a newline\n/-te": Input(instance(b"Huber^Udo", b"17")),
    b"b\xf6d and\na newline": Input(instance(b"Huber^Pia", b"27")),
    b"a*b?[c]{d}!.dcm": Input(instance(b"Huber^Tom", b"28")),
    b"back\\slash, 100%s\t\x1b[1m \r": Input(instance(b"Huber^Kai", b"29")),
    b" blanks at both ends ": Input(instance(b"Huber^Lea", b"30")),
    b"-k": Input(instance(b"Huber^Jim", b"31")),
    b"@list": Input(instance(b"Huber^Ute", b"32")),
    b"#~/..dcm": Input(instance(b"Huber^Ben", b"33")),
    b"n" * 255: Input(instance(b"Huber^Max", b"34")),
    b"folder/IM000001.dcm/IM000001.dcm": Input(instance(b"Huber^Amy", b"35")),
    b"nobody may read.dcm": Input(instance(b"Huber^Leo", b"36"), 0o000, fails=True, opens=False),
    b"empty": Input(b"", fails=True),
    b"plan.dcm": Input(plan(b"Meier^Anna"), 0o600),
    b"large.dcm": Input(instance(b"Meier^Anna", b"18", LARGE)),
    b"large and opaque.dcm": Input(instance(b"Meier^Anna", b"19", LARGE + OPAQUE), opaque=True),
    b"opaque": Input(instance(b"Meier^Anna", b"20", OPAQUE), opaque=True),
    b"unknown.dcm": Input(instance(b"Meier^Anna", b"25", UNKNOWN)),
    b"private.dcm": Input(file_of(LITTLE, MODALITY + leaf(NAME, "PN", b"Meier") + leaf(ID, "LO", b"21") + PRIVATE), opaque=True),
    b"nameless.dcm": Input(file_of(LITTLE, MODALITY), named=False),
    b"jpeg.dcm": Input(file_of(JPEG, MODALITY + leaf(NAME, "PN", b"Huber") + leaf(ID, "LO", b"22")), converts=False),
    b"burned.dcm": Input(instance(b"Huber^Jan", b"26", leaf(0x00280301, "CS", b"YES")), shows=True),
    b"cut.dcm": Input(scan(b"Meier^Anna", b"23")[:-1], fails=True),
    b"cut in a name.dcm": Input(scan(b"Meier^Anna")[:-16], fails=True),
    b"notes": Input(b"no DICOM file", fails=True),
    b"video.dcm": Input(bytes(1000), fails=True),
    b"cut behind.dcm": Input(instance(b"Meier^Anna", b"37", leaf(0x00280010, "US", b"\1\0"))[:-1], fails=True, seen=False),
    b"IM_9999": Input(DIRECTORY, directory=True),
    b"DICOMDIR": Input(DIRECTORY, directory=True),
}
COPIED = {name: file for name, file in TREE.items() if name != b"DICOMDIR"}

FILES = {b"scan.dcm": (SCAN, 0o640), b"plan.dcm": (PLAN, 0o640), b"set.bin": (SET, 0o640)}
CUT = {name: (content[:-4], mode) for name, (content, mode) in FILES.items()}  # within the head of the last element, or its value

# a key of new UIDs, and an output that was not looked at
KEY = bytes(range(32))
OUTPUTS = {
    b"deidentified/deep/left.dcm": (SCAN, 0o644),
    b"deidentified/no.dcm": (b"no DICOM file", 0o644),
    b"deidentified/closed.dcm": (SCAN, 0o000),
}

# root may read any file, so the blocks are run as another user
NOBODY = {"user": 65534, "group": 65534, "extra_groups": []} if os.geteuid() == 0 else {}

# ssh to another machine that has a large file
SSH = "#!/bin/sh\n[ \"$*\" = 'archive cat /store/large.dcm' ] && exec cat scan.dcm\n"


# ---- what a run leaves


class Run(NamedTuple):
    binary: str
    environment: dict
    work: bytes
    printed: bytes
    files: dict  # each file that is there after it, with its content and mode
    status: int


def content_and_mode(path):
    mode = stat.S_IMODE(os.stat(path).st_mode)
    os.chmod(path, 0o600)
    with open(path, "rb") as file:
        content = file.read()
    os.chmod(path, mode)
    return content, mode


def files_in(folder):
    paths = [os.path.join(path, name) for path, _, names in os.walk(folder, followlinks=True) for name in names]
    return {os.path.relpath(path, folder): content_and_mode(path) for path in paths}


def before():
    there = {b"in/" + name: (file.content, file.mode) for name, file in TREE.items()}
    return there | FILES


def write_files(folder, files):
    for name, (content, mode) in files.items():
        path = os.path.join(folder, name)
        os.makedirs(os.path.dirname(path), exist_ok=True)
        with open(path, "wb") as file:
            file.write(content)
        os.chmod(path, mode)


def give_to_nobody(folder):
    """Lets the user of the blocks own all that is in a folder."""
    for path, folders, names in os.walk(folder):
        for name in [path, *(os.path.join(path, name) for name in folders + names)]:
            os.chown(name, NOBODY["user"], NOBODY["group"])


def answer(run, words, content):
    """What the program itself writes for this input."""
    return subprocess.run([run.binary, *words, "-", "-"], input=content, stdout=subprocess.PIPE, stderr=subprocess.DEVNULL, timeout=60, check=False).stdout


def quoted(run, path):
    """A path as the shell quotes it."""
    done = subprocess.run(["bash", "-c", 'printf %q "$1"', "_", path], stdout=subprocess.PIPE, env=run.environment, timeout=60, check=True)
    return done.stdout


def lines_of(run, name, printed):
    """The lines that begin with this file of the tree."""
    start = quoted(run, b"in/" + name)
    return [line[len(start):] for line in printed.split(b"\n") if line.startswith((start + b":", start + b"\t"))]


def names_all(run, names, printed):
    """Which files of the tree are named wrongly: too few, too many, or not once."""
    return [f"{name!r} is named {count} times" for name in TREE if (count := len(lines_of(run, name, printed))) != int(name in names)]


def holds(run, expected):
    """What is wrong with the files that are there: those from before, with `expected` over them."""
    there = before() | expected
    wrong = [f"{path!r} is missing" for path in there if path not in run.files]
    wrong += [f"{path!r} is left over" for path in run.files if path not in there]
    for path, (content, mode) in there.items():
        if path in run.files and content is not None and run.files[path][0] != content:
            wrong.append(f"{path!r} has other bytes: {run.files[path][0][-60:]!r} and not {content[-60:]!r}")
        if path in run.files and mode is not None and run.files[path][1] != mode:
            wrong.append(f"{path!r} has mode {run.files[path][1]:o} and not {mode:o}")
    return wrong


# ---- what each block has to do


def one_element(run):
    values = re.findall(rb"^\([0-9a-f,]+\) .. \[(.*?)\]", run.printed, re.MULTILINE)
    return is_done(run) + holds(run, {}) + ([] if values == [b"AB^CD", b"7"] else [f"printed {run.printed!r}"])


TABLE_ROWS = {
    b"seriesA/IM000001.dcm": ["7", "CT"],
    b"seriesB/IM000001.dcm": ["8", "CT"],
    b"latin.dcm": ["\\xfc1", "CT"],
    b"plan.dcm": ["9", "RTPLAN"],
    b"large.dcm": ["18", "CT"],
    b"nameless.dcm": ["", "CT"],
    b"cut.dcm": ["", "CT"],
    b"notes": ["", ""],
    b"video.dcm": ["", ""],
}


def is_opened(name):
    """Whether dcm2csv can open a file of the tree: its name is UTF-8, and its mode allows it."""
    try:
        return bool(name.decode("utf-8")) and TREE[name].opens
    except UnicodeDecodeError:
        return False


def shown_name(name):
    """A name as lines and headings have it."""
    return b"".join(b"\\%02x" % byte if byte < 32 or byte in (92, 127) else bytes([byte]) for byte in name)


def wrong_rows(run, files, names):
    """What is wrong with a table of these files, of which those that fail are named in failed.txt."""
    there = run.files.get(b"table.csv", (b"", 0))[0].decode("utf-8")
    header, *rows = csv.reader(io.StringIO(there, newline="")) if there else [[]]
    failed = run.files.get(b"failed.txt", (b"", 0))[0]
    wrong = holds(run, files | {b"table.csv": (None, 0o644), b"failed.txt": (None, 0o644)})
    wrong += [] if header == ["File", "PatientID", "Modality"] else [f"the header is {header}"]
    wrong += [] if run.status else ["status 0"]
    wrong += [] if len(rows) == sum(map(is_opened, names)) else [f"there are {len(rows)} rows"]
    for name in names:
        found = [row[1:] for row in rows if row[0].encode() == b"in/" + name]
        if len(found) != int(is_opened(name)) or name in TABLE_ROWS and found != [TABLE_ROWS[name]]:
            wrong.append(f"{name!r} has {found!r}")
        shown = shown_name(name)
        line = b"dcmtools: in/" + shown + (b": R" if is_opened(name) else b": input cannot be opened")
        if failed.count(line) != int(TREE[name].fails and TREE[name].seen or not is_opened(name)):
            wrong.append(f"{name!r} is {failed.count(line)} times in failed.txt")
    return wrong


def table(run):
    return wrong_rows(run, {}, list(TREE))


def cut_files_named(run):
    """Each file at fault is named, also behind its last column."""
    wrong = holds(run, {}) + ([] if run.status else ["status 0"])
    for name in TREE:
        shown = shown_name(name)
        if run.printed.count(b"dcmtools: in/" + shown + b": ") != int(TREE[name].fails or not is_opened(name)):
            wrong.append(f"{name!r} is not named as it should be")
    return wrong


LISTED = [name for name in TREE if b"\n" not in name]
OF_LINES = [name for name in TREE if b"\n" in name]


def wrong_lines(run):
    """What is wrong with what failed.txt says of names with a newline, which no list has."""
    failed = run.files.get(b"failed.txt", (b"", 0))[0]
    lines = [quoted(run, b"in/" + name) + b": has a newline\n" for name in OF_LINES]
    counts = {line: failed.count(line) for line in lines}
    return [f"{line!r} is {count} times in failed.txt" for line, count in counts.items() if count != 1]


def table_in_parts(run):
    names = {b"names.txt": (None, 0o644)}
    listed = run.files.get(b"names.txt", (b"", 0))[0].split(b"\n")
    wrong = [] if sorted(listed) == sorted([b"", *(b"in/" + name for name in LISTED)]) else [f"names.txt has {listed!r}"]
    return wrong + wrong_rows(run, names, LISTED) + wrong_lines(run)


def with_table(work):
    with open(os.path.join(work, b"table.csv"), "wb") as file:
        file.write(b'"File","PatientID","Modality"\n"in/a",,"CT"\n"in/a ""b"",\nc","NA","CT"\n"in/d","007","M\\xfc"\n')


def table_in_sqlite(run):
    wrong = holds(run, {b"table.csv": (None, 0o644), b"table.db": (None, 0o644)})
    return wrong + ([] if run.printed == b"CT|2\nM\\xfc|1\n" else [f"printed {run.printed!r}"])


def is_done(run):
    return [] if run.status == 0 else [f"status {run.status}"]


def in_place(run):
    return is_done(run) + holds(run, {b"scan.dcm": (answer(run, ["dcmconv", "+dict", "+te"], SCAN), 0o640)})


def made(run, folder, names, words):
    return {folder + b"/" + name: (answer(run, words, TREE[name].content), TREE[name].mode) for name in names}


def wrong_names(run, good, text):
    """What is wrong with the lines and the status of a block that left these files out."""
    left = [name for name in COPIED if name not in good]
    wrong = names_all(run, left, text) + ([] if run.status else ["status 0"])
    for name, reason in ((b"nobody may read.dcm", b"denied"), (b"IM_9999", b"DICOMDIR"), (b"cut.dcm", b"dcmtools: R1 at byte")):
        if reason == b"DICOMDIR" and b"dcmtools: R16 at byte" in b"".join(lines_of(run, name, text)):
            continue
        wrong += [] if all(reason in line for line in lines_of(run, name, text)) else [f"of {name!r} no line says {reason!r}"]
    return wrong


def becomes(name, file, is_done):
    """The last cell of the row of a file in a tree."""
    if not is_utf8(name) or name == b"DICOMDIR":
        return "left-out"
    if not file.opens:
        return "unread"
    return "refused" if file.fails or not is_done else "written"


def wrong_tree(run, folder, words, wanted):
    """What is wrong with a run over the tree: one row for each name, and the output of each that is written; lines of the others."""
    table = run.files.get(folder + b".csv", (b"", 0))[0]
    rows = sorted(tuple(row) for row in csv.reader(io.StringIO(table.decode("utf-8"), newline="")))
    written = [name for name in TREE if wanted[name] in ("written", "unplaced")]
    due = [(name.decode("utf-8", "backslashreplace"), name.decode() if name in written else "", wanted[name]) for name in TREE]
    wrong = [f"the row {row} is there or missing" for row in sorted({*rows} ^ {*due, ("File", "Output", "Status")})]
    wrong += [] if len(rows) == len(due) + 1 else [f"{len(rows)} rows"]
    wrong += [f"printed is not {line!r}" for line in (b"nobody may read.dcm: input cannot be opened", b"cut.dcm: R1 at byte", b"DICOMDIR: DICOMDIR is left out")
              if b"dcmtools: " + line not in run.printed]
    wrong += [] if run.status else ["status 0"]
    return wrong + holds(run, made(run, folder, written, words) | {folder + b".csv": (None, 0o644)})


def converted_tree(run):
    return wrong_tree(run, b"converted", ["dcmconv", "+dict", "+te"], {name: becomes(name, file, file.converts) for name, file in TREE.items()})


def opaque_values(run):
    """Each file that has opaque values has a heading, and each that cannot be read a line."""
    wrong = holds(run, {}) + ([] if run.status else ["status 0"])
    for name, file in TREE.items():
        shown = re.escape(b"in/" + shown_name(name))
        headings = len(re.findall(rb"^# dcmdump \(\d+/\d+\): " + shown + b"$", run.printed, re.MULTILINE))
        lines = len(re.findall(rb"^dcmtools: " + shown + b": ", run.printed, re.MULTILINE))
        if headings != int(file.opaque) or lines != int(file.fails or not is_opened(name)):
            wrong.append(f"{name!r} has {headings} headings and {lines} lines")
    return wrong


def corrected_plan(run):
    words = ["dcmodify", "+dict", "-m", "DoseReferenceSequence[0].DoseReferenceNumber=2", "-i", "RTPlanLabel=Boost"]
    return is_done(run) + holds(run, {b"plan.dcm": (answer(run, words, PLAN), 0o640)})


def corrected_names(run):
    wanted = {name: becomes(name, file, True) for name, file in TREE.items()}
    unplaced = {name: "unplaced" for name, file in TREE.items() if wanted[name] == "written" and (not file.named or file.directory)}
    return wrong_tree(run, b"fixed", ["dcmodify", "+dict", "-m", "PatientName=Doe^Jane"], wanted | unplaced)


def latin_name(run):
    return is_done(run) + holds(run, {b"scan.dcm": (scan(b"M\xfcller^J\xf6rg"), 0o640)})


def without_identity(run, content, key, *options):
    with tempfile.NamedTemporaryFile() as file:
        file.write(key)
        file.flush()
        return answer(run, ["dcmdeid", "+k", file.name, *options], content)


def uid_in(content, tag):
    """A unique identifier of a file, without padding."""
    at = content.index(tag_bytes(tag, LITTLE)) + 4
    size = struct.unpack_from("<H", content, at + 2)[0] if content[at : at + 2] == b"UI" else struct.unpack_from("<I", content, at)[0]
    return content[at + 4 : at + 4 + size].rstrip(b"\0 ")


def identity_of(file):
    """What becomes of a file of the tree where identity is taken out of it."""
    if file.shows:
        return "pixels"
    return "written" if INSTANCE_UID in file.content else "unnamed"


def identity_of_tree(run):
    key = run.files.get(b"site.key", (b"", 0))[0]
    outputs, due = {}, [("File", "Output", "Status")]
    for name, file in TREE.items():
        word, output = becomes(name, file, not file.directory), b""
        word = identity_of(file) if word == "written" else word
        if word == "written":
            content = without_identity(run, file.content, key)
            output = b"/".join(uid_in(content, tag) for tag in (STUDY, SERIES, INSTANCE)) + b".dcm"
            outputs[b"deidentified/" + output] = (content, file.mode & 0o700)
        due.append((name.decode("utf-8", "backslashreplace"), output.decode(), word))
    table = run.files.get(b"deidentified.csv", (b"", 0))[0]
    rows = sorted(tuple(row) for row in csv.reader(io.StringIO(table.decode("utf-8"), newline="")))
    wrong = [f"the row {row} is there or missing" for row in sorted({*rows} ^ {*due})]
    wrong += [f"{path!r} holds {name!r}" for path, (content, _) in run.files.items() if path.startswith(b"deidentified/") for name in NAMES if name in content + path]
    wrong += [] if len(key) == 32 else [f"a key of {len(key)} bytes"]
    wrong += [] if run.status else ["status 0"]
    return wrong + holds(run, outputs | {b"deidentified.csv": (None, 0o600), b"site.key": (None, 0o600)})


LINES_OF_LEFT = {b"deidentified/no.dcm": b"R1 at byte 13", b"deidentified/closed.dcm": b"input cannot be opened"}


def identity_left(run):
    text = run.files.get(b"left.txt", (b"", 0))[0]
    wrong = holds(run, {b"left.txt": (None, 0o600)} | OUTPUTS) + ([] if run.status else ["status 0"])
    is_shown = re.search(rb"^# dcmdump \(\d+/\d+\): deidentified/deep/left\.dcm\n\(0010,0010\) PN \[AB\^CD\]", text, re.MULTILINE)
    wrong += [] if is_shown else [f"left.txt has {text!r}"]
    wrong += [f"of {path!r} it does not say {line!r}" for path, line in LINES_OF_LEFT.items() if b"dcmtools: " + path + b": " + line not in run.printed]
    return wrong


def identity_replaced(run):
    key = run.files.get(b"site.key", (b"", 0))[0]
    put = answer(run, ["dcmodify", "+dict", "-i", "PatientID=P001"], without_identity(run, SCAN, key))
    wrong = [] if len(key) == 32 else [f"a key of {len(key)} bytes"]
    return wrong + is_done(run) + holds(run, {b"clean.dcm": (put, 0o640), b"site.key": (None, 0o600)})


def moved_study(run):
    moved = without_identity(run, SCAN, KEY, "+pi", "+rm", "-1234")
    return holds(run, {b"moved.dcm": (moved, None), b"site.key": (KEY, None)})


def moved_by_key(run):
    number = int.from_bytes(hmac.new(KEY, b"days\\7", hashlib.sha256).digest()[:8], "big")
    moved = without_identity(run, SCAN, KEY, "+pi", "+rm", str(-1 - number % 3652))
    return holds(run, {b"moved.dcm": (moved, None), b"site.key": (KEY, None)})


def patient_found(run):
    digits = hmac.new(KEY, b"PatientID\\1234", hashlib.sha256).hexdigest().encode()
    wrong = [] if digits in run.printed else [f"printed {run.printed!r}"]
    written = without_identity(run, scan(b"AB^CD", b"1234"), KEY, "+pi")
    return wrong + ([] if b"P" + digits[:20] in written else ["the pseudonym is another"]) + holds(run, {b"site.key": (KEY, None)})


def as_text(run):
    there = run.files.get(b"scan.txt", (b"", 0))[0]
    wrong = [] if b"(0010,0010) PN [Doe^Jane] " in there else [f"scan.txt is {there!r}"]
    return wrong + is_done(run) + holds(run, {b"scan.txt": (None, 0o600), b"edited.dcm": (scan(b"Doe^Jane"), 0o640)})


def from_elsewhere(run):
    return is_done(run) + holds(run, {b"large.dcm": (SCAN, 0o600)})


def which_syntax(run):
    return is_done(run) + holds(run, {}) + ([] if run.printed == b"is read with -f -ti\n" else [f"printed {run.printed!r}"])


def set_made_whole(run):
    return is_done(run) + holds(run, {b"set.dcm": (file_of(IMPLICIT, SET), 0o640)})


def with_outputs(work):
    write_files(work, OUTPUTS)


def with_sound_outputs(work):
    write_files(work, {path: file for path, file in OUTPUTS.items() if path == b"deidentified/deep/left.dcm"})


def with_key(work):
    with open(os.path.join(work, b"site.key"), "wb") as file:
        file.write(KEY)


class Block(NamedTuple):
    begins: str  # how a line that is the block's own begins
    check: Callable[[Run], list]
    change: Callable[[bytes], None] | None = None  # what it needs beside the tree
    needs: tuple = ()  # programs that not each system has
    folder: bytes = b""  # that it makes, and that may not be there
    replaces: bytes = b""  # the file that it changes in its place
    sound: Callable[[bytes], None] | None = None  # what it needs beside a tree of sound files
    goes_on: bool = False  # its folder may be there, and what is in it stays


BLOCKS = [
    Block("dcmtools dcmdump +P PatientName", one_element),
    Block("    columns=(-k", table),
    Block("    find in/ -type f -print0 | xargs -0 -r dcmtools dcm2csv +nh -k DataSetTrailingPadding", cut_files_named),
    Block("sqlite3 table.db", table_in_sqlite, with_table, needs=("sqlite3",)),
    Block("    type parallel", table_in_parts, needs=("parallel",)),
    Block("    dcmtools dcmconv +dict +te - - < \"$file\"", in_place, replaces=b"scan.dcm"),
    Block("dcmtools dcmconv +dict +te +r in converted", converted_tree, folder=b"converted"),
    Block("    echo '\"File\"", converted_tree, folder=b"converted", goes_on=True),
    Block("    find in/ -type f -print0 | xargs -0 -r dcmtools dcmdump +dict +F", opaque_values, needs=("awk",)),
    Block("    dcmtools dcmodify +dict -m 'DoseReferenceSequence", corrected_plan, replaces=b"plan.dcm"),
    Block("dcmtools dcmodify +dict -m 'PatientName=Doe^Jane' +r", corrected_names, folder=b"fixed"),
    Block("    name=$(printf", latin_name, needs=("iconv",), replaces=b"scan.dcm"),
    Block("    > deidentified.csv && dcmtools dcmdeid", identity_of_tree, folder=b"deidentified"),
    Block("    find deidentified/ -type f", identity_left, with_outputs, sound=with_sound_outputs),
    Block("    dcmtools dcmdeid +k site.key scan.dcm - |", identity_replaced),
    Block("dcmtools dcmdeid +k site.key +pi +rm key", moved_by_key, with_key, sound=with_key),
    Block("dcmtools dcmdeid +k site.key +pi +rm -1234", moved_study, with_key, sound=with_key),
    Block("printf 'PatientID", patient_found, with_key, needs=("openssl", "xxd"), sound=with_key),
    Block("    dcmtools dcmdump +L scan.dcm > scan.txt", as_text),
    Block("    ssh archive", from_elsewhere, needs=("ssh",)),
    Block("    for syntax in", which_syntax),
    Block("    { head -c 128 /dev/zero", set_made_whole),
]

# programs that are no part of each system; a block that has one of these words says so before
NOT_USUAL = r"\b(parallel|sqlite3|iconv|ssh|awk|perl|python3|jq|rsync)\b"

MODES = [("plain", "", "C"), ("pipefail", "set -o pipefail\n", "C"), ("a UTF-8 locale", "", "C.UTF-8")]


# ---- the runs


def blocks_of(page):
    """Each block, and the paragraph before it."""
    with open(page, encoding="utf-8") as file:
        between = re.split(r"^```sh\n(.*?)^```$", file.read(), flags=re.DOTALL | re.MULTILINE)
    return [(before_it.strip().split("\n\n")[-1], text) for before_it, text in zip(between[::2], between[1::2])]


def path_without(folder, program):
    """A path on which all programs are but one."""
    os.mkdir(folder)
    for there in os.environ["PATH"].split(":"):
        for name in os.listdir(there) if os.path.isdir(there) else []:
            if name != program and not os.path.lexists(os.path.join(folder, name)):
                os.symlink(os.path.join(there, name), os.path.join(folder, name))
    return folder


def run_block(binary, text, start, locale, *changes, tree=None, lacks="", user=None):
    with tempfile.TemporaryDirectory() as room:
        tools, work = os.path.join(room, "tools"), os.fsencode(os.path.join(room, "work"))
        os.mkdir(tools)
        os.mkdir(work)
        # a folder that is a link is a tree too
        os.mkdir(os.path.join(room, "tree"))
        os.symlink("../tree", os.path.join(work, b"in"))
        shutil.copy(binary, os.path.join(tools, "dcmtools"))
        if lacks != "ssh":
            with open(os.path.join(tools, "ssh"), "w", encoding="ascii") as file:
                file.write(SSH)
            os.chmod(file.name, 0o755)
        write_files(work, before() if tree is None else tree | FILES)
        for change in changes:
            change(work)
        if NOBODY:
            give_to_nobody(room)
        there = path_without(os.path.join(room, "path"), lacks) if lacks else os.environ["PATH"]
        environment = os.environ | {"PATH": f"{tools}:{there}", "HOME": room, "LC_ALL": locale}
        streams = {"stdin": subprocess.DEVNULL, "stdout": subprocess.PIPE, "stderr": subprocess.STDOUT}
        user = NOBODY if user is None else user
        done = subprocess.run(["bash", "-c", start + text], cwd=work, env=environment, umask=0o022, timeout=600, check=False, **streams, **user)
        return Run(binary, environment, work, done.stdout, files_in(work), done.returncode)


def cut_files(work):
    for name in FILES:
        with open(os.path.join(work, name), "r+b") as file:
            file.truncate(len(CUT[name][0]))


def old_folders(work):
    for name in (b"converted", b"fixed", b"deidentified"):
        os.mkdir(os.path.join(work, name))
        with open(os.path.join(work, name, b"latin.dcm"), "wb") as file:
            file.write(b"older")


def keeps_cut_files(run):
    """A block whose input is cut leaves it as it was, and makes no file of it but a text."""
    return [wrong for wrong in holds(run, CUT) if not re.match(r"b'(in/.*|table.csv|table.db|names.txt|failed.txt|left.txt|not-.*.txt|site.key|scan.txt|(converted|fixed|deidentified)(/.*|.csv))'", wrong)]


OLDER = (b"converted/", b"fixed/", b"deidentified/")


def keeps_older_files(run, block):
    """A block whose folder is there says so, and changes nothing in it."""
    is_kept = {path: content == b"older" for path, (content, _) in run.files.items() if path.startswith(OLDER)}
    if block.goes_on:
        return [] if is_kept.get(block.folder + b"/latin.dcm") else ["an older file was changed"]
    wrong = [f"{path!r} was changed" for path, kept in is_kept.items() if not kept]
    if not block.folder:
        return wrong
    is_told = block.folder + "\u2019: File exists".encode() in run.printed.replace(b"'", "\u2019".encode()) or run.printed == b"dcmtools: output is not empty\n"
    return wrong + ([] if run.status and is_told else [f"status {run.status}"])


SOUND = {
    b"in/" + name: (file.content, file.mode)
    for name, file in TREE.items()
    if file == Input(file.content, file.mode) and is_opened(name) and b"\n" not in name
}


def does_all(run):
    """A block that has sound files ends with status 0, and leaves its input."""
    wrong = [f"{path!r} was changed" for path, file in SOUND.items() if run.files.get(path) != file]
    return wrong + is_done(run)


def tells_what_lacks(run, block, program, before_it):
    """Without a program that a block needs nothing is made, and the program is named; so it is on the page."""
    given = {table_in_sqlite: b"table.csv", patient_found: b"site.key"}.get(block.check)
    wrong = holds(run, {given: run.files.get(given)} if given else {})
    wrong += [] if run.status and program.encode() + b": " in run.printed else [f"status {run.status}, printed {run.printed!r}"]
    return wrong + ([] if program in before_it else [f"the page does not say that it needs {program}"])


def linked(block):
    """Puts a link in place of the file that a block changes."""
    def change(work):
        os.mkdir(os.path.join(work, b"store"))
        os.rename(os.path.join(work, block.replaces), os.path.join(work, b"store", b"real"))
        os.symlink(b"store/real", os.path.join(work, block.replaces))
    return change


def keeps_link(run, block):
    """A link that was changed in its place is still one, to a file of the same mode: what it leads to has no other new bytes."""
    there = {path: file for path, file in run.files.items() if path != b"store/real"}
    wrong = ["the link was replaced"] if b"is no link" in run.printed else []
    wrong += [] if run.files.get(b"store/real") == run.files.get(block.replaces) else ["what it leads to was not changed"]
    return wrong + block.check(run._replace(files=there))


def wrong_owner(binary, text, block):
    """By root: a file that is changed in its place keeps its owner."""
    run = run_block(binary, text + f"stat -c %u:%g {os.fsdecode(block.replaces)}\n", "", "C", user={})
    seen = run.printed.split()[-1:]
    return [] if seen == [b"65534:65534"] else [f"the owner is {seen}"]


def failures(binary, text, before_it, block):
    """The runs of a block that did not end as they should."""
    needed = [block.change] if block.change else []
    for mode, start, locale in MODES:
        run = run_block(binary, text, start, locale, *needed)
        yield mode, run, block.check(run)
    run = run_block(binary, text, "", "C", *needed, cut_files)
    yield "files that are cut", run, keeps_cut_files(run)
    run = run_block(binary, text, "", "C", old_folders)
    yield "folders that are there", run, keeps_older_files(run, block)
    run = run_block(binary, text, "", "C", *([block.sound] if block.sound else needed), tree=SOUND)
    yield "sound files", run, does_all(run)
    for program in block.needs:
        run = run_block(binary, text, "", "C", *needed, lacks=program)
        yield f"without {program}", run, tells_what_lacks(run, block, program, before_it)
    if block.replaces:
        is_link = f"status=$?; [ -L {os.fsdecode(block.replaces)} ] || echo is no link; exit $status\n"
        run = run_block(binary, text + is_link, "", "C", linked(block))
        yield "a link", run, keeps_link(run, block)
    if block.replaces and NOBODY:
        yield "a file of somebody else", run, wrong_owner(binary, text, block)
    if block.folder:
        for number in (signal.SIGINT, signal.SIGTERM):
            run, wrong = interrupted(binary, text, number)
            yield number.name, run, wrong
    if block.folder and may_mount():
        run, wrong = on_full_disk(binary, text, block)
        yield "a full disk", run, wrong


# dcmtools as it is, but that it waits before it writes
WAITS = '#!/bin/sh\n[ "$1" = dcm2csv ] || { : > "$HOME/begun.$$"; sleep 5; }\nexec "$HOME/dcmtools" "$@"\n'


def interrupted(binary, text, number):
    """A signal to all that a block started, once dcmtools is at work: no part is left, and no input changed. bash may end a file first."""
    with tempfile.TemporaryDirectory() as room:
        tools, work = os.path.join(room, "tools"), os.fsencode(os.path.join(room, "work"))
        os.mkdir(tools)
        os.mkdir(work)
        shutil.copy(binary, os.path.join(room, "dcmtools"))
        with open(os.path.join(tools, "dcmtools"), "w", encoding="ascii") as file:
            file.write(WAITS)
        os.chmod(file.name, 0o755)
        write_files(work, SOUND)
        if NOBODY:
            give_to_nobody(room)
        environment = os.environ | {"PATH": f"{tools}:{os.environ['PATH']}", "HOME": room, "LC_ALL": "C"}
        started = subprocess.Popen(["bash", "-c", text], cwd=work, env=environment, start_new_session=True, stdin=subprocess.DEVNULL,
                                   stdout=subprocess.PIPE, stderr=subprocess.STDOUT, **NOBODY)
        due = len(os.sched_getaffinity(0)) if "nproc" in text else 1
        for _ in range(300):
            if sum(name.startswith("begun") for name in os.listdir(room)) >= due:
                break
            time.sleep(0.1)
        os.killpg(started.pid, number)
        printed = started.communicate(timeout=120)[0]
        # the last of them may still remove its part
        time.sleep(8)
        files = files_in(work)
        made = [path for path in files if path not in SOUND and not re.fullmatch(rb"not-.*\.txt|site\.key|(converted|fixed|deidentified)(\.csv|/\.part\.\d+)", path)]
        wrong = [f"{path!r} is left" for path in made if b"/" not in path]
        wrong += [f"{path!r} is not whole" for path in made if b"/" in path and not is_read(binary, files[path][0])]
        wrong += [f"{path!r} was changed" for path, file in SOUND.items() if files.get(path) != file]
        wrong += [] if started.returncode else ["status 0"]
        return Run(binary, environment, work, printed, files, started.returncode), wrong


def is_read(binary, content):
    return subprocess.run([binary, "dcmdump", "-"], input=content, capture_output=True, timeout=60, check=False).returncode == 0


def may_mount():
    words = ["unshare", "-m", "mount", "-t", "tmpfs", "none", "/mnt"]
    return bool(NOBODY) and subprocess.run(words, capture_output=True, check=False).returncode == 0


# a tree of 1.2 MB for a disk of 2 MB
FULL = {b"in/%d.dcm" % number: (instance(b"Huber^Eva", b"%d" % number, leaf(0x7FE00010, "OB", bytes(200_000))), 0o644) for number in range(6)}

ON_FULL_DISK = """
mount -t tmpfs -o size=2M,mode=777 none "$1/full" && cp -a "$1/work/." "$1/full" && cd "$1/full" || exit 99
setpriv --reuid=65534 --regid=65534 --clear-groups bash -c "$2"
status=$?
cp -a . "$1/after"
exit $status
"""


def on_full_disk(binary, text, block):
    """On a disk that has no room for all: each file is there whole, or named, and the status is not 0."""
    with tempfile.TemporaryDirectory() as room:
        for name in ("tools", "work", "full", "after"):
            os.mkdir(os.path.join(room, name))
        shutil.copy(binary, os.path.join(room, "tools", "dcmtools"))
        work, after = (os.fsencode(os.path.join(room, name)) for name in ("work", "after"))
        write_files(work, FULL)
        give_to_nobody(room)
        environment = os.environ | {"PATH": f"{room}/tools:{os.environ['PATH']}", "HOME": room, "LC_ALL": "C"}
        done = subprocess.run(["unshare", "-m", "bash", "-c", ON_FULL_DISK, "_", room, text], env=environment, umask=0o022, timeout=600, check=False,
                              stdin=subprocess.DEVNULL, stdout=subprocess.PIPE, stderr=subprocess.STDOUT)
        run = Run(binary, environment, after, done.stdout, files_in(after), done.returncode)
        lists = b"".join(content for path, (content, _) in run.files.items() if path.startswith(b"not-")) + run.printed
        wrong = [] if run.status and run.status != 99 else [f"status {run.status}"]
        wrong += [f"{path!r} was changed" for path, file in FULL.items() if run.files.get(path) != file]
        # where outputs have other names, the rows say so
        renamed = {b"in/" + row[0].encode(): row[1].encode() for row in csv.reader(io.StringIO(run.files.get(block.folder + b".csv", (b"", 0))[0].decode()))
                   if len(row) > 1}
        names = {path: block.folder + b"/" + (renamed.get(path) or path[3:]) for path in FULL}
        whole = {path for path, name in names.items() if len(run.files.get(name, (b"", 0))[0]) > 200_000}
        is_named = {path: path + b": status" in lists or b"dcmtools: " + path[3:] + b": output failed" in lists for path in FULL}
        wrong += [f"{path!r} is neither there nor named" for path in FULL if path not in whole and not is_named[path]]
        wrong += [f"{path!r} is left" for path in run.files if re.search(rb"\.\w{6}$", path) and not path.startswith((b"in/", b"not-"))]
        return run, wrong + ([] if whole and len(whole) < len(FULL) else [f"{len(whole)} files are there"])


def manual_commands():
    """The examples of the manual page, of one file each: those that take identity out, together."""
    with open(os.path.join(ROOT, "man", "dcmtools.1"), encoding="utf-8") as file:
        page = file.read().split(".Sh EXAMPLES\n")[1].split("\n.Sh ")[0]
    parts = [re.findall(r"^\.Dl (.*)$", part, re.M) for part in page.split("\n.Pp\n")]
    alone = [line for part in parts for line in part if "site.key" not in line]
    return [*alone, "\n".join(line for part in parts for line in part if "site.key" in line)]


def readme_commands():
    """The commands of README's table, those of one row together."""
    with open(os.path.join(ROOT, "README.md"), encoding="utf-8") as file:
        rows = [line.replace("\\|", "|") for line in file if line.startswith("|") and "`dcmtools" in line]
    return ["\n".join(re.findall(r"`(dcmtools [^`]*)`", row)) for row in rows]


def wrong_commands(binary):
    """The commands of README and of the manual page that do not end with status 0, on a file that has all the elements that they name."""
    content = scan(b"AB^CD", b"7", PRIVATE + leaf(0x00181151, "IS", b"5") + uid(STUDY, b"7") + uid(SERIES, b"7"))
    images = leaf(0x00081140, "SQ", item(leaf(0x00081155, "UI", b"1.2\0")))
    content = content.replace(MODALITY, uid(INSTANCE, b"7") + MODALITY + images)
    # an image, as a scanner makes them, has a value that is longer than a line of dump2dcm
    image = content + leaf(0x7FE00010, "OB", bytes(20_000))
    for command in readme_commands() + manual_commands():
        with tempfile.TemporaryDirectory() as folder:
            os.symlink(binary, os.path.join(folder, "dcmtools"))
            for name, bytes_of in (("FILE", content), ("site.key", KEY), ("image.dcm", image), ("report.dcm", content)):
                with open(os.path.join(folder, name), "wb") as file:
                    file.write(bytes_of)
            for name in ("FOLDER", "in"):
                os.mkdir(os.path.join(folder, name))
                shutil.copy(os.path.join(folder, "FILE"), os.path.join(folder, name))
            environment = os.environ | {"PATH": f"{folder}:{os.environ['PATH']}"}
            done = subprocess.run(["bash", "-e", "-o", "pipefail", "-c", command], cwd=folder, env=environment, capture_output=True, timeout=60, check=False)
            if done.returncode or done.stderr:
                yield f"{command}: status {done.returncode}, {done.stderr!r}"


def main():
    binary = os.path.abspath(sys.argv[1] if len(sys.argv) > 1 else os.path.join(ROOT, "crates/dcmtools/out/dcmtools"))
    texts = blocks_of(PAGE)
    wrong = 0
    for before_it, text in texts:
        known = [block for block in BLOCKS if f"\n{block.begins}" in f"\n{text}"]
        if len(known) != 1:
            print(f"{len(known)} checks of this block:\n{text}")
            wrong += 1
            continue
        if undeclared := set(re.findall(NOT_USUAL, re.sub("'.*?'", "", text))) - {*known[0].needs}:
            print(f"{known[0].begins.strip()} .. needs {undeclared}")
            wrong += 1
        for mode, run, faults in failures(binary, text, before_it, known[0]):
            if faults:
                wrong += 1
                print(f"{known[0].begins.strip()} .. ({mode}):", *faults, sep="\n  ")
                print("  printed:", *run.printed.decode("utf-8", "backslashreplace").splitlines()[:20], sep="\n    ")
    for command in wrong_commands(binary):
        wrong += 1
        print(command)
    commands = len(readme_commands()), len(manual_commands())
    print(f"{len(texts)} blocks of {len(BLOCKS)}, {commands[0]} commands of README, {commands[1]} of the manual, {wrong} runs wrong")
    return 1 if wrong or len(texts) != len(BLOCKS) else 0


if __name__ == "__main__":
    sys.exit(main())
