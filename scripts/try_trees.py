#!/usr/bin/env python3
"""Tries runs over trees of files, `+r` of dcmconv, dcmodify and dcmdeid, on folders in a temporary directory.

    scripts/try_trees.py [BINARY] [--only TEXT] [--rounds N] [--kills N] [--long] [--faults] [--jobs N]

BINARY is crates/dcmtools/out/dcmtools if it is not given. What is wanted of an output is what the tool writes of its file alone.
Rows and lines are compared in any order, since a system lists a folder in any. The checks, of which --only takes those whose names
have TEXT:

- CASES: what is there, the words, rows, lines, status, and all that is left, bytes and modes.
- A deep tree under the stack that PROFILE names, rights (as nobody, where this runs as root), a disk that gets full, one without hard links (a mount is not tried: strace refuses the
  links), and OUTPUT mounted within FOLDER (by unshare -m).
- Parts one after another against one run; runs of one part at once, four parts at once, and two that come to each instance at once
  (--rounds of each: 5, and 50 with --long).
- Runs that are killed at a random moment, whose part is removed, and that go on (--kills of them, 200).
- With --faults: each system call of runs over twelve files fails in turn, by strace. After each fault every name in OUTPUT is whole,
  nothing else is changed, and no part is left but where removing failed.

What this system does not allow is skipped, and said. The last line is `N checks, M wrong`; the status is 1 where M is not 0.
"""
import argparse
import collections
import csv
import functools
import io
import os
import random
import re
import shutil
import stat
import subprocess
import sys
import tempfile
import time
from concurrent.futures import ThreadPoolExecutor
from typing import NamedTuple

sys.dont_write_bytecode = True

from elements import IMPLICIT, even_leaf, file_of, leaf
from try_faults import calls_of, faults_of_call, faults_of_memory
from try_program import NAME, ROOT

HEADER = b'"File","Output","Status"\n'
PLAIN_MODE = 0o644
NOBODY = 65534
TIMEOUT = 120
PIPE = "a pipe"

# how much of what differs is shown
SHOWN = 400


class Link(bytes):
    """A link, by what it leads to."""


class Alone(NamedTuple):
    """What a tool writes of a file alone, and its mode."""

    words: str
    content: bytes
    mode: int = PLAIN_MODE


class Case(NamedTuple):
    """A run: what is there, and what becomes of it. No rows at all: nothing is printed. `after` has what is new."""

    claim: str
    before: dict
    words: object
    rows: object = ()
    lines: tuple = ()
    status: int = 0
    after: dict = {}
    stdin: bytes = b""
    header: bool = True
    counts: bytes = b""
    is_full: bool = False
    umask: int = 0o22


# ---- folders


def folder_at(root, parts):
    """Opens a folder, and makes it where it is missing. A path may be longer than the system takes."""
    current = os.open(root, os.O_RDONLY)
    for part in parts:
        try:
            os.mkdir(part, dir_fd=current)
        except FileExistsError:
            pass
        inner = os.open(part, os.O_RDONLY, dir_fd=current)
        os.close(current)
        current = inner
    return current


def build(root, tree):
    """Makes what is there: bytes, (bytes, mode), Link, PIPE, or None for a folder."""
    for path, what in tree.items():
        parts = path.split(b"/")
        folder = folder_at(root, parts if what is None else parts[:-1])
        if isinstance(what, Link):
            os.symlink(bytes(what), parts[-1], dir_fd=folder)
        elif what == PIPE:
            os.mkfifo(parts[-1], dir_fd=folder)
        elif what is not None:
            content, mode = what if isinstance(what, tuple) else (what, PLAIN_MODE)
            with os.fdopen(os.open(parts[-1], os.O_WRONLY | os.O_CREAT, 0o600, dir_fd=folder), "wb") as file:
                file.write(content)
            os.chmod(parts[-1], mode, dir_fd=folder)
        os.close(folder)


def found_in(folder, within=b""):
    """What is below an open folder, which is closed."""
    found = {}
    for name in map(os.fsencode, os.listdir(folder)):
        about = os.lstat(name, dir_fd=folder)
        if stat.S_ISDIR(about.st_mode):
            found[within + name] = None
            found.update(found_in(os.open(name, os.O_RDONLY, dir_fd=folder), within + name + b"/"))
        elif stat.S_ISREG(about.st_mode):
            with os.fdopen(os.open(name, os.O_RDONLY, dir_fd=folder), "rb") as file:
                found[within + name] = file.read(), stat.S_IMODE(about.st_mode)
        else:
            found[within + name] = Link(os.readlink(name, dir_fd=folder)) if stat.S_ISLNK(about.st_mode) else PIPE
    os.close(folder)
    return found


def files_of(root):
    return found_in(os.open(root, os.O_RDONLY))


# ---- runs


class Room:
    """A binary, and folders to run it in."""

    def __init__(self, binary, top):
        self.binary, self.top = binary, top

    def folder(self, tree):
        path = tempfile.mkdtemp(dir=self.top)
        os.chmod(path, 0o777)
        build(path, {name: self.made(what) for name, what in tree.items()})
        return path

    def made(self, what):
        return (self.alone(what.words, what.content), what.mode) if isinstance(what, Alone) else what

    def run(self, words, folder, *, around=(), stdin=b"", umask=0o22, is_full=False, user=None):
        """Runs it by words, within those around."""
        rights = {} if user is None else {"user": user, "group": user, "extra_groups": []}
        with open("/dev/full", "wb") as full:
            return subprocess.run(
                [*around, self.binary, *split(words)], cwd=folder, input=stdin, stdout=full if is_full else subprocess.PIPE,
                stderr=subprocess.PIPE, timeout=TIMEOUT, umask=umask, check=False, **rights)

    def start(self, words, folder):
        return subprocess.Popen(
            [self.binary, *split(words)], cwd=folder, stdin=subprocess.DEVNULL, stdout=subprocess.PIPE, stderr=subprocess.PIPE, umask=0o22)

    @functools.lru_cache
    def alone(self, words, content):
        done = subprocess.run([self.binary, *split(words), "-", "-"], input=content, capture_output=True, timeout=TIMEOUT, check=False)
        if done.returncode not in (0, 3):
            sys.exit(f"{words} of one file: status {done.returncode}, {done.stderr!r}")
        return done.stdout

    def left(self, before, after):
        """What is there afterwards: what was, and what is new with its folders."""
        left = dict(before)
        for path, what in after.items():
            what = self.made(what)
            left[path] = (what, PLAIN_MODE) if type(what) is bytes else what
            while b"/" in path:
                path = path.rsplit(b"/", 1)[0]
                left.setdefault(path, None)
        return left


def split(words):
    return words.split(" ") if isinstance(words, str) else list(words)


def cell(text):
    return b'"' + text.replace(b'"', b'""') + b'"' if text else b""


def manifest(rows, header=True):
    return (HEADER if header else b"") + b"".join(b",".join(map(cell, row)) + b"\n" for row in rows)


def in_any_order(text):
    """Rows or lines sorted; the header stays first. No name of a case has a newline and a quote beside it."""
    first = HEADER if text.startswith(HEADER) else b""
    return first + b"".join(sorted(text[len(first):].splitlines(True)))


def rows_in(text):
    """The rows of a manifest: (File, Output, Status)."""
    text = text[len(HEADER):] if text.startswith(HEADER) else text
    return [tuple(row) for row in csv.reader(io.StringIO(text.decode("utf-8"), newline=""))]


def line(text):
    return b"dcmtools: " + text + b"\n"


def difference(what, wanted, got):
    return [] if wanted == got else [f"{what}: wanted {wanted!r:.{SHOWN}}, got {got!r:.{SHOWN}}"]


def described(what):
    """What is at a path; of a file its size, its mode, and how it ends."""
    if not isinstance(what, tuple):
        return "a folder" if what is None else f"a link to {bytes(what)!r}" if isinstance(what, Link) else what
    content, mode = what
    return f"{len(content)} bytes, mode {mode:o}, {content[-20:]!r} at the end"


def differences_of_trees(wanted, got):
    """What is wrong at the first paths that differ."""
    there = {path: (wanted.get(path, "nothing"), got.get(path, "nothing")) for path in sorted({**wanted, **got})}
    differing = [(path, *both) for path, both in there.items() if both[0] != both[1]]
    return [f"{path[-80:]!r}: wanted {described(first)}, got {described(second)}" for path, first, second in differing[:3]]


# ---- what is there


CUT, TEXT = NAME[:-1], b"no DICOM\n" * 20
OTHER = file_of(IMPLICIT, leaf(0x00100010, "PN", b"E^F ", IMPLICIT))
CONVERTED = Alone("dcmconv", NAME)
FOLDER = {b"in/a": NAME, b"in/x/b": OTHER}
DONE = {b"out/a": CONVERTED, b"out/x/b": Alone("dcmconv", OTHER)}
ENDS_EARLY, NO_PREFIX = b"R1 at byte 185: input ends too early", b"R2 at byte 128: no DICM prefix"
EMPTY = b"input has no files"
CUT_OFF = b": another run is at work, or was cut off"
UNOPENED, OUTPUT_UNOPENED = b"input cannot be opened", b"output cannot be opened"
ONE_EMPTIED = b"1 dates are emptied"


SOP_INSTANCE_UID, STUDY_DATE, PATIENT_ID, STUDY_UID, SERIES_UID, BURNED_IN = 0x00080018, 0x00080020, 0x00100020, 0x0020000D, 0x0020000E, 0x00280301


def instance(study, series, uid, *, patient=b"7 ", pixels=b"NO", date=None):
    """A file of an instance; an identifier that is None is missing."""
    elements = [(SOP_INSTANCE_UID, "UI", uid), (STUDY_DATE, "DA", date), (PATIENT_ID, "LO", patient), (STUDY_UID, "UI", study), (SERIES_UID, "UI", series), (BURNED_IN, "CS", pixels)]
    return file_of(IMPLICIT, b"".join(even_leaf(*of, IMPLICIT) for of in elements if of[2] is not None))


def written(*names, word=b"written"):
    return [(name, name, word) for name in names]


def by_identifiers(*pairs):
    """Rows of files and the names that their identifiers give."""
    return [(name, output, b"written") for name, output in pairs]


def not_done(word, *names):
    return [(name, b"", word) for name in names]


def told(text, *names):
    return [name + b": " + text for name in names]


def copies(names, content=NAME, within=b"in/"):
    return {within + name: content for name in names}


def no_rows(claim, before, words, text, status=4, **more):
    """A run that only says a line."""
    return Case(claim, {**FOLDER, **before}, words, None, (text,), status, **more)


ODD = [b'a"b, c', b"\xc3\xa9\\", b"=1", b"-x", b"@y", b" ", b"new\nline"]
ODD_LINES = [b'a"b, c', b"\xc3\xa9\\5c", b"=1", b"-x", b"@y", b" ", b"new\\0aline"]
DEEP = b"d/" * 62 + b"d"
FAR = (b"x" * 200 + b"/") * 20
PARTS = (b".part.1", b".part.x", b".PART.1")

# names of 4,222 bytes: their first 4,096 are of the first and of the second of two parts, and all of their bytes of the other
OF_FIRST, OF_SECOND = FAR + b"a" + b"b" * 199 + b"a", FAR + b"a" * 201
IN_THE_WAY = (b"a", b"b/c", b"d/e", b"f")
EDITS = "dcmodify -m PatientID=7 -ea PatientName -m Rows=2"

# instances, and those that have no fit identifier
INSTANCE, SECOND = instance(b"1.2", b"1.3", b"1.4"), instance(b"1.2", b"1.5", b"1.6\0\0")
VANISHING = instance(b"1.2", b"1.3", b"1.4", date=b"2024.01.01")
FIRST_NAME, SECOND_NAME, LONG_NAME = b"1.2/1.3/1.4.dcm", b"1.2/1.5/1.6.dcm", b"1" * 64 + b"/2/....dcm"
UNFIT_INSTANCES = {
    b"in/none": instance(None, None, b"1.4"), b"in/up": instance(b"..", b"1.3", b"1.4"), b"in/here": instance(b"1.2", b".", b"1.4"),
    b"in/text": instance(b"1.2", b"1.3", b"1.x4"), b"in/long": instance(b"1.2", b"1.3", b"1" * 65), b"in/series": instance(b"1.2", b" ", None),
    b"in/uid": instance(b"1.2", b"1.3", b"1.4\0\0.")}
KEY = bytes(range(32))
NOBODY_NAMED = b"R17 at byte %d: no usable PatientID" % (len(file_of(IMPLICIT, even_leaf(SOP_INSTANCE_UID, "UI", b"1.4", IMPLICIT))))

# names and the parts that they are of: FNV-1a of a, x/b is e40c292c, dbcc90ee (part 1 of 2), of b, l e70c2de5, e90c310b (part 2)
HALVES = {b"in/a": NAME, b"in/b": CUT, b"in/x/b": NAME, b"in/l": Link(b"a")}
HASHED = (b"foobar", b"a", b"b", b"c", b"d", b"e", b"f", b"fo", b"foo", b"foob", b"fooba", b"\xc3\xa9")

# the lines of a list, those that do not fit, and what is told of the others
LISTED = [b"in/a", b"./in/x/b", b"/etc/passwd", b"../x", b"in/../in/a", b"in//a", b"in/./a", b"in/a/", b".", b"./", b"././in/a", b"nul\0",
          b"", b"\xff", b"l", b"in", b"gone", b"in/a/b", b"DICOMDIR", b"out/x", b"out", b".part.1", b"y" * 4096, b"y" * 5000, b"in/a"]
UNFIT = LISTED[2:11] + [b"y" * 4096, b"y" * 4096]
LIST_FOLDER = {**FOLDER, b"l": Link(b"in/a"), b"DICOMDIR": NAME, b"list": b"\n".join(LISTED)}

CASES = [
    Case("a folder", {**FOLDER, b"in/x/y/c": (NAME, 0o400), b"in/empty": None}, "dcmconv +r in out", written(b"a", b"x/b", b"x/y/c"),
         after={**DONE, b"out/x/y/c": CONVERTED._replace(mode=0o400)}),
    Case("words anywhere", {b"in/a": (OTHER, 0o4666), b"out": None}, "dcmconv in +dict +r out/ +te +nh", written(b"a"), header=False,
         after={b"out/a": Alone("dcmconv +dict +te", OTHER)}),
    Case("a umask", {b"in/a": (NAME, 0o777), b"in/b": NAME, b"in/c": (NAME, 0o440)}, "dcmconv +r in out", written(b"a", b"b", b"c"), umask=0o77,
         after={b"out/a": CONVERTED._replace(mode=0o700), b"out/b": CONVERTED._replace(mode=0o600), b"out/c": CONVERTED._replace(mode=0o400)}),
    Case("no umask", {b"in/a": (NAME, 0o1777), b"in/b": (NAME, 0o666)}, "dcmconv +r in out", written(b"a", b"b"), umask=0,
         after={b"out/a": CONVERTED._replace(mode=0o777), b"out/b": CONVERTED._replace(mode=0o666)}),
    Case("faults", {**FOLDER, b"in/z/cut": CUT, b"in/t": TEXT}, "dcmconv +r in out", written(b"a", b"x/b") + not_done(b"refused", b"z/cut", b"t"),
         (b"z/cut: " + ENDS_EARLY, b"t: " + NO_PREFIX), 2, DONE),
    Case("edits without a place", {**FOLDER, b"in/cut": CUT}, "dcmodify -m PatientID=7 +r -ea PatientName +part 1/1 -m Rows=2 in out",
         written(b"a", b"x/b", word=b"unplaced") + not_done(b"refused", b"cut"),
         (*told(b"edit 1 found no place", b"a", b"x/b"), *told(b"edit 3 found no place", b"a", b"x/b"), b"cut: " + ENDS_EARLY), 3,
         {b"out/a": Alone(EDITS, NAME), b"out/x/b": Alone(EDITS, OTHER)}),
    # what is there already
    Case("+c", {**FOLDER, b"in/cut": CUT, b"out/a": (b"old", 0o600), b"out/cut": b"old", b"out/own": b"o"}, "dcmconv +c +r in out",
         written(b"a", b"cut", word=b"there") + written(b"x/b"), after={b"out/x/b": DONE[b"out/x/b"]}),
    Case("something else in the way",
         {**copies((*IN_THE_WAY, b"g")), b"elsewhere/e": b"old", b"out/a/own": b"o", b"out/b": b"o", b"out/d": Link(b"../elsewhere"), b"out/f": Link(b"gone")},
         "dcmconv +c +r in out", not_done(b"unwritten", *IN_THE_WAY) + written(b"g"), told(OUTPUT_UNOPENED, *IN_THE_WAY), 4, {b"out/g": CONVERTED}),
    no_rows("OUTPUT is not empty", {b"out/own": b"o"}, "dcmconv +r in out", b"output is not empty"),
    no_rows("OUTPUT is a file", {b"out": b"o"}, "dcmconv +c +r in out", OUTPUT_UNOPENED),
    no_rows("OUTPUT's folder is missing", {}, "dcmconv +r in no/out", OUTPUT_UNOPENED),
    no_rows("OUTPUT is a link to nothing", {b"out": Link(b"gone")}, "dcmconv +r in out", OUTPUT_UNOPENED),
    no_rows("the same with +c", {b"out": Link(b"gone")}, "dcmconv +c +r in out", OUTPUT_UNOPENED),
    no_rows("FOLDER is missing", {}, "dcmconv +r gone out", UNOPENED),
    no_rows("FOLDER is a file", {}, "dcmconv +r in/a out", UNOPENED),
    no_rows("FOLDER is a pipe", {b"pipe": PIPE}, "dcmconv +r pipe out", UNOPENED),
    no_rows("the list is missing", {}, "dcmconv +r @gone out", b"gone: " + UNOPENED),
    no_rows("OUTPUT is FOLDER", {}, "dcmconv +c +r in ./in", b"output is the input"),
    no_rows("OUTPUT is a link to FOLDER", {b"l": Link(b"in")}, "dcmconv +c +r in l", b"output is the input"),
    no_rows("OUTPUT would be within FOLDER", {}, "dcmconv +r in in/x/new", b"output is within the input"),
    no_rows("OUTPUT is within FOLDER", {}, "dcmconv +c +r in in/x", b"output is within the input"),
    no_rows("OUTPUT is within FOLDER, by a link", {b"l": Link(b"in/x")}, "dcmconv +r in l/new", b"output is within the input"),
    no_rows("FOLDER is within OUTPUT", {}, "dcmconv +c +r in/x in", b"input is within the output"),
    no_rows("FOLDER is within OUTPUT, by a link", {b"l": Link(b"in/x")}, "dcmconv +c +r l in", b"input is within the output"),
    no_rows("OUTPUT is the current folder, of a list", {b"l": b"in/a\n"}, "dcmconv +c +r @l .", b"output is the input"),
    no_rows("a part is a link", {b"out/.part.1": Link(b"gone")}, "dcmconv +c +r in out", b".part.1" + CUT_OFF),
    Case("links to both", {**FOLDER, b"folder": Link(b"in"), b"new": None, b"output": Link(b"new")}, "dcmconv +r folder output", written(b"a", b"x/b"),
         after={b"new/a": CONVERTED, b"new/x/b": DONE[b"out/x/b"]}),
    Case("the part of another run stays", {**FOLDER, b"out/.part.2": b"half"}, "dcmconv +c +r in out", written(b"a", b"x/b"), after=DONE),
    # names
    Case("links, a pipe, and links to folders", {b"in/a": NAME, b"in/l": Link(b"a"), b"in/m": Link(b"."), b"in/n": Link(b"gone"), b"in/p": PIPE, b"in/o": Link(b"../out")},
         "dcmconv +r in out", written(b"a") + not_done(b"left-out", b"l", b"m", b"n", b"o", b"p"), told(b"no regular file", b"l", b"m", b"n", b"o", b"p"), 4, {b"out/a": CONVERTED}),
    Case("DICOMDIR", copies((b"DICOMDIR", b"x/DicomDir", b"dicomdir.dcm", b"y/dicomdir/a")), "dcmconv +r in out",
         written(b"dicomdir.dcm", b"y/dicomdir/a") + not_done(b"left-out", b"DICOMDIR", b"x/DicomDir"), told(b"DICOMDIR is left out", b"DICOMDIR", b"x/DicomDir"),
         after={b"out/dicomdir.dcm": CONVERTED, b"out/y/dicomdir/a": CONVERTED}),
    Case("names with a newline, a quote and others", copies(ODD), "dcmconv +r in out", written(*ODD), after=copies(ODD, CONVERTED, b"out/")),
    Case("such names in lines", copies(ODD, b""), "dcmconv +r in out", not_done(b"refused", *ODD), told(b"R1 at byte 0: input ends too early", *ODD_LINES), 2, {b"out": None}),
    Case("names that are no UTF-8", copies((b"\xff", b"d\xe9/a", b"a")), "dcmconv +r in out", written(b"a") + not_done(b"left-out", b"\\xff", b"d\\xe9"),
         told(b"name is no UTF-8", b"\xff", b"d\xe9"), 4, {b"out/a": CONVERTED}),
    Case("parts of other runs in FOLDER", copies((b".part.1", b".part.x/a", b".PART.1", b"x/.part.1", b".part")), "dcmconv +r in out",
         written(b"x/.part.1", b".part") + not_done(b"left-out", *PARTS), told(b"part of another run", *PARTS), 4, {b"out/x/.part.1": CONVERTED, b"out/.part": CONVERTED}),
    Case("64 folders", copies((DEEP + b"/a", DEEP + b"/d/a")), "dcmconv +r in out", written(DEEP + b"/a") + not_done(b"left-out", DEEP + b"/d"),
         told(b"folder is too deep", DEEP + b"/d"), 4, {b"out/" + DEEP + b"/a": CONVERTED}),
    Case("long paths", copies((FAR + b"a", FAR + b"y" * 72, FAR + b"z" * 73, FAR + b"w" * 200 + b"/a")), "dcmconv +r in out",
         written(FAR + b"a") + not_done(b"unwritten", FAR + b"y" * 72) + not_done(b"left-out", FAR + b"z" * 73, (FAR + b"w" * 200)[:4096]),
         (FAR + b"y" * 72 + b": " + OUTPUT_UNOPENED, *told(b"name does not fit", FAR + b"z" * 73, (FAR + b"w" * 200)[:4096])), 4, {b"out/" + FAR + b"a": CONVERTED}),
    # parts
    Case("the first of two parts", HALVES, "dcmconv +part 1/2 +r in out", written(b"a", b"x/b"), after={b"out/a": CONVERTED, b"out/x/b": CONVERTED}),
    Case("the second", {**HALVES, b"out/a": CONVERTED}, "dcmconv +r in +part 02/2 out", not_done(b"refused", b"b") + not_done(b"left-out", b"l"), (b"b: " + ENDS_EARLY, b"l: no regular file"), 4),
    Case("the last +part counts", copies(HASHED), "dcmconv +part 1/9 +r +part 3/5 in out", written(b"b", b"\xc3\xa9"), after=copies((b"b", b"\xc3\xa9"), CONVERTED, b"out/")),
    Case("the first part, by the first bytes of long names", copies((b"a", OF_FIRST, OF_SECOND)), "dcmconv +part 1/2 +r in out",
         written(b"a") + not_done(b"left-out", OF_FIRST[:4096]), told(b"name does not fit", OF_FIRST[:4096]), 4, {b"out/a": CONVERTED}),
    Case("the second, by the first bytes of long names", copies((b"a", OF_FIRST, OF_SECOND)), "dcmconv +part 2/2 +r in out",
         not_done(b"left-out", OF_SECOND[:4096]), told(b"name does not fit", OF_SECOND[:4096]), 4, {b"out": None}),
    Case("a part without names", HALVES, "dcmconv +part 9999/9999 +r in out", after={b"out": None}),
    # lists
    Case("a list", LIST_FOLDER, "dcmconv +r @list out",
         [(b"in/a", b"in/a", b"written"), (b"./in/x/b", b"in/x/b", b"written"), (b"l", b"l", b"written"), (b"in/a", b"in/a", b"taken"), *not_done(b"unread", b"gone", b"in/a/b"),
          *not_done(b"left-out", *UNFIT, b"nul\0", b"\\xff", b"in", b"DICOMDIR", b"out/x", b"out", b".part.1")],
         (*told(b"name does not fit", *UNFIT, b"nul\\00"), b"\xff: name is no UTF-8", b"in: no regular file", *told(UNOPENED, b"gone", b"in/a/b"),
          b"DICOMDIR: DICOMDIR is left out", *told(b"output is not read", b"out/x", b"out"), b".part.1: part of another run", b"in/a: output is there already"), 4,
         {b"out/in/a": CONVERTED, b"out/in/x/b": DONE[b"out/x/b"], b"out/l": CONVERTED}),
    Case("a list in standard input", FOLDER, "dcmodify -ea PatientName +r @- out", [(b"in/a", b"in/a", b"written")], stdin=b"\nin/a", after={b"out/in/a": Alone("dcmodify -ea PatientName", NAME)}),
    Case("a folder whose name begins with @", {b"@x/a": NAME}, "dcmconv +r ./@x out", written(b"a"), after={b"out/a": CONVERTED}),
    Case("no files", {b"in": None}, "dcmconv +r in out", lines=(EMPTY,), status=4, after={b"out": None}),
    Case("no files in folders", {b"in/a/b": None, b"in/c": None}, "dcmodify -ep +c +r in out", lines=(EMPTY,), status=4, after={b"out": None}),
    Case("an empty list", {b"list": b""}, "dcmodify +r @list out", lines=(EMPTY,), status=4, after={b"out": None}),
    Case("a list of empty lines", {b"list": b"\n\n"}, "dcmconv +part 2/3 +r @list out", lines=(EMPTY,), status=4, after={b"out": None}),
    Case("a list that cannot be read", {b"list": Link(b"/proc/self/mem")}, "dcmconv +r @list out", lines=(b"list: reading failed after 0 bytes",), status=4, after={b"out": None}),
    Case("a file that cannot be read", {b"a": NAME, b"l": Link(b"/proc/self/mem")}, "dcmconv +r @- out", written(b"a") + not_done(b"unread", b"l"), (b"l: reading failed after 0 bytes",), 4,
         {b"out/a": CONVERTED}, stdin=b"l\na\n"),
    Case("no files, +nh and +v", {b"in": None}, "dcmconv +v +nh +r in out", lines=(EMPTY,), header=False, counts=b"0 files, 0 written, 0 there, 0 not done\n", status=4, after={b"out": None}),
    Case("a DICOMDIR alone", {b"in/DICOMDIR": NAME}, "dcmconv +r in out", not_done(b"left-out", b"DICOMDIR"), (b"DICOMDIR: DICOMDIR is left out",), after={b"out": None}),
    # counts, and an output that fails
    Case("+v", {b"in/a": NAME}, "dcmconv +v +r in out", written(b"a"), counts=b"1 files, 1 written, 0 there, 0 not done\n", after={b"out/a": CONVERTED}),
    Case("+v of all kinds", {**FOLDER, b"in/c": TEXT, b"in/d": TEXT, b"out/a": b"o"}, "dcmodify -m PatientID=1 +v +c +r in out",
         written(b"a", word=b"there") + written(b"x/b", word=b"unplaced") + not_done(b"refused", b"c", b"d"), (b"x/b: edit 1 found no place", *told(NO_PREFIX, b"c", b"d")), 3,
         {b"out/x/b": Alone("dcmodify -m PatientID=1", OTHER)}, counts=b"4 files, 1 written, 1 there, 2 not done\n"),
    Case("+v of a name that is taken", {b"in/a": NAME}, "dcmconv +v +r @- out", [(b"in/a", b"in/a", b"written"), (b"./in/a", b"in/a", b"taken")], (b"./in/a: output is there already",), 4,
         {b"out/in/a": CONVERTED}, stdin=b"in/a\n./in/a\n", counts=b"2 files, 1 written, 0 there, 1 not done\n"),
    Case("+v of a hundred", copies(b"%d" % n for n in range(100)), "dcmconv +r +v in out", written(*(b"%d" % n for n in range(100))),
         counts=b"100 files, 100 written, 0 there, 0 not done\r100 files, 100 written, 0 there, 0 not done\n", after=copies((b"%d" % n for n in range(100)), CONVERTED, b"out/")),
    no_rows("standard output is full", {}, "dcmconv +r in out", b"output failed", is_full=True, after={b"out": None}),
    # names by the identifiers that dcmdeid writes
    Case("identifiers", {b"in/Doe/1": INSTANCE, b"in/Doe/2": (SECOND, 0o600)}, "dcmdeid +ru +r in out", by_identifiers((b"Doe/1", FIRST_NAME), (b"Doe/2", SECOND_NAME)),
         after={b"out/" + FIRST_NAME: Alone("dcmdeid +ru", INSTANCE), b"out/" + SECOND_NAME: Alone("dcmdeid +ru", SECOND, 0o600)}),
    Case("+kn", {b"in/Doe/1": INSTANCE, b"in/t": TEXT}, "dcmdeid +kn +ru +r in out", written(b"Doe/1") + not_done(b"refused", b"t"), (b"t: " + NO_PREFIX,), 2,
         {b"out/Doe/1": Alone("dcmdeid +ru", INSTANCE)}),
    Case("no fit identifiers", UNFIT_INSTANCES, "dcmdeid +ru +r in out", not_done(b"unnamed", b"none", b"up", b"here", b"text", b"long", b"series", b"uid"),
         (*told(b"StudyInstanceUID is missing or unfit", b"none", b"up"), *told(b"SeriesInstanceUID is missing or unfit", b"here", b"series"),
          *told(b"SOPInstanceUID is missing or unfit", b"text", b"long", b"uid")), 2, {b"out": None}),
    Case("64 digits and padding", {b"in/a": instance(b"1" * 64, b"2" + b"\0 " * 300, b"...")}, "dcmdeid +ru +r in out", by_identifiers((b"a", LONG_NAME)),
         after={b"out/" + LONG_NAME: Alone("dcmdeid +ru", instance(b"1" * 64, b"2" + b"\0 " * 300, b"..."))}),
    Case("a copy is there", {b"in/a": INSTANCE, b"out/" + FIRST_NAME: Alone("dcmdeid +ru", INSTANCE)}, "dcmdeid +ru +c +r in out", [(b"a", FIRST_NAME, b"there")]),
    Case("another file is there", {b"in/a": INSTANCE, b"out/" + FIRST_NAME: b"old"}, "dcmdeid +ru +c +r in out", [(b"a", FIRST_NAME, b"taken")], (b"a: output is there already",), 4),
    Case("a longer file is there", {b"in/a": INSTANCE, b"out/" + FIRST_NAME: Alone("dcmdeid +ru", instance(b"1.2", b"1.3", b"1.4", patient=b""))}, "dcmdeid +ru +rp +c +r in out",
         [(b"a", FIRST_NAME, b"taken")], (b"a: output is there already",), 4),
    Case("something else is there", {b"in/a": INSTANCE, b"out/1.2": b"old"}, "dcmdeid +ru +c +r in out", not_done(b"unwritten", b"a"), (b"a: " + OUTPUT_UNOPENED,), 4),
    Case("pixels", {b"in/a": instance(b"1.2", b"1.3", b"1.4", pixels=b"YES")}, "dcmdeid +ru +r in out", not_done(b"pixels", b"a"), (b"a: pixels may show identity",), 3, {b"out": None}),
    Case("dates vanish", {b"in/a": VANISHING, b"in/b": INSTANCE, b"in/c": VANISHING[:-1]}, "dcmdeid +kn +rm 1 +r in out", written(b"a", b"b") + not_done(b"refused", b"c"),
         (*told(ONE_EMPTIED, b"a", b"c"), b"c: R1 at byte %d: input ends too early" % (len(VANISHING) - 1)), 2,
         {b"out/a": Alone("dcmdeid +rm 1", VANISHING), b"out/b": Alone("dcmdeid +rm 1", INSTANCE)}),
    Case("dates vanish, and pixels", {b"in/a": instance(b"1.2", b"1.3", b"1.4", pixels=b"YES", date=b"TODAY")}, "dcmdeid +ru +rm 1 +r in out", not_done(b"pixels", b"a"),
         (b"a: " + ONE_EMPTIED, b"a: pixels may show identity"), 3, {b"out": None}),
    Case("dates vanish, and the name is missing", {b"in/a": instance(b"1.2", None, b"1.4", date=b"TODAY")}, "dcmdeid +ru +rm 1 +r in out", not_done(b"unnamed", b"a"),
         (b"a: " + ONE_EMPTIED, b"a: SeriesInstanceUID is missing or unfit"), 2, {b"out": None}),
    Case("dates vanish, and a copy is there", {b"in/a": VANISHING, b"out/" + FIRST_NAME: Alone("dcmdeid +ru +rm 1", VANISHING)}, "dcmdeid +ru +rm 1 +c +r in out", [(b"a", FIRST_NAME, b"there")],
         (b"a: " + ONE_EMPTIED,)),
    Case("+rm key", {b"key": KEY, b"in/-": instance(b"1.2", b"1.3", b"1.4", patient=b""), b"in/a": INSTANCE, b"in/t": TEXT}, "dcmdeid +k key +ru +rm key +r in out",
         by_identifiers((b"a", FIRST_NAME)) + not_done(b"refused", b"-", b"t"), (b"-: " + NOBODY_NAMED, b"t: " + NO_PREFIX), 2,
         {b"out/" + FIRST_NAME: Alone("dcmdeid +ru +rm -1", INSTANCE)}),
    Case("a list with a name that is no standard stream", {b"key": KEY, b"-": INSTANCE}, "dcmdeid +k key +ru +rm key +r @- out", by_identifiers((b"-", FIRST_NAME)), stdin=b"-\n",
         after={b"out/" + FIRST_NAME: Alone("dcmdeid +ru +rm -1", INSTANCE)}),
    no_rows("a key that is missing", {}, "dcmdeid +k gone +r in out", b"key cannot be opened"),
    no_rows("a short key", {b"key": b"short"}, "dcmdeid +k key +r in out", b"V7: key is not 16 to 4096 bytes", 1),
    # words
    *(no_rows(f"words: {words}", {}, words, text, 1) for words, text in (
        ("dcmconv +r +kn in out", b"V2 at word 3: unknown option"),
        ("dcmdeid +pi +r in out", b"V10: a key is needed"),
        ("dcmdeid +kn in out", b"V5: options do not go together"),
        ("dcmconv +r +u8 in out", b"V2 at word 3: unknown option"),
        ("dcmconv in +r +part 0/1 out", b"V3 at word 4: bad option value"),
        ("dcmconv +r in out +part", b"V3 at word 5: bad option value"),
        ("dcmconv +r in out +part +c", b"V3 at word 5: bad option value"),
        ("dcmodify -e Nothing +r +part 1/10000 in out", b"V3 at word 5: bad option value"),
        ("dcmodify +r +part in out", b"V3 at word 3: bad option value"),
        ("dcmconv +r in", b"V4: wrong number of paths"),
        ("dcmconv +r @ out", b"V4: wrong number of paths"),
        ("dcmodify in out +r", b"V4: wrong number of paths"),
        ("dcmodify -e Nothing +part 2/1 +r @ out", b"V4: wrong number of paths"),
        ("dcmconv +c @ out", b"V5: options do not go together"),
        ("dcmconv +c in in", b"V5: options do not go together"),
        ("dcmodify +v -ep in out", b"V5: options do not go together"),
        ("dcmconv +r in -", b"V5: options do not go together"),
        ("dcmodify +r -ep - out", b"V5: options do not go together"),
        ("dcmconv +r in in", b"V6: input and output are the same path"),
        ("dcmodify -e +r -e PatientID in out", b"U2 in edit 1: unknown tag"),
        ("dcmodify +r +kn in out", b"U1 in edit 1: bad option or path"),
        ("dcmodify +c -e Nothing in out", b"U2 in edit 1: unknown tag"))),
]


def wrong_run(case, done):
    """What is wrong with the status and the streams of a run."""
    wanted = b"" if case.rows is None else manifest(case.rows, case.header)
    told_lines = done.stderr[: -len(case.counts)] if case.counts and done.stderr.endswith(case.counts) else done.stderr
    wrong = difference("counts", case.counts, done.stderr[len(told_lines):])
    return (
        difference("status", case.status, done.returncode) + difference("rows", in_any_order(wanted), in_any_order(done.stdout or b"")) + wrong
        + difference("lines", in_any_order(b"".join(map(line, case.lines))), in_any_order(told_lines)))


def try_case(room, case):
    folder = room.folder(case.before)
    before = files_of(folder)
    done = room.run(case.words, folder, stdin=case.stdin, umask=case.umask, is_full=case.is_full)
    return wrong_run(case, done) + differences_of_trees(room.left(before, case.after), files_of(folder))


# ---- the stack


# what PROFILE says that a run over a tree needs at most, in KB
STACK = 900

DEEP_NAMES = [b"d/" * depth + b"a" for depth in range(64)]
DEEP_INSTANCES = {name: instance(b"1.2", b"1.3", b"1.%d" % depth) for depth, name in enumerate(DEEP_NAMES)}


def deep_tree(room):
    """64 folders, one in another, with a file in each."""
    around = ["sh", "-c", f'ulimit -s {STACK} && exec "$@"', "sh"]
    wrong = []
    for tool in ("dcmconv +te", "dcmodify -m PatientID=8", "dcmdeid +ru +kn", "dcmdeid +ru"):
        folder = room.folder({b"in/" + name: content for name, content in DEEP_INSTANCES.items()})
        before = files_of(folder)
        done = room.run(f"{tool} +r in out", folder, around=around)
        outputs = {name: b"1.2/1.3/1.%d.dcm" % depth if tool == "dcmdeid +ru" else name for depth, name in enumerate(DEEP_NAMES)}
        after = {b"out/" + outputs[name]: Alone(tool.replace(" +kn", ""), content) for name, content in DEEP_INSTANCES.items()}
        case = Case("", {}, "", by_identifiers(*outputs.items()))
        wrong += [f"{tool}: {text}" for text in wrong_run(case, done) + differences_of_trees(room.left(before, after), files_of(folder))]
    return wrong


# ---- rights, disks and mounts


def may(*words):
    """Whether this system lets such a command be run."""
    return bool(shutil.which(words[0])) and subprocess.run(words, capture_output=True, check=False).returncode == 0


def within_mounts(script):
    """Words around a program: a shell with mounts of its own, which runs it as "$@"."""
    return ["unshare", "-m", "sh", "-c", script, "sh"]


SKIPPED = "skipped"
MOUNTS = ("unshare", "-m", "mount", "-t", "tmpfs", "none", "/mnt")

CLOSED = {b"in/a": NAME, b"in/b": (NAME, 0), b"in/closed/c": NAME, b"in/listed/d": NAME, b"out/full/own": b"o", b"in/full/e": NAME}


def closed_folders(folder):
    """Takes rights of folders away, and gives the tree to nobody."""
    for path, _, names in os.walk(folder):
        for name in (path, *(os.path.join(path, name) for name in names)):
            os.chown(name, NOBODY, NOBODY, follow_symlinks=False)
    for name, mode in (("in/closed", 0), ("in/listed", 0o444), ("out/full", 0o555)):
        os.chmod(os.path.join(folder, name), mode)


# folders that are read, and what those are whose modes are said in `folder_modes`
MODES = {b"in": 0o750, b"in/x": 0o700, b"in/x/y": 0o500, b"in/z": 0o755}
IN_FOLDERS = {b"in/a": INSTANCE, b"in/x/y/b": SECOND, b"in/z/c": INSTANCE, b"list": b"in/a\nin/x/y/b\nin/z/c\n"}
MADE_MODES = (
    ("dcmconv +r in out", {b"out": 0o750, b"out/x": 0o700, b"out/x/y": 0o700, b"out/z": 0o755}),
    ("dcmdeid +kn +r in out", {b"out": 0o750, b"out/x": 0o700, b"out/x/y": 0o700, b"out/z": 0o755}),
    ("dcmdeid +ru +r in out", {b"out": 0o750, b"out/1.2": 0o750, b"out/1.2/1.3": 0o750, b"out/1.2/1.5": 0o750}),
    ("dcmconv +r @list out", {b"out": 0o777, b"out/in": 0o777, b"out/in/x": 0o777, b"out/in/x/y": 0o777, b"out/in/z": 0o777}),
)


def modes_below(folder, name):
    """The modes of a folder and of those in it."""
    paths = (os.path.relpath(os.fsencode(path), os.fsencode(folder)) for path, _, _ in os.walk(os.path.join(folder, name)))
    return {path: stat.S_IMODE(os.stat(os.path.join(os.fsencode(folder), path)).st_mode) for path in paths}


def folder_modes(room):
    """By names that are kept, by identifiers and of a list, less a umask; what is there keeps its mode."""
    wrong = []
    for umask in 0o22, 0o77:
        for words, wanted in MADE_MODES:
            folder = room.folder(IN_FOLDERS)
            for name, mode in MODES.items():
                os.chmod(os.path.join(os.fsencode(folder), name), mode)
            done = room.run(words, folder, umask=umask)
            wrong += difference(f"{words}, umask {umask:o}: status", 0, 0 if done.returncode == 0 else done.stderr)
            wrong += difference(f"{words}, umask {umask:o}", {path: mode & ~umask for path, mode in wanted.items()}, modes_below(folder, "out"))
            os.chmod(os.path.join(folder, "in/x/y"), 0o700)
    folder = room.folder({b"in/x/a": NAME, b"out/x": None})
    os.chmod(os.path.join(folder, "in/x"), 0o700)
    room.run("dcmconv +c +r in out", folder)
    return wrong + difference("what is there", {b"out": 0o755, b"out/x": 0o755}, modes_below(folder, "out"))


def without_rights(room):
    if os.getuid() != 0:
        return SKIPPED, "this is not run as root, which alone becomes nobody"
    folder = room.folder(CLOSED)
    before = files_of(folder)
    closed_folders(folder)
    done = room.run("dcmconv +c +r in out", folder, user=NOBODY)
    for name in ("in/closed", "in/listed", "out/full"):
        os.chmod(os.path.join(folder, name), 0o755)
    case = Case("", {}, "", written(b"a") + not_done(b"unread", b"b", b"closed", b"listed/d") + not_done(b"unwritten", b"full/e"),
                (*told(UNOPENED, b"b", b"listed/d"), b"closed: folder cannot be read", b"full/e: output failed"), 4)
    return wrong_run(case, done) + differences_of_trees(room.left(before, {b"out/a": CONVERTED}), files_of(folder))


def no_rights_at_all(room):
    """Of FOLDER, of the folder that OUTPUT is to be in, and of OUTPUT, which nobody may then look into or write."""
    if os.getuid() != 0:
        return SKIPPED, "this is not run as root, which alone becomes nobody"
    wrong = []
    for name, words, text in (("in", "dcmconv +r in out", UNOPENED), ("place", "dcmconv +r in place/out", OUTPUT_UNOPENED), ("there", "dcmconv +c +r in there", OUTPUT_UNOPENED)):
        folder = room.folder({**FOLDER, b"place": None, b"there": None})
        before = files_of(folder)
        os.chmod(os.path.join(folder, name), 0o0)
        done = room.run(words, folder, user=NOBODY)
        os.chmod(os.path.join(folder, name), 0o755)
        wrong += wrong_run(Case("", {}, "", None, (text,), 4), done) + differences_of_trees(before, files_of(folder))
    folder = room.folder({**FOLDER, b"out": None})
    done = room.run("dcmconv +r in out", folder, user=NOBODY)
    case = Case("", {}, "", not_done(b"unwritten", b"a", b"x/b"), told(OUTPUT_UNOPENED, b"a", b"x/b"), 4)
    return wrong + wrong_run(case, done) + differences_of_trees(room.left({}, {**FOLDER, b"out": None}), files_of(folder))


def many(count, size=0):
    """Files in folders, each with another name of a patient and, where asked, a value of so many bytes."""
    value = b"\x11\0\x10\0UN\0\0" + size.to_bytes(4, "little") + bytes(size) if size else b""
    return {b"in/%d/f%04d" % (n % 7, n): NAME[:-6] + b"N%05d" % n + value for n in range(count)}


def whole_outputs(room, before):
    """What dcmconv writes of each file of FOLDER, by its name."""
    return {path[3:]: room.alone("dcmconv", content) for path, content in before.items()}


def halves(kept, outputs):
    """The files of OUTPUT that are not whole, and parts that are left."""
    return [f"{path!r} is not whole" for path, what in kept.items() if what is not None and outputs.get(path) != what[0]]


def full_disk(room, options="size=200k"):
    if not may(*MOUNTS):
        return SKIPPED, "unshare -m mount is not allowed"
    before = many(40, 20_000)
    folder = room.folder({**before, b"full": None})
    script = f'mount -t tmpfs -o {options} none full && "$@"; status=$?; cp -a full kept; exit $status'
    done = room.run("dcmconv +r in full", folder, around=within_mounts(script))
    kept, outputs = files_of(os.path.join(folder, "kept")), whole_outputs(room, before)
    rows = rows_in(done.stdout)
    names = {row[0].encode() for row in rows if row[2] == "written"}
    wrong = halves(kept, outputs) + difference("written rows and outputs", names, {path for path, what in kept.items() if what is not None})
    wrong += difference("rows", {path.decode() for path in outputs}, {row[0] for row in rows}) + difference("status", 4, done.returncode)
    wrong += difference("other rows", {"unwritten"}, {row[2] for row in rows if row[2] != "written"})
    texts = {text.split(b": ", 2)[2] for text in done.stderr.splitlines()}
    return wrong + difference("lines", set(), texts - {b"output failed", OUTPUT_UNOPENED})


def no_more_files(room):
    return full_disk(room, "size=8m,nr_inodes=20")


def without_links(room):
    """A system that makes no second names: the part is renamed."""
    words = ["strace", "-f", "-o", "/dev/null", "-e", "trace=link,linkat", "-e", "inject=link,linkat:error=EPERM"]
    if not may(*words, "true"):
        return SKIPPED, "strace is not there, or not allowed"
    before = many(10)
    folder = room.folder(before)
    done = room.run("dcmconv +r in out", folder, around=words)
    case = Case("", {}, "", written(*whole_outputs(room, before)))
    again = room.run("dcmconv +c +r in out", folder, around=words)
    after = {b"out/" + path[3:]: Alone("dcmconv", content) for path, content in before.items()}
    wrong = differences_of_trees(room.left(room.left({}, before), after), files_of(folder))
    return wrong + wrong_run(case, done) + wrong_run(Case("", {}, "", written(*whole_outputs(room, before), word=b"there")), again)


def mounted_within(room):
    if not may(*MOUNTS):
        return SKIPPED, "unshare -m mount is not allowed"
    folder = room.folder({**FOLDER, b"in/m": None, b"out": None})
    before = files_of(folder)
    done = room.run("dcmconv +r in out", folder, around=within_mounts('mount --bind out in/m && exec "$@"'))
    case = Case("", {}, "", written(b"a", b"x/b") + not_done(b"left-out", b"m"), (b"m: output is not read",), 4)
    wrong = wrong_run(case, done) + differences_of_trees(room.left(before, DONE), files_of(folder))
    done = room.run("dcmconv +c +r in in/m", folder, around=within_mounts('mount --bind out in/m && exec "$@"'))
    return wrong + wrong_run(Case("", {}, "", None, (b"output is within the input",), 4), done)


# ---- parts, and runs at once


MANY = {**many(60), b"in/cut": CUT, b"in/l": Link(b"cut"), b"in/x/DICOMDIR": NAME, b"in/0/big": NAME + b"\x11\0\x10\0UN\0\0\xa0\x86\1\0" + bytes(100_000)}


@functools.lru_cache
def one_run(room):
    """What one run leaves, its rows and status, and the seconds that it took."""
    folder = room.folder(MANY)
    start = time.monotonic()
    done = room.run("dcmconv +c +r in out", folder)
    return files_of(folder), sorted(rows_in(done.stdout)), done.returncode, time.monotonic() - start


def parts_in_turn(room):
    """Three parts in any order, then each again."""
    files, rows, status, _ = one_run(room)
    wrong = []
    for order in ((1, 2, 3), (3, 1, 2)):
        folder = room.folder(MANY)
        runs = [room.run(f"dcmconv +part {part}/3 +r in out", folder) for part in order]
        wrong += differences_of_trees(files, files_of(folder)) + difference("status", status, max(done.returncode for done in runs))
        wrong += difference("rows", rows, sorted(row for done in runs for row in rows_in(done.stdout)))
        wrong += difference("empty parts", 0, sum(done.stdout == HEADER for done in runs))
        again = [room.run(f"dcmconv +part {part}/3 +r in out", folder) for part in order]
        there = sorted((name, output, "there" if word == "written" else word) for name, output, word in rows)
        wrong += difference("rows of second runs", there, sorted(row for done in again for row in rows_in(done.stdout)))
        wrong += differences_of_trees(files, files_of(folder))
    return wrong


def parts_of_lists(room):
    """Parts of a list, which name a file twice by different words: both are of one part."""
    names = "".join(f"in/{n % 7}/f{n:04}\n./in/{n % 7}/f{n:04}\n" for n in range(60)).encode()
    wanted, found = room.folder(MANY), room.folder(MANY)
    whole = room.run("dcmconv +c +r @- out", wanted, stdin=names)
    parts = [room.run(f"dcmconv +part {part}/3 +r @- out", found, stdin=names) for part in (2, 3, 1)]
    rows = [sorted(row for done in runs for row in rows_in(done.stdout)) for runs in ([whole], parts)]
    return difference("rows", *rows) + differences_of_trees(files_of(wanted), files_of(found)) + difference("statuses", [0], sorted({run.returncode for run in (whole, *parts)}))


def ended_at_once(room, commands, tree=None):
    """The folder after runs that are started at once, and how each ended: status, rows, lines."""
    folder = room.folder(tree or MANY)
    started = [room.start(words, folder) for words in commands]
    ends = []
    for process in started:
        out, err = process.communicate(timeout=TIMEOUT)
        ends.append((process.returncode, rows_in(out), err))
    return folder, ends


def twice_at_once(room):
    """Two runs of one part: one of them may end at the other's part, the other does all."""
    files, rows, status, _ = one_run(room)
    folder, ends = ended_at_once(room, ["dcmconv +c +r in out"] * 2)
    refused = [end for end in ends if end[2].endswith(line(b".part.1: another run is at work"))]
    wrong = differences_of_trees(files, files_of(folder)) + [f"ended: {end[2]!r:.200}" for end in ends if end not in refused and end[0] != status]
    wrong += [f"{len(refused)} runs ended at a part"] if len(refused) > 1 else []
    done = [row[0] for end in ends for row in end[1] if row[2] == "written"]
    return wrong + difference("written", sorted(row[0] for row in rows if row[2] == "written"), sorted(done))


def four_at_once(room):
    files, rows, status, _ = one_run(room)
    folder, ends = ended_at_once(room, [f"dcmconv +part {part}/4 +r in out" for part in (1, 2, 3, 4)])
    wrong = differences_of_trees(files, files_of(folder)) + difference("rows", rows, sorted(row for end in ends for row in end[1]))
    return wrong + difference("status", status, max(end[0] for end in ends))


# two files of each instance, whose names differ in one bit, the lowest of the hash, so that they are of different parts of two
PAIRS = {b"in/%d/%s" % (number, name): instance(b"1.2", b"1.3", b"1.%d" % number) for number in range(60) for name in (b"a", b"b")}


def one_instance_at_once(room):
    """Two parts that come to each instance at once: one writes it, the other finds it there."""
    folder, ends = ended_at_once(room, [f"dcmdeid +ru +part {part}/2 +r in out" for part in (1, 2)], PAIRS)
    outputs = {b"1.2/1.3/1.%d.dcm" % number: instance(b"1.2", b"1.3", b"1.%d" % number) for number in range(60)}
    after = {b"out/" + name: Alone("dcmdeid +ru", content) for name, content in outputs.items()}
    made = {path: (content, PLAIN_MODE) for path, content in PAIRS.items()}
    before = {**made, **{b"/".join(path.split(b"/")[:count]): None for path in PAIRS for count in (1, 2)}}
    wrong = differences_of_trees(room.left(before, after), files_of(folder))
    rows = [row for end in ends for row in end[1]]
    for word in ("written", "there"):
        wrong += difference(word, sorted(map(bytes.decode, outputs)), sorted(row[1] for row in rows if row[2] == word))
    wrong += difference("names", sorted(path[3:].decode() for path in PAIRS), sorted(row[0] for row in rows))
    return wrong + difference("statuses", [0, 0], [end[0] for end in ends]) + difference("lines", [b"", b""], [end[2] for end in ends])


# ---- runs that are killed


def killed(room, cut_off):
    """A run that is killed after a part of its time, and goes on: the tree is that of one run. What it left is noted."""
    files, _, status, seconds = one_run(room)
    outputs = {path[4:]: what[0] for path, what in files.items() if path.startswith(b"out/") and what is not None}
    folder = room.folder(MANY)
    process = room.start("dcmconv +c +r in out", folder)
    time.sleep(random.uniform(0, seconds))
    process.kill()
    process.communicate()
    out = os.path.join(folder, "out")
    left_files = files_of(out) if os.path.isdir(out) else {}
    is_whole = {b"out/" + path for path in left_files} == {path for path in files if path.startswith(b"out/")}
    cut_off["in a file" if b".part.1" in left_files else "at its end" if is_whole else "between files"] += 1
    wrong = halves({path: what for path, what in left_files.items() if path != b".part.1"}, outputs)
    done = room.run("dcmconv +c +r in out", folder)
    told_left = line(b".part.1: left over, and removed") in done.stderr
    wrong += difference("status", status, done.returncode) + differences_of_trees(files, files_of(folder))
    wrong += difference("told of the part", b".part.1" in left_files, told_left)
    shutil.rmtree(folder)
    return wrong


def try_kills(room, count):
    """What is wrong with each of so many runs. It is said where they were killed."""
    cut_off = collections.Counter()
    for _ in range(count):
        yield killed(room, cut_off)
    print("killed: " + ", ".join(f"{number} {where}" for where, number in cut_off.items()))


# ---- faults of the system


TWELVE = {b"in/%s%d" % (folder, n): NAME[:-6] + b"N%05d" % n for n, folder in enumerate((b"", b"", b"a/", b"a/", b"a/b/", b"c/") * 2)}
MIXED = {**TWELVE, b"in/a/cut": CUT, b"in/DICOMDIR": NAME, b"in/l": Link(b"cut")}
IDENTIFIED = {b"in/%s%d" % (folder, number): instance(b"1.2", b"1.3", b"1.%d" % number) for number, folder in enumerate((b"", b"a/", b"", b"b/"))}
FAULTY_RUNS = (
    ("+r", TWELVE, "dcmconv +r in out"),
    ("+c", {**MIXED, b"out/0": (b"old", 0o600), b"out/a/2": b"older"}, "dcmodify -m PatientName=X +c +v +r in out"),
    ("+part", {**MIXED, b"out/.part.1": b"another's"}, "dcmconv +part 2/2 +r in out"),
    ("identifiers", {**IDENTIFIED, b"in/copy": IDENTIFIED[b"in/0"], b"in/cut": CUT, b"out/1.2/1.3/1.2.dcm": Alone("dcmdeid +ru", IDENTIFIED[b"in/2"])},
     "dcmdeid +ru +c +r in out"),
    ("a list", {**MIXED, b"list": b"".join(path + b"\n" for path in MIXED)}, "dcmconv +r @list out"),
)
KNOWN_LINE = re.compile(
    rb"dcmtools: ([^\n]*: )?(input cannot be opened|output cannot be opened|folder cannot be read|output failed|out of memory|no regular file|DICOMDIR is left out|"
    rb"reading failed after \d+ bytes|R\d+ at byte \d+: [a-zA-Z ]+|output is there already|input has no files|output is not empty|"
    rb"\.part\.\d: (another run is at work(, or was cut off)?|left over, and removed))\n|\d+ files, \d+ written, \d+ there, \d+ not done[\r\n]")


class Faulted(NamedTuple):
    """How a run with a fault ended, and the calls that strace saw."""

    status: object
    stdout: bytes
    stderr: bytes
    files: dict
    calls: list


def faulted(room, tree, words, injected=()):
    folder = room.folder(tree)
    log = tempfile.mktemp(dir=room.top)
    around = ["setarch", "-R", "strace", "-o", log, "-s", "0", *(word for fault in injected for word in ("-e", f"inject={fault}"))]
    try:
        done = room.run(words, folder, around=around)
        ended = done.returncode, done.stdout, re.sub(rb"strace: .*\n", b"", done.stderr)
    except subprocess.TimeoutExpired:
        ended = "hang", b"", b""
    with open(log, errors="replace", encoding="utf-8") as file:
        calls = file.read().splitlines()
    os.remove(log)
    files = files_of(folder)
    shutil.rmtree(folder)
    return Faulted(*ended, files, calls)


def is_hit(ended, pattern):
    return any(re.match(pattern + r".*INJECTED", call) for call in ended.calls)


def wrong_files(start, base, ended):
    """What is neither as it was, nor a whole output; and a part that is left."""
    wrong = [f"{path!r} was changed" for path, what in start.items() if ended.files.get(path, "nothing") != what]
    for path, what in ended.files.items():
        is_part = re.fullmatch(rb"out/\.part\.\d", path)
        if path in start or what == base.files.get(path, "nothing"):
            continue
        if not is_part:
            wrong.append(f"{path!r} is not whole" if path in base.files else f"{path!r} is new")
        elif not is_hit(ended, "unlink"):
            wrong.append(f"{path!r} is left")
    return wrong


def wrong_rows(start, base, ended):
    """Rows that are no beginning of rows, and names of outputs without theirs."""
    text = ended.stdout
    if not (text.startswith(HEADER) or HEADER.startswith(text)):
        return [f"standard output is {text!r:.100}"]
    whole = text[: text.rfind(b"\n") + 1]
    names = {row[1] for row in rows_in(whole) if row[2] in ("written", "unplaced")}
    new = {path[4:].decode() for path, what in ended.files.items() if path.startswith(b"out/") and path not in start and what is not None and b"/.part." not in path}
    is_cut = is_hit(ended, r"write\(1,") or ended.status == 5
    return [] if names == new or is_cut and names <= new else [f"rows of {sorted(names ^ new)}"]


def wrong_end(base, ended):
    if ended.status not in range(6):
        return [f"status {ended.status}"]
    lines = KNOWN_LINE.sub(b"", ended.stderr)
    wrong = [f"standard error {lines!r:.200}"] if lines and not is_hit(ended, r"write\(2,") else []
    if ended.status == 0 or ended.status == base.status and ended.stderr == base.stderr and ended.stdout == base.stdout:
        wrong += [] if ended.files == base.files or is_hit(ended, "unlink") else ["other files with the same end"]
    return wrong + (["a fault and no line"] if ended.status not in (base.status, 5) and ended.stderr == base.stderr and not is_hit(ended, r"write\(2,") else [])


def try_faults(room, name, tree, words, jobs):
    """How many faults there were, and what is wrong after them."""
    folder = room.folder(tree)
    start, base = files_of(folder), faulted(room, tree, words)
    calls, count = calls_of(base.calls)
    faults = [fault for call in calls for fault in faults_of_call(call)] + list(faults_of_memory(calls, count))
    with ThreadPoolExecutor(jobs) as pool:
        ends = list(pool.map(lambda fault: faulted(room, tree, words, fault.injected), faults))
    tried = 0
    for fault, ended in zip(faults, ends):
        if is_hit(ended, ""):
            tried += 1
            wrong = wrong_end(base, ended) + wrong_files(start, base, ended) + wrong_rows(start, base, ended)
            yield [f"{' '.join(fault.injected)} at {fault.call.line[:70]}: {'; '.join(wrong)}"] if wrong else []
    if not tried:
        yield [f"{name}: no fault was tried"]


# ---- all of them


class Report:
    """Counts checks, and prints what is wrong."""

    def __init__(self, only):
        self.only, self.checks, self.wrong = only, 0, 0

    def takes(self, name):
        return self.only in name

    def add(self, name, wrong):
        if isinstance(wrong, tuple) and wrong[:1] == (SKIPPED,):
            print(f"{name}: skipped: {wrong[1]}")
            return
        self.checks += 1
        self.wrong += bool(wrong)
        if wrong:
            print(f"{name}:", *wrong, sep="\n  ", flush=True)


OF_SYSTEMS = (
    ("a deep tree", deep_tree), ("modes of folders", folder_modes),
    ("rights of nobody", without_rights), ("no rights at all", no_rights_at_all), ("a full disk", full_disk), ("a disk without room for names", no_more_files),
    ("no hard links", without_links), ("OUTPUT mounted within FOLDER", mounted_within), ("parts in turn", parts_in_turn), ("parts of lists", parts_of_lists),
)
AT_ONCE = (
    ("two runs of one part at once", twice_at_once), ("four parts at once", four_at_once), ("two parts at one instance at once", one_instance_at_once),
)


def try_all(room, words):
    report = Report(words.only)
    for case in CASES:
        if report.takes(case.claim):
            report.add(case.claim, try_case(room, case))
    for name, check in OF_SYSTEMS:
        if report.takes(name):
            report.add(name, check(room))
    for name, check in AT_ONCE:
        for number in range(words.rounds if report.takes(name) else 0):
            report.add(f"{name}, round {number + 1}", check(room))
    for number, wrong in enumerate(try_kills(room, words.kills) if report.takes("a run that is killed") else ()):
        report.add(f"a run that is killed, {number + 1}", wrong)
    for name, tree, command in FAULTY_RUNS if words.faults else ():
        if report.takes(f"faults of {name}"):
            for wrong in try_faults(room, name, tree, command, words.jobs):
                report.add(f"faults of {name}", wrong)
    return report


def main():
    parser = argparse.ArgumentParser(description="Tries runs over trees of files.")
    parser.add_argument("binary", nargs="?", default=os.path.join(ROOT, "crates/dcmtools/out/dcmtools"))
    parser.add_argument("--only", default="", help="the checks whose names have this text")
    parser.add_argument("--rounds", type=int, help="how often runs are started at once")
    parser.add_argument("--kills", type=int, default=200, help="how many runs are killed")
    parser.add_argument("--long", action="store_true", help="50 rounds")
    parser.add_argument("--faults", action="store_true", help="let each system call fail in turn, by strace")
    parser.add_argument("--jobs", type=int, default=os.cpu_count(), help="how many runs with faults at once")
    words = parser.parse_args()
    words.rounds = (50 if words.long else 5) if words.rounds is None else words.rounds
    if words.faults and not (shutil.which("strace") and shutil.which("setarch")):
        sys.exit("strace or setarch cannot be found: apt-get install strace util-linux")
    with tempfile.TemporaryDirectory(prefix="trees", dir="/dev/shm" if os.path.isdir("/dev/shm") else None) as top:
        os.chmod(top, 0o755)
        binary = shutil.copy(words.binary, os.path.join(top, "dcmtools"))
        os.chmod(binary, 0o755)
        report = try_all(Room(binary, top), words)
    print(f"{report.checks} checks, {report.wrong} wrong")
    return 1 if report.wrong or not report.checks else 0


if __name__ == "__main__":
    sys.exit(main())
