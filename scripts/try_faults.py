#!/usr/bin/env python3
"""Lets each system call of the tools fail in turn, by strace, and looks at what is said and what is left.

    scripts/try_faults.py [BINARY] [--only NAME] [--jobs N]

BINARY is crates/dcmtools/out/dcmtools if it is not given. Each run of RUNS (a tool, its files and streams) is traced once without
a fault. Then each call after the start of the program (what the loader does before it is not ours) fails with each error of ERRORS,
once and with all later calls of its name; and from each place on all growth of memory is refused. --only takes the runs whose names
begin so. Needs strace (apt-get install strace) and setarch. Exits with 0 if nothing is wrong. What has to hold:

- The status is 0 to 5, there is no signal and no hang, and at most one line of docs/users/PROFILE.md on standard error, of that status.
- With the status of the run without a fault, all is as there. Else the status is 4 or 5, OUTPUT is missing, a beginning of what it
  would be, or what it was before, and standard output is a beginning. Nothing is written after a write that failed.
- Of dcmdeid OUTPUT is the whole new file or what it was before, and OUTPUT.part is gone, unless it could not be removed. An older
  OUTPUT has the mode that it had. Where that cannot be asked, or given to OUTPUT.part, the line is `output failed`, with status 4, and
  OUTPUT is what it was before.
- Of dcm2csv the status is the greatest that a line has, or 0 without a line. Each name has its row and its lines as without the fault,
  or one line of a device and no row; names that a list has lost have neither. Where the output failed, standard output is a
  beginning of the table. Where a call of one file or list fails once, nothing else is lost, and this is, unless the call may be
  tried again.
- Where memory is refused, the run goes as it was, or the line is `out of memory`, with status 5, and nothing is written.
- FILE is never changed, also where OUTPUT is FILE, and no file gets the number of a standard stream.
- A failing close passes in silence: the kit's std does not give the system's answer.
- A file that was opened, or standard output, cannot be asked what it is: `cannot be opened`, status 4, nothing is written. The same
  of standard input, where OUTPUT holds bytes; else the run is as it was. An OUTPUT that cannot be asked for its size before its
  first byte is `output failed`, and keeps what it holds. A call that the system does not have (ENOSYS), or that was interrupted, may
  be made good by another one.
- The number of a closed standard stream cannot be reserved: `input cannot be opened`, status 4, and OUTPUT is untouched.

An interrupted call fails once, and may be tried again. A brk that fails answers the break as it is, which is what the kernel does:
so addresses have to be the same in each run (setarch -R).
"""
import argparse
import collections
import os
import re
import shutil
import subprocess
import sys
import tempfile
from concurrent.futures import ThreadPoolExecutor
from pathlib import Path
from typing import NamedTuple

from elements import LITTLE, after_prefix, even_leaf as element, group, item

ROOT = Path(__file__).resolve().parent.parent

ERRORS = {
    "openat": ["EMFILE", "ENFILE", "ENOMEM", "EACCES", "EINTR", "EIO", "ENOENT", "ELOOP", "ENOSPC", "EROFS", "EISDIR", "EEXIST"],
    "statx": ["EIO", "ENOMEM", "EINTR", "EACCES", "ENOSYS", "EOVERFLOW", "EBADF"],
    "fstat": ["EIO", "EOVERFLOW", "EBADF"],
    "newfstatat": ["EIO", "EOVERFLOW", "EBADF"],
    "read": ["EIO", "EINTR", "EAGAIN", "EISDIR", "ENOMEM", "EBADF"],
    "write": ["ENOSPC", "EIO", "EINTR", "EPIPE", "EDQUOT", "EFBIG", "EAGAIN", "EBADF", "ENOMEM"],
    "ftruncate": ["EIO", "EINTR", "EPERM", "EROFS", "EINVAL", "ENOMEM"],
    "mmap": ["ENOMEM", "EAGAIN"],
    "mremap": ["ENOMEM"],
    "close": ["EIO", "ENOSPC", "EDQUOT", "EINTR"],
    "rename": ["EACCES", "EXDEV", "ENOSPC", "EIO", "EINTR", "EROFS"],
    "chmod": ["EPERM", "EACCES", "EIO", "EINTR", "EROFS", "ENOENT", "ENOMEM"],
    "unlink": ["EACCES", "EIO", "EROFS"],
    "mkdir": ["EACCES", "EEXIST", "ENOSPC", "EIO", "EROFS", "ENOENT"],
    "link": ["EPERM", "EEXIST", "EXDEV", "EMLINK", "ENOSPC", "EIO", "EINTR"],
    "linkat": ["EPERM", "EEXIST", "EXDEV", "EMLINK", "ENOSPC", "EIO", "EINTR"],
    # ENOENT ends the list: the folder is removed (POSIX, readdir)
    "getdents64": ["EIO", "EBADF", "ENOMEM"],
    "munmap": ["EINVAL"],
    "getrandom": ["ENOSYS", "EAGAIN", "EINTR"],
    "rt_sigaction": ["EINVAL"],
    "poll": ["ENOMEM"],
}
MEMORY = ("brk", "mmap", "mremap")
STATS = ("statx", "fstat", "newfstatat")

# the line where OUTPUT.part is there
PART_IS_THERE = rb"output part is there: another run is at work, or was cut off"

# the lines of each status
LINES = {
    1: rb"[VU]\d[ :].*",
    2: rb"[RB]\d+ at byte \d+(, line \d+)?: [a-zA-Z ]+",
    3: rb"edit \d+ found no place|pixels may show identity",
    4: rb"key cannot be opened|reading the key failed|input cannot be opened|output cannot be opened|output is the input|reading failed after \d+ bytes|output failed|" + PART_IS_THERE,
    5: rb"out of memory",
}

# the lines of a table; those without a name are of the output, of standard streams, and of memory
TABLE_LINES = {
    2: rb"[a-z0-9-]+: (R\d+ at byte \d+: [a-zA-Z ]+|value of \([0-9a-f]{4},[0-9a-f]{4}\) is longer than 16384 bytes)",
    4: rb"[a-z0-9-]+: (input cannot be opened|reading failed after \d+ bytes)|output failed|(in|out)put cannot be opened",
    5: rb"out of memory",
}

NO_MEMORY = b"dcmtools: out of memory\n"
OUTPUT_FAILED = b"dcmtools: output failed\n"

# how many problems of a run are shown
SHOWN = 5

OLDER = b"an older file, which is longer than it seems\n" * 40
OLDER_MODE = 0o600
PIXELS = 700 * 1024


class Run(NamedTuple):
    """A run: its words, where {in}, {out}, {link} (to the input) and {key} are paths, and how it ends without a fault.

    It is run in a folder that has the input as the file `in`, and the others by their names. Words of dcm2csv are such names.
    """

    name: str
    words: list
    data: bytes
    status: int = 0
    # what a shell does with the streams, where $in is the input; without it standard input is /dev/null
    streams: str = ""
    has_older: bool = False
    others: tuple = ()


class Call(NamedTuple):
    """A call of the program: its name, the how manyeth of the process it is, and its line."""

    name: str
    number: int
    line: str


class Fault(NamedTuple):
    """What strace injects, the call that it hits first, and the error."""

    injected: list
    call: Call
    error: str


class Ended(NamedTuple):
    """How a run ended: the status, the streams, what the input, OUTPUT and OUTPUT.part hold, OUTPUT's mode, and the lines of strace."""

    status: object
    stdout: bytes
    stderr: bytes
    input: bytes
    output: object
    part: object
    mode: object
    lines: list


# The files that are read.


def dicom(pixels, name=b"AB^CD"):
    """A file with a sequence, a private element, a name, and this many bytes of pixels."""
    return after_prefix(
        group(element(0x00020003, "UI", b"1.2.3.4"), element(0x00020010, "UI", LITTLE))
        + element(0x00081140, "SQ", item(element(0x00081150, "UI", b"1.2.3") + element(0x00081155, "UI", b"1.2.4")))
        + element(0x00090010, "LO", b"OWNER")
        + element(0x00100010, "PN", name)
        + element(0x00100020, "LO", b"7")
        + (element(0x7FE00010, "OW", bytes(range(256)) * (pixels // 256)) if pixels else b"")
    )


def lines(count):
    """Lines of a dump, with this many private elements."""
    head = b"(0002,0010) UI =LittleEndianExplicit\n(0008,0060) CS [CT]\n"
    return head + b"".join(b"(0011,%04x) LO [%s]\n" % (0x1000 + k, b"x" * 60) for k in range(count))


SMALL, BIG = dicom(0), dicom(PIXELS)
KEY = b"a key of 16 byte"
SHOWN_PIXELS = SMALL + element(0x00280301, "CS", b"YES")
EDITS = ["-m", "PatientName=X", "-ea", "PatientID", "-ep", "-i", "ReferencedImageSequence[0].ReferencedSOPInstanceUID=1.2"]
NO_PLACE = ["-m", "Rows=7", "-e", "Columns"]


def runs_of_size(size, data, text):
    """The tools on small or big files, with and without an older OUTPUT."""
    identity = ["dcmdeid", "+rl", "+k", "{key}", "{in}", "{out}"]
    conversion = ["dcmconv", "+tb", "+dict", "{in}", "{out}"]
    edits = ["dcmodify", *EDITS, "-i", "StudyDate=20260101", "{in}", "{out}"]
    yield Run(f"dump {size}", ["dcmdump", "+L", "{in}"], data)
    yield Run(f"dump {size}, standard input", ["dcmdump", "+dict", "-"], data, streams='< "$in"')
    yield Run(f"convert {size}, standard streams", ["dcmconv", "+ti", "-", "-"], data, streams='< "$in"')
    yield Run(f"convert {size}, standard input", ["dcmconv", "+ti", "-", "{out}"], data, streams='< "$in"', has_older=True)
    yield Run(f"modify {size}, no place", ["dcmodify", *NO_PLACE, "{in}", "{out}"], data, 3, has_older=True)
    for has_older in (False, True):
        name = f"{size}, older" if has_older else size
        yield Run(f"convert {name}", conversion, data, has_older=has_older)
        yield Run(f"modify {name}", edits, data, has_older=has_older)
        yield Run(f"build {name}", ["dump2dcm", "{in}", "{out}"], text, has_older=has_older)
        yield Run(f"identity {name}", identity, data, has_older=has_older)


# a part of the input, words that are refused, and words that are answered
OTHERS = [
    Run("cut", ["dcmconv", "+te", "{in}", "{out}"], BIG[:-1000], 2, has_older=True),
    Run("cut head", ["dcmconv", "+te", "{in}", "{out}"], SMALL[:150], 2, has_older=True),
    Run("identity cut", ["dcmdeid", "+k", "{key}", "{in}", "{out}"], BIG[:-1000], 2, has_older=True),
    Run("identity to standard output", ["dcmdeid", "{in}", "-"], SMALL),
    Run("pixels", ["dcmdeid", "{in}", "{out}"], SHOWN_PIXELS, 3, has_older=True),
    Run("identity over itself", ["dcmdeid", "{in}", "{link}"], SMALL, 4),
    Run("identity over its key", ["dcmdeid", "+k", "{key}", "{in}", "-"], SMALL, 4, '>> "$key"'),
    Run("refused", ["dcmodify", "-m", "Foo=1", "{in}", "{out}"], SMALL, 1, has_older=True),
    Run("usage", ["--help"], SMALL),
    Run("version", ["dcmconv", "--version"], SMALL),
]

# OUTPUT is FILE
SAME = [
    Run("same link", ["dcmconv", "{in}", "{link}"], SMALL, 4),
    Run("same standard input", ["dcmconv", "-", "{in}"], BIG, 4, '< "$in"'),
    Run("same standard output", ["dcmconv", "{in}", "-"], BIG, 4, '>> "$in"'),
    Run("same standard streams", ["dcmconv", "+ti", "-", "-"], SMALL, 4, '< "$in" >> "$in"'),
    Run("same dump", ["dcmdump", "{in}"], SMALL, 4, '1<> "$in"'),
    Run("same edits", ["dcmodify", *NO_PLACE, "{link}", "-"], SMALL, 4, '>> "$in"'),
    Run("same lines", ["dump2dcm", "-", "{link}"], lines(1), 4, '< "$in"'),
]

# standard streams that are closed
CLOSED = [
    Run("closed input", ["dcmconv", "{in}", "{out}"], SMALL, 0, "<&-", True),
    Run("closed input that is read", ["dcmconv", "-", "{out}"], SMALL, 4, "<&-", True),
    Run("closed output", ["dcmconv", "{in}", "{out}"], SMALL, 0, ">&-", True),
    Run("closed output that is written", ["dcmdump", "{in}"], SMALL, 4, ">&-"),
    Run("closed error", ["dcmodify", *NO_PLACE, "{in}", "{out}"], SMALL, 3, "2>&-"),
    Run("closed input and error", ["dcmodify", *NO_PLACE, "{in}", "{out}"], SMALL, 3, "<&- 2>&-", True),
    Run("closed output and error", ["dcmconv", "{in}", "{out}"], SMALL[:-3], 2, ">&- 2>&-"),
    Run("closed streams", ["dcmconv", "+tb", "{in}", "{out}"], SMALL, 0, "<&- >&- 2>&-", True),
]

# tables: the last column of FAR is above all elements of a file, which so is read to its end
COLUMNS = ["dcm2csv", "-k", "PatientName", "-k", "PatientID"]
FAR = [*COLUMNS, "-k", "(fffc,fffc)"]
NAMES = b"in\nother\n"
OTHER = ("other", dicom(0, b"EF^GH"))
LIST = ("list", NAMES)

# more rows than a buffer of the output holds
LONG_NAME = b"N" * 16000
MANY = [(f"file{number:02}", dicom(0, LONG_NAME)) for number in range(20)]
MANY_NAMES = "".join(f"{name}\n" for name, _ in MANY).encode()

# a file that is cut, one with a value that is too long for a cell, and one that is not there
FAULTY = [*FAR, "in", "long", "missing", "other"]
FAULTY_FILES = (("long", dicom(0, b"N" * 16386)), OTHER)

TABLES = [
    Run("table", [*COLUMNS, "in", "other"], SMALL, others=(OTHER,)),
    Run("table, list", [*COLUMNS, "@list"], SMALL, others=(OTHER, LIST)),
    Run("table, list and file", [*COLUMNS, "+nh", "@list", "third"], SMALL, others=(OTHER, LIST, ("third", SMALL))),
    Run("table, list in standard input", [*COLUMNS, "@-"], SMALL, 0, "< list", others=(OTHER, LIST)),
    Run("table, standard input", [*COLUMNS, "-", "other"], SMALL, 0, '< "$in"', others=(OTHER,)),
    Run("table of big files", [*FAR, "in", "other"], BIG, others=(("other", BIG),)),
    Run("table of many rows", [*COLUMNS, "@list"], SMALL, others=(*MANY, ("list", MANY_NAMES))),
    Run("table with faults", FAULTY, BIG[:-1000], 4, others=FAULTY_FILES),
    Run("table of a fault", [*FAR, "in", "other"], SMALL[:-1], 2, others=(OTHER,)),
    Run("table, list missing", [*COLUMNS, "@list", "in"], SMALL, 4),
    Run("table, closed input", [*COLUMNS, "in", "other"], SMALL, 0, "<&-", others=(OTHER,)),
    Run("table, closed input that is read", [*COLUMNS, "-", "other"], SMALL, 4, "<&-", others=(OTHER,)),
    Run("table, closed output", [*COLUMNS, "in"], SMALL, 4, ">&-"),
    Run("table, closed error", FAULTY, BIG[:-1000], 4, "2>&-", others=FAULTY_FILES),
    Run("table, closed streams", [*COLUMNS, "in", "-", "other"], SMALL, 4, "<&- >&- 2>&-", others=(OTHER,)),
    Run("table, standard output is a file", [*COLUMNS, "in", "other"], SMALL, 0, "> out", others=(OTHER,)),
    Run("table, refused", ["dcm2csv", "in"], SMALL, 1),
]

RUNS = [*runs_of_size("small", SMALL, lines(1)), *runs_of_size("big", BIG, lines(4000)), *OTHERS, *SAME, *CLOSED, *TABLES]


def content_of(path):
    return path.read_bytes() if path.exists() else None


def mode_of(path):
    return path.stat().st_mode & 0o777 if path.exists() else None


def traced(binary, room, run, injected=()):
    """Runs it in a folder of its own, with these faults."""
    folder = Path(tempfile.mkdtemp(dir=room))
    paths = {name: folder / name for name in ("in", "out", "link", "key", "log")}
    paths["in"].write_bytes(run.data)
    paths["link"].hardlink_to(paths["in"])
    paths["key"].write_bytes(KEY)
    for name, content in run.others:
        (folder / name).write_bytes(content)
    if run.has_older:
        paths["out"].write_bytes(OLDER)
        paths["out"].chmod(OLDER_MODE)
    words = [word.format(**paths) if word.startswith("{") else word for word in run.words]
    if run.has_older:
        words.insert(1, "+ow")
    strace = ["setarch", "-R", "strace", "-o", paths["log"], "-s", "0"]
    faults = [word for fault in injected for word in ("-e", f"inject={fault}")]
    shell = ["sh", "-c", f'exec "$@" {run.streams}', "sh", binary]
    environment = dict(os.environ, **{"in": str(paths["in"]), "key": str(paths["key"])})
    try:
        done = subprocess.run(
            [*strace, *faults, *shell, *words],
            stdin=subprocess.DEVNULL,
            capture_output=True,
            cwd=folder,
            env=environment,
            timeout=30,
            check=False,
        )
        status, stdout, stderr = done.returncode, done.stdout, re.sub(rb"strace: .*\n", b"", done.stderr)
    except subprocess.TimeoutExpired:
        status, stdout, stderr = "hang", b"", b""
    log = paths["log"].read_text(errors="replace").splitlines()
    contents = [content_of(path) for path in (paths["in"], paths["out"], folder / "out.part")]
    ended = Ended(status, stdout, stderr, *contents, mode_of(paths["out"]), log)
    shutil.rmtree(folder)
    return ended


def calls_of(log):
    """The calls of the program itself, which begins by ignoring SIGPIPE, and how many calls of each name there are in all."""
    count, calls, is_begun = collections.Counter(), [], False
    for line in log:
        found = re.match(r"(\w+)\(", line)
        if not found:
            continue
        name = found[1]
        count[name] += 1
        is_begun = is_begun or name == "rt_sigaction" and "SIGPIPE" in line
        if is_begun and name != "exit_group":
            calls.append(Call(name, count[name], line))
    return calls, count


def faults_of_call(call):
    """Each error of a call, once and with all later calls of its name."""
    for error in [] if call.name == "brk" else ERRORS.get(call.name, ["EIO"]):
        for more in ("",) if error == "EINTR" else ("", "+"):
            yield Fault([f"{call.name}:error={error}:when={call.number}{more}"], call, error)


def refused(name, number, end):
    """All growth of memory by calls of a name, from this one on."""
    answer = f"retval={end}" if name == "brk" else "error=ENOMEM"
    return f"{name}:{answer}:when={number}+"


def faults_of_memory(calls, count):
    """From each growth of memory on, all of it is refused."""
    end = next((call.line.split("= ")[-1] for call in calls if call.name == "brk"), None)
    left = collections.Counter(call.name for call in calls)
    for call in calls:
        if call.name in MEMORY and not (call.name == "brk" and "NULL" in call.line):
            names = [name for name in MEMORY if name != "brk" or end]
            next_numbers = {name: count[name] - left[name] + 1 for name in names}
            yield Fault([refused(name, next_numbers[name], end) for name in names], call, "ENOMEM")
        left[call.name] -= 1


# What is wrong with a run that had a fault.


def is_line_of(stderr, status):
    return re.fullmatch(rb"dcmtools: (%s)\n" % LINES[status], stderr) is not None


def hides_errors(run, ended):
    """Whether no line can be read: standard error is closed, or writing to it failed."""
    return "2>&-" in run.streams or any(re.match(r"write\(2,.*INJECTED", line) for line in ended.lines)


def wrong_status(run, base, ended):
    if ended.status not in LINES and ended.status != 0:
        return f"status {ended.status}"
    if ended.status != base.status and ended.status not in (4, 5):
        return f"status {ended.status}, and {base.status} without a fault"
    return ""


def wrong_line(run, base, ended):
    if hides_errors(run, ended):
        return "" if not ended.stderr or base.stderr.startswith(ended.stderr) else f"standard error {ended.stderr!r}"
    if ended.status == base.status and ended.stderr == base.stderr:
        return ""
    if ended.status == 0 or not is_line_of(ended.stderr, ended.status):
        return f"status {ended.status} with {ended.stderr[:100]!r}"
    return ""


def is_emptied(ended):
    return any(re.match(r"ftruncate\(.*= 0$", line) for line in ended.lines)


def wrong_output(run, base, ended):
    """Of OUTPUT and standard output."""
    if ended.status == base.status and ended.stderr == base.stderr and not hides_errors(run, ended):
        return "" if (ended.output, ended.stdout) == (base.output, base.stdout) else "other output"
    if not base.stdout.startswith(ended.stdout):
        return "standard output is no beginning"
    if run.words[0] == "dcmdeid":
        is_whole = ended.output in (base.output, OLDER if run.has_older else None)
        return "" if is_whole else "OUTPUT is neither whole nor as it was"
    is_older = run.has_older and ended.output == OLDER and not is_emptied(ended)
    is_beginning = ended.output is not None and base.output is not None and base.output.startswith(ended.output)
    if ended.output is None or is_older or is_beginning or ended.output == b"" and not run.has_older:
        return ""
    return f"OUTPUT has {len(ended.output)} bytes that it should not have"


def wrong_part(run, base, ended):
    is_kept = any(re.match(r"unlink.*INJECTED", line) for line in ended.lines)
    return "OUTPUT.part is left" if ended.part is not None and not is_kept else ""


def wrong_mode(run, base, ended):
    return f"OUTPUT has the mode {ended.mode:o}" if run.has_older and ended.mode not in (OLDER_MODE, None) else ""


def wrong_input(run, base, ended):
    return "" if ended.input == run.data else "FILE is changed"


def wrong_writes(run, base, ended):
    """No write may follow one that failed, but for the line."""
    failed = set()
    for line in ended.lines:
        found = re.match(r"write\((\d+),.*= (-?\d+)( \w+)?", line)
        if found and found[1] != "2":
            if found[1] in failed:
                return "a write after one that failed"
            if found[2] == "-1" and found[3] != " EINTR":
                failed.add(found[1])
    return ""


def wrong_numbers(run, base, ended):
    """No file that is read or written may have the number of a standard stream."""
    calls, _ = calls_of(ended.lines)
    for call in calls:
        found = re.match(r'openat\(AT_FDCWD, "(.*)", .*\) = ([012])$', call.line)
        if found and found[1] != "/":
            return f"the file {found[1]} has the number {found[2]}"
    return ""


def is_untouched(run, ended):
    return ended.stdout == b"" and (ended.output == OLDER if run.has_older else not ended.output)


def wrong_refusal(run, ended, pattern):
    """Of a fault that has to end with one of these lines and its status, and with nothing written."""
    due = (4, 5) if hides_errors(run, ended) else (5 if ended.stderr == NO_MEMORY else 4,)
    if ended.status not in due:
        return f"status {ended.status} after {pattern.decode()} was due"
    if not hides_errors(run, ended) and not re.fullmatch(rb"dcmtools: (%s)\n" % pattern, ended.stderr):
        return f"{ended.stderr!r} in place of {pattern.decode()}"
    return "" if is_untouched(run, ended) else "something was written"


def is_as_without(base, ended):
    return ended[:3] == base[:3] and ended.output == base.output


def has_read(run, base, call):
    """Whether any of the input was read before a call. A key is read before it, by two calls."""
    calls, _ = calls_of(base.lines)
    of_key = 2 if "{key}" in run.words else 0
    return sum(other.name == "read" for other in calls[: calls.index(call)]) > of_key


def wrong_question(run, base, ended, fault):
    """Of asking what an open file is."""
    if fault.call.name not in STATS or base.status == 1:
        return ""
    if fault.error in ("EINTR", "ENOSYS") and is_as_without(base, ended):
        return ""
    if '"/proc/self/fd/0"' in fault.call.line and is_as_without(base, ended):
        return ""
    asked_late = has_read(run, base, fault.call)
    return wrong_refusal(run, ended, b"output failed" if asked_late else b"(key|input|output) cannot be opened|out of memory")


def wrong_reservation(run, base, ended, fault):
    """Of taking the number of a stream that is closed."""
    if fault.call.name != "openat" or '"/"' not in fault.call.line or base.status == 1:
        return ""
    if re.search(r"= [012]$", fault.call.line):
        is_retried = fault.error == "EINTR" and is_as_without(base, ended)
        return "" if is_retried else wrong_refusal(run, ended, b"input cannot be opened|out of memory")
    # all streams are open
    return "" if is_as_without(base, ended) else wrong_refusal(run, ended, b"(input|output) cannot be opened|out of memory")


def wrong_making(run, base, ended, fault):
    """Of making OUTPUT.part: where it is there, that is said."""
    if fault.call.name != "openat" or "O_EXCL" not in fault.call.line:
        return ""
    if fault.error == "EINTR" and is_as_without(base, ended):
        return ""
    return wrong_refusal(run, ended, PART_IS_THERE if fault.error == "EEXIST" else b"output cannot be opened|out of memory")


def wrong_giving(run, base, ended, fault):
    """Of giving OUTPUT.part the mode of an older OUTPUT."""
    if fault.call.name != "chmod" or fault.error == "EINTR" and is_as_without(base, ended):
        return ""
    return wrong_refusal(run, ended, b"output failed")


def wrong_memory(run, base, ended, fault):
    """Of memory that is refused: the run goes as it was, or says so and nothing else."""
    if fault.call.name not in MEMORY or is_as_without(base, ended):
        return ""
    said = b"" if hides_errors(run, ended) else NO_MEMORY
    is_said = (ended.status, ended.stderr) == (5, said) and is_untouched(run, ended)
    return "" if is_said else f"status {ended.status}, {ended.stderr!r} after memory was refused"


# Of dcm2csv.


def is_table(run):
    return run.words[0] == "dcm2csv" and run.status != 1


class Row(NamedTuple):
    """What a name has without a fault: the list that it is in, its row, and its lines."""

    name: bytes
    in_list: object
    row: bytes
    lines: list


def names_of(run):
    """The names of a run in their order, each with the list that it is in."""
    lists = {b"@list": dict(run.others).get("list", b""), b"@-": dict(run.others).get("list", b"")}
    words = iter(run.words[1:])
    for word in words:
        if word == "-k":
            next(words)
        elif word.encode() in lists:
            yield from ((name, word.encode()[1:]) for name in lists[word.encode()].splitlines())
        elif not word.startswith("+"):
            yield word.encode(), None


def named(line):
    """The name of a line on standard error, or none."""
    found = re.match(rb"dcmtools: ([a-z0-9-]+): ", line)
    return found and found[1]


def rows_of(run, base):
    """The rows of a run without a fault, after what comes before them."""
    lines = table_of(run, base).splitlines(keepends=True)
    header = b"" if "+nh" in run.words or not lines else lines.pop(0)
    said = base.stderr.splitlines(keepends=True)
    rows = []
    for name, in_list in names_of(run):
        row = lines.pop(0) if lines and lines[0].startswith(b'"%s",' % name) else b""
        rows.append(Row(name, in_list, row, [line for line in said if named(line) == name]))
    return header, rows


def status_of_table(stderr):
    """The greatest status of lines, or none where one is no line of dcm2csv."""
    statuses = [0]
    for line in stderr.splitlines(keepends=True):
        found = [status for status, pattern in TABLE_LINES.items() if re.fullmatch(rb"dcmtools: (%s)\n" % pattern, line)]
        if not found:
            return None
        statuses += found
    return max(statuses)


def devices_of(stderr):
    """The names that have a line of a device, with how much of each was read."""
    found = re.findall(rb"dcmtools: ([a-z0-9-]+): (?:input cannot be opened|reading failed after (\d+) bytes)\n", stderr)
    return {name: int(read or 0) for name, read in found}


def left_rows(run, rows, lost):
    """The names that are not lost with their list."""
    names = dict(run.others).get("list", b"")
    for in_list in {row.in_list for row in rows} & set(lost):
        kept = names[: lost[in_list]].count(b"\n")
        of_list = [row for row in rows if row.in_list == in_list][kept:]
        rows = [row for row in rows if row not in of_list]
    return rows


def wrong_table(run, base, ended):
    """Of rows, lines and the status of a table."""
    header, rows = rows_of(run, base)
    if hides_errors(run, ended):
        return "" if is_beginning_of_some(header, rows, table_of(run, ended)) else "rows that nothing explains"
    if ended.status != status_of_table(ended.stderr):
        return f"status {ended.status} with {ended.stderr[:200]!r}"
    if re.fullmatch(rb"dcmtools: (out of memory|(in|out)put cannot be opened)\n", ended.stderr):
        return "" if is_untouched(run, ended) else "something was written"
    lost = devices_of(ended.stderr)
    rows = left_rows(run, rows, lost)
    table = header + b"".join(row.row for row in rows if row.name not in lost)
    if ended.stderr.endswith(OUTPUT_FAILED):
        return "" if table.startswith(table_of(run, ended)) else "no beginning of the table"
    if table_of(run, ended) != table:
        return "other rows"
    silent = [row.name for row in rows if not row.row and row.name not in lost]
    missing = [line for row in rows if row.name not in lost for line in row.lines if line not in ended.stderr]
    return f"no row and no line of {silent}" if silent else f"without {missing}" if missing else ""


def table_of(run, ended):
    """What was printed, or written into the file that standard output is."""
    return ended.output or b"" if run.streams == "> out" else ended.stdout


def is_beginning_of_some(header, rows, stdout):
    """Whether it is a header and rows in their order, of which some may be missing, and a beginning of the next."""
    if not stdout.startswith(header):
        return header.startswith(stdout)
    left = stdout[len(header) :]
    for row in rows:
        left = left[len(row.row) :] if left.startswith(row.row) else left
    return not left or any(row.row.startswith(left) for row in rows)


def file_of(calls, call):
    """The name of the file or list that a call asks or reads, or none."""
    if call.name == "openat":
        found = re.match(r'openat\(AT_FDCWD, "([^"/]+)"', call.line)
        return found and found[1].encode()
    found = re.match(r"\w+\((\d+),", call.line)
    if call.name not in (*STATS, "read") or not found:
        return None
    if found[1] == "0":
        return b"-"
    opened = [other.line for other in calls[: calls.index(call)] if other.line.endswith(f"= {found[1]}")]
    names = [match[1].encode() for match in (re.match(r'openat\(AT_FDCWD, "([^"/]+)"', line) for line in opened) if match]
    return names[-1] if names else None


def wrong_loss(run, base, ended, fault):
    """Of a call that fails once: of one file or list it loses this, and nothing else is lost by it."""
    if hides_errors(run, ended) or fault.injected[0].endswith("+") or len(fault.injected) > 1:
        return ""
    calls, _ = calls_of(base.lines)
    name = file_of(calls, fault.call)
    lost = set(devices_of(ended.stderr)) - set(devices_of(base.stderr))
    due = {name} - {None} - set(devices_of(base.stderr))
    if lost == due or not lost and fault.error in ("EINTR", "ENOSYS"):
        return ""
    return "" if ended.stderr == NO_MEMORY else f"{sorted(lost)} are lost, and not {sorted(due)}"


ALWAYS = (wrong_status, wrong_line, wrong_output, wrong_part, wrong_mode, wrong_input, wrong_writes, wrong_numbers)
OF_CALLS = (wrong_question, wrong_reservation, wrong_making, wrong_giving, wrong_memory)

ALWAYS_OF_TABLES = (wrong_status, wrong_table, wrong_input, wrong_writes, wrong_numbers)
OF_CALLS_OF_TABLES = (wrong_loss, wrong_reservation, wrong_memory)


def problems_of(run, base, ended, fault):
    if ended.status == "hang":
        return ["a hang"]
    found = [check(run, base, ended) for check in (ALWAYS_OF_TABLES if is_table(run) else ALWAYS)]
    found += [check(run, base, ended, fault) for check in (OF_CALLS_OF_TABLES if is_table(run) else OF_CALLS)]
    return [problem for problem in found if problem]


def wrong_base(run, base):
    """What is wrong with a run without a fault."""
    if base.status != run.status:
        return f"status {base.status}, {base.stderr!r}"
    is_line_due = base.status != 0 and "2>&-" not in run.streams
    if is_table(run) and is_line_due:
        return "" if status_of_table(base.stderr) == base.status else f"standard error {base.stderr!r}"
    first = base.stderr.split(b"\n", 1)[0] + b"\n"
    if is_line_due != bool(base.stderr) or is_line_due and not is_line_of(first, base.status):
        return f"standard error {base.stderr!r}"
    if run in SAME and base.stderr != b"dcmtools: output is the input\n":
        return f"standard error {base.stderr!r}"
    return wrong_input(run, base, base) or wrong_mode(run, base, base) or wrong_numbers(run, base, base)


def try_run(binary, room, run, jobs):
    """Lets each call of a run fail. How many faults there were, and the problems."""
    base = traced(binary, room, run)
    wrong = wrong_base(run, base)
    if wrong:
        return 0, [f"{run.name}: without a fault: {wrong}"], collections.Counter()
    calls, count = calls_of(base.lines)
    faults = [fault for call in calls for fault in faults_of_call(call)] + list(faults_of_memory(calls, count))
    with ThreadPoolExecutor(jobs) as pool:
        ends = list(pool.map(lambda fault: traced(binary, room, run, fault.injected), faults))
    problems, tried, silent = [], 0, collections.Counter()
    for fault, ended in zip(faults, ends):
        if any("INJECTED" in line for line in ended.lines):
            tried += 1
            silent[fault.call.name] += is_as_without(base, ended)
            found = problems_of(run, base, ended, fault)
            if found:
                problems.append(f"{run.name}: {' '.join(fault.injected)} at {fault.call.line[:70]}: {'; '.join(found)}")
    return tried, problems, silent


def missing_tools():
    return [name for name in ("strace", "setarch") if not shutil.which(name)]


def main():
    parser = argparse.ArgumentParser(description="Lets each system call of dcmtools fail in turn.")
    parser.add_argument("binary", nargs="?", default=ROOT / "crates/dcmtools/out/dcmtools")
    parser.add_argument("--only", default="", help="the runs whose names begin so")
    parser.add_argument("--jobs", type=int, default=os.cpu_count(), help="how many runs at once")
    words = parser.parse_args()
    if missing_tools():
        print(f"{' and '.join(missing_tools())} cannot be found: apt-get install strace util-linux", file=sys.stderr)
        return 2
    total, wrong, silent = 0, 0, collections.Counter()
    with tempfile.TemporaryDirectory(dir="/dev/shm" if os.path.isdir("/dev/shm") else None) as room:
        for run in RUNS:
            if run.name.startswith(words.only):
                tried, problems, passed = try_run(os.path.abspath(words.binary), room, run, words.jobs)
                shown = problems[:SHOWN] + ["and others"] * (len(problems) > SHOWN)
                print(f"{run.name}: {tried} faults, {len(problems)} wrong", *shown, sep="\n  ", flush=True)
                total, wrong, silent = total + tried, wrong + len(problems), silent + passed
    print("passed in silence: " + ", ".join(f"{name} {number}" for name, number in silent.most_common()))
    print(f"{total} faults, {wrong} wrong")
    return 1 if wrong or not total else 0


if __name__ == "__main__":
    sys.exit(main())
