#!/usr/bin/env python3
"""Tries scripts/dcmconv, scripts/dcmodify and scripts/dump2dcm, run by dash and by bash (and by busybox where it is installed).

    scripts/try_wrappers.py [BINARY]

BINARY is crates/dcmtools/out/dcmtools if it is not given. Each case has a folder of its own, and says all that the run changes in
it: every other file has to keep its bytes and its mode, and no OUTPUT.part may be left. The cases of scripts/try_program.py are run
too, by dcmtools and by the wrappers: line, status and standard output have to be the same. As root it also tries the rights of others,
and a system without /proc. Exits with 0 if each case ends as it should.
"""
import os
import shutil
import signal
import stat
import subprocess
import sys
import tempfile
import time
from pathlib import Path

# nothing but the scripts themselves is left in their folder
sys.dont_write_bytecode = True

import try_program
from try_program import BIG, FILES, LINES, NAME, REPLACED

SCRIPTS = Path(__file__).resolve().parent
ROOT = SCRIPTS.parent
TOOLS = ("dcmconv", "dcmodify", "dump2dcm")
SHELLS = ("dash", "bash", "busybox")

# names of files with all kinds of bytes: a space, newlines, one that is not UTF-8, an umlaut, and what a shell reads as its own
NAMES = [b"a b", b"a\n\nb\n", b"M\374ller", "Müller".encode(), b"\201\210\377", b"$(x)`y`\"'\\*", b"=", b"\001"]

# a file that is larger than the limit of a case
LARGE = NAME + b"\x11\0\x10\0UN\0\0\0\x40\0\0" + bytes(16384)

# name.dcm with a name that has a space and is not UTF-8
SPACED = NAME[:172] + b"\x10\0\x10\0PN\4\0\374 M "

INPUT_FAILED = "dcmtools: input cannot be opened\n"
OUTPUT_UNOPENED = "dcmtools: output cannot be opened\n"
OUTPUT_FAILED = "dcmtools: output failed\n"
SAME = "dcmtools: output is the input\n"
NO_PLACE = "dcmtools: edit 1 found no place\n"
CUT = "dcmtools: R1 at byte 182: input ends too early\n"
PATHS = "dcmtools: V4: wrong number of paths\n"
OPTION = "dcmtools: V2 at word 5: unknown option\n"
PATH_FAULT = "dcmtools: U1 in edit {}: bad option or path\n"
UNKNOWN_TAG = "dcmtools: U2 in edit 1: unknown tag\n"
THERE = "dcmtools: output is there already\n"
PART = "out.part exists: move it away, or give another OUTPUT\n"
CONVERTED_PART = "dcmconv: " + PART
UNNAMED_PART = "dcmconv: OUTPUT.part exists: move it away, or give another OUTPUT\n"
LEFT = b"left by an earlier run"

# a folder, and the rows of a run over it
TREE = "mkdir in; cp name.dcm in/a"
ROWS_OF_TREE = '"File","Output","Status"\n"a","a","{}"\n'

# what it is, the words for a shell, the status, what is on standard error, and the files that it changes
CASES = [
    ("a new file", "dcmconv +tb name.dcm out", 0, "", {"out": BIG}),
    ("an older file", "dcmconv +ow +tb name.dcm older", 0, "", {"older": BIG}),
    ("options after the paths", "dcmconv +ow name.dcm older +tb -e +fo", 0, "", {"older": BIG}),
    ("an option between the paths", "dcmconv +ow name.dcm +tb older", 0, "", {"older": BIG}),
    ("standard input", "dcmconv +ow +tb - older < name.dcm", 0, "", {"older": BIG}),
    ("a pipe", "cat name.dcm | dcmconv +ow +tb - older", 0, "", {"older": BIG}),
    ("a pipe by its name", "dcmconv +ow +tb <(cat name.dcm) older", 0, "", {"older": BIG}),
    ("standard output", "dcmconv +tb name.dcm - > out", 0, "", {"out": BIG}),
    ("standard output by its name", "dcmconv +tb name.dcm /dev/stdout > out", 0, "", {"out": BIG}),
    ("standard streams", "dcmconv +tb - - < name.dcm | cat > out", 0, "", {"out": BIG}),
    ("a stream by its number", "dcmconv +tb name.dcm /dev/fd/3 3> out", 0, "", {"out": BIG}),
    ("an open file by its number", "dcmconv +ow +tb /dev/fd/3 older 3< name.dcm", 0, "", {"older": BIG}),
    ("the null device", "dcmconv name.dcm /dev/null", 0, "", {}),
    ("a named pipe", "dcmconv +tb name.dcm queue & cat queue > out; wait", 0, "", {"out": BIG}),
    ("another folder", "mkdir sub && dcmconv +tb name.dcm sub/out", 0, "", {"sub/out": BIG}),
    ("a folder", "dcmconv name.dcm .", 4, OUTPUT_UNOPENED, {}),
    ("a missing folder", "dcmconv name.dcm nowhere/out", 4, OUTPUT_UNOPENED, {}),
    ("a missing folder of a missing file", "dcmconv missing nowhere/out", 4, INPUT_FAILED, {}),
    ("a name that is a folder's", "dcmconv name.dcm new/", 4, OUTPUT_UNOPENED, {}),
    ("a missing file", "dcmconv missing older", 4, INPUT_FAILED, {}),
    ("a missing file and no older one", "dcmconv missing out", 4, INPUT_FAILED, {}),
    ("a folder as a file", "dcmconv . older", 4, INPUT_FAILED, {}),
    ("a cut file", "dcmconv +ow cut older", 2, CUT, {}),
    ("a cut file and no older one", "dcmconv cut out", 2, CUT, {}),
    ("a cut file to standard output", "dcmconv cut - > out", 2, CUT, {"out": NAME[:182]}),
    ("a closed standard input", "dcmconv +ow - older <&-", 4, "dcmtools: reading failed after 0 bytes\n", {}),
    ("a closed standard input beside a file", "dcmconv +ow +tb name.dcm older <&-", 0, "", {"older": BIG}),
    ("a closed standard output", "dcmconv +ow +tb name.dcm older >&-", 0, "", {"older": BIG}),
    ("a closed standard error", "dcmconv +ow cut older 2>&-", 2, "", {}),
    ("all streams closed", "dcmconv +ow +tb name.dcm older <&- >&- 2>&-", 0, "", {"older": BIG}),
    ("a limit of the size", "trap '' XFSZ; ulimit -f 1; dcmconv +ow large.dcm older", 4, OUTPUT_FAILED, {}),
    ("a limit of the size of a new file", "trap '' XFSZ; ulimit -f 1; dcmconv large.dcm out", 4, OUTPUT_FAILED, {}),
    ("a large file", "dcmconv +ow large.dcm older", 0, "", {"older": LARGE}),
    # words that dcmtools refuses, and those that it answers
    ("an unknown option", "dcmconv +x name.dcm older", 1, "dcmtools: V2 at word 2: unknown option\n", {}),
    ("an option of dcmodify", "dcmconv -f name.dcm older", 1, "dcmtools: V2 at word 2: unknown option\n", {}),
    ("no words", "dcmconv", 1, PATHS, {}),
    ("one path", "dcmconv name.dcm", 1, PATHS, {}),
    ("three paths", "dcmconv name.dcm out older", 1, PATHS, {}),
    ("an empty path", "dcmconv name.dcm ''", 1, PATHS, {}),
    ("an empty path before two", "dcmconv '' name.dcm older", 1, PATHS, {}),
    ("the same path", "dcmconv name.dcm name.dcm", 1, "dcmtools: V6: input and output are the same path\n", {}),
    ("usage", "dcmconv --help > out && test -s out && rm out", 0, "", {}),
    ("version", "dump2dcm version > out && test -s out && rm out", 0, "", {}),
    ("usage of dcmodify", "dcmodify --help > out && test -s out && rm out", 0, "", {}),
    ("files with the names of such words", "cp name.dcm help && dcmconv +ow +tb help version", 0, "", {"help": NAME, "version": BIG}),
    # lines that are built
    ("lines", "dump2dcm +ow lines older", 0, "", {"older": NAME}),
    ("lines with a limit", "dump2dcm +ow +l 80 lines older", 0, "", {"older": NAME}),
    ("a limit between the paths", "dump2dcm +ow lines +l 080 older -e", 0, "", {"older": NAME}),
    ("lines of standard input", "dump2dcm +ow - older < lines", 0, "", {"older": NAME}),
    ("a path in place of the limit", "dump2dcm +l lines older", 1, "dcmtools: V3 at word 2: bad option value\n", {}),
    ("a limit that is missing", "dump2dcm lines older +l", 1, "dcmtools: V3 at word 4: bad option value\n", {}),
    ("a file that has the name of the limit", "cp lines 80 && dump2dcm +ow +l 80 80 older", 0, "", {"80": LINES, "older": NAME}),
    ("bad lines", "dump2dcm +ow bad_lines older", 2, "dcmtools: B5 at byte 60, line 3: tags not ascending\n", {}),
    # OUTPUT is FILE
    ("another path of FILE", "dcmconv name.dcm ./name.dcm", 4, SAME, {}),
    ("a hard link to FILE", "dcmconv name.dcm linked", 4, SAME, {}),
    ("a symbolic link to FILE", "dcmconv name.dcm symbolic", 4, SAME, {}),
    ("FILE is a symbolic link to OUTPUT", "dcmconv symbolic name.dcm", 4, SAME, {}),
    ("OUTPUT is standard input", "dcmconv - name.dcm < name.dcm", 4, SAME, {}),
    ("OUTPUT is standard input by its name", "dcmconv /dev/stdin name.dcm < name.dcm", 4, SAME, {}),
    ("FILE at the end of standard output", "dcmconv name.dcm - >> name.dcm", 4, SAME, {}),
    ("LINES are OUTPUT", "dump2dcm lines ./lines", 4, SAME, {}),
    ("edits of FILE in its place", "dcmodify --overwrite -ep name.dcm linked", 4, SAME, {}),
    ("the same without --overwrite", "dcmodify -ep name.dcm linked", 4, SAME, {}),
    # an OUTPUT.part that is there
    ("an older part", "cp left out.part; dcmconv name.dcm out", 4, CONVERTED_PART, {"out.part": LEFT}),
    ("an older part of edits", "cp left out.part; dcmodify --overwrite -ep name.dcm out", 4, "dcmodify: " + PART, {"out.part": LEFT}),
    ("an older part of lines", "cp left out.part; dump2dcm lines out", 4, "dump2dcm: " + PART, {"out.part": LEFT}),
    ("an older part and refused words", "cp left out.part; dcmconv name.dcm out -e -x", 1, OPTION, {"out.part": LEFT}),
    ("an older part that is FILE", "cp left out.part; dcmconv out.part out", 4, CONVERTED_PART, {"out.part": LEFT}),
    ("a part that is a link", "ln -s left out.part; dcmconv name.dcm out; s=$?; rm out.part; exit $s", 4, CONVERTED_PART, {}),
    ("a part that leads nowhere", "ln -s new out.part; dcmconv name.dcm out; s=$?; rm out.part; exit $s", 4, CONVERTED_PART, {}),
    ("a part that is a pipe", "mkfifo out.part; dcmconv name.dcm out; s=$?; rm out.part; exit $s", 4, CONVERTED_PART, {}),
    ("a part that is a folder", "mkdir out.part; dcmconv name.dcm out; s=$?; rmdir out.part; exit $s", 4, CONVERTED_PART, {}),
    ("a part of a name with a newline", "cp left $'a\\n.part'; dcmconv name.dcm $'a\\n'", 4, UNNAMED_PART, {"a\n.part": LEFT}),
    # symbolic links as OUTPUT
    ("a link to an older file", "ln -s older link; dcmconv +ow +tb name.dcm link; test -L link && rm link", 0, "", {"older": BIG}),
    ("a link to no file", "ln -s out link; dcmconv +tb name.dcm link; test -L link && rm link", 0, "", {"out": BIG}),
    ("a link into a folder", "mkdir d; ln -s d/out link; dcmconv +tb name.dcm link; test -L link && rm link", 0, "", {"d/out": BIG}),
    ("a link and a cut file", "ln -s older link; dcmconv +ow cut link; s=$?; test -L link && rm link; exit $s", 2, CUT, {}),
    ("a link to itself", "ln -s link link; dcmconv name.dcm link; s=$?; rm link; exit $s", 4, OUTPUT_UNOPENED, {}),
    ("a link into no folder", "ln -s nowhere/out link; dcmconv name.dcm link; s=$?; rm link; exit $s", 4, OUTPUT_UNOPENED, {}),
    ("a hard link to an older file", "ln older link; dcmconv +ow +tb name.dcm link", 0, "", {"link": BIG}),
    # edits
    ("an edit", "dcmodify -m PatientName=Q name.dcm out", 0, "", {"out": REPLACED}),
    ("an edit of an older file", "dcmodify --overwrite -m PatientName=Q name.dcm older", 0, "", {"older": REPLACED}),
    ("no edits", "dcmodify name.dcm out", 0, "", {"out": NAME}),
    ("an edit that finds no place", "dcmodify -m PatientID=7 name.dcm out", 3, NO_PLACE, {"out": NAME}),
    ("the same of an older file", "dcmodify --overwrite -m PatientID=7 name.dcm older", 3, NO_PLACE, {"older": NAME}),
    ("an edit of a cut file", "dcmodify --overwrite -m PatientName=Q cut older", 2, CUT, {}),
    ("an edit of standard streams", "dcmodify -m PatientName=Q - - < name.dcm > out", 0, "", {"out": REPLACED}),
    ("an edit to the null device", "dcmodify -m PatientName=Q name.dcm /dev/null", 0, "", {}),
    ("a tag that looks like an option", "dcmodify -e -f name.dcm out", 1, UNKNOWN_TAG, {}),
    ("--overwrite that is not first", "dcmodify -ep --overwrite name.dcm out", 1, PATH_FAULT.format(2), {}),
    ("--overwrite alone", "dcmodify --overwrite", 1, PATHS, {}),
    ("DCMTK's -f", "dcmodify -f -m PatientName=Q name.dcm older", 1, PATH_FAULT.format(1), {}),
    ("a path that looks like an option", "dcmodify --overwrite -ep name.dcm -x", 1, PATHS, {}),
    ("two files in DCMTK's habit", "dcmodify -m PatientName=Q name.dcm older", 4, THERE, {}),
    ("an older file that stays", "dcmconv name.dcm older", 4, THERE, {}),
    ("an older file and +ow", "dcmconv +tb name.dcm +ow older", 0, "", {"older": BIG}),
    ("an older file and +ow among edits", "dcmodify -m PatientName=Q +ow name.dcm older", 0, "", {"older": REPLACED}),
    ("+ow as a path of an edit", "dcmodify -e +ow name.dcm older", 1, UNKNOWN_TAG, {}),
    ("three files in DCMTK's habit", "dcmodify -m PatientName=Q name.dcm twice.dcm older", 1, PATH_FAULT.format(2), {}),
    ("one file in DCMTK's habit", "dcmodify -m PatientName=Q name.dcm", 1, PATH_FAULT.format(1), {}),
    ("two files and a refused edit", "dcmodify -m Patient=Q name.dcm older", 1, UNKNOWN_TAG, {}),
    ("two files, of which one is a link", "ln -s older l; dcmodify name.dcm l; s=$?; rm l; exit $s", 4, THERE, {}),
    # trees
    ("a tree", f"{TREE}; dcmconv +tb +r in new > rows", 0, "", {"in/a": NAME, "new/a": BIG, "rows": ROWS_OF_TREE.format("written").encode()}),
    ("a part of a tree, with an older output", f"{TREE}; mkdir new; cp left new/a; dcmconv +r in +part 1/1 new > rows", 0, "", {"in/a": NAME, "new/a": LEFT, "rows": ROWS_OF_TREE.format("there").encode()}),
    ("a list", "printf name.dcm > list; dcmconv +r +nh @list new > rows; s=$?; rm list; exit $s", 0, "", {"new/name.dcm": NAME, "rows": b'"name.dcm","name.dcm","written"\n'}),
    ("edits of a tree", f"{TREE}; dcmodify +r -m PatientName=Q in new > rows", 0, "", {"in/a": NAME, "new/a": REPLACED, "rows": ROWS_OF_TREE.format("written").encode()}),
    ("a tree that is there", f"{TREE}; mkdir new; cp left new/a; dcmconv +r in new > rows", 4, "dcmtools: output is not empty\n", {"in/a": NAME, "new/a": LEFT, "rows": b""}),
    ("a tree and --overwrite", f"{TREE}; dcmodify --overwrite +r -m PatientName=Q in new", 1, PATH_FAULT.format(1), {"in/a": NAME}),
    ("a word of trees without +r", "dcmconv +c name.dcm out", 1, "dcmtools: V5: options do not go together\n", {}),
    ("a value with a space that is not UTF-8", "dcmodify -m $'PatientName=\\374 M' name.dcm out", 0, "", {"out": SPACED}),
]

# modes that an older OUTPUT has and keeps, and masks of a new one
MODES = (0o600, 0o640, 0o644, 0o666, 0o755)
MASKS = (0o002, 0o022, 0o077)

SIGNALS = (signal.SIGHUP, signal.SIGINT, signal.SIGQUIT, signal.SIGTERM)

# dcmtools as the cases of try_program call it, with the tools that write by their wrappers
THROUGH = """#!/bin/sh
folder=${0%/*}
case ${1-} in
    dcmconv | dcmodify | dump2dcm) tool=$1; shift; exec "$folder/$tool" "$@" ;;
    *) exec "$folder/dcmtools" "$@" ;;
esac
"""


def first_line(shell):
    """What makes a script one of this shell."""
    path = shutil.which(shell)
    return f"#!{path} sh" if shell == "busybox" else f"#!{path}"


def install(path, text):
    path.write_text(text)
    path.chmod(0o755)


class Place:
    """The programs for a shell, and a fresh folder for each case."""

    def __init__(self, room, shell, binary):
        self.room, self.shell, self.count = Path(room), shell, 0
        self.programs = self.room / f"programs-{shell}"
        self.programs.mkdir()
        shutil.copy(binary, self.programs / "dcmtools")
        install(self.programs / "through", THROUGH)
        for tool in (*TOOLS, "renamed"):
            source = (SCRIPTS / (tool if tool in TOOLS else "dcmconv")).read_text()
            install(self.programs / tool, first_line(shell) + source[source.index("\n") :])
        self.environment = dict(os.environ, PATH=f"{self.programs}:{os.environ['PATH']}")

    def folder(self):
        """A folder with the files of the cases, which everybody may change."""
        self.count += 1
        folder = self.room / f"{self.shell}-{self.count}"
        folder.mkdir()
        folder.chmod(0o777)
        try_program.prepare(folder)
        (folder / "large.dcm").write_bytes(LARGE)
        (folder / "left").write_bytes(LEFT)
        (folder / "older").chmod(0o640)
        return folder

    def run(self, folder, words, program="bash", **more):
        """Runs words of a shell, in which `$0` is the program."""
        command = ["bash", "-o", "pipefail", "-c", words, program]
        return subprocess.run(
            command, cwd=folder, env=self.environment, capture_output=True, timeout=60, check=False, **more
        )

    def run_tool(self, folder, tool, *words):
        return subprocess.run(
            [self.programs / tool, *words], cwd=folder, env=self.environment, capture_output=True, timeout=60, check=False
        )

    def start(self, folder, tool, *words):
        return subprocess.Popen(
            [self.programs / tool, *words],
            cwd=folder,
            env=self.environment,
            stdin=subprocess.DEVNULL,
            stdout=subprocess.PIPE,
            stderr=subprocess.PIPE,
            start_new_session=True,
        )


def entry_of(path):
    """The mode of a file and what it holds; a link holds its path."""
    found = path.lstat()
    if stat.S_ISLNK(found.st_mode):
        return found.st_mode, os.readlink(path)
    return found.st_mode, path.read_bytes() if stat.S_ISREG(found.st_mode) else None


def files_of(folder):
    """Each file below a folder."""
    paths = [Path(base, name) for base, _, names in os.walk(folder) for name in names]
    return {os.fsdecode(path.relative_to(folder)): entry_of(path) for path in paths}


def wrong_files(before, after, changes):
    """The first file that is not what it has to be, or nothing. A file that was there has the mode that it had."""
    for path in sorted({*before, *after, *changes}):
        mode, content = before.get(path, (None, None))
        content = changes.get(path, content)
        found_mode, found = after.get(path, (None, None))
        if found != content or path in before and found_mode != mode:
            return f"{path!r} is {found and found[:200]!r}, mode {found_mode and oct(found_mode)}"
    return ""


def wrong_end(done, status, line, stdout=b""):
    if (done.returncode, done.stderr, done.stdout) == (status, line.encode(), stdout):
        return ""
    return f"status {done.returncode}, {done.stderr!r}, {done.stdout[:80]!r}"


def try_case(place, words, status, line, changes):
    folder = place.folder()
    before = files_of(folder)
    done = place.run(folder, words)
    return wrong_end(done, status, line) or wrong_files(before, files_of(folder), changes)


def try_like_program(place, words):
    """A case of try_program, which ends as it does without the wrappers. What is at fault leaves no OUTPUT."""
    direct, wrapped = place.folder(), place.folder()
    before = files_of(direct)
    wanted = place.run(direct, f'"$0" {words}', place.programs / "dcmtools")
    done = place.run(wrapped, f'"$0" {words}', place.programs / "through")
    wrong = wrong_end(done, wanted.returncode, wanted.stderr.decode(), wanted.stdout)
    is_written = done.returncode in (0, 3) or "> out" in words or words.startswith("dcmdump")
    after = files_of(direct) if is_written else before
    return wrong or wrong_files(before, files_of(wrapped), {path: content for path, (_, content) in after.items()})


def cases_of_program():
    """Those of try_program, but for names that dcmtools cannot open and the wrappers can."""
    for what, words, _, line, *_ in try_program.CASES + try_program.WRITTEN:
        if not ("\\xfc" in words and line.endswith("cannot be opened")):
            yield what, words


def try_name(place, name):
    """A name as that of FILE and of OUTPUT, both with a folder that has it."""
    folder = place.folder()
    under = os.fsencode(folder) + b"/" + name + b".d"
    os.mkdir(under)
    source, output = under + b"/" + name, under + b"/out" + name
    Path(os.fsdecode(source)).write_bytes(NAME)
    before = files_of(folder)
    done = place.run_tool(folder, "dcmconv", "+tb", source, output)
    path = os.path.relpath(os.fsdecode(output), folder)
    return wrong_end(done, 0, "") or wrong_files(before, files_of(folder), {path: BIG})


def try_mode(place, mode):
    """The mode of an OUTPUT that is replaced, and of one that is not since the file is cut."""
    folder = place.folder()
    (folder / "older").chmod(mode)
    before = files_of(folder)
    done = place.run_tool(folder, "dcmconv", "+ow", "+tb", "name.dcm", "older")
    wrong = wrong_end(done, 0, "") or wrong_files(before, files_of(folder), {"older": BIG})
    done = place.run_tool(folder, "dcmconv", "+ow", "+tb", "cut", "older")
    return wrong or wrong_end(done, 2, CUT) or wrong_files(before, files_of(folder), {"older": BIG})


def try_mask(place, mask):
    """The mode of a new OUTPUT, which is that of a file that dcmtools makes."""
    folder = place.folder()
    done = place.run(folder, f"umask {mask:o}; dcmconv name.dcm out && dcmtools dcmconv name.dcm direct")
    modes = [(folder / name).stat().st_mode & 0o7777 for name in ("out", "direct") if (folder / name).exists()]
    return wrong_end(done, 0, "") or ("" if modes == [0o666 & ~mask] * 2 else f"modes {[oct(mode) for mode in modes]}")


def open_queue(path):
    """Opens a named pipe for writing, once somebody reads it."""
    for _ in range(1000):
        try:
            return os.open(path, os.O_WRONLY | os.O_NONBLOCK)
        except OSError:
            time.sleep(0.01)
    return None


def is_read(queue):
    """Whether anybody still reads a pipe."""
    try:
        os.write(queue, b"more")
    except BrokenPipeError:
        return False
    return True


def try_signal(place, number, output, of_group):
    """A signal, to the script or to all that it started, while dcmtools waits for more of its input."""
    folder = place.folder()
    before = files_of(folder)
    started = place.start(folder, "dcmconv", "+ow", "queue", output)
    queue = open_queue(folder / "queue")
    if queue is None:
        started.kill()
        return "dcmtools does not read"
    os.write(queue, NAME[:180])
    part = folder / f"{output}.part"
    mode = part.stat().st_mode & 0o777 if part.exists() else None
    (os.killpg if of_group else os.kill)(started.pid, number)
    stdout, stderr = started.communicate(timeout=20)
    still_read = is_read(queue)
    os.close(queue)
    ends = (-number, 128 + number) if number == signal.SIGQUIT else (-number,)
    if started.returncode not in ends or stdout or stderr:
        return f"status {started.returncode}, {stderr!r}"
    if mode is None or output == "older" and mode != 0o600:
        return f"the mode of OUTPUT.part is {mode and oct(mode)}"
    return "dcmtools goes on" if still_read else wrong_files(before, files_of(folder), {})


def try_two_runs(place):
    """A second run to the same OUTPUT is refused as long as the first one writes it."""
    folder = place.folder()
    before = files_of(folder)
    started = place.start(folder, "dcmconv", "+tb", "queue", "out")
    queue = open_queue(folder / "queue")
    second = place.run_tool(folder, "dcmconv", "name.dcm", "out")
    os.write(queue, NAME)
    os.close(queue)
    stdout, stderr = started.communicate(timeout=20)
    wrong = wrong_end(second, 4, "dcmconv: " + PART)
    if (started.returncode, stdout, stderr) != (0, b"", b""):
        wrong = wrong or f"the first run: status {started.returncode}, {stderr!r}"
    return wrong or wrong_files(before, files_of(folder), {"out": BIG})


def try_missing_program(place):
    """Without dcmtools nothing is left, and the status is that of a shell that does not find a program."""
    folder = place.folder()
    before = files_of(folder)
    path = os.pathsep.join(p for p in os.environ["PATH"].split(os.pathsep) if not os.path.exists(os.path.join(p, "dcmtools")))
    command = [place.programs / "dcmconv", "name.dcm", "older"]
    done = subprocess.run(command, cwd=folder, env=dict(os.environ, PATH=path), capture_output=True, timeout=60, check=False)
    return f"status {done.returncode}" if done.returncode != 127 else wrong_files(before, files_of(folder), {})


def try_other_name(place):
    folder = place.folder()
    done = place.run_tool(folder, "renamed", "name.dcm", "out")
    return wrong_end(done, 1, "renamed: this script is called dcmconv, dcmodify or dump2dcm\n")


def try_killed(place):
    """A limit of the size of a file ends dcmtools by a signal, where nobody has ignored that."""
    folder = place.folder()
    before = files_of(folder)
    done = place.run(folder, "ulimit -c 0; ulimit -f 1; dcmconv +ow large.dcm older")
    wrong = "" if done.returncode == 128 + signal.SIGXFSZ else f"status {done.returncode}, {done.stderr!r}"
    return wrong or wrong_files(before, files_of(folder), {})


UNREPLACED = "dcmconv: older cannot be replaced\n"

# Of those who are not root: what it is, what prepares the folder, the words, the line, and the files that change. The status is 4.
NOBODYS = [
    ("an OUTPUT without the right to write", "chmod 444 older", "dcmconv +ow name.dcm older", OUTPUT_UNOPENED, {}),
    ("a folder without that right", "chmod 666 older; chmod 555 .", "dcmconv +ow name.dcm older", OUTPUT_UNOPENED, {}),
    ("a FILE without the right to read", "chmod 600 name.dcm", "dcmconv name.dcm older", INPUT_FAILED, {}),
    ("an OUTPUT of somebody else", "chmod 666 older; chmod 1777 .", "dcmconv +ow name.dcm older", UNREPLACED, {}),
]


def try_nobody(place, preparation, words, line, changes):
    folder = place.folder()
    place.run(folder, preparation)
    before = files_of(folder)
    as_nobody = f"exec setpriv --reuid=65534 --regid=65534 --clear-groups bash -c '{words}'"
    return wrong_end(place.run(folder, as_nobody), 4, line) or wrong_files(before, files_of(folder), changes)


def try_owner(place):
    """An OUTPUT that is replaced keeps its owner."""
    folder = place.folder()
    os.chown(folder / "older", 12345, 12346)
    done = place.run_tool(folder, "dcmconv", "+ow", "name.dcm", "older")
    found = (folder / "older").stat()
    wrong = "" if (found.st_uid, found.st_gid) == (12345, 12346) else f"owner {found.st_uid}:{found.st_gid}"
    return wrong_end(done, 0, "") or wrong


def try_without_proc(place):
    folder = place.folder()
    before = files_of(folder)
    words = "exec unshare -m sh -c 'mount -t tmpfs none /proc && dcmconv +ow +tb name.dcm older && dcmconv +tb - out < name.dcm'"
    return wrong_end(place.run(folder, words), 0, "") or wrong_files(before, files_of(folder), {"older": BIG, "out": BIG})


def answers_of_root(place):
    """The cases that only root can try."""
    if os.getuid() != 0:
        print("not root: owners, rights of others, and a system without /proc are not tried")
        return []
    answers = [(what, try_nobody(place, *case)) for what, *case in NOBODYS]
    answers.append(("the owner", try_owner(place)))
    if subprocess.run(["unshare", "-m", "true"], check=False, capture_output=True).returncode == 0:
        return answers + [("a system without /proc", try_without_proc(place))]
    print("no `unshare -m` here: a system without /proc is not tried")
    return answers


def answers_of(place):
    answers = [(what, try_case(place, *case)) for what, *case in CASES]
    answers += [(f"try_program: {what}", try_like_program(place, words)) for what, words in cases_of_program()]
    answers += [(f"the name {name!r}", try_name(place, name)) for name in NAMES]
    answers += [(f"mode {mode:o}", try_mode(place, mode)) for mode in MODES]
    answers += [(f"mask {mask:o}", try_mask(place, mask)) for mask in MASKS]
    for number in SIGNALS:
        for output in ("older", "out"):
            answers.append((f"{number.name}, {output}", try_signal(place, number, output, False)))
        answers.append((f"{number.name} to all", try_signal(place, number, "older", True)))
    answers.append(("two runs at once", try_two_runs(place)))
    answers.append(("no dcmtools", try_missing_program(place)))
    answers.append(("another name of the script", try_other_name(place)))
    answers.append(("a signal that ends dcmtools", try_killed(place)))
    return answers + answers_of_root(place)


def main():
    binary = os.path.abspath(sys.argv[1] if len(sys.argv) > 1 else ROOT / "crates/dcmtools/out/dcmtools")
    count, wrong = 0, 0
    for shell in filter(shutil.which, SHELLS):
        with tempfile.TemporaryDirectory() as room:
            os.chmod(room, 0o755)
            answers = answers_of(Place(room, shell, binary))
        for what, problem in answers:
            if problem:
                print(f"{shell}: {what}: {problem}")
        count += len(answers)
        wrong += sum(bool(problem) for _, problem in answers)
    print(f"{count} cases, {wrong} wrong")
    return 1 if wrong or not count else 0


if __name__ == "__main__":
    sys.exit(main())
