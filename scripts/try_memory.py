#!/usr/bin/env python3
"""Refuses each growth of memory in turn, and expects that the program reports it and writes nothing. A run over a tree ends then, with the
outputs and rows before it.

usage: try_memory.py PROGRAM

A small library, built with cc and loaded before the C library, lets the Nth call for memory fail, for N from 1 on, until a run
takes fewer calls than that. A word that was given more room than it needs keeps it where the smaller room is refused: then the run
goes as it should.
"""

import os
import subprocess
import sys
import tempfile
from pathlib import Path

from elements import LITTLE, file_of, leaf

ALLOCATOR = r"""
#include <errno.h>
#include <fcntl.h>
#include <stddef.h>
#include <stdlib.h>
#include <unistd.h>

extern void *__libc_malloc(size_t size);
extern void *__libc_calloc(size_t count, size_t size);
extern void *__libc_realloc(void *old, size_t size);
extern void *__libc_memalign(size_t align, size_t size);

static long calls, refused = -1;

static int refuses(void) {
    if (refused < 0) {
        const char *number = getenv("REFUSED_CALL");
        refused = number ? atol(number) : 0;
    }
    calls++;
    if (calls != refused)
        return 0;
    close(open(getenv("REFUSED_MARK"), O_CREAT | O_WRONLY | O_CLOEXEC, 0600));
    errno = ENOMEM;
    return 1;
}

void *malloc(size_t size) { return refuses() ? NULL : __libc_malloc(size); }
void *calloc(size_t count, size_t size) { return refuses() ? NULL : __libc_calloc(count, size); }
void *realloc(void *old, size_t size) { return refuses() ? NULL : __libc_realloc(old, size); }
void *aligned_alloc(size_t align, size_t size) { return refuses() ? NULL : __libc_memalign(align, size); }
int posix_memalign(void **place, size_t align, size_t size) {
    void *memory = refuses() ? NULL : __libc_memalign(align, size);
    if (!memory)
        return ENOMEM;
    *place = memory;
    return 0;
}
"""

FILE = file_of(LITTLE, leaf(0x00100010, "PN", b"AB^CD "))

MOST_CALLS = 1000

# Words, and the status where no memory is refused. The edits take memory for their list, paths and values.
RUNS = [
    (["dcmdump", "-"], 0),
    (["dcmconv", "+ti", "-", "-"], 0),
    (["dcmodify", "-i", "(0010,0020)=7", "-m", "PatientName=Q", "-", "-"], 0),
    (["dcmodify", "-i", "(0008,1140)[0].(0008,1155)=1.2.3", "-ma", "(0008,0060)=CT", "-ea", "(0010,4000)", "-ep", "-", "-"], 3),
    (["dcmodify", "-e", "Unknown", "-", "-"], 1),
    (["dump2dcm", "-", "-"], 2),
    (["dcmdeid", "-", "-"], 0),
    (["dcm2csv", "-k", "PatientName", "-"], 0),
    (["dcm2csv", "-k", "PatientName", *["-k", "PatientID"] * 63, "+nh", "-"], 0),
    (["dcm2csv", "-k", "Unknown", "-"], 1),
    (["unknown"], 1),
]

# The files of a tree, whose outputs take memory each, and the words and the header of a run over it.
TREE = ("a", "b", "c/d")
TREE_WORDS = ["dcmconv", "+r", "in", "out"]
HEADER = b'"File","Output","Status"\n'
REFUSED = (5, b"dcmtools: out of memory\n")


def run(program, shim, words, refused, folder=None):
    """How a run in a folder ends, and whether a call was refused."""
    mark = shim.with_name("mark")
    mark.unlink(missing_ok=True)
    environment = dict(os.environ, LD_PRELOAD=str(shim), REFUSED_CALL=str(refused), REFUSED_MARK=str(mark))
    done = subprocess.run([program, *words], input=FILE, capture_output=True, env=environment, timeout=20, cwd=folder)
    return (done.returncode, done.stdout, done.stderr), mark.exists()


def try_words(program, shim, words, status):
    """How many calls were refused, how many of them were silent, and what went wrong."""
    whole, _ = run(program, shim, words, 0)
    if whole[0] != status:
        return 0, 0, [f"{words}: status {whole[0]} without a refusal"]
    silent, wrong = 0, []
    for refused in range(1, MOST_CALLS):
        left, is_refused = run(program, shim, words, refused)
        if not is_refused:
            return refused - 1, silent, wrong
        silent += left == whole
        if left not in (whole, (REFUSED[0], b"", REFUSED[1])):
            wrong.append(f"{words}, call {refused}: status {left[0]}, {left[1][:40]!r}, {left[2]!r}")
    return MOST_CALLS, silent, wrong + [f"{words}: takes more than {MOST_CALLS} calls"]


def run_tree(program, shim, refused):
    """How a run over the tree ends, whether a call was refused, and the rows of the outputs that are there, each whole, and nothing else."""
    with tempfile.TemporaryDirectory() as room:
        for name in TREE:
            path = Path(room, "in", name)
            path.parent.mkdir(parents=True, exist_ok=True)
            path.write_bytes(FILE)
        left, is_refused = run(program, shim, TREE_WORDS, refused, room)
        out = Path(room, "out")
        files = {str(path.relative_to(out)): path.read_bytes() for path in out.rglob("*") if path.is_file()}
        rows = {f'"{name}","{name}","written"\n'.encode() for name, text in files.items() if text == FILE}
        return left, is_refused, rows if len(rows) == len(files) else None


def try_tree(program, shim):
    """The same of runs over a tree."""
    whole, _, rows = run_tree(program, shim, 0)
    if whole[0] != 0 or rows is None or len(rows) != len(TREE):
        return 0, 0, [f"a tree: status {whole[0]} without a refusal"]
    silent, wrong = 0, []
    for refused in range(1, MOST_CALLS):
        left, is_refused, rows = run_tree(program, shim, refused)
        if not is_refused:
            return refused - 1, silent, wrong
        silent += left == whole
        told = left[1].splitlines(keepends=True)
        is_said = left == whole or (left[0], left[2]) == REFUSED
        if not is_said or rows is None or set(told) - {HEADER} != rows or len(told) > len(rows) + 1:
            wrong.append(f"a tree, call {refused}: status {left[0]}, {left[1][:80]!r}, {left[2]!r}, outputs of {rows}")
    return MOST_CALLS, silent, wrong + [f"a tree: takes more than {MOST_CALLS} calls"]


def main():
    if len(sys.argv) != 2:
        sys.exit(__doc__)
    with tempfile.TemporaryDirectory() as folder:
        source, shim = Path(folder, "refuse.c"), Path(folder, "refuse.so")
        source.write_text(ALLOCATOR)
        subprocess.run(["cc", "-shared", "-fPIC", "-O1", "-o", shim, source], check=True)
        refusals, silent, wrong = 0, 0, []
        program = Path(sys.argv[1]).resolve()
        for refused, passed, problems in [try_tree(program, shim)] + [try_words(program, shim, *row) for row in RUNS]:
            refusals, silent, wrong = refusals + refused, silent + passed, wrong + problems
    for problem in wrong:
        print(problem)
    print(f"{refusals} calls refused, {silent} of them in silence, {len(wrong)} wrong")
    sys.exit(1 if wrong or not refusals else 0)


if __name__ == "__main__":
    main()
