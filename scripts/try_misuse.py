#!/usr/bin/env python3
"""Tries three wrong uses of the libraries that the compiler has to refuse, and a right one beside each.

    scripts/try_misuse.py

It works on a copy of the repository, needs `rt`, and takes a minute. Exits with 0 if each is answered as it should be.
"""
import os
import shutil
import subprocess
import sys
import tempfile
from typing import NamedTuple

ROOT = os.path.dirname(os.path.dirname(os.path.abspath(__file__)))

FRONT = """//! A use of the libraries.
#![tactic(auto)]
use dcm_editor::{EditFault, EditSink, Edits};
use dcm_stream::{Halt, Machine, Sink, Token};
use std::alloc::Global;
"""

TEST = """
#[test]
fn nothing(_rt: HostRuntime) {}
"""


class Use(NamedTuple):
    what: str
    right: str
    wrong: str
    words: str


USES = [
    Use(
        "a sink that keeps bytes of a value, which are lent for the call alone",
        """
struct Keeper {
    size: usize,
}

impl Keeper {
    fn keep(&mut self, token: Token) {
        if let Token::Bytes(bytes) = token {
            self.size = bytes.len();
        }
    }
}
""",
        """
struct Keeper<'a> {
    kept: Option<&'a [u8]>,
}

impl<'a> Keeper<'a> {
    fn keep(&mut self, token: Token) {
        if let Token::Bytes(bytes) = token {
            self.kept = Some(bytes);
        }
    }
}
""",
        "explicit lifetime required in the type of `token`",
    ),
    Use(
        "a token of one piece that is used after the next one was read into its place",
        """
fn feed_twice<S: Sink>(machine: &mut Machine, buffer: &mut [u8], sink: &mut S) -> Result<(), Halt> {
    machine.feed(buffer, sink)?;
    buffer.reverse();
    machine.feed(buffer, sink)
}
""",
        """
fn feed_twice<S: Sink>(machine: &mut Machine, buffer: &mut [u8], sink: &mut S) -> Result<(), Halt> {
    let token = Token::Bytes(buffer);
    machine.feed(buffer, sink)?;
    buffer.reverse();
    machine.feed(buffer, sink)?;
    let _ = sink.take(token);
    Ok(())
}
""",
        "cannot borrow `*buffer` as mutable because it is also borrowed as immutable",
    ),
    Use(
        "a sink that outlives the edits whose values it hands on",
        """
fn sink_of<'a, S: Sink>(edits: &'a Edits, inner: &'a mut S) -> EditSink<'a, S> {
    EditSink::new(edits, inner)
}
""",
        """
fn sink_of<'a, S: Sink>(alloc: Global, words: &[&[u8]], inner: &'a mut S) -> Result<EditSink<'a, S>, EditFault> {
    let edits = Edits::parse(alloc, words)?;
    Ok(EditSink::new(&edits, inner))
}
""",
        "cannot return value referencing local variable `edits`",
    ),
]


def copy_to(folder):
    """The repository with one more crate, and its path."""
    shutil.copytree(os.path.join(ROOT, "crates"), os.path.join(folder, "crates"), ignore=shutil.ignore_patterns("out"))
    shutil.copy(os.path.join(ROOT, "HANDLES"), folder)
    with open(os.path.join(ROOT, "crates.txt")) as crates:
        listed = crates.read()
    with open(os.path.join(folder, "crates.txt"), "w") as crates:
        crates.write(listed + "misuse: dcm_editor dcm_stream\n")
    crate = os.path.join(folder, "crates", "misuse")
    os.makedirs(os.path.join(crate, "src"))
    return crate


def answer_to(crate, code):
    with open(os.path.join(crate, "src", "lib.rt"), "w") as file:
        file.write(FRONT + code + TEST)
    done = subprocess.run(["rt", "try", "--test"], cwd=crate, capture_output=True, text=True, timeout=600, check=False)
    return done.stdout + done.stderr


def main():
    wrong = 0
    with tempfile.TemporaryDirectory() as folder:
        crate = copy_to(folder)
        for use in USES:
            if "1 passed" not in answer_to(crate, use.right):
                print(f"{use.what}: the right use is refused")
                wrong += 1
            if use.words not in answer_to(crate, use.wrong):
                print(f"{use.what}: not refused in these words")
                wrong += 1
    print(f"{2 * len(USES)} uses, {wrong} wrong")
    return 1 if wrong else 0


if __name__ == "__main__":
    sys.exit(main())
