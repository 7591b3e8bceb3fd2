#!/usr/bin/env python3
"""Finds each element of real files by `+P` of dcmdump, and compares where it stands with what `+P` of DCMTK finds.

    /usr/bin/python3 scripts/try_named.py [BINARY] [FOLDER..]

It needs DCMTK (Debian's dcmtk) and the test files of pydicom (python3-pydicom), or FOLDERs. Of each file that both tools show without fault each
tag of its dump is named alone, with `+p`. Both have to find it at the same ways, in the same order. DCMTK shows an element within a named one
again, and an unknown sequence as one value; ways through these are left out. What dcmtools prints of all tags of a file at once has to be its dump without the header.
"""
import re
import subprocess
import sys
from pathlib import Path

TOP = Path(__file__).resolve().parent.parent
BINARY = TOP / "crates/dcmtools/out/dcmtools"
FILES = Path("/usr/lib/python3/dist-packages/pydicom/data/test_files")

# The first line of an element that stands outermost in a dump: the way to it, and its tag. DCMTK shows a representation that it does
# not know as two question marks.
FIRST = re.compile(rb"((?:\([0-9a-f]{4},[0-9a-f]{4}\)\.)*)\(([0-9a-f]{4},[0-9a-f]{4})\) (?:[A-Za-z]{2}|\?\?) ")

# A tag in a way.
IN_WAY = re.compile(rb"[0-9a-f]{4},[0-9a-f]{4}")

# The tag of an element whose representation DCMTK does not know.
UNKNOWN = re.compile(rb"^ *\(([0-9a-f]{4},[0-9a-f]{4})\) (?:UN|\?\?) ", re.MULTILINE)

# The tag in a line of a dump at any level.
TAG = re.compile(rb"^ *\(([0-9a-f]{4},[0-9a-f]{4})\)", re.MULTILINE)

# Tags that +P can name at once.
MOST = 64


def printed(*words):
    """The output of a program, or None where it ends with another status than 0."""
    ran = subprocess.run([str(word) for word in words], capture_output=True, check=False)
    return ran.stdout if ran.returncode == 0 else None


def is_element(tag):
    return not tag.startswith(b"fffe")


def ways(output, tag, hidden=frozenset()):
    """The ways to the elements with the tag, but none within another such, nor within a hidden one."""
    firsts = (FIRST.match(line) for line in output.split(b"\n"))
    return [found[1] for found in firsts if found and found[2] == tag and not {tag, *hidden} & set(IN_WAY.findall(found[1]))]


def without_header(dump):
    return b"".join(line for line in dump.splitlines(keepends=True) if not line.startswith(b"#") and line != b"\n")


def wrong_tags(binary, path, tags, hidden):
    for tag in tags:
        ours = printed(binary, "dcmdump", "+dict", "+p", "+P", f"({tag.decode()})", path)
        theirs = printed("dcmdump", "-q", "+p", "+P", tag.decode(), path)
        if ours is None or theirs is None or ways(ours, tag, hidden) != ways(theirs, tag, hidden):
            yield f"{path.name}: {tag.decode()}: {ways(ours or b'', tag, hidden)} here, {ways(theirs or b'', tag, hidden)} by DCMTK"


def wrong_whole(binary, path, dump, tags):
    words = [word for tag in tags for word in ("+P", f"({tag.decode()})")]
    if len(tags) <= MOST and printed(binary, "dcmdump", "+dict", *words, path) != without_header(dump):
        yield f"{path.name}: all its tags are not its dump"


def wrong_file(binary, path):
    dump = printed(binary, "dcmdump", "+dict", path)
    theirs = printed("dcmdump", "-q", path)
    if dump is None or theirs is None:
        return None
    tags = sorted(set(filter(is_element, TAG.findall(dump))))
    return [*wrong_tags(binary, path, tags, set(UNKNOWN.findall(theirs))), *wrong_whole(binary, path, dump, tags)]


def main():
    binary = Path(sys.argv[1]) if len(sys.argv) > 1 else BINARY
    folders = [Path(word) for word in sys.argv[2:]] or [FILES]
    tried = [wrong_file(binary, path) for folder in folders for path in sorted(folder.rglob("*.dcm"))]
    wrong = [text for texts in tried if texts for text in texts]
    print(*wrong, sep="\n", end="\n" if wrong else "")
    print(f"{sum(texts is not None for texts in tried)} files, {len(wrong)} wrong")
    return 1 if wrong else 0


if __name__ == "__main__":
    sys.exit(main())
