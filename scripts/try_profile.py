#!/usr/bin/env python3
"""Tries the claims of docs/users/PROFILE.md, in its order, on a built dcmtools.

What PROFILE says of words, paths, streams and files is tried by try_program.py, too, and of trees by try_trees.py; of devices that fail,
of pieces and of 64 and 65 open sequences by job_tests; of R15 by library_tests, and of want of memory by try_memory.py. Of two runs
into one OUTPUT, of overlay file systems and of DCMTK's tools nothing is tried here.

    scripts/try_profile.py [BINARY]

BINARY is crates/dcmtools/out/dcmtools if it is not given. Exits with 0 if each case ends as the profile says.
"""
import hashlib
import hmac
import os
import struct
import subprocess
import sys
import tempfile
from typing import NamedTuple

from elements import (
    BIG, IMPLICIT, JPEG, LITTLE, OWN, UNDEFINED, after_prefix, file_of, group, head, item, leaf, open_item, open_sequence, padded, sequence,
)

ROOT = os.path.dirname(os.path.dirname(os.path.abspath(__file__)))


NAME = 0x00100010
ID = 0x00100020
COMMENTS = 0x00104000
ROWS = 0x00280010
PIXELS = 0x7FE00010
IMAGES = 0x00081140
INSTANCE = 0x00081155
CONTENT = 0x0040A730

AB = leaf(NAME, "PN", b"AB")
AT_SET = len(file_of(LITTLE, b""))
AT_IMPLICIT = len(file_of(IMPLICIT, b""))


# ---- the lines of dumps


def line(tag, vr, display, size, count, keyword, level=0):
    start = f"{'  ' * level}({tag >> 16:04x},{tag & 0xFFFF:04x}) {vr} {display}"
    spaces = " " * (40 - len(display.encode("utf-8", "surrogateescape")))
    return f"{start}{spaces} # {size:>3}, {count} {keyword}\n"


FILE_HEADER = "# Dicom-File-Format\n\n# Dicom-Meta-Information-Header\n# Used TransferSyntax: LittleEndianExplicit\n"


def set_header(name):
    return f"# Dicom-Data-Set\n# Used TransferSyntax: {name}\n"


NAMES = {IMPLICIT: "LittleEndianImplicit", LITTLE: "LittleEndianExplicit", BIG: "BigEndianExplicit"}


MARK = " (texts in UTF-8)"


def by_characters(dump):
    """A dump whose first line says that texts are shown as characters."""
    return dump.replace("\n", f"{MARK}\n", 1)


def shown(uid, lines):
    """The dump of a file of `file_of`."""
    name = NAMES[uid]
    size = len(padded(uid))
    meta = line(0x00020000, "UL", str(8 + size), 4, 1, "FileMetaInformationGroupLength")
    meta += line(0x00020010, "UI", f"={name}", size, 1, "TransferSyntaxUID")
    return f"{FILE_HEADER}{meta}\n{set_header(name)}{lines}"


NAME_LINE = line(NAME, "PN", "[AB]", 2, 1, "PatientName")


def of_several(number, name, lines=NAME_LINE):
    """The heading and the dump of a data set alone."""
    return f"# dcmdump ({number}): {name}\n\n{set_header('LittleEndianExplicit')}{lines}"


class Case(NamedTuple):
    claim: str
    words: str
    input: bytes
    output: bytes | str = b""
    status: int = 0
    line: str = ""
    before: str = ":"  # what the shell does before, and after, in the same folder
    after: str = ":"


class Shows(NamedTuple):
    """Words that show a text, and what has to be in it."""

    claim: str
    words: str
    parts: list


def fault(claim, words, content, number, at, text, output=b""):
    return Case(claim, words, content, output, 2, f"{number} at byte {at}: {text}")


def refused(claim, words, text):
    return Case(claim, words, file_of(LITTLE, AB), b"", 1, text)


DUMP = "dcmdump FILE"
WHOLE = "dcmdump +L FILE"


def dumps(claim, uid, data_set, lines, words=DUMP):
    dump = shown(uid, lines)
    return Case(claim, words, file_of(uid, data_set), by_characters(dump) if "+u8" in words else dump)


def of_unnamed_syntax(claim, uid, header):
    """A dump of a file whose transfer syntax has no name, and stands so in the header of the data set."""
    size = len(padded(uid.encode()))
    meta = line(0x00020000, "UL", str(8 + size), 4, 1, "FileMetaInformationGroupLength")
    meta += line(0x00020010, "UI", f"[{uid}]", size, 1, "TransferSyntaxUID")
    return Case(claim, DUMP, file_of(uid.encode(), AB), f"{FILE_HEADER}{meta}\n{set_header(header)}{NAME_LINE}")


def displays(claim, vr, value, display, count, uid=LITTLE, words=WHOLE):
    keyword = "Unknown Tag & Data"
    return dumps(claim, uid, leaf(0x00111001, vr, value, uid), line(0x00111001, vr, display, len(value), count, keyword), words)


SPECIFIC = 0x00080005


def decodes(claim, sets, value, display, count, vr="PN", before=b"", before_lines="", words="dcmdump +u8 FILE"):
    """A dump by characters of a value behind a Specific Character Set."""
    keyword = "Unknown Tag & Data"
    named = leaf(SPECIFIC, "CS", sets) if sets else b""
    named_line = line(SPECIFIC, "CS", f"[{sets.decode().rstrip()}]", len(sets), sets.count(b"\\") + 1, "SpecificCharacterSet") if sets else ""
    value_line = line(0x00111001, vr, display, len(value), count, keyword)
    return dumps(claim, LITTLE, named + before + leaf(0x00111001, vr, value), named_line + before_lines + value_line, words)


def characters():
    item_sets = sequence(IMAGES, item(leaf(SPECIFIC, "CS", b"ISO_IR 144")))
    item_lines = line(IMAGES, "SQ", "(Sequence with explicit length)", len(item_sets) - 12, 1, "ReferencedImageSequence")
    item_lines += line(0xFFFEE000, "na", "(Item with explicit length)", len(item_sets) - 20, 1, "Item", 1)
    item_lines += line(SPECIFIC, "CS", "[ISO_IR 144]", 10, 1, "SpecificCharacterSet", 2)
    item_lines += line(0xFFFEE00D, "na", "(ItemDelimitationItem for re-encoding)", 0, 0, "ItemDelimitationItem", 1)
    item_lines += line(0xFFFEE0DD, "na", "(SequenceDelimitationItem for re-encod.)", 0, 0, "SequenceDelimitationItem")
    return [
        decodes("texts in UTF-8", b"ISO_IR 100", b"M\xfcller", "[M\u00fcller]", 1),
        decodes("without one it is ASCII", b"", b"M\xfcller", "[M%FCller]", 1),
        decodes("what an item sets ends with it", b"ISO_IR 100", b"\xe9\xe9", "[\u00e9\u00e9]", 1, before=item_sets, before_lines=item_lines),
        decodes("a byte without a character", b"ISO_IR 100", b"\x85A", "[%85A]", 1),
        decodes("what is escaped or shows nothing", b"ISO_IR 192", b"%]\xe2\x80\xaea", "[%25%5D%E2%80%AEa]", 1),
        decodes("other texts", b"ISO_IR 100", b"\xe9A", "[%E9A]", 1, vr="CS"),
        decodes("5C in a kanji is no backslash", b"\\ISO 2022 IR 87 ", b"\x1b$B0\\\x1b(B\\a", "[\u79fb\\a]", 2, vr="LO"),
        decodes("the cut falls into no character", b"ISO_IR 192", b"a" + "\u00fc".encode() * 39 + b"a", "[a" + "\u00fc" * 30 + "...", 1, vr="LT"),
        decodes("GB18030", b"GB18030 ", b"\xcd\xf5", "[\u738b]", 1),
        Case("of a data set alone its first line says so too", "dcmdump -f -ti +u8 FILE", leaf(NAME, "PN", b"AB", IMPLICIT), by_characters(set_header("LittleEndianImplicit") + NAME_LINE)),
        refused("V2: +u8 of dcmconv", "dcmconv +u8 FILE -", "V2 at word 2: unknown option"),
    ]


def named():
    inner = item(AB)
    deep = sequence(IMAGES, inner) + AB
    way = "(0008,1140)."
    whole = line(IMAGES, "SQ", "(Sequence with explicit length)", len(inner), 1, "ReferencedImageSequence")
    whole += line(0xFFFEE000, "na", "(Item with explicit length)", len(AB), 1, "Item", 1)
    whole += "    " + NAME_LINE + line(0xFFFEE00D, "na", "(ItemDelimitationItem for re-encoding)", 0, 0, "ItemDelimitationItem", 1)
    whole += line(0xFFFEE0DD, "na", "(SequenceDelimitationItem for re-encod.)", 0, 0, "SequenceDelimitationItem")

    def finds(claim, words, data_set, lines, **more):
        return Case(claim, f"dcmdump {words} FILE", file_of(LITTLE, data_set), lines, **more)

    return [
        finds("a named element at any depth, without a header", "+P PatientName", deep, NAME_LINE * 2),
        finds("by its number", "+P '(0010,0010)'", deep, NAME_LINE * 2),
        finds("a sequence with all that is in it, and none of it again", "+P ReferencedImageSequence +P PatientName", deep, whole + NAME_LINE),
        finds("the way before the first line", "+p +P PatientName", deep, way + NAME_LINE + NAME_LINE),
        finds("-p takes +p back", "+p +P PatientName -p", deep, NAME_LINE * 2),
        finds("an element of the meta group", "+P TransferSyntaxUID", AB, line(0x00020010, "UI", "=LittleEndianExplicit", 20, 1, "TransferSyntaxUID")),
        finds("nothing is found", "+P Modality", deep, ""),
        finds("a name in a value is none", "+P PatientID", leaf(NAME, "PN", b"(0010,0020) LO [7]"), ""),
        refused("U2: a keyword that is none", "dcmdump +P Nothing FILE", "U2 in element 1: unknown tag"),
        refused("U1: a number that is none", "dcmdump +P PatientName +P '(0010,001)' FILE", "U1 in element 2: bad option or path"),
        refused("V3: +P without its word", "dcmdump FILE +P", "V3 at word 3: bad option value"),
        refused("V12: more than 64", "dcmdump " + "+P PatientName " * 65 + "FILE", "V12: more than 64 elements"),
    ]


def converts(claim, words, source, target, data_set, converted):
    return Case(claim, words, file_of(source, data_set), file_of(target, converted))


CONVERT = "dcmconv FILE -"

LONG_TEXT = b"a" * 65
LONG_LINE = line(COMMENTS, "LT", "[" + "a" * 64 + "b]", 65, 1, "PatientComments")

WORDS = [
    dumps("-L cuts a display of more than 66 bytes", LITTLE, leaf(COMMENTS, "LT", LONG_TEXT), line(COMMENTS, "LT", "[" + "a" * 62 + "...", 65, 1, "PatientComments")),
    dumps("64 bytes of text are shown whole", LITTLE, leaf(COMMENTS, "LT", b"a" * 64), line(COMMENTS, "LT", "[" + "a" * 64 + "]", 64, 1, "PatientComments")),
    dumps("+L shows it whole", LITTLE, leaf(COMMENTS, "LT", b"a" * 64 + b"b"), LONG_LINE, WHOLE),
    dumps("of -L and +L the last one wins", LITTLE, leaf(COMMENTS, "LT", b"a" * 64 + b"b"), LONG_LINE, "dcmdump -L FILE +L"),
    Case("-f -te: a data set alone", "dcmdump -f -te FILE", AB, set_header("LittleEndianExplicit") + NAME_LINE),
    Case("-f -ti", "dcmdump -f -ti FILE", leaf(NAME, "PN", b"AB", IMPLICIT), set_header("LittleEndianImplicit") + NAME_LINE),
    Case("-f -tb", "dcmdump -tb FILE -f", leaf(NAME, "PN", b"AB", BIG), set_header("BigEndianExplicit") + NAME_LINE),
    Case("of -ti, -te and -tb the last one wins", "dcmdump -f -ti -tb FILE", leaf(NAME, "PN", b"AB", BIG), set_header("BigEndianExplicit") + NAME_LINE),
    Case("an empty data set alone", "dcmdump -f -te FILE", b"", set_header("LittleEndianExplicit")),
    dumps("+fo cancels -f", LITTLE, AB, NAME_LINE, "dcmdump -f +fo FILE"),
    refused("-f without a syntax", "dcmdump -f FILE", "V5: options do not go together"),
    refused("a syntax without -f", "dcmdump -te FILE", "V5: options do not go together"),
    refused("-f -ti +fo", "dcmdump -f -ti +fo FILE", "V5: options do not go together"),
    refused("-- is not known", "dcmdump -- FILE", "V2 at word 2: unknown option"),
    refused("--help is the only word after a tool's name", "dcmdump --help FILE", "V2 at word 2: unknown option"),
    refused("--version is the only word after a tool's name", "dcmconv FILE out --version", "V2 at word 4: unknown option"),
    refused("a tool that is none, and help", "foo help", "V1 at word 1: unknown tool"),
    refused("help of no tool", "help foo", "V1 at word 1: unknown tool"),
    refused("--help of a path", "--help FILE", "V1 at word 1: unknown tool"),
    refused("no words", "", "V1 at word 1: unknown tool"),
    Case("a file that is named help", "dcmdump -f -te ./help; rm help", AB, set_header("LittleEndianExplicit") + NAME_LINE, before="mv FILE help; cp help FILE"),
    Case("two files have headings, and an empty line between them", "dcmdump -f -te FILE ./FILE", AB, of_several("1/2", "FILE") + "\n" + of_several("2/2", "./FILE")),
    Case("+F: one file has a heading", "dcmdump -f +F -te FILE", AB, of_several("1/1", "FILE")),
    Case("of a list the number of names is not known", "dcmdump -f -te @list", AB, of_several("1", "FILE") + "\n" + of_several("2", "FILE"), before="printf 'FILE\\n\\nFILE' > list", after="rm list"),
    Case("a list on standard input", "dcmdump -f -te @- <<< FILE", AB, of_several("1", "FILE")),
    Case("a file that cannot be opened is counted, and has no heading", "dcmdump -f -te gone FILE", AB, of_several("2/2", "FILE"), 4, "gone: input cannot be opened"),
    Case("a fault ends its own file, and its line names it", "dcmdump -f -te cut FILE", AB, of_several("1/2", "cut", "") + "\n" + of_several("2/2", "FILE"), 2, "cut: R1 at byte 9: input ends too early", before="head -c 9 FILE > cut", after="rm cut"),
    Case("standard output is not read", "dcmdump -f -te +F FILE 1<> FILE", AB, b"", 4, "FILE: output is the input"),
    Case("a file whose name begins with @", "dcmdump -f -te ./@x", AB, set_header("LittleEndianExplicit") + NAME_LINE, before="cp FILE @x", after="rm @x"),
    Case("after a failed output nothing more is opened", "dcmdump FILE gone > /dev/full", file_of(LITTLE, AB), b"", 4, "output failed"),
    refused("several files: V4 is before V5", "dcmdump -f FILE ''", "V4: wrong number of paths"),
    refused("several files: V5 is before V9", "dcmdump -f - -", "V5: options do not go together"),
    refused("standard input is named once", "dcmdump - @-", "V9: standard input is named twice"),
    Case("a value that is not UTF-8", "dcmodify -m $'PatientName=M\\374ller' FILE -", file_of(LITTLE, AB), file_of(LITTLE, leaf(NAME, "PN", b"M\xfcller"))),
    Case("a file whose name is not UTF-8", "dcmdump $'gr\\366sse'", AB, b"", 4, "input cannot be opened", before="cp FILE $'gr\\366sse'", after="rm $'gr\\366sse'"),
    Case("an output whose name is not UTF-8", "dcmconv FILE $'gr\\366sse'", file_of(LITTLE, AB), b"", 4, "output cannot be opened"),
    Case("it is read as standard input", "dcmdump - < $'gr\\366sse'", file_of(LITTLE, AB), shown(LITTLE, NAME_LINE), before="cp FILE $'gr\\366sse'", after="rm $'gr\\366sse'"),
    refused("a path that begins with -", "dcmdump -name", "V2 at word 2: unknown option"),
    refused("the word after +l is its number", "dump2dcm +l FILE FILE out", "V3 at word 2: bad option value"),
    refused("a limit that is too high", "dump2dcm +l 16385 FILE out", "V3 at word 2: bad option value"),
    refused("V2 is before V4", "dcmdump +x", "V2 at word 2: unknown option"),
    refused("V4 is before V5", "dcmdump -f", "V4: wrong number of paths"),
    refused("V4 is before U1", "dcmodify -x FILE", "V4: wrong number of paths"),
    refused("U1 is before V6", "dcmodify -x FILE FILE", "U1 in edit 1: bad option or path"),
    converts("-e changes nothing", "dcmconv -e FILE -", LITTLE, LITTLE, AB, AB),
    converts("of +te and +tb the last one wins", "dcmconv +te +tb FILE -", LITTLE, BIG, AB, leaf(NAME, "PN", b"AB", BIG)),
    refused("dump2dcm has no +dict", "dump2dcm FILE +dict out", "V2 at word 3: unknown option"),
    refused("dcmodify: +dict is before the paths", "dcmodify FILE out +dict", "V4: wrong number of paths"),
    refused("dcmodify: +dict has no number", "dcmodify +dict -e Rows +dict -x FILE out", "U1 in edit 2: bad option or path"),
    refused("dcmodify: +dict after -e is a keyword", "dcmodify -e +dict FILE out", "U2 in edit 1: unknown tag"),
]


SYNTAX_LINE = b"(0002,0010) UI =LittleEndianExplicit\n"


def same_file(claim, words, content=None, **more):
    return Case(claim, words, content or file_of(LITTLE, AB), b"", 4, "output is the input", **more)


LARGE = file_of(IMPLICIT, leaf(PIXELS, "", bytes(600_000), IMPLICIT))

# `ulimit` is there so that a program that reads what it writes does not fill the disk
SAME_FILE = [
    same_file("another path", "dcmconv FILE ./FILE"),
    same_file("a link", "dcmodify -ep FILE link", before="ln -s FILE link", after="rm link"),
    same_file("a hard link", "dcmconv FILE link", before="ln FILE link", after="rm link"),
    same_file("lines", "dump2dcm FILE ./FILE", SYNTAX_LINE),
    same_file("standard input", "dcmconv - FILE < FILE"),
    same_file("standard input by another name", "dcmconv /dev/stdin FILE < FILE"),
    same_file("standard output of dcmconv", "dcmconv FILE - >> FILE", before="ulimit -f 4000"),
    same_file("standard output of dcmconv, over the input", "dcmconv FILE - 1<> FILE", before="ulimit -f 4000"),
    same_file("standard output of dcmdump", "dcmdump FILE >> FILE", before="ulimit -f 4000"),
    same_file("standard input and output", "dcmdump - < FILE >> FILE", before="ulimit -f 4000"),
    same_file("standard input and output of dcmodify", "dcmodify -ep - - < FILE >> FILE", before="ulimit -f 4000"),
    same_file("standard output by its name", "dcmconv FILE /dev/stdout >> FILE", before="ulimit -f 4000"),
    same_file("a large file that is dumped into itself", "dcmdump +L FILE >> FILE", LARGE, before="ulimit -f 4000"),
    same_file("a large file that is converted into itself", "dcmconv FILE - >> FILE", LARGE, before="ulimit -f 4000"),
    Case("one pipe is not one file", "dcmconv - - < FILE | cat", file_of(LITTLE, AB), file_of(LITTLE, AB)),
    Case("one device is not one file", "dcmconv /dev/null /dev/../dev/null", b"", b"", 2, "R1 at byte 0: input ends too early"),
]

WRITTEN = file_of(LITTLE, AB)
FILE_LIMIT = file_of(LITTLE, leaf(PIXELS, "OB", bytes(60_000)))

FILES = [
    Case("a new OUTPUT has the mode of the umask", "dcmconv FILE out", WRITTEN, "644\n", before="umask 022; chmod 600 FILE", after="stat -c %a out; rm out"),
    Case("an OUTPUT that is there stays", "dcmconv FILE out", WRITTEN, "older\n", 4, "output is there already", before="echo older > out", after="cat out; rm out"),
    Case("an empty OUTPUT is written", "dcmconv FILE out", WRITTEN, WRITTEN, before=": > out", after="cat out; rm out"),
    Case("with +ow an older OUTPUT keeps its mode", "dcmconv +ow FILE out", WRITTEN, "640\n", before="umask 022; echo older > out; chmod 640 out", after="stat -c %a out; rm out"),
    Case("a signal leaves what was written", "dcmconv - out < <(cat FILE; exec sleep 20) & sleep 1; kill $!; wait $!; (exit $?)", WRITTEN, "out\n", 143, before="exec 2> /dev/null", after="ls out; rm out"),
    Case("two files in DCMTK's habit: the second stays", "dcmodify -m PatientName=AB FILE out", WRITTEN, "another patient\n", 4, "output is there already", before="echo another patient > out", after="cat out; rm out"),
    Case("a limit of file size ends the program without a line", "dcmconv FILE out 2> out2", FILE_LIMIT, "4096\n0\n", 153, before="ulimit -f 4; exec 2> /dev/null", after="stat -c %s out out2; rm out out2"),
    Case("the same where the signal is ignored", "dcmconv FILE out", FILE_LIMIT, "4096\n", 4, "output failed", before="ulimit -f 4; trap '' XFSZ", after="stat -c %s out; rm out"),
    Case(
        "a large input takes no more memory",
        'version > /dev/null; cat FILE <(head -c 200000000 /dev/zero) | (ulimit -v 8000; "$0" dcmconv - -) | wc -c',
        file_of(LITTLE, head(PIXELS, "OB", 200_000_000)),
        f"{AT_SET + 12 + 200_000_000}\n",
    ),
    Case("a stack of 600 KB is enough", "dcmconv FILE -", FILE_LIMIT, FILE_LIMIT, before="ulimit -s 600"),
    Case("a stack of 600 KB is enough for a dump", "dcmdump FILE", WRITTEN, shown(LITTLE, NAME_LINE), before="ulimit -s 600"),
    Case("a stack of 600 KB is enough for lines", "dump2dcm FILE -", SYNTAX_LINE, file_of(LITTLE, b""), before="ulimit -s 600"),
    Case("a stack of 600 KB is enough for a table", "dcm2csv -k PatientName FILE", WRITTEN, '"File","PatientName"\n"FILE","AB"\n', before="ulimit -s 600"),
    Case("a stack of 600 KB is enough for edits", "dcmodify -m PatientName=AB FILE -", WRITTEN, WRITTEN, before="ulimit -s 600"),
]

TUBE = 0x00181151
SMALLEST = 0x00280106
WAVEFORM = 0x54001010
OVERLAY = 0x60003000
DOSES = 0x300A0010
DOSE = 0x300A0012
UNKNOWN = "Unknown Tag & Data"

DOSE_ITEM = item(leaf(DOSE, "IS", b"1 ", IMPLICIT), IMPLICIT)
KNOWN_DOSES = sequence(DOSES, DOSE_ITEM, IMPLICIT)


DOSE_LINES = (
    line(DOSES, "SQ", "(Sequence with explicit length)", 18, 1, "DoseReferenceSequence")
    + line(0xFFFEE000, "na", "(Item with explicit length)", 10, 1, "Item", 1)
    + line(DOSE, "IS", "[1]", 2, 1, "DoseReferenceNumber", 2)
    + line(0xFFFEE00D, "na", "(ItemDelimitationItem for re-encoding)", 0, 0, "ItemDelimitationItem", 1)
    + line(0xFFFEE0DD, "na", "(SequenceDelimitationItem for re-encod.)", 0, 0, "SequenceDelimitationItem")
)


def unknown_doses(uid, vr_inside, number):
    """UN of undefined length with an item of undefined length, and its lines."""
    inside = open_item(leaf(DOSE, "", b"1 ", IMPLICIT), IMPLICIT) + head(0xFFFEE0DD, "", 0, IMPLICIT)
    return head(0x00091010, "UN", UNDEFINED, uid) + inside, (
        line(0x00091010, "UN", "(Sequence with undefined length)", "u/l", 1, UNKNOWN)
        + line(0xFFFEE000, "na", "(Item with undefined length)", "u/l", 1, "Item", 1)
        + line(DOSE, vr_inside, number, 2, 1, "DoseReferenceNumber" if vr_inside == "IS" else UNKNOWN, 2)
        + line(0xFFFEE00D, "na", "(ItemDelimitationItem)", 0, 0, "ItemDelimitationItem", 1)
        + line(0xFFFEE0DD, "na", "(SequenceDelimitationItem)", 0, 0, "SequenceDelimitationItem")
    )


PERIMETER = 0x00280071
SIGN = 0x00280103
LUTS = 0x00283010
LUT = 0x00283002
LUT_DATA = 0x00283006

ONE = leaf(SIGN, "", b"\1\0", IMPLICIT)
TWO = leaf(SIGN, "", b"\2\0", IMPLICIT)
ONE_LINE = line(SIGN, "US", "1", 2, 1, "PixelRepresentation")
TWO_LINE = line(SIGN, "US", "2", 2, 1, "PixelRepresentation")
LAST = leaf(SMALLEST, "", b"\xff\xff", IMPLICIT)
LUT_ITEM = item(leaf(LUT, "", b"\xff\xff", IMPLICIT), IMPLICIT)


def last_line(vr):
    return line(SMALLEST, vr, {"US": "65535", "SS": "-1"}[vr], 2, 1, "SmallestImagePixelValue")


def signed_item(before, vr):
    """A sequence of an item with what comes before an element between two VRs, and the conversion of it to explicit."""
    inside = item(before + leaf(LUT, "", b"\xff\xff", IMPLICIT), IMPLICIT)
    converted = leaf(SIGN, "US", before[-2:]) if before else b""
    return sequence(LUTS, inside, IMPLICIT), open_sequence(LUTS, open_item(converted + leaf(LUT, vr, b"\xff\xff")))


SIGNED_ITEMS = [signed_item(b"", "SS"), signed_item(TWO, "US"), signed_item(b"", "SS")]

UNKNOWN_DOSES = leaf(DOSES, "UN", DOSE_ITEM)
OPEN_DOSES = open_sequence(DOSES, open_item(leaf(DOSE, "IS", b"1 ")))

DICTIONARIES = [
    dumps("a keyword that the extract lacks", LITTLE, leaf(TUBE, "IS", b"90"), line(TUBE, "IS", "[90]", 2, 1, UNKNOWN)),
    dumps("+dict: the keyword", LITTLE, leaf(TUBE, "IS", b"90"), line(TUBE, "IS", "[90]", 2, 1, "XRayTubeCurrent"), "dcmdump FILE +dict"),
    dumps("of +dict and -dict the last one wins", LITTLE, leaf(TUBE, "IS", b"90"), line(TUBE, "IS", "[90]", 2, 1, UNKNOWN), "dcmdump +dict FILE -dict"),
    Case(
        "+dict: keywords of the meta group",
        "dcmdump +dict FILE",
        after_prefix(group(leaf(0x00020010, "UI", padded(LITTLE)), leaf(0x00020017, "AE", b"A ")) + AB),
        FILE_HEADER
        + line(0x00020000, "UL", "38", 4, 1, "FileMetaInformationGroupLength")
        + line(0x00020010, "UI", "=LittleEndianExplicit", 20, 1, "TransferSyntaxUID")
        + line(0x00020017, "AE", "[A]", 2, 1, "SendingApplicationEntityTitle")
        + "\n" + set_header("LittleEndianExplicit") + NAME_LINE,
    ),
    dumps("implicit: what the extract lacks is UN", IMPLICIT, KNOWN_DOSES, line(DOSES, "UN", DOSE_ITEM.hex("\\"), 18, 1, UNKNOWN)),
    dumps("implicit, with +dict: a sequence", IMPLICIT, KNOWN_DOSES, DOSE_LINES, "dcmdump +dict FILE"),
    Case("a data set alone, with +dict", "dcmdump -f -ti +dict FILE", KNOWN_DOSES, set_header("LittleEndianImplicit") + DOSE_LINES),
    dumps("UN of undefined length in big endian, without +dict", BIG, *unknown_doses(BIG, "UN", "31\\20")),
    dumps("UN of undefined length in big endian, with +dict", BIG, *unknown_doses(BIG, "IS", "[1]"), "dcmdump +dict FILE"),
    dumps("without +dict elements between two VRs are UN", IMPLICIT, LAST, line(SMALLEST, "UN", "ff\\ff", 2, 1, UNKNOWN)),
    dumps("+dict: US or SS where no sign came", IMPLICIT, LAST, last_line("US"), "dcmdump +dict FILE"),
    dumps("+dict: US or SS where pixels are signed, and no more", IMPLICIT, ONE + LAST + TWO + LAST, ONE_LINE + last_line("SS") + TWO_LINE + last_line("US"), "dcmdump +dict FILE"),
    dumps(
        "+dict: other elements between two VRs, and those of repeating groups",
        IMPLICIT,
        b"".join(leaf(tag, "", b"\1\2", IMPLICIT) for tag in (PERIMETER, LUT_DATA, WAVEFORM, OVERLAY)),
        line(PERIMETER, "UN", "01\\02", 2, 1, "PerimeterValue")
        + line(LUT_DATA, "OW", "0201", 2, 1, "LUTData")
        + line(WAVEFORM, "OW", "0201", 2, 1, "WaveformData")
        + line(OVERLAY, "UN", "01\\02", 2, 1, UNKNOWN),
        "dcmdump +dict FILE",
    ),
    converts(
        "an item begins as what is around its sequence, and what it says ends with it",
        "dcmconv +dict +te FILE -",
        IMPLICIT,
        LITTLE,
        ONE + b"".join(given for given, _ in SIGNED_ITEMS),
        leaf(SIGN, "US", b"\1\0") + b"".join(converted for _, converted in SIGNED_ITEMS),
    ),
    Case(
        "no edit changes a VR",
        "dcmodify +dict -m PixelRepresentation=0 FILE -",
        file_of(LITTLE, leaf(SIGN, "US", b"\1\0") + leaf(LUTS, "UN", LUT_ITEM)),
        file_of(LITTLE, leaf(SIGN, "US", b"\0\0") + open_sequence(LUTS, open_item(leaf(LUT, "SS", b"\xff\xff")))),
    ),
    dumps("UN of known length, without +dict", LITTLE, UNKNOWN_DOSES, line(DOSES, "UN", DOSE_ITEM.hex("\\"), 18, 1, UNKNOWN)),
    dumps("UN of known length that is a sequence by +dict", LITTLE, UNKNOWN_DOSES, DOSE_LINES.replace(" SQ ", " UN "), "dcmdump +dict FILE"),
    dumps("any other is bytes", LITTLE, leaf(ID, "UN", b"12"), line(ID, "UN", "31\\32", 2, 1, "PatientID"), "dcmdump +dict FILE"),
    converts("it is written as a sequence", "dcmconv +dict FILE -", LITTLE, LITTLE, UNKNOWN_DOSES, OPEN_DOSES),
    converts("so it is in big endian", "dcmconv +dict +te FILE -", BIG, LITTLE, leaf(DOSES, "UN", DOSE_ITEM, BIG), OPEN_DOSES),
    fault(
        "UN of bytes that are no items, by +dict",
        "dcmdump +dict FILE",
        file_of(LITTLE, leaf(DOSES, "UN", b"no items")),
        "R9",
        AT_SET + 12,
        "tag not allowed here",
        shown(LITTLE, line(DOSES, "UN", "(Sequence with explicit length)", 8, 1, "DoseReferenceSequence")),
    ),
    dumps("the same with -dict", LITTLE, leaf(DOSES, "UN", b"no items"), line(DOSES, "UN", b"no items".hex("\\"), 8, 1, UNKNOWN), "dcmdump -dict FILE"),
    dumps("+dict: PixelData is OW", IMPLICIT, leaf(PIXELS, "", b"\1\2", IMPLICIT), line(PIXELS, "OW", "0201", 2, 1, "PixelData"), "dcmdump +dict FILE"),
    dumps(
        "+dict: private elements are as before",
        IMPLICIT,
        leaf(0x00091001, "", b"AB", IMPLICIT),
        line(0x00091001, "UN", "41\\42", 2, 1, UNKNOWN),
        "dcmdump +dict FILE",
    ),
    converts("a sequence that the extract lacks becomes UN", "dcmconv +te FILE -", IMPLICIT, LITTLE, KNOWN_DOSES, leaf(DOSES, "UN", DOSE_ITEM)),
    converts("with +dict it stays a sequence", "dcmconv +te +dict FILE -", IMPLICIT, LITTLE, KNOWN_DOSES, open_sequence(DOSES, open_item(leaf(DOSE, "IS", b"1 ")))),
    converts(
        "what is inside UN of undefined length gets its VR",
        "dcmconv +dict +te FILE -",
        BIG,
        LITTLE,
        unknown_doses(BIG, "IS", "[1]")[0],
        open_sequence(0x00091010, open_item(leaf(DOSE, "IS", b"1 "))),
    ),
    fault(
        "bytes that are no items, by +dict",
        "dcmdump +dict FILE",
        file_of(IMPLICIT, leaf(DOSES, "", b"ab", IMPLICIT)),
        "R10",
        AT_IMPLICIT + 8,
        "passes the end of its container",
        shown(IMPLICIT, line(DOSES, "SQ", "(Sequence with explicit length)", 2, 1, "DoseReferenceSequence")),
    ),
    dumps("the same without +dict", IMPLICIT, leaf(DOSES, "", b"ab", IMPLICIT), line(DOSES, "UN", "61\\62", 2, 1, UNKNOWN)),
    refused("an edit of what the extract lacks", "dcmodify -m XRayTubeCurrent=90 FILE out", "U2 in edit 1: unknown tag"),
    refused("an edit of what is between two VRs", "dcmodify +dict -m SmallestImagePixelValue=1 FILE out", "U2 in edit 1: unknown tag"),
    Case("+dict: an edit", "dcmodify +dict -m XRayTubeCurrent=9 FILE -", file_of(LITTLE, leaf(TUBE, "IS", b"90")), file_of(LITTLE, leaf(TUBE, "IS", b"9 "))),
    Case("+dict after the edit", "dcmodify -i '(0018,1151)=9' +dict FILE -", file_of(LITTLE, b""), file_of(LITTLE, leaf(TUBE, "IS", b"9 "))),
    Case(
        "+dict: an edit reaches into the sequence",
        "dcmodify -ea DoseReferenceNumber +dict FILE -",
        file_of(IMPLICIT, KNOWN_DOSES),
        file_of(IMPLICIT, open_sequence(DOSES, open_item(b"", IMPLICIT), IMPLICIT)),
    ),
    Case("+dict: CommandGroupLength is not written", "dcmodify +dict -i CommandGroupLength=5 FILE -", file_of(LITTLE, AB), file_of(LITTLE, AB)),
]

READING = [
    Case("any preamble", DUMP, file_of(LITTLE, AB, b"A" * 128), shown(LITTLE, NAME_LINE)),
    Case("the group ends with the input", DUMP, file_of(LITTLE, b""), shown(LITTLE, "")),
    Case(
        "the length of the group is shown and not used, its tags need not ascend, and bytes 00 and 20 after the UID do not count",
        DUMP,
        after_prefix(leaf(0x00020010, "UI", LITTLE + b"\0 ") + leaf(0x00020000, "UL", struct.pack("<I", 7)) + AB),
        FILE_HEADER
        + line(0x00020010, "UI", "[1.2.840.10008.1.2.1%00 ]", 21, 1, "TransferSyntaxUID")
        + line(0x00020000, "UL", "7", 4, 1, "FileMetaInformationGroupLength")
        + "\n" + set_header("LittleEndianExplicit") + NAME_LINE,
    ),
    of_unnamed_syntax("a private syntax is read as explicit little endian, and shown by its UID", "1.2.3.4", "1.2.3.4"),
    of_unnamed_syntax("a closing parenthesis of such a UID is escaped in the header", "1 (texts in UTF-8)", "1 (texts in UTF-8%29"),
    Case(
        "so its dump is built again",
        'dcmdump +L FILE | "$0" dump2dcm - -',
        file_of(b"1 (texts in UTF-8)", AB),
        file_of(b"1 (texts in UTF-8)", AB),
    ),
    dumps(
        "implicit: the VRs of the dictionary, UL, LO and UN",
        IMPLICIT,
        leaf(0x00080000, "UL", struct.pack("<I", 5), IMPLICIT)
        + leaf(0x00090010, "LO", b"AB", IMPLICIT)
        + leaf(0x00091001, "UN", b"AB", IMPLICIT)
        + leaf(ROWS, "US", b"\2\0", IMPLICIT)
        + leaf(PIXELS, "OW", b"\1\2", IMPLICIT),
        line(0x00080000, "UL", "5", 4, 1, "GenericGroupLength")
        + line(0x00090010, "LO", "[AB]", 2, 1, "PrivateCreator")
        + line(0x00091001, "UN", "41\\42", 2, 1, "Unknown Tag & Data")
        + line(ROWS, "US", "2", 2, 1, "Rows")
        + line(PIXELS, "OW", "0201", 2, 1, "PixelData"),
    ),
    dumps("two capitals that are no VR are read as UN", LITTLE, leaf(NAME, "ZZ", b"AB"), line(NAME, "UN", "41\\42", 2, 1, "PatientName")),
    fault("two bytes that are not capitals", DUMP, file_of(LITTLE, leaf(NAME, "pn", b"AB")), "R7", AT_SET, "unknown value representation", shown(LITTLE, "")),
    dumps("lengths may be odd, and tags go down or come twice", LITTLE, leaf(ID, "LO", b"A") + AB + AB, line(ID, "LO", "[A]", 1, 1, "PatientID") + NAME_LINE + NAME_LINE),
    dumps(
        "UN of undefined length is an implicit sequence, in big endian too",
        BIG,
        head(0x00091010, "UN", UNDEFINED, BIG) + open_item(leaf(NAME, "PN", b"AB", IMPLICIT), IMPLICIT) + head(0xFFFEE0DD, "", 0, IMPLICIT),
        line(0x00091010, "UN", "(Sequence with undefined length)", "u/l", 1, "Unknown Tag & Data")
        + line(0xFFFEE000, "na", "(Item with undefined length)", "u/l", 1, "Item", 1)
        + line(NAME, "PN", "[AB]", 2, 1, "PatientName", 2)
        + line(0xFFFEE00D, "na", "(ItemDelimitationItem)", 0, 0, "ItemDelimitationItem", 1)
        + line(0xFFFEE0DD, "na", "(SequenceDelimitationItem)", 0, 0, "SequenceDelimitationItem"),
    ),
    dumps("UN of known length is bytes", LITTLE, leaf(IMAGES, "UN", item(b"")), line(IMAGES, "UN", "fe\\ff\\00\\e0\\00\\00\\00\\00", 8, 1, "ReferencedImageSequence")),
    dumps(
        "the length of a delimiter is not used",
        LITTLE,
        head(IMAGES, "SQ", UNDEFINED) + head(0xFFFEE0DD, "", 99) + AB,
        line(IMAGES, "SQ", "(Sequence with undefined length)", "u/l", 1, "ReferencedImageSequence")
        + line(0xFFFEE0DD, "na", "(SequenceDelimitationItem)", 0, 0, "SequenceDelimitationItem")
        + NAME_LINE,
    ),
]

SHOWING = [
    dumps(
        "sequences, items, fragments and their ends",
        LITTLE,
        open_sequence(IMAGES, item(leaf(0x00080100, "SH", b"X "))) + open_sequence(PIXELS, item(b"") + item(b"\xff\xd8"), vr="OB"),
        line(IMAGES, "SQ", "(Sequence with undefined length)", "u/l", 1, "ReferencedImageSequence")
        + line(0xFFFEE000, "na", "(Item with explicit length)", 10, 1, "Item", 1)
        + line(0x00080100, "SH", "[X]", 2, 1, "CodeValue", 2)
        + line(0xFFFEE00D, "na", "(ItemDelimitationItem for re-encoding)", 0, 0, "ItemDelimitationItem", 1)
        + line(0xFFFEE0DD, "na", "(SequenceDelimitationItem)", 0, 0, "SequenceDelimitationItem")
        + line(PIXELS, "OB", "(PixelSequence)", "u/l", 1, "PixelData")
        + line(0xFFFEE000, "pi", "(no value available)", 0, 1, "Item", 1)
        + line(0xFFFEE000, "pi", "ff\\d8", 2, 1, "Item", 1)
        + line(0xFFFEE0DD, "na", "(SequenceDelimitationItem)", 0, 0, "SequenceDelimitationItem"),
    ),
    dumps(
        "known lengths",
        LITTLE,
        sequence(IMAGES, open_item(b"")),
        line(IMAGES, "SQ", "(Sequence with explicit length)", 16, 1, "ReferencedImageSequence")
        + line(0xFFFEE000, "na", "(Item with undefined length)", "u/l", 1, "Item", 1)
        + line(0xFFFEE00D, "na", "(ItemDelimitationItem)", 0, 0, "ItemDelimitationItem", 1)
        + line(0xFFFEE0DD, "na", "(SequenceDelimitationItem for re-encod.)", 0, 0, "SequenceDelimitationItem"),
    ),
    displays("a value of length 0", "LO", b"", "(no value available)", 0),
    displays("one pad byte is not shown", "LO", b"AB  ", "[AB ]", 1),
    displays("an odd length has no pad byte", "LO", b"AB ", "[AB ]", 1),
    displays("escapes", "LO", b"50%\n]\x7f\xe4", "[50%25%0A%5D%7F\udce4]", 1),
    displays("values of a text", "LO", b"a\\b\\c ", "[a\\b\\c]", 3),
    displays("LT has one value", "LT", b"a\\b ", "[a\\b]", 1),
    *characters(),
    *named(),
    displays("UI with a name", "UI", b"1.2.840.10008.5.1.4.1.1.2\0", "=CTImageStorage", 1),
    displays("UI without a name", "UI", b"1.2.3\0", "[1.2.3]", 1),
    displays("US", "US", struct.pack("<HH", 1, 65535), "1\\65535", 2),
    displays("SS", "SS", struct.pack("<h", -5), "-5", 1),
    displays("UL", "UL", struct.pack("<I", 4294967295), "4294967295", 1),
    displays("SL", "SL", struct.pack("<i", -2147483648), "-2147483648", 1),
    displays("UV", "UV", struct.pack("<Q", 18446744073709551615), "18446744073709551615", 1),
    displays("SV", "SV", struct.pack("<q", -1), "-1", 1),
    displays("AT", "AT", struct.pack("<HHHH", 0x0054, 0x0061, 0x7FE0, 0x0010), "(0054,0061)\\(7fe0,0010)", 2),
    displays("OB", "OB", b"\xff\xd8", "ff\\d8", 1),
    displays("OW", "OW", b"\1\2", "0201", 1),
    displays("OL", "OL", struct.pack("<I", 255), "000000ff", 1),
    displays("FL", "FL", struct.pack("<f", 1), "3f800000", 1),
    displays("FD", "FD", struct.pack("<d", 1), "3ff0000000000000", 1),
    displays("OD", "OD", struct.pack("<d", 1), "3ff0000000000000", 1),
    displays("what is left after the last whole unit is not shown", "US", b"\1\0\2", "1", 1),
    displays("a value without a whole unit has an empty display", "US", b"\1", "", 0),
    displays("big endian units are turned", "US", struct.pack(">H", 258), "258", 1, BIG),
    displays("the cut may fall into an escape", "LO", b"a" * 61 + b"\n" + b"a" * 4, "[" + "a" * 61 + "%...", 1, words=DUMP),
]

PADS = leaf(NAME, "PN", b"A") + leaf(IMAGES, "UI", b"1") + leaf(PIXELS, "OB", b"\1")
PADDED = leaf(NAME, "PN", b"A ") + leaf(IMAGES, "UI", b"1\0") + leaf(PIXELS, "OB", b"\1\0")

WRITING = [
    Case(
        "the meta group gets a new length, its other elements stay, and later syntaxes are dropped",
        "dcmconv +tb FILE -",
        after_prefix(
            leaf(0x00020001, "OB", b"\0\1")
            + leaf(0x00020010, "UI", LITTLE + b"\0")
            + leaf(0x00020010, "UI", b"1.2\0")
            + leaf(0x00020016, "AE", b"A")
            + leaf(0x00020000, "UL", struct.pack("<I", 7))
            + AB
        ),
        after_prefix(
            group(leaf(0x00020001, "OB", b"\0\1"), leaf(0x00020010, "UI", BIG + b"\0"), leaf(0x00020016, "AE", b"A "))
            + leaf(NAME, "PN", b"AB", BIG)
        ),
    ),
    converts(
        "lengths of sequences and items become undefined",
        CONVERT,
        LITTLE,
        LITTLE,
        sequence(IMAGES, item(AB)),
        open_sequence(IMAGES, open_item(AB)),
    ),
    converts("lengths of groups are dropped", CONVERT, LITTLE, LITTLE, leaf(0x00100000, "UL", b"\4\0\0\0") + AB, AB),
    converts("odd values get a pad byte", CONVERT, LITTLE, LITTLE, PADS, PADDED),
    converts("a converted file stays as it is", CONVERT, LITTLE, LITTLE, PADDED, PADDED),
    converts("an explicit VR stays", "dcmconv +tb FILE -", LITTLE, BIG, leaf(ROWS, "LO", b"AB"), leaf(ROWS, "LO", b"AB", BIG)),
    converts("an unknown VR becomes UN", CONVERT, LITTLE, LITTLE, leaf(NAME, "ZZ", b"AB"), leaf(NAME, "UN", b"AB")),
    converts("a tag that the dictionary lacks becomes UN", "dcmconv +te FILE -", IMPLICIT, LITTLE, leaf(0x00091001, "UN", b"AB", IMPLICIT), leaf(0x00091001, "UN", b"AB")),
    converts("an implicit target has no VRs", "dcmconv +ti FILE -", LITTLE, IMPLICIT, AB, leaf(NAME, "PN", b"AB", IMPLICIT)),
    converts(
        "UN of undefined length becomes SQ",
        "dcmconv +te FILE -",
        BIG,
        LITTLE,
        head(0x00091010, "UN", UNDEFINED, BIG) + item(leaf(ROWS, "US", b"\2\1", IMPLICIT), IMPLICIT) + head(0xFFFEE0DD, "", 0, IMPLICIT),
        open_sequence(0x00091010, open_item(leaf(ROWS, "US", b"\2\1"))),
    ),
    converts(
        "a value that is too long for its head becomes UN",
        "dcmconv +te FILE -",
        IMPLICIT,
        LITTLE,
        leaf(NAME, "PN", b"a" * 65535, IMPLICIT),
        leaf(NAME, "UN", b"a" * 65535 + b" "),
    ),
    converts("65,534 bytes are not too long", "dcmconv +te FILE -", IMPLICIT, LITTLE, leaf(NAME, "PN", b"a" * 65534, IMPLICIT), leaf(NAME, "PN", b"a" * 65534)),
    converts(
        "units are turned, but UN and what is left after the last unit stay",
        "dcmconv +tb FILE -",
        LITTLE,
        BIG,
        leaf(ROWS, "US", b"\1\2\3") + leaf(0x00281052, "AT", b"\1\2\3\4") + leaf(0x00291001, "UN", b"\1\2") + leaf(0x00291002, "FD", b"\1\2\3\4\5\6\7\x08"),
        leaf(ROWS, "US", b"\2\1\3\0", BIG)
        + leaf(0x00281052, "AT", b"\2\1\4\3", BIG)
        + leaf(0x00291001, "UN", b"\1\2", BIG)
        + leaf(0x00291002, "FD", b"\x08\7\6\5\4\3\2\1", BIG),
    ),
    converts(
        "fragments stay, but for a pad byte",
        CONVERT,
        JPEG,
        JPEG,
        open_sequence(PIXELS, item(b"\0\0\0\0") + item(b"\xff"), vr="OB"),
        open_sequence(PIXELS, item(b"\0\0\0\0") + item(b"\xff\0"), vr="OB"),
    ),
    converts("order and repeats stay", CONVERT, LITTLE, LITTLE, AB + AB + leaf(ROWS, "US", b"\1\0") + AB, AB + AB + leaf(ROWS, "US", b"\1\0") + AB),
    fault("a fragment list has no place in big endian", "dcmconv +tb FILE -", file_of(LITTLE, AB + open_sequence(PIXELS, b"", vr="OB")), "R13", AT_SET + 10, "fragments not allowed in the target syntax", file_of(BIG, leaf(NAME, "PN", b"AB", BIG))),
    fault("an encapsulated syntax cannot be changed", "dcmconv +te FILE -", file_of(JPEG, AB), "R14", len(file_of(JPEG, b"")), "encapsulated syntax cannot be changed"),
]

AT_LINE = len(SYNTAX_LINE)
BUILD = "dump2dcm FILE -"


def builds(claim, lines, data_set, words=BUILD):
    return Case(claim, words, SYNTAX_LINE + lines, file_of(LITTLE, data_set))


def bad_line(claim, lines, number, at, place, text, data_set=b"", words=BUILD):
    return in_group(claim, lines, number, at, place, text, file_of(LITTLE, data_set), words)


def in_group(claim, lines, number, at, place, text, output=b"", words=BUILD):
    return Case(claim, words, SYNTAX_LINE + lines, output, 2, f"{number} at byte {at}, line {place}: {text}")


NO_SYNTAX = "no usable transfer syntax"
BY_CHARACTERS = "a dump by characters"

BUILDING = [
    builds("the last line may lack its newline, and one carriage return is dropped", b"(0010,0010) PN [AB]\r", AB),
    builds("a line that is cut may build a wrong value", b"(0028,0010) US 51", leaf(ROWS, "US", b"\x33\0")),
    builds("comments and spaces are skipped", b"   \n# (0010,0010) PN [A]\n  (0010,0010)  PN  [AB]  # what\n\n", AB),
    builds("digits of either case", b"(7Fe0,0010) OB Ff\\d8\n", leaf(PIXELS, "OB", b"\xff\xd8")),
    builds("escapes, and a pad byte", b"(0010,0010) PN [a%5db%0A]\n", leaf(NAME, "PN", b"a]b\n")),
    builds("a UID by its name", b"(0008,0016) UI =CTImageStorage\n", leaf(0x00080016, "UI", b"1.2.840.10008.5.1.4.1.1.2\0")),
    builds("numbers", b"(0028,0010) SS -1\\32767\n", leaf(ROWS, "SS", struct.pack("<hh", -1, 32767))),
    builds("units of hexadecimal digits", b"(0028,0010) OW 0201\n(0028,0011) FD 3ff0000000000000\n", leaf(ROWS, "OW", b"\1\2") + leaf(0x00280011, "FD", struct.pack("<d", 1))),
    builds("the empty value", b"(0028,0010) US (no value available)\n", leaf(ROWS, "US", b"")),
    builds(
        "sequences and items",
        b"(0008,1140) SQ (Sequence with explicit length)\n(fffe,e000) na (Item with what)\n(0010,0010) PN [AB]\n"
        b"(fffe,e00d) na (ItemDelimitationItem\n(fffe,e0dd) na (SequenceDelimitationItem)\n",
        open_sequence(IMAGES, open_item(AB)),
    ),
    builds(
        "fragments",
        b"(7fe0,0010) OB (PixelSequence)\n(fffe,e000) pi (no value available)\n(fffe,e000) pi ff\n(fffe,e0dd) na (SequenceDelimitationItem)\n",
        open_sequence(PIXELS, item(b"") + item(b"\xff\0"), vr="OB"),
    ),
    in_group("B1 counts comments too, and before the meta group's end nothing is written", b"#" + b"a" * 80 + b"\n", "B1", AT_LINE, 2, "line too long", words="dump2dcm +l 80 FILE -"),
    builds("a line of 80 bytes is not too long", b"#" + b"a" * 79 + b"\n", b"", "dump2dcm +l 0080 FILE -"),
    in_group("B2", b"(0010,0010) PN [A]B]\n", "B2", AT_LINE, 2, "not a dump line"),
    bad_line("B3: a text without its brackets", b"(0010,0010) PN AB\n", "B3", AT_LINE, 2, "value does not fit"),
    bad_line("B3: a number out of range", b"(0028,0010) US 65536\n", "B3", AT_LINE, 2, "value does not fit"),
    bad_line("B3: a number with a fraction", b"(0028,0010) FD 1.0\n", "B3", AT_LINE, 2, "value does not fit"),
    bad_line("B3: a value that was cut", b"(0010,0010) PN [AB...\n", "B3", AT_LINE, 2, "value does not fit"),
    bad_line("B3: an unknown name", b"(0008,0016) UI =CT\n", "B3", AT_LINE, 2, "value does not fit"),
    bad_line("B3: a bad escape", b"(0010,0010) PN [A%4]\n", "B3", AT_LINE, 2, "value does not fit"),
    bad_line("B4: an item outside of a sequence", b"(fffe,e000) na (Item with\n", "B4", AT_LINE, 2, "not allowed here"),
    bad_line("B4: an end of what is not open", b"(0010,0010) PN [AB]\n(fffe,e0dd) na (SequenceDelimitationItem)\n", "B4", AT_LINE + 20, 3, "not allowed here", AB),
    bad_line("B5", b"(0010,0010) PN [AB]\n(0010,0010) PN [AB]\n", "B5", AT_LINE + 20, 3, "tags not ascending", AB),
    bad_line("B6: group 0002 after another group", b"(0010,0010) PN [AB]\n(0002,0016) AE [A]\n", "B6", AT_LINE + 20, 3, "bad meta group", AB),
    Case("B7: the group names no syntax", BUILD, b"(0002,0016) AE [A]\n(0010,0010) PN [AB]\n", b"", 2, f"B7 at byte 19, line 2: {NO_SYNTAX}"),
    Case("B7: a deflated syntax", BUILD, b"(0002,0010) UI =DeflatedLittleEndianExplicit\n", b"", 2, f"B7 at byte 45, line 2: {NO_SYNTAX}"),
    bad_line(
        "B8",
        b"(0008,1140) SQ (Sequence with\n(fffe,e000) na (Item with\n" * 64 + b"(0008,1140) SQ (Sequence with\n",
        "B8",
        AT_LINE + 64 * 56,
        130,
        "nested too deep",
        (head(IMAGES, "SQ", UNDEFINED) + head(0xFFFEE000, "", UNDEFINED)) * 64,
    ),
    in_group("B10: a dump of +u8", b"\n# Dicom-Data-Set (texts in UTF-8)\n", "B10", AT_LINE + 1, 3, BY_CHARACTERS),
    bad_line("B10: any comment, spaces and a carriage return behind it", b"(0010,0010) PN [AB]\n  #(texts in UTF-8)  \r\n", "B10", AT_LINE + 20, 3, BY_CHARACTERS, AB),
    in_group("B1 comes before B10", b"#" + b" " * 64 + b"(texts in UTF-8)\n", "B1", AT_LINE, 2, "line too long", words="dump2dcm +l 80 FILE -"),
    builds("other comments may hold what B10 is told of", b"# (texts in UTF-8) x\n(0010,0010) PN [AB] # (texts in UTF-8)\n", AB),
    bad_line("B9", b"(0008,1140) SQ (Sequence with\n", "B9", AT_LINE + 30, 3, "input ends too early", head(IMAGES, "SQ", UNDEFINED)),
]


def edits(claim, words, data_set, edited, uid=LITTLE):
    return Case(claim, f"dcmodify {words} FILE -", file_of(uid, data_set), file_of(uid, edited))


def lost(claim, words, data_set, edited, *numbers):
    told = "\n".join(f"edit {number} found no place" for number in numbers)
    return Case(claim, f"dcmodify {words} FILE -", file_of(LITTLE, data_set), file_of(LITTLE, edited), 3, told)


def bad_edit(claim, words, text):
    return refused(claim, f"dcmodify {words} FILE out", text)


def instance(text):
    return leaf(INSTANCE, "UI", text)


TWO_ITEMS = open_sequence(IMAGES, open_item(instance(b"1\0")) + open_item(instance(b"2\0")))
PRIVATE = leaf(0x00110010, "LO", b"AB") + leaf(0x00111001, "UN", b"AB")

EDITING = [
    edits("-i replaces", "-i PatientName=CD", AB, leaf(NAME, "PN", b"CD")),
    edits("-i puts what is missing, by tag order", "-i PatientName=AB", leaf(0x00080060, "CS", b"OT") + leaf(ROWS, "US", b"\1\0"), leaf(0x00080060, "CS", b"OT") + AB + leaf(ROWS, "US", b"\1\0")),
    edits("digits of either case, an odd value and its pad byte", "-m '(7fE0,0010)=0201' -m PatientName=A", AB + leaf(PIXELS, "OB", b"\1\0"), leaf(NAME, "PN", b"A ") + leaf(PIXELS, "OW", b"\1\2")),
    edits("the value is all that follows the first =", "-m PatientName==A", AB, leaf(NAME, "PN", b"=A")),
    edits("without = it is empty", "-m PatientName", AB, leaf(NAME, "PN", b"")),
    edits("numbers", "-m Rows=258", leaf(ROWS, "LO", b"AB"), leaf(ROWS, "US", b"\2\1")),
    edits("the value is turned in a big endian file", "-m Rows=258", leaf(ROWS, "US", b"\0\1", BIG), leaf(ROWS, "US", b"\1\2", BIG), BIG),
    edits("-e erases an element", "-e PatientName", AB + leaf(ROWS, "US", b"\1\0"), leaf(ROWS, "US", b"\1\0")),
    edits("-e erases an item", "-e 'ReferencedImageSequence[0]'", TWO_ITEMS, open_sequence(IMAGES, open_item(instance(b"2\0")))),
    edits("a step leads into one item", "-m 'ReferencedImageSequence[1].ReferencedSOPInstanceUID=34'", TWO_ITEMS, open_sequence(IMAGES, open_item(instance(b"1\0")) + open_item(instance(b"34")))),
    edits("* leads into every item", "-e 'ReferencedImageSequence[*].ReferencedSOPInstanceUID'", TWO_ITEMS, open_sequence(IMAGES, open_item(b"") * 2)),
    edits("-ma at all depths", "-ma ReferencedSOPInstanceUID=34", TWO_ITEMS + AB, open_sequence(IMAGES, open_item(instance(b"34")) * 2) + AB),
    edits("-ea at all depths", "-ea ReferencedSOPInstanceUID", TWO_ITEMS + AB, open_sequence(IMAGES, open_item(b"") * 2) + AB),
    edits("-ep at all depths", "-ep", open_sequence(IMAGES, open_item(instance(b"1\0") + PRIVATE)) + PRIVATE, open_sequence(IMAGES, open_item(instance(b"1\0")))),
    edits(
        "-i makes missing sequences, one for several edits",
        "-i 'ReferencedImageSequence[0].ReferencedSOPInstanceUID=12' -i 'ReferencedImageSequence[0].PatientName=AB'",
        leaf(ROWS, "US", b"\1\0"),
        open_sequence(IMAGES, open_item(instance(b"12") + AB)) + leaf(ROWS, "US", b"\1\0"),
    ),
    lost("-i into an item that is missing", "-i 'ReferencedImageSequence[2].PatientName=AB'", TWO_ITEMS, TWO_ITEMS, 1),
    lost("-m of what is missing, beside another edit", "-m PatientID=7 -e PatientName -e Rows", AB, b"", 1, 3),
    lost("a sequence without items is not missing", "-i 'ReferencedImageSequence[0].PatientName=AB'", open_sequence(IMAGES, b""), open_sequence(IMAGES, b""), 1),
    lost("UN of known length is opaque", "-ea ReferencedSOPInstanceUID", leaf(IMAGES, "UN", item(instance(b"1\0"))), leaf(IMAGES, "UN", item(instance(b"1\0"))), 1),
    edits("an edit is judged by the input: what is erased is found", "-e 'ReferencedImageSequence[0]' -ma ReferencedSOPInstanceUID=34", open_sequence(IMAGES, open_item(instance(b"1\0"))), open_sequence(IMAGES, b"")),
    fault("tags have to ascend, in what is erased too", "dcmodify -e ReferencedImageSequence FILE -", file_of(LITTLE, open_sequence(IMAGES, open_item(AB + AB))), "R12", AT_SET + 30, "tags not ascending", file_of(LITTLE, b"")),
    bad_edit("U1: an index at the end of -m", "-m 'ReferencedImageSequence[0]=1'", "U1 in edit 1: bad option or path"),
    bad_edit("U1: an index in -ea", "-ea 'ReferencedImageSequence[0]'", "U1 in edit 1: bad option or path"),
    bad_edit("U1: an index of ten digits", "-e 'ReferencedImageSequence[0000000001]'", "U1 in edit 1: bad option or path"),
    bad_edit("U1: 65 indexes", "-e " + ".".join(["'ContentSequence[0]'"] * 65), "U1 in edit 1: bad option or path"),
    bad_edit("U3: a value that is too long", "-m PatientComments=" + "a" * 65537, "U3 in edit 1: value does not fit"),
    bad_edit("U6: a beginning of a path", "-e ContentSequence -e 'ContentSequence[0].CodeMeaning'", "U6 in edit 2: edits overlap"),
    bad_edit("U6: * and a number", "-e 'ContentSequence[*].CodeMeaning' -e 'ContentSequence[0].CodeMeaning'", "U6 in edit 2: edits overlap"),
    bad_edit("U6: two erased items", "-e 'ContentSequence[0]' -e 'ContentSequence[1]'", "U6 in edit 2: edits overlap"),
    bad_edit("U6: -ma and a path", "-ma PatientID=7 -e 'ContentSequence[0].PatientID'", "U6 in edit 2: edits overlap"),
    bad_edit("U2 of a tag is before U4", "-e 'PatientID[0].Nothing'", "U2 in edit 1: unknown tag"),
    bad_edit("U6 is reported last", "-e PatientID -e PatientID -x", "U1 in edit 3: bad option or path"),
    lost("-ep where nothing is private", "-ep", AB, AB, 1),
]

HIDDEN = leaf(NAME, "", b"AB", IMPLICIT) + sequence(DOSES, item(leaf(NAME, "", b"Hidden", IMPLICIT), IMPLICIT), IMPLICIT)


def names_left(claim, words, count, status=0):
    """How many names a dump with the whole dictionary shows in the end."""
    return Case(claim, f"{words} | \"$0\" dcmdump +dict - | grep -c PatientName", file_of(IMPLICIT, HIDDEN), f"{count}\n", int(count == 0))


PRIVACY = [
    names_left("without +dict an edit leaves a name in a sequence", "dcmodify -ea PatientName FILE -", 1),
    names_left("with +dict it does not", "dcmodify +dict -ea PatientName FILE -", 0),
    names_left("the name is in a conversion with +dict", "dcmconv +dict +te FILE -", 2),
    names_left("after a conversion with +dict it is erased", 'dcmconv +dict +te FILE - | "$0" dcmodify -ea PatientName - -', 0),
    Case(
        "a conversion without +dict makes it opaque, and an edit without +dict leaves it",
        'dcmconv +te FILE - | "$0" dcmodify -ea PatientName - - | grep -a -c Hidden',
        file_of(IMPLICIT, HIDDEN),
        "1\n",
    ),
    names_left("an edit with +dict reaches into it again", 'dcmconv +te FILE - | "$0" dcmodify +dict -ea PatientName - -', 0),
    converts(
        "offsets in a DICOMDIR are copied, and what they point to moves",
        CONVERT,
        LITTLE,
        LITTLE,
        leaf(0x00041200, "UL", struct.pack("<I", AT_SET + 42)) + sequence(0x00041220, item(AB) + item(AB)),
        leaf(0x00041200, "UL", struct.pack("<I", AT_SET + 42)) + open_sequence(0x00041220, open_item(AB) + open_item(AB)),
    ),
]

# ---- dcmdeid

INSTANCE_OF_FILE = 0x00080018
STATION = 0x00081010
INSTITUTION = 0x00080080
STUDY_DATE = 0x00080020
DATE_TIME = 0x0008002A
PATIENT = 0x00100020
AGE = 0x00101010
BURNED_IN = 0x00280301

PROFILE = (b"113100", b"Basic Application Confidentiality Profile")
RETAINED = {
    "+ru": (b"113110", b"Retain UIDs Option"),
    "+rd": (b"113109", b"Retain Device Identity Option"),
    "+ri": (b"113112", b"Retain Institution Identity Option"),
    "+rp": (b"113108", b"Retain Patient Characteristics Option"),
    "+rl": (b"113106", b"Retain Longitudinal Temporal Information Full Dates Option"),
    "+rm": (b"113107", b"Retain Longitudinal Temporal Information Modified Dates Option"),
}
DATES = 0x00280303


def even(text):
    return text + b" " * (len(text) % 2)


def code(number, meaning):
    return open_item(leaf(0x00080100, "SH", number) + leaf(0x00080102, "SH", b"DCM ") + leaf(0x00080104, "LO", even(meaning)))


def said(options):
    """What says what was done, in group 0012."""
    codes = [PROFILE, *sorted(RETAINED[word] for word in options.split() if word in RETAINED)]
    return leaf(0x00120062, "CS", b"YES ") + leaf(0x00120063, "LO", b"dcmtools dcmdeid, PS3.15 2021b") + open_sequence(
        0x00120064, b"".join(code(*each) for each in codes))


def named_by_dcmdeid(data_set):
    """A file whose head is that of dcmdeid."""
    return after_prefix(group(leaf(0x00020010, "UI", padded(LITTLE)), OWN) + data_set)


def without_identity(options, before=b"", after=b"", dates=b"REMOVED "):
    """A file of which this is left below group 0012 and above (0028,0303)."""
    return named_by_dcmdeid(before + said(options) + leaf(DATES, "CS", dates) + after)


def taken(claim, data_set, before=b"", after=b"", options="", dates=b"REMOVED ", before_run=":", after_run=":", marks=None):
    """`marks` are the options that the output names, where they are not all of `options`."""
    output = without_identity(options if marks is None else marks, before, after, dates)
    return Case(claim, f"dcmdeid {options} FILE -", file_of(LITTLE, data_set), output, before=before_run, after=after_run)


def moved(claim, tag, vr, old, new, days):
    return taken(f"+rm: {claim}", leaf(tag, vr, old), leaf(tag, vr, new), options=f"+rm {days}", dates=b"MODIFIED")


def vanished(claim, tag, vr, old, days):
    return moved(claim, tag, vr, old, b"", days)._replace(line="1 dates are emptied")


def new_uid(key, uid):
    number = bytearray(hmac.new(key, uid, hashlib.sha256).digest()[:16])
    number[6] = number[6] & 0x0F | 0x80
    number[8] = number[8] & 0x3F | 0x80
    return padded(b"2.25.%d" % int.from_bytes(number, "big"))


def pseudonym(key, patient):
    return b"P" + hmac.new(key, b"PatientID\\" + patient, hashlib.sha256).hexdigest()[:20].encode() + b" "


KEY = bytes(range(65, 97))
MAKES_KEY = f"printf %s '{KEY.decode().replace(chr(39), '')}' > key"
MADE_KEY = KEY.replace(b"'", b"")
UID = leaf(INSTANCE_OF_FILE, "UI", b"1.2.3\0")
SHOWS_IDENTITY = leaf(BURNED_IN, "CS", b"YES ")

PART_IS_THERE = "output part is there: another run is at work, or was cut off"

IDENTITY = [
    taken("names are emptied", AB, leaf(NAME, "PN", b"")),
    taken("a row with X is removed", leaf(COMMENTS, "LT", b"AB") + leaf(0x7FE10010, "LO", b"AB")),
    taken("a value is replaced", leaf(STATION, "SH", b"AB"), leaf(STATION, "SH", b"ANONYMIZED")),
    taken("what the table does not name is kept", leaf(0x00080060, "CS", b"CT") + leaf(PIXELS, "OW", b"\1\2"), leaf(0x00080060, "CS", b"CT"), leaf(PIXELS, "OW", b"\1\2")),
    taken("private elements, overlays and elements numbered 0000 are removed", leaf(0x00080000, "UL", bytes(4)) + PRIVATE + leaf(0x60000010, "US", b"\1\0")),
    taken("each item by the table again", open_sequence(IMAGES, open_item(leaf(INSTANCE, "UI", b"1.2\0") + AB)), open_sequence(IMAGES, open_item(leaf(INSTANCE, "UI", new_uid(b"", b"1.2")) + leaf(NAME, "PN", b"")))),
    taken("a value whose tag is a sequence is gone", leaf(IMAGES, "OB", b"AB")),
    taken("a UN of known length that is a sequence is looked into", leaf(IMAGES, "UN", item(leaf(NAME, "", b"AB", IMPLICIT))), open_sequence(IMAGES, open_item(leaf(NAME, "PN", b"")))),
    taken("a new identifier under the empty key", UID, leaf(INSTANCE_OF_FILE, "UI", new_uid(b"", b"1.2.3"))),
    taken("and under a key", UID, leaf(INSTANCE_OF_FILE, "UI", new_uid(MADE_KEY, b"1.2.3")), options="+k key", before_run=MAKES_KEY, after_run="rm key"),
    taken("an identifier of the standard's own stays", leaf(INSTANCE_OF_FILE, "UI", b"1.2.840.10008.1\0"), leaf(INSTANCE_OF_FILE, "UI", b"1.2.840.10008.1\0")),
    taken("several identifiers become empty", leaf(INSTANCE_OF_FILE, "UI", b"1.2\\3.4\0"), leaf(INSTANCE_OF_FILE, "UI", b"")),
    taken("+ru", UID, UID, options="+ru"),
    taken("+rd", leaf(STATION, "SH", b"AB"), leaf(STATION, "SH", b"AB"), options="+rd"),
    taken("+ri", leaf(INSTITUTION, "LO", b"AB"), leaf(INSTITUTION, "LO", b"AB"), options="+ri"),
    taken("+rp", leaf(AGE, "AS", b"030Y"), leaf(AGE, "AS", b"030Y"), options="+rp"),
    taken("+rl, and what says so where it is missing", leaf(STUDY_DATE, "DA", b"20200102"), leaf(STUDY_DATE, "DA", b"20200102"), options="+rl", dates=b"UNMODIFIED"),
    taken("+rl leaves what says so as it is", leaf(DATES, "CS", b"MODIFIED"), options="+rl", dates=b"MODIFIED"),
    taken("without +rl it is put anew", leaf(DATES, "CS", b"MODIFIED")),
    moved("days later", STUDY_DATE, "DA", b"19000228", b"19000301", "+1"),
    moved("and into the past", STUDY_DATE, "DA", b"20000301", b"20000229", "-1"),
    moved("several dates, one empty", STUDY_DATE, "DA", b"20231231\\\\20240228", b"20240101\\\\20240229", "1"),
    vanished("a date that there is not", STUDY_DATE, "DA", b"20230229", "1"),
    vanished("a date past the calendar's end", STUDY_DATE, "DA", b"99991231", "1"),
    vanished("a range", STUDY_DATE, "DA", b"20240101-20240131 ", "1"),
    moved("of a date with a time the time stays", DATE_TIME, "DT", b"20231231235960.5+0100 ", b"20240101235960.5+0100 ", "1"),
    vanished("a date with a time that there is not", DATE_TIME, "DT", b"2023123124", "1"),
    moved("what is read as UN is a date by its tag", STUDY_DATE, "UN", b"20240101", b"20240102", "1"),
    moved("a time stays", 0x00080030, "TM", b"1200", b"1200", "1"),
    moved("256 bytes are moved", STUDY_DATE, "DA", b"\\" * 248 + b"20240101", b"\\" * 248 + b"20240102", "1"),
    vanished("257 are not", STUDY_DATE, "DA", b"\\" * 249 + b"20240101 ", "1"),
    moved("padding alone is not told", STUDY_DATE, "DA", b" \0", b"", "1"),
    moved("a birth date is none of these", 0x00100030, "DA", b"20240101", b"", "1"),
    taken("with +rm what says so is put anew", leaf(DATES, "CS", b"REMOVED "), options="+rm 1", dates=b"MODIFIED"),
    taken("the last of +rl and +rm counts", leaf(STUDY_DATE, "DA", b"20200102"), leaf(STUDY_DATE, "DA", b"20200103"), options="+rl +rm 9 +rm 1", marks="+rm", dates=b"MODIFIED"),
    taken("+pi", leaf(PATIENT, "LO", b" 1234 "), leaf(PATIENT, "LO", pseudonym(MADE_KEY, b"1234")), options="+pi +k key", before_run=MAKES_KEY, after_run="rm key"),
    taken("several options", leaf(STATION, "SH", b"AB"), leaf(STATION, "SH", b"AB"), options="+rl +rd +ru", dates=b"UNMODIFIED"),
    Case(
        "the head: no preamble, and of the meta group what stays",
        "dcmdeid FILE -",
        b"P" * 128 + b"DICM" + group(leaf(0x00020003, "UI", b"1.2.3\0"), leaf(0x00020010, "UI", padded(LITTLE)), leaf(0x00020016, "AE", b"AB")),
        after_prefix(group(leaf(0x00020003, "UI", new_uid(b"", b"1.2.3")), leaf(0x00020010, "UI", padded(LITTLE)), OWN) + said("") + leaf(DATES, "CS", b"REMOVED ")),
    ),
    fault("tags have to ascend, in what is removed too", "dcmdeid FILE -", file_of(LITTLE, AB + AB), "R12", AT_SET + 10, "tags not ascending", named_by_dcmdeid(leaf(NAME, "PN", b""))),
    fault("a DICOMDIR", "dcmdeid FILE -", file_of(LITTLE, open_sequence(0x00041220, b"")), "R16", AT_SET, "identity cannot be taken out", named_by_dcmdeid(b"")),
    fault("an encapsulated document", "dcmdeid FILE -", file_of(LITTLE, leaf(0x00420011, "OB", b"AB")), "R16", AT_SET, "identity cannot be taken out", named_by_dcmdeid(b"")),
    Case("pixels may show identity", "dcmdeid FILE -", file_of(LITTLE, SHOWS_IDENTITY), named_by_dcmdeid(said("") + SHOWS_IDENTITY + leaf(DATES, "CS", b"REMOVED ")), 3, "pixels may show identity"),
    Case("with +bi this is not said", "dcmdeid +bi FILE -", file_of(LITTLE, SHOWS_IDENTITY), named_by_dcmdeid(said("") + SHOWS_IDENTITY + leaf(DATES, "CS", b"REMOVED "))),
    Case("OUTPUT has its name at status 0", "dcmdeid FILE OUTPUT", file_of(LITTLE, AB), without_identity("", leaf(NAME, "PN", b"")), after="cat OUTPUT; rm OUTPUT"),
    Case("at status 3 none is left", "dcmdeid FILE OUTPUT", file_of(LITTLE, SHOWS_IDENTITY), b"", 3, "pixels may show identity"),
    Case("at a fault OUTPUT is as it was", "dcmdeid +ow FILE OUTPUT", file_of(LITTLE, AB + AB), "older\n", 2, f"R12 at byte {AT_SET + 10}: tags not ascending", before="echo older > OUTPUT", after="cat OUTPUT; rm OUTPUT"),
    Case("OUTPUT.part is there already", "dcmdeid FILE OUTPUT", file_of(LITTLE, AB), "older\n", 4, PART_IS_THERE, before="echo older > OUTPUT.part", after="cat OUTPUT.part; rm OUTPUT.part"),
    Case("a part that leads nowhere", "dcmdeid FILE OUTPUT", file_of(LITTLE, AB), b"", 4, PART_IS_THERE, before="ln -s new OUTPUT.part", after="rm OUTPUT.part"),
    Case("OUTPUT is looked at first", "dcmdeid FILE OUTPUT", file_of(LITTLE, AB), b"", 4, "output cannot be opened", before="mkdir OUTPUT; echo older > OUTPUT.part", after="rm OUTPUT.part; rmdir OUTPUT"),
    Case("a signal leaves OUTPUT.part", "dcmdeid - OUTPUT < <(cat FILE; exec sleep 20) & sleep 1; kill $!; wait $!; (exit $?)", file_of(LITTLE, AB), "OUTPUT.part\n", 143, before="exec 2> /dev/null", after="ls OUTPUT*; rm OUTPUT.part"),
    Case("a new file has the mode of the umask", "dcmdeid FILE OUTPUT", file_of(LITTLE, AB), "644\n", before="umask 022; chmod 600 FILE", after="stat -c %a OUTPUT; rm OUTPUT"),
    Case("it gets the mode of an older OUTPUT", "dcmdeid +ow FILE OUTPUT", file_of(LITTLE, AB), "600\n", before="umask 022; echo older > OUTPUT; chmod 600 OUTPUT", after="stat -c %a OUTPUT; rm OUTPUT"),
    Case("an OUTPUT that nobody may write is replaced", "dcmdeid +ow FILE OUTPUT", file_of(LITTLE, AB), b"444\n" + without_identity("", leaf(NAME, "PN", b"")), before="umask 022; echo older > OUTPUT; chmod 444 OUTPUT", after="stat -c %a OUTPUT; cat OUTPUT; rm -f OUTPUT"),
    Case("of a mode the bits 777 alone", "dcmdeid +ow FILE OUTPUT", file_of(LITTLE, AB), "755\n", before="umask 022; echo older > OUTPUT; chmod 4755 OUTPUT", after="stat -c %a OUTPUT; rm OUTPUT"),
    Case("at a fault its mode is as it was", "dcmdeid +ow FILE OUTPUT", file_of(LITTLE, AB + AB), "600\n", 2, f"R12 at byte {AT_SET + 10}: tags not ascending", before="umask 022; echo older > OUTPUT; chmod 600 OUTPUT", after="stat -c %a OUTPUT; rm OUTPUT"),
    Case("OUTPUT is no regular file", "dcmdeid FILE OUTPUT", file_of(LITTLE, AB), b"", 4, "output cannot be opened", before="mkdir OUTPUT", after="rmdir OUTPUT"),
    Case("OUTPUT is KEY under another name", "dcmdeid +k key FILE OUTPUT", file_of(LITTLE, AB), MADE_KEY, 4, "output cannot be opened", before=f"{MAKES_KEY}; ln key OUTPUT", after="cat key; rm key OUTPUT"),
    Case("a link at OUTPUT is replaced", "dcmdeid +ow FILE OUTPUT", file_of(LITTLE, AB), "older\n", before="echo older > other; ln -s other OUTPUT", after="cat other; rm other; [ -L OUTPUT ] || rm OUTPUT"),
    refused("V3: no key after +k", "dcmdeid FILE out +k", "V3 at word 4: bad option value"),
    refused("V3: a key from standard input", "dcmdeid +k - FILE out", "V3 at word 2: bad option value"),
    refused("V3: no days after +rm", "dcmdeid FILE out +rm", "V3 at word 4: bad option value"),
    refused("V3: no days at all", "dcmdeid +rm 0 FILE out", "V3 at word 2: bad option value"),
    refused("V3: too many days", "dcmdeid +rm -36525 FILE out", "V3 at word 2: bad option value"),
    refused("V3 is before V10", "dcmdeid +pi +rm x FILE out", "V3 at word 3: bad option value"),
    refused("V6 is before V10", "dcmdeid +pi out out", "V6: input and output are the same path"),
    refused("V10", "dcmdeid +pi FILE out", "V10: a key is needed"),
    refused("V10 is before V11", "dcmdeid +rm key - out", "V10: a key is needed"),
    refused("V11 is before KEY is opened", "dcmdeid +rm key +k none - out", "V11: standard input cannot be read twice"),
    Case("+rm key of a pipe", "dcmdeid +rm key +k key <(cat FILE) out", file_of(LITTLE, AB), b"", 4, "input is no regular file", before=MAKES_KEY, after="rm key"),
    Case("R17: no PatientID", "dcmdeid +rm key +k key FILE out", file_of(LITTLE, AB), b"", 2, f"R17 at byte {AT_SET + 10}: no usable PatientID", before=MAKES_KEY, after="rm key"),
    Case("R17: a greater tag", "dcmdeid +rm key +k key FILE out", file_of(LITTLE, AB + leaf(0x00100030, "DA", b"")), b"", 2, f"R17 at byte {AT_SET + 10}: no usable PatientID", before=MAKES_KEY, after="rm key"),
    Case("R17: OUTPUT is not looked at", "dcmdeid +rm key +k key FILE OUTPUT", file_of(LITTLE, AB), b"", 2, f"R17 at byte {AT_SET + 10}: no usable PatientID", before=f"{MAKES_KEY}; mkdir OUTPUT", after="rm key; rmdir OUTPUT"),
    refused("V6: OUTPUT is KEY", "dcmdeid +k out FILE out", "V6: input and output are the same path"),
    Case("V7", "dcmdeid +k key FILE out", file_of(LITTLE, AB), b"", 1, "V7: key is not 16 to 4096 bytes", before="printf 123456789012345 > key", after="rm key"),
    Case("a key that is not there", "dcmdeid +k key FILE out", file_of(LITTLE, AB), b"", 4, "key cannot be opened"),
]


# ---- dcm2csv

RATE = 0x00189074  # FD
OFFSET = 0x00281052


def table(claim, words, data_set, *rows, uid=LITTLE, **more):
    """A table of FILE by these words, without header."""
    return Case(claim, f"dcm2csv +nh {words}", file_of(uid, data_set), "".join(f"{row}\n" for row in rows), **more)


def cell(claim, tag, vr, value, shown, words="", uid=LITTLE):
    return table(claim, f"{words} -k '({tag >> 16:04x},{tag & 0xFFFF:04x})' FILE", leaf(tag, vr, value, uid), f'"FILE",{shown}', uid=uid)


def no_table(claim, words, text):
    return Case(claim, f"dcm2csv {words}", file_of(LITTLE, AB), b"", 1, text)


NAMED = '"FILE","AB"'
COMMENT = "PatientComments"
CHARACTER_SET = 0x00080005
LONG = leaf(COMMENTS, "UT", b"a" * 16385)
TOO_LONG = "FILE: value of (0010,4000) is longer than 16384 bytes"
UNOPENED = "input cannot be opened"

TABLES = [
    Case("a header, and a row", "dcm2csv -k PatientName -k PatientID FILE", file_of(LITTLE, AB), f'"File","PatientName","PatientID"\n{NAMED},\n'),
    Case("a number of the dictionary has its keyword, another is as it was given", "dcm2csv -k '(0010,0010)' -k '(7FE1,0001)' FILE", file_of(LITTLE, AB), f'"File","PatientName","(7FE1,0001)"\n{NAMED},\n'),
    table("the columns in their order, also twice the same", "-k PatientID -k PatientName -k PatientID FILE", AB + leaf(ID, "LO", b"7 "), '"FILE","7","AB","7"'),
    table("a row for each file, with its name as it was given", "-k PatientName FILE ./FILE FILE", AB, NAMED, '"./FILE","AB"', NAMED),
    table("standard input", "-k PatientName - < FILE", AB, '"-","AB"'),
    table("a list: a name on each line, an empty one is none, the last may lack its newline", "-k PatientName @list FILE", AB, '"./FILE","AB"', NAMED, NAMED, before="printf './FILE\\n\\nFILE' > list", after="rm list"),
    table("a list in standard input", "-k PatientName @- <<< FILE", AB, NAMED),
    table("a line is a name as it is", "-k PatientName @list", AB, '"-","AB"', '"@x","AB"', '"a\r","AB"', before="cp FILE ./-; cp FILE @x; cp FILE $'a\\r'; printf '%s\\n' - @x $'a\\r' > list", after="rm ./- @x $'a\\r' list"),
    table("a list of no names", "-k PatientName @/dev/null", AB),
    table("a name with a quote and a newline", "-k PatientName $'a\\n\"b'", AB, '"a\n""b","AB"', before="cp FILE $'a\\n\"b'", after="rm a*"),
    table("a file whose name begins with @", "-k PatientName ./@name", AB, '"./@name","AB"', before="cp FILE @name", after="rm @name"),
    cell("quotes are doubled, bytes 00 and 20 at the end dropped, backslashes stay", COMMENTS, "LT", b'a "b"\\c \0 ', '"a ""b""\\c"'),
    cell("an empty text", COMMENTS, "LT", b"", '""'),
    cell("UI", INSTANCE_OF_FILE, "UI", b"1.2\0", '"1.2"'),
    cell("one number has no quotes", ROWS, "US", b"\1\2", "513"),
    cell("several are joined by backslashes", ROWS, "SS", b"\1\0\xff\xff\3", '"1\\-1"'),
    cell("without a whole unit", ROWS, "US", b"\1", '""'),
    cell("numbers in big endian", ROWS, "UL", b"\0\0\1\2", "258", uid=BIG),
    cell("UV", ROWS, "UV", b"\xff" * 8, "18446744073709551615"),
    cell("floats", RATE, "FD", struct.pack("<5d", 1, -0.0, 1e16, float("nan"), float("-inf")), '"1.0\\-0.0\\1e16\\NaN\\-inf"'),
    cell("a single float", RATE, "FL", struct.pack("<f", 0.1), "0.1"),
    cell("AT", OFFSET, "AT", b"\x10\0\x10\0", '"(0010,0010)"'),
    cell("several AT", OFFSET, "AT", b"\x10\0\x10\0\xe0\x7f\x10\0", '"(0010,0010)\\(7fe0,0010)"'),
    cell("OW is not shown", PIXELS, "OW", b"\1\2", ""),
    cell("a private UN is not shown", 0x00111001, "UN", b"AB", ""),
    cell("a sequence is not shown", IMAGES, "SQ", b"", ""),
    cell("UN of known length has the dictionary's VR", NAME, "UN", b"AB", '"AB"'),
    cell("its numbers are in little endian", ROWS, "UN", b"\1\2", "513", uid=BIG),
    cell("in implicit VR too", ROWS, "", b"\1\2", "513", uid=IMPLICIT),
    cell("bytes that are no UTF-8", NAME, "PN", b"M\xfcller\xc3\xa4", '"M\\xfcller\u00e4"'),
    cell("they are as they are with +by", NAME, "PN", b"M\xfcller", '"M\udcfcller"', "+by"),
    cell("of +u8 and +by the last counts", NAME, "PN", b"M\xfcller", '"M\udcfcller"', "+u8 +by"),
    cell("by the empty value bytes from 80 on have no character", NAME, "PN", b"M\xfcller\xc3\xa4", '"M\\xfcller\\xc3\\xa4"', "+by +u8"),
    table("texts as characters", "+u8 -k PatientName FILE", leaf(CHARACTER_SET, "CS", b"ISO_IR 100") + leaf(NAME, "PN", b"M\xfcller\x85"), '"FILE","M\u00fcller\\x85"'),
    table("an item's set ends with it", "+u8 -k PatientName FILE", leaf(CHARACTER_SET, "CS", b"ISO_IR 100") + sequence(IMAGES, item(leaf(CHARACTER_SET, "CS", b"ISO_IR 144"))) + leaf(NAME, "PN", b"\xe9"), '"FILE","\u00e9"'),
    table("what comes behind the text does not count", "+u8 -k PatientName FILE", leaf(NAME, "PN", b"\xe9") + leaf(CHARACTER_SET, "CS", b"ISO_IR 100"), '"FILE","\\xe9"'),
    table("an unknown term names ASCII", "+u8 -k PatientName FILE", leaf(CHARACTER_SET, "CS", b"GB2312") + leaf(NAME, "PN", b"\xe9"), '"FILE","\\xe9"'),
    table("designations are dropped", "+u8 -k PatientName FILE", leaf(CHARACTER_SET, "CS", b"\\ISO 2022 IR 87") + leaf(NAME, "PN", b"\x1b$B;3\x1b(B^A"), '"FILE","\u5c71^A"'),
    table("codes are as without +u8", "+u8 -k Modality FILE", leaf(CHARACTER_SET, "CS", b"ISO_IR 100") + leaf(0x00080060, "CS", b"\xe9"), '"FILE","\\xe9"'),
    table("the first element of the tag counts", "-k PatientName FILE", AB + leaf(NAME, "PN", b"CD"), NAMED),
    table("at the outermost level", "-k PatientName FILE", sequence(IMAGES, item(leaf(NAME, "PN", b"CD"))) + AB, NAMED),
    table("the meta group's elements", "-k TransferSyntaxUID FILE", AB, '"FILE","1.2.840.10008.1.2.1"'),
    table("a column after a greater tag than the greatest column is not seen", "-k PatientName FILE", leaf(ROWS, "US", b"\1\0") + AB, '"FILE",'),
    table("but before that it is", "-k PatientName -k Rows FILE", leaf(ROWS, "US", b"\1\0") + AB, '"FILE","AB",1'),
    table("a file is read no further than its row needs", "-k PatientName FILE", AB + leaf(ROWS, "US", b"\1\0") + b"no head", NAMED),
    table("a fault: what was whole before it", "-k PatientName -k Rows FILE", AB + head(ROWS, "US", 2), f"{NAMED},", status=2, line=f"FILE: R1 at byte {AT_SET + 18}: input ends too early"),
    table("a value of 16,384 bytes is shown", f"-k {COMMENT} FILE", leaf(COMMENTS, "UT", b"a" * 16384), '"FILE","' + "a" * 16384 + '"'),
    table("a longer one is reported once a tag", f"-k {COMMENT} -k PatientName -k {COMMENT} FILE", AB + LONG, '"FILE",,"AB",', status=2, line=TOO_LONG),
    table("before the fault", f"-k {COMMENT} -k Rows FILE", LONG + b"\1", '"FILE",,', status=2, line=f"{TOO_LONG}\nFILE: R1 at byte {AT_SET + 12 + 16385 + 1}: input ends too early"),
    table("all other files are still done, and the status is the greatest", "-k PatientName . FILE none", AB + b"\1", NAMED, status=4, line=f".: {UNOPENED}\nFILE: R1 at byte {AT_SET + 11}: input ends too early\nnone: {UNOPENED}"),
    table("a list that is not there", "-k PatientName @none FILE", AB, NAMED, status=4, line=f"none: {UNOPENED}"),
    table("a name that is no UTF-8", "-k PatientName $'gr\\366sse' FILE", AB, NAMED, status=4, line=f"gr\udcf6sse: {UNOPENED}", before="cp FILE $'gr\\366sse'", after="rm gr*"),
    table("its file is read as standard input", "-k PatientName - < $'gr\\366sse'", AB, '"-","AB"', before="cp FILE $'gr\\366sse'", after="rm gr*"),
    table("a name in a line", "-k PatientName $'a\\nb\\\\c\\177'", AB, status=4, line=f"a\\0ab\\5cc\\7f: {UNOPENED}"),
    table("a name of 4,097 bytes", "-k PatientName $(printf '%04097d' 1)", AB, status=4, line=f"{'0' * 4096}: {UNOPENED}"),
    table("a name with a byte 00", "-k PatientName @list", AB, status=4, line=f"FILE\\00: {UNOPENED}", before="printf 'FILE\\0' > list", after="rm list"),
    table("reading fails", "-k PatientName /proc/self/mem FILE", AB, NAMED, status=4, line="/proc/self/mem: reading failed after 0 bytes"),
    table("the output fails", "-k PatientName FILE > /dev/full", AB, status=4, line="output failed"),
    no_table("V2 is before U2", "-k what +dict FILE", "V2 at word 4: unknown option"),
    no_table("V3: no word after -k", "FILE -k", "V3 at word 3: bad option value"),
    no_table("any word after -k is its TAG", "-k +nh FILE", "U2 in column 1: unknown tag"),
    no_table("U1: an empty column", "-k Rows -k '' FILE", "U1 in column 2: bad option or path"),
    no_table("U1: no number", "-k '(0010' FILE", "U1 in column 1: bad option or path"),
    no_table("U2 is before V8", f"{'-k Rows ' * 65} -k what", "U2 in column 66: unknown tag"),
    no_table("V8 is before V4", f"{'-k Rows ' * 65}", "V8: not 1 to 64 columns"),
    no_table("V8: no column", "FILE", "V8: not 1 to 64 columns"),
    no_table("V4: no file", "-k Rows", "V4: wrong number of paths"),
    no_table("V4 is before V9", "-k Rows - @- ''", "V4: wrong number of paths"),
    no_table("V4: an empty name of a list", "-k Rows @", "V4: wrong number of paths"),
    no_table("V9", "-k Rows - @-", "V9: standard input is named twice"),
]


# ---- the likeliest causes of lines

CAUSES = [
    refused("V2: the first wrong word", "dcmconv +x FILE +y out", "V2 at word 2: unknown option"),
    refused("V4: OUTPUT is missing", "dcmconv +te FILE", "V4: wrong number of paths"),
    refused("V4: an option after the paths of dcmodify", "dcmodify -ep FILE out +dict", "V4: wrong number of paths"),
    refused("V6: a file was meant to change in its place", "dcmodify -ep FILE FILE", "V6: input and output are the same path"),
    refused("U1 in edit 1: OUTPUT is missing", "dcmodify -m PatientName=CD FILE", "U1 in edit 1: bad option or path"),
    refused("U1: several files", "dcmodify -m PatientName=CD FILE other out", "U1 in edit 2: bad option or path"),
    refused("U2: a keyword that only +dict has", "dcmodify -m RTPlanLabel=CD FILE out", "U2 in edit 1: unknown tag"),
    refused("U3: a decimal of a FD", "dcmodify +dict -m RealWorldValueSlope=1.5 FILE out", "U3 in edit 1: value does not fit"),
    fault("R1: a text of less than 132 bytes", DUMP, b"no DICOM file\n", "R1", 14, "input ends too early"),
    fault("R2: a longer text", DUMP, b"no DICOM file\n" * 10, "R2", 128, "no DICM prefix"),
    Case("no such file", "dcmdump none", b"", b"", 4, "input cannot be opened"),
    Case("a directory", "dcmdump .", b"", b"", 4, "input cannot be opened"),
]

TOOLS = ["dcmdump", "dcmconv", "dump2dcm", "dcmodify", "dcmdeid", "dcm2csv"]
OPTIONS = [
    ["-L", "+L", "+u8", "+P", "+p", "-p", "+fo", "-f", "-ti", "-te", "-tb", "-dict", "+dict"],
    ["+t=", "+ti", "+te", "+tb", "-e", "+fo", "-dict", "+dict"],
    ["+l", "-e"],
    ["-i", "-m", "-e", "-ma", "-ea", "-ep", "-dict", "+dict"],
    ["+ru", "+rd", "+ri", "+rp", "+rl", "+rm", "+pi", "+bi", "+k"],
    ["-k", "+nh", "+by", "+u8", "@LIST"],
]

TEXTS = [Shows(f"{word} of the program", word, TOOLS) for word in ("help", "--help", "-h")]
TEXTS += [Shows(f"{word} of {tool}", f"{tool} {word}", [tool, *options]) for tool, options in zip(TOOLS, OPTIONS) for word in ("help", "--help", "-h")]
TEXTS += [Shows(f"{word} {tool}", f"{tool} {word}", ["0.2.0", "2022a"]) for tool in ("", *TOOLS) for word in ("version", "--version")]

SEQUENCE_OF_20 = head(IMAGES, "SQ", 20)
OPENED = line(IMAGES, "SQ", "(Sequence with explicit length)", 20, 1, "ReferencedImageSequence")

FAULTS = [
    fault("R1: fewer than 132 bytes", DUMP, bytes(131), "R1", 131, "input ends too early"),
    fault("R1: exactly one byte after the group", DUMP, file_of(LITTLE, b"\x10"), "R1", AT_SET + 1, "input ends too early"),
    fault("R1: a head that is cut", DUMP, file_of(LITTLE, AB[:7]), "R1", AT_SET + 7, "input ends too early", shown(LITTLE, "")),
    fault("R1: a value that is cut, with -L", DUMP, file_of(LITTLE, AB[:9]), "R1", AT_SET + 9, "input ends too early", shown(LITTLE, "")),
    fault("R1: a value that is cut, with +L", WHOLE, file_of(LITTLE, AB[:9]), "R1", AT_SET + 9, "input ends too early", shown(LITTLE, "(0010,0010) PN [A")),
    fault("R1: units of a value that is cut, with +L", WHOLE, file_of(LITTLE, head(ROWS, "US", 6) + b"\1\0\2"), "R1", AT_SET + 11, "input ends too early", shown(LITTLE, "(0028,0010) US 1")),
    fault("R1: an item that is open", DUMP, file_of(LITTLE, head(IMAGES, "SQ", UNDEFINED)), "R1", AT_SET + 12, "input ends too early", shown(LITTLE, line(IMAGES, "SQ", "(Sequence with undefined length)", "u/l", 1, "ReferencedImageSequence"))),
    fault("R1 of dcmconv: the head, with the length of the whole, and what came", "dcmconv +tb FILE -", file_of(LITTLE, head(ROWS, "US", 6) + b"\1\0\2"), "R1", AT_SET + 11, "input ends too early", file_of(BIG, head(ROWS, "US", 6, BIG) + b"\0\1")),
    fault("R1 of dcmodify: an element that is replaced is written whole", "dcmodify -m PatientName=CDEF FILE -", file_of(LITTLE, AB[:9]), "R1", AT_SET + 9, "input ends too early", file_of(LITTLE, leaf(NAME, "PN", b"CDEF"))),
    fault("R2", DUMP, bytes(140), "R2", 128, "no DICM prefix"),
    fault("R3: a sequence in the meta group", DUMP, after_prefix(sequence(0x00020016, b"")), "R3", 132, "bad meta element"),
    fault("R3: small letters", DUMP, after_prefix(leaf(0x00020016, "ae", b"")), "R3", 132, "bad meta element"),
    fault("R4", DUMP, after_prefix(leaf(0x00020102, "OB", bytes(16373))), "R4", 132, "meta group too large"),
    fault("R5", DUMP, after_prefix(leaf(0x00020016, "AE", b"A ") + AB), "R5", 142, "no transfer syntax"),
    fault("R6", DUMP, file_of(b"1.2.840.10008.1.2.1.99", AB), "R6", len(file_of(b"1.2.840.10008.1.2.1.99", b"")), "deflated transfer syntax"),
    fault("R6 of a second one", DUMP, file_of(b"1.2.840.10008.1.2.4.95", AB), "R6", len(file_of(b"1.2.840.10008.1.2.4.95", b"")), "deflated transfer syntax"),
    fault("R6 of a third one", DUMP, file_of(b"1.2.840.10008.1.2.4.205", AB), "R6", len(file_of(b"1.2.840.10008.1.2.4.205", b"")), "deflated transfer syntax"),
    fault("R8", DUMP, file_of(LITTLE, head(NAME, "UT", UNDEFINED)), "R8", AT_SET, "undefined length not allowed", shown(LITTLE, "")),
    fault("R9: group 0002 in a data set", DUMP, file_of(LITTLE, AB + leaf(0x00020010, "UI", b"")), "R9", AT_SET + 10, "tag not allowed here", shown(LITTLE, NAME_LINE)),
    fault("R9: an item in a data set", DUMP, file_of(LITTLE, item(b"")), "R9", AT_SET, "tag not allowed here", shown(LITTLE, "")),
    fault("R9: an element in a list", DUMP, file_of(LITTLE, SEQUENCE_OF_20 + leaf(NAME, "PN", b"a" * 12)), "R9", AT_SET + 12, "tag not allowed here", shown(LITTLE, OPENED)),
    fault("R10: an item passes its sequence", DUMP, file_of(LITTLE, SEQUENCE_OF_20 + item(bytes(13))), "R10", AT_SET + 12, "passes the end of its container", shown(LITTLE, OPENED)),
    fault(
        "R11",
        "dcmdump FILE | tail -n 1 | cut -c 1-10; (exit ${PIPESTATUS[0]})",
        file_of(LITTLE, (head(IMAGES, "SQ", UNDEFINED) + head(0xFFFEE000, "", UNDEFINED)) * 64 + head(IMAGES, "SQ", UNDEFINED)),
        "R11",
        AT_SET + 64 * 20,
        "nested too deep",
        "          \n",
    ),
    fault("UN that an implicit target makes a sequence", "dcmdump FILE", file_of(IMPLICIT, leaf(IMAGES, "SQ", b"ab", IMPLICIT)), "R10", AT_IMPLICIT + 8, "passes the end of its container", shown(IMPLICIT, line(IMAGES, "SQ", "(Sequence with explicit length)", 2, 1, "ReferencedImageSequence"))),
]


# ---- trees of files

ROWS_BEGIN = '"File","Output","Status"\n'
WRITTEN = ROWS_BEGIN + '"a","a","written"\n'
NOTHING_LEFT = "rm -rf in out list"


def tree(claim, words, rows, status=0, line="", before="", holds="", clean=NOTHING_LEFT):
    """A run over the folder `in`, which has FILE as the file `a`. What `holds` fails leaves a file."""
    check = f"{{ {holds or 'true'}; }} || touch wrong; {clean}"
    return Case(claim, words, file_of(LITTLE, AB), rows, status, line, before=f"mkdir in; cp FILE in/a; {before or ':'}", after=check)


def no_tree(claim, words, text, before=""):
    return tree(claim, words, "", 4, text, before)


TREES = [
    tree("the output of NAME is OUTPUT/NAME", "dcmconv +tb +r in out", WRITTEN, holds='"$0" dcmconv +tb FILE - | cmp - out/a'),
    tree("at any depth, of the same mode", "dcmodify +r in out", ROWS_BEGIN + '"x/y/a","x/y/a","written"\n', before="mkdir -p in/x/y; chmod 640 in/a; mv in/a in/x/y", holds="cmp FILE out/x/y/a && [ $(stat -c %a out/x/y/a) = 640 ]"),
    tree("an edit without a place: the file is written", "dcmodify -m PatientID=7 +r in out", ROWS_BEGIN + '"a","a","unplaced"\n', 3, "a: edit 1 found no place", holds="cmp FILE out/a"),
    tree("a file at fault", "dcmconv +r in out", ROWS_BEGIN + '"a",,"refused"\n', 2, f"a: R1 at byte {AT_SET + 9}: input ends too early", before="truncate -s -1 in/a", holds="[ ! -e out/a ]"),
    tree("+c: what is there stays", "dcmconv +c +r in out", ROWS_BEGIN + '"a","a","there"\n', before="mkdir out; echo old > out/a", holds="[ $(cat out/a) = old ]"),
    tree("a list names a file twice", "dcmconv +r @list out", ROWS_BEGIN + '"./FILE","FILE","written"\n"FILE","FILE","taken"\n', 4, "FILE: output is there already", before="printf './FILE\\nFILE\\n' > list"),
    tree("a list on standard input", "dcmconv +r @- out <<< in/a", ROWS_BEGIN + '"in/a","in/a","written"\n'),
    tree("a list follows links", "dcmconv +r @- out <<< in/l", ROWS_BEGIN + '"in/l","in/l","written"\n', before="ln -s a in/l"),
    tree("of a list OUTPUT may be in the current folder, and is not read", "dcmconv +r @- out <<< out/a", ROWS_BEGIN + '"out/a",,"left-out"\n', 4, "out/a: output is not read"),
    tree("the first of two parts has a", "dcmconv +r in +part 1/2 out", WRITTEN),
    tree("the second has it not", "dcmconv +part 2/2 +r in out", ROWS_BEGIN, holds="[ -z \"$(ls out)\" ]"),
    tree("+part implies +c", "dcmconv +part 1/1 +r in out", WRITTEN, before="mkdir out; touch out/b"),
    tree("+nh", "dcmconv +nh +r in out", '"a","a","written"\n'),
    tree("+v", "dcmconv +v +r in out 2>&1 > rows", "1 files, 1 written, 0 there, 0 not done\n", clean=f"{NOTHING_LEFT} rows"),
    no_tree("FOLDER is no folder", "dcmconv +r in/a out", "input cannot be opened"),
    no_tree("no such list", "dcmconv +r @none out", "none: input cannot be opened"),
    no_tree("OUTPUT is a file", "dcmconv +r in out", "output cannot be opened", "touch out"),
    no_tree("OUTPUT's folder is missing", "dcmconv +r in out/new", "output cannot be opened"),
    no_tree("OUTPUT is FOLDER", "dcmconv +c +r in ./in", "output is the input"),
    no_tree("OUTPUT is in FOLDER", "dcmconv +r in in/out", "output is within the input"),
    no_tree("FOLDER is in OUTPUT", "dcmconv +c +r in .", "input is within the output"),
    no_tree("a part is there that is no file", "dcmconv +c +r in out", ".part.1: another run is at work, or was cut off", "mkdir -p out/.part.1"),
    no_tree("OUTPUT is not empty", "dcmconv +r in out", "output is not empty", "mkdir out; touch out/b"),
    tree("no files", "dcmconv +r in out", ROWS_BEGIN, 4, "input has no files", before="rm in/a"),
    tree("a name that does not fit", "dcmconv +r @- out <<< ../in/a", ROWS_BEGIN + '"../in/a",,"left-out"\n', 4, "../in/a: name does not fit"),
    tree("a name that is no UTF-8", "dcmconv +r in out", ROWS_BEGIN + '"\\xf6",,"left-out"\n', 4, "\udcf6: name is no UTF-8", before="mv in/a in/$'\\366'"),
    tree("a part of another run", "dcmconv +r in out", ROWS_BEGIN + '".PART.x",,"left-out"\n', 4, ".PART.x: part of another run", before="mv in/a in/.PART.x"),
    tree("a link", "dcmconv +r in out", ROWS_BEGIN + '"a",,"left-out"\n', 4, "a: no regular file", before="ln -sf ../FILE in/a"),
    tree("a DICOMDIR", "dcmconv +r in out", ROWS_BEGIN + '"DicomDir",,"left-out"\n', 0, "DicomDir: DICOMDIR is left out", before="mv in/a in/DicomDir"),
    tree("something else in the way", "dcmconv +c +r in out", ROWS_BEGIN + '"a",,"unwritten"\n', 4, "a: output cannot be opened", before="mkdir -p out/a"),
    Case("standard output fails", "dcmconv +r in out > /dev/full", file_of(LITTLE, AB), b"", 4, "output failed", before="mkdir in; cp FILE in/a", after=NOTHING_LEFT),
    refused("any word after +part is its I/N", "dcmconv +r in out +part", "V3 at word 5: bad option value"),
    refused("a list without a name", "dcmconv +r @ out", "V4: wrong number of paths"),
    refused("a word of trees without +r", "dcmconv +nh in out", "V5: options do not go together"),
    refused("V5 is before V6", "dcmodify +c FILE FILE", "V5: options do not go together"),
    refused("a tree on standard output", "dcmconv +r in -", "V5: options do not go together"),
    refused("a word of trees after -e is a keyword", "dcmodify -e +r FILE out", "U2 in edit 1: unknown tag"),
    refused("V3 is after V4", "dcmodify +r +part 2/1 @ out", "V4: wrong number of paths"),
    refused("V5 is after U7", "dcmodify +c -e None FILE out", "U2 in edit 1: unknown tag"),
]


# ---- the runs


def bytes_of(output):
    return output if isinstance(output, bytes) else output.encode("utf-8", "surrogateescape")


def wrong_case(binary, case):
    """What is wrong with a case, or nothing."""
    with tempfile.TemporaryDirectory() as folder:
        with open(os.path.join(folder, "FILE"), "wb") as file:
            file.write(case.input)
        words = ["bash", "-c", f'{case.before}\n"$0" {case.words}\nstatus=$?\n{case.after}\nexit $status', binary]
        done = subprocess.run(words, cwd=folder, capture_output=True, timeout=60, check=False)
        told = b"".join(bytes_of(f"dcmtools: {line}\n") for line in case.line.split("\n") if line)
        if (done.returncode, done.stderr) != (case.status, told):
            return f"status {done.returncode}, {done.stderr!r}"
        if done.stdout != bytes_of(case.output):
            return f"wrote {done.stdout!r}\n  and not {bytes_of(case.output)!r}"
        if os.listdir(folder) != ["FILE"]:
            return f"left {os.listdir(folder)}"
        with open(os.path.join(folder, "FILE"), "rb") as file:
            return "" if file.read() == case.input else "changed FILE"


def wrong_text(binary, shows):
    done = subprocess.run([binary, *shows.words.split()], capture_output=True, timeout=60, check=False)
    lacks = [part for part in shows.parts if part.encode() not in done.stdout]
    if (done.returncode, done.stderr) != (0, b"") or lacks:
        return f"status {done.returncode}, {done.stderr!r}, lacks {lacks}"
    return ""


def main():
    binary = os.path.abspath(sys.argv[1] if len(sys.argv) > 1 else os.path.join(ROOT, "crates/dcmtools/out/dcmtools"))
    cases = WORDS + SAME_FILE + READING + DICTIONARIES + FILES + SHOWING + WRITING + BUILDING + EDITING + PRIVACY + IDENTITY + TABLES + TREES + FAULTS + CAUSES
    answers = [(case.claim, wrong_case(binary, case)) for case in cases]
    answers += [(shows.claim, wrong_text(binary, shows)) for shows in TEXTS]
    for claim, wrong in answers:
        if wrong:
            print(f"{claim}: {wrong}")
    wrong = sum(bool(wrong) for _, wrong in answers)
    print(f"{len(answers)} claims, {wrong} wrong")
    return 1 if wrong else 0


if __name__ == "__main__":
    sys.exit(main())
