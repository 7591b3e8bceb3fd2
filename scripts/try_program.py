#!/usr/bin/env python3
"""Tries what a built dcmtools does at its edge: words, paths, standard streams, files that it writes, and the exit status.

    scripts/try_program.py [BINARY]

BINARY is crates/dcmtools/out/dcmtools if it is not given. As root it also tries a system without /proc. Exits with 0 if each case
ends as it should.
"""
import os
import shlex
import subprocess
import sys
import tempfile

ROOT = os.path.dirname(os.path.dirname(os.path.abspath(__file__)))
with open(os.path.join(ROOT, "examples", "name.dcm"), "rb") as example:
    NAME = example.read()
with open(os.path.join(ROOT, "examples", "name-big.dcm"), "rb") as converted:
    BIG = converted.read()

# the preamble, the prefix and a meta group of a JPEG syntax
JPEG = bytes(128) + b"DICM\2\0\0\0UL\4\0\x1e\0\0\0\2\0\x10\0UI\x16\0001.2.840.10008.1.2.4.50"

# the meta group of name.dcm, and files that edits make of it
GROUP = NAME[:172]
REPLACED = GROUP + b"\x10\0\x10\0PN\2\0Q "
SPACED = GROUP + b"\x10\0\x10\0PN\x0a\0Doe^Jane M"
WITH_ID = NAME + b"\x10\0\x20\0LO\2\x007 "
TWICE = WITH_ID + WITH_ID[186:]
WITH_SEQUENCE = (
    GROUP
    + b"\x08\0\x40\x11SQ\0\0\xff\xff\xff\xff\xfe\xff\0\xe0\xff\xff\xff\xff"
    + b"\x08\0\x55\x11UI\4\x001.2\0"
    + b"\xfe\xff\x0d\xe0\0\0\0\0\xfe\xff\xdd\xe0\0\0\0\0"
    + NAME[172:]
)

# a file with an element of the standard that the extract lacks, and its lines with both dictionaries
TUBE = GROUP + b"\x18\0\x51\x11IS\4\x00120 "
TUBE_CHANGED = GROUP + b"\x18\0\x51\x11IS\2\x0090"
TUBE_LINES = [
    (
        "# Dicom-File-Format\n\n# Dicom-Meta-Information-Header\n# Used TransferSyntax: LittleEndianExplicit\n"
        "(0002,0000) UL 28                                       #   4, 1 FileMetaInformationGroupLength\n"
        "(0002,0010) UI =LittleEndianExplicit                    #  20, 1 TransferSyntaxUID\n"
        "\n# Dicom-Data-Set\n# Used TransferSyntax: LittleEndianExplicit\n"
        f"(0018,1151) IS [120]                                    #   4, 1 {keyword}\n"
    ).encode()
    for keyword in ("Unknown Tag & Data", "XRayTubeCurrent")
]

# a treatment plan in implicit VR whose sequence the extract lacks, and what is made of it
IMPLICIT_GROUP = bytes(128) + b"DICM\2\0\0\0UL\4\0\x1a\0\0\0\2\0\x10\0UI\x12\x001.2.840.10008.1.2\0"
REFERENCES = b"\xfe\xff\0\xe0\x0a\0\0\0\x0a\x30\x12\0\2\0\0\x001 "
PLAN = IMPLICIT_GROUP + b"\x08\0\x60\0\6\0\0\0RTPLAN\x0a\x30\x10\0\x12\0\0\0" + REFERENCES
OPAQUE_PLAN = GROUP + b"\x08\0\x60\0CS\6\0RTPLAN\x0a\x30\x10\0UN\0\0\x12\0\0\0" + REFERENCES
OPEN_ITEM = b"\xfe\xff\0\xe0\xff\xff\xff\xff"
ENDS = b"\xfe\xff\x0d\xe0\0\0\0\0\xfe\xff\xdd\xe0\0\0\0\0"
EXPLICIT_PLAN = (
    GROUP
    + b"\x08\0\x60\0CS\6\0RTPLAN\x0a\x30\x10\0SQ\0\0\xff\xff\xff\xff"
    + OPEN_ITEM
    + b"\x0a\x30\x12\0IS\2\x001 "
    + ENDS
)


# a file that is larger than what is read at a time, and whose end may be followed by more elements: by a copy of itself, say
GROWING = IMPLICIT_GROUP + b"\x11\0\1\x10\x20\xa1\7\0" + bytes(500_000)

# a file with a name in Latin-1, the same in UTF-8, and a file that has more bytes than a case allows
LATIN = GROUP + b"\x10\0\x10\0PN\6\0M\xfcller"
UTF_8 = GROUP + b"\x10\0\x10\0PN\x08\0M\xc3\xbcller "
LARGE = NAME + b"\x11\0\x10\0UN\0\0\0\x40\0\0" + bytes(16384)


def implicit_plan(number):
    opened = b"\x08\0\x60\0\6\0\0\0RTPLAN\x0a\x30\x10\0\xff\xff\xff\xff" + OPEN_ITEM
    return IMPLICIT_GROUP + opened + b"\x0a\x30\x12\0\2\0\0\0" + number + ENDS


# lines that are built into name.dcm, and others that are at fault
LINES = b"(0002,0010) UI =LittleEndianExplicit\n(0010,0010) PN [AB^CD]\n"
BAD_LINES = LINES + b"(0010,0010) PN [AB^CD]\n"

# the files of the folder that a case runs in
FILES = {
    "lines": LINES,
    "bad_lines": BAD_LINES,
    "name.dcm": NAME,
    "jpeg.dcm": JPEG,
    "sequence.dcm": WITH_SEQUENCE,
    "twice.dcm": TWICE,
    "tube.dcm": TUBE,
    "plan.dcm": PLAN,
    "private.dcm": NAME + b"\x11\0\x10\0LO\2\0AB",
    "growing.dcm": GROWING,
    "large.dcm": LARGE,
    "help": NAME,
    "version": NAME,
    b"M\xfc.dcm": NAME,
    "empty": b"",
    "cut": NAME[:182],
    "older": b"older" * 100,
}

# what OUTPUT that is FILE is answered with
SAME = "output is the input"
THERE = "output is there already"

# what it is, the words after the program for a shell, the status, the line on standard error
CASES = [
    ("a file", "dcmdump name.dcm", 0, ""),
    ("standard input", "dcmdump - < name.dcm", 0, ""),
    ("an option after the path", "dcmdump name.dcm +L", 0, ""),
    ("no words", "", 1, "V1 at word 1: unknown tool"),
    ("an unknown tool", "dcmfind name.dcm", 1, "V1 at word 1: unknown tool"),
    ("a word that is no text", "$'\\xff'", 1, "V1 at word 1: unknown tool"),
    ("an empty word", "''", 1, "V1 at word 1: unknown tool"),
    ("a word of usage in capitals", "HELP", 1, "V1 at word 1: unknown tool"),
    ("a path after a word of usage", "--help name.dcm", 1, "V1 at word 1: unknown tool"),
    ("two words after a word of usage", "help dcmdump dcmconv", 0, ""),
    ("a tool after a word of usage", "help dcmdump", 0, ""),
    ("a word of version twice", "--version --version", 0, ""),
    ("a word of usage before a path", "dcmdump --help name.dcm", 1, "V2 at word 2: unknown option"),
    ("a word of version after a path", "dcmdump name.dcm --version", 1, "V2 at word 3: unknown option"),
    ("two words of usage", "dcmconv --help help", 1, "V2 at word 2: unknown option"),
    ("a word of usage as a limit", "dump2dcm +l help", 1, "V3 at word 2: bad option value"),
    ("a word of usage before the paths", "dcmodify --help name.dcm out", 1, "U1 in edit 1: bad option or path"),
    ("a word of usage as a path", "dcmodify -ep --help", 1, "V4: wrong number of paths"),
    ("a word of usage as a tag", "dcmodify -e --help name.dcm out", 1, "U2 in edit 1: unknown tag"),
    ("two files with such names", "dcmdump help version", 0, ""),
    ("an option that is no text", "dcmdump $'+\\xfc' name.dcm", 1, "V2 at word 2: unknown option"),
    ("a limit that is no text", "dump2dcm +l $'80\\xfc' lines out", 1, "V3 at word 2: bad option value"),
    ("the same path that is no text", "dcmconv $'\\xfc' $'\\xfc'", 1, "V6: input and output are the same path"),
    ("a path that is no text", "dcmdump $'M\\xfc.dcm'", 4, "input cannot be opened"),
    ("a missing path that is no text", "dcmdump $'\\xfc'", 4, "input cannot be opened"),
    ("a path of a modification that is no text", "dcmodify -ep $'M\\xfc.dcm' out", 4, "input cannot be opened"),
    ("a path of 300 bytes", "dcmdump $(printf %0300d 0)", 4, "input cannot be opened"),
    ("a path of 6,000 bytes", "dcmdump $(printf %06000d 0)", 4, "input cannot be opened"),
    ("an output of 300 bytes", "dcmconv name.dcm $(printf %0300d 0)", 4, "output cannot be opened"),
    ("an output with a slash at its end", "dcmconv name.dcm out/", 4, "output cannot be opened"),
    ("endless zeros", "dcmdump /dev/zero", 2, "R2 at byte 128: no DICM prefix"),
    ("an endless line", "dump2dcm /dev/zero -", 2, "B1 at byte 0, line 1: line too long"),
    ("the null device as both", "dcmconv - - < /dev/null > /dev/null", 2, "R1 at byte 0: input ends too early"),
    ("the null device by its path", "dcmdump /dev/null > /dev/null", 2, "R1 at byte 0: input ends too early"),
    ("an unknown option", "dcmdump -L +x name.dcm", 1, "V2 at word 3: unknown option"),
    ("no path", "dcmdump", 1, "V4: wrong number of paths"),
    ("two paths", "dcmdump name.dcm name.dcm", 0, ""),
    ("two paths, of which one is missing", "dcmdump missing name.dcm", 4, "missing: input cannot be opened"),
    ("two paths, of which one is cut", "dcmdump cut name.dcm", 2, "cut: R1 at byte 182: input ends too early"),
    ("two paths on a full disk", "dcmdump name.dcm missing > /dev/full", 4, "output failed"),
    ("two paths and a closed standard output", "dcmdump name.dcm missing >&-", 4, "output failed"),
    ("one path with a heading", "dcmdump cut +F", 2, "cut: R1 at byte 182: input ends too early"),
    ("a list of dumps", "dcmdump @- <<< name.dcm", 0, ""),
    ("a missing list of dumps", "dcmdump @missing", 4, "missing: input cannot be opened"),
    ("a file and an empty path", "dcmdump name.dcm ''", 1, "V4: wrong number of paths"),
    ("several data sets alone in no syntax", "dcmdump -f name.dcm cut", 1, "V5: options do not go together"),
    ("standard input twice", "dcmdump - @-", 1, "V9: standard input is named twice"),
    ("a data set alone in no syntax", "dcmdump -f name.dcm", 1, "V5: options do not go together"),
    ("an empty file", "dcmdump empty", 2, "R1 at byte 0: input ends too early"),
    ("a cut file", "dcmdump cut", 2, "R1 at byte 182: input ends too early"),
    ("a missing path", "dcmdump missing", 4, "input cannot be opened"),
    ("a directory", "dcmdump .", 4, "input cannot be opened"),
    ("a closed standard input", "dcmdump - <&-", 4, "reading failed after 0 bytes"),
    ("a full disk", "dcmdump name.dcm > /dev/full", 4, "output failed"),
    ("a closed standard output", "dcmdump name.dcm >&-", 4, "output failed"),
    ("a full disk that nothing is written to", "dcmdump empty > /dev/full", 2, "R1 at byte 0: input ends too early"),
    ("a full disk for the line", "dcmdump empty 2> /dev/full", 2, ""),
    ("a closed standard error", "dcmdump missing 2>&-", 4, ""),
    ("an option of the other tool", "dcmconv -ti name.dcm out", 1, "V2 at word 2: unknown option"),
    ("one path of a conversion", "dcmconv name.dcm", 1, "V4: wrong number of paths"),
    ("an empty path", "dcmconv name.dcm ''", 1, "V4: wrong number of paths"),
    ("a full disk for usage", "--help > /dev/full", 4, "output failed"),
    ("a full disk for a version", "dcmodify --version > /dev/full", 4, "output failed"),
    ("a closed standard output of usage", "dcmconv help >&-", 4, "output failed"),
    ("a full disk for a conversion", "dcmconv name.dcm - > /dev/full", 4, "output failed"),
    ("a full disk by its path", "dcmconv name.dcm /dev/full", 4, "output failed"),
    ("an output that is a directory", "dcmconv name.dcm .", 4, "output cannot be opened"),
    ("an output in no directory", "dcmconv name.dcm nowhere/out", 4, "output cannot be opened"),
    ("a closed standard output of a conversion", "dcmconv name.dcm - >&-", 4, "output failed"),
    ("an option without its value", "dump2dcm lines out +l", 1, "V3 at word 4: bad option value"),
    ("a limit that is too low", "dump2dcm +l 79 lines out", 1, "V3 at word 2: bad option value"),
    ("one path of lines", "dump2dcm lines", 1, "V4: wrong number of paths"),
    ("lines on a full disk", "dump2dcm lines - > /dev/full", 4, "output failed"),
    ("a directory of lines", "dump2dcm . -", 4, "input cannot be opened"),
    ("no lines", "dump2dcm empty -", 2, "B7 at byte 0, line 1: no usable transfer syntax"),
    ("no path of a modification", "dcmodify", 1, "V4: wrong number of paths"),
    ("one path of a modification", "dcmodify name.dcm", 1, "V4: wrong number of paths"),
    ("an edit after the paths", "dcmodify name.dcm out -ep", 1, "V4: wrong number of paths"),
    ("an empty path of a modification", "dcmodify -ep name.dcm ''", 1, "V4: wrong number of paths"),
    ("an edit without its path", "dcmodify -m name.dcm out", 1, "U1 in edit 1: bad option or path"),
    ("an option of dcmconv", "dcmodify -ep +te name.dcm out", 1, "U1 in edit 2: bad option or path"),
    ("three paths of a modification", "dcmodify -ep name.dcm out out", 1, "U1 in edit 2: bad option or path"),
    ("an unknown keyword", "dcmodify -e Patient name.dcm out", 1, "U2 in edit 1: unknown tag"),
    ("a private tag", "dcmodify -ep -m '(0009,0010)=A' name.dcm out", 1, "U2 in edit 2: unknown tag"),
    ("a number that is too large", "dcmodify -i Rows=70000 name.dcm out", 1, "U3 in edit 1: value does not fit"),
    ("an item of a number", "dcmodify -e 'Rows[0]' name.dcm out", 1, "U4 in edit 1: sequence misused"),
    ("a value for a sequence", "dcmodify -i ContentSequence=1 name.dcm out", 1, "U4 in edit 1: sequence misused"),
    ("the meta group", "dcmodify -e TransferSyntaxUID name.dcm out", 1, "U5 in edit 1: group 0002 cannot be edited"),
    ("edits that overlap", "dcmodify -m PatientID=7 -e PatientID name.dcm out", 1, "U6 in edit 2: edits overlap"),
    ("65 edits", "dcmodify" + " -ep" * 65 + " name.dcm out", 1, "U7 in edit 65: too many edits"),
    ("a keyword that is no text", "dcmodify -m $'Rows\\xfc=1' name.dcm out", 1, "U2 in edit 1: unknown tag"),
    ("an edit that is no text", "dcmodify -ep $'\\xfc' name.dcm out", 1, "U1 in edit 2: bad option or path"),
    ("a full disk for a modification", "dcmodify -ep name.dcm - > /dev/full", 4, "output failed"),
    ("a directory that is modified", "dcmodify -ep . -", 4, "input cannot be opened"),
    ("a full disk for the line of an edit", "dcmodify -ep name.dcm out 2> /dev/full", 3, ""),
    ("a dictionary for lines", "dump2dcm +dict lines out", 1, "V2 at word 2: unknown option"),
    ("no dictionary for lines", "dump2dcm lines out -dict", 1, "V2 at word 4: unknown option"),
    ("another name of a dictionary", "dcmdump +dictionary name.dcm", 1, "V2 at word 2: unknown option"),
    ("a dictionary after the paths of a modification", "dcmodify name.dcm out +dict", 1, "V4: wrong number of paths"),
    ("a keyword that the extract lacks", "dcmodify -m XRayTubeCurrent=90 tube.dcm out", 1, "U2 in edit 1: unknown tag"),
    ("a number that the extract lacks", "dcmodify -m '(0018,1151)=90' tube.dcm out", 1, "U2 in edit 1: unknown tag"),
    ("-dict after +dict", "dcmodify +dict -m XRayTubeCurrent=90 -dict tube.dcm out", 1, "U2 in edit 1: unknown tag"),
    ("a dictionary has no number", "dcmodify +dict -ep +dict -e Tube tube.dcm out", 1, "U2 in edit 2: unknown tag"),
    ("a dictionary in place of a path", "dcmodify -e +dict name.dcm out", 1, "U2 in edit 1: unknown tag"),
    ("a dictionary after the last option", "dcmodify -ep -m +dict name.dcm", 1, "V4: wrong number of paths"),
    ("65 edits and a dictionary", "dcmodify" + " -ep" * 65 + " +dict name.dcm out", 1, "U7 in edit 65: too many edits"),
    ("an element between two VRs", "dcmodify +dict -e PixelPaddingValue name.dcm out", 1, "U2 in edit 1: unknown tag"),
    ("an index of a number of the standard", "dcmodify +dict -e 'XRayTubeCurrent[0]' name.dcm out", 1, "U4 in edit 1: sequence misused"),
]

# the same, and a path with what has to be there afterwards, or nothing where there has to be no file
WRITTEN = [
    ("a conversion", "dcmconv +tb name.dcm out", 0, "", "out", BIG),
    ("a conversion of standard streams", "dcmconv +tb - - < name.dcm > out", 0, "", "out", BIG),
    ("a conversion to a pipe", "dcmconv +tb name.dcm - | cat > out", 0, "", "out", BIG),
    ("options after the paths", "dcmconv name.dcm out +tb -e +fo", 0, "", "out", BIG),
    ("a conversion to its own syntax", "dcmconv name.dcm out", 0, "", "out", NAME),
    ("the last of two options", "dcmconv +tb +t= name.dcm out", 0, "", "out", NAME),
    ("an older output", "dcmconv +ow name.dcm older", 0, "", "older", NAME),
    ("an older output that stays", "dcmconv name.dcm older", 4, THERE, "older", FILES["older"]),
    ("lines into an older output", "dump2dcm lines older", 4, THERE, "older", FILES["older"]),
    ("edits into an older output", "dcmodify -m PatientID=7 name.dcm older", 4, THERE, "older", FILES["older"]),
    ("identity out of a file into an older output", "dcmdeid name.dcm older", 4, THERE, "older", FILES["older"]),
    ("a file at fault and an older output", "dcmconv empty older", 4, THERE, "older", FILES["older"]),
    ("a cut file", "dcmconv cut out", 2, "R1 at byte 182: input ends too early", "out", NAME[:182]),
    ("an empty file", "dcmconv +ow empty older", 2, "R1 at byte 0: input ends too early", "older", FILES["older"]),
    (
        "an encapsulated file",
        "dcmconv +te jpeg.dcm out",
        2,
        "R14 at byte 174: encapsulated syntax cannot be changed",
        "out",
        b"",
    ),
    ("a closed standard output beside an output file", "dcmconv +tb name.dcm out >&-", 0, "", "out", BIG),
    ("a closed standard error beside an output file", "dcmconv cut out 2>&-", 2, "", "out", NAME[:182]),
    ("standard output and error closed", "dcmconv cut out >&- 2>&-", 2, "", "out", NAME[:182]),
    ("all standard streams closed", "dcmconv +tb name.dcm out <&- >&- 2>&-", 0, "", "out", BIG),
    ("standard input and error closed", "dcmconv - out <&- 2>&-", 4, "", "out", b""),
    ("lines", "dump2dcm lines out", 0, "", "out", NAME),
    ("lines of standard streams", "dump2dcm +l 80 - - < lines > out", 0, "", "out", NAME),
    ("the lines of a dump", 'dcmdump +L name.dcm | "$0" dump2dcm - out', 0, "", "out", NAME),
    ("bad lines", "dump2dcm bad_lines out", 2, "B5 at byte 60, line 3: tags not ascending", "out", NAME),
    ("lines of a missing path", "dump2dcm missing older", 4, "input cannot be opened", "older", FILES["older"]),
    ("a missing input", "dcmconv missing out", 4, "input cannot be opened", "out", None),
    ("a missing input beside an older output", "dcmconv missing older", 4, "input cannot be opened", "older", FILES["older"]),
    ("refused words", "dcmconv +e name.dcm out", 1, "V2 at word 2: unknown option", "out", None),
    (
        "the same path",
        "dcmconv name.dcm name.dcm",
        1,
        "V6: input and output are the same path",
        "name.dcm",
        NAME,
    ),
    ("an edit", "dcmodify -m PatientName=Q name.dcm out", 0, "", "out", REPLACED),
    ("an edit of standard streams", "dcmodify -m PatientName=Q - - < name.dcm > out", 0, "", "out", REPLACED),
    ("an edit by its number", "dcmodify -i '(0010,0020)=7' name.dcm out", 0, "", "out", WITH_ID),
    ("a value with a space", "dcmodify -m 'PatientName=Doe^Jane M' name.dcm out", 0, "", "out", SPACED),
    ("no edits", "dcmodify +ow name.dcm older", 0, "", "older", NAME),
    ("an edit that finds no place", "dcmodify -m PatientID=7 name.dcm out", 3, "edit 1 found no place", "out", NAME),
    (
        "an edit that finds its place beside two others",
        "dcmodify -ep -m PatientName=Q -e Rows name.dcm out",
        3,
        "edit 1 found no place\ndcmtools: edit 3 found no place",
        "out",
        REPLACED,
    ),
    (
        "a missing sequence that is made",
        "dcmodify -i 'ReferencedImageSequence[0].ReferencedSOPInstanceUID=1.2' name.dcm out",
        0,
        "",
        "out",
        WITH_SEQUENCE,
    ),
    ("an erased sequence", "dcmodify -e ReferencedImageSequence sequence.dcm out", 0, "", "out", NAME),
    ("a tag twice", "dcmodify twice.dcm out", 2, "R12 at byte 196: tags not ascending", "out", WITH_ID),
    (
        "edits of a cut file",
        "dcmodify -i PatientID=7 -m PatientName=Q cut out",
        2,
        "R1 at byte 182: input ends too early",
        "out",
        REPLACED,
    ),
    ("an edit of an empty file", "dcmodify +ow -ep empty older", 2, "R1 at byte 0: input ends too early", "older", FILES["older"]),
    ("refused edits", "dcmodify -ep -x name.dcm older", 1, "U1 in edit 2: bad option or path", "older", FILES["older"]),
    ("edits of a missing path", "dcmodify -ep missing older", 4, "input cannot be opened", "older", FILES["older"]),
    (
        "the same path of a modification",
        "dcmodify -ep name.dcm name.dcm",
        1,
        "V6: input and output are the same path",
        "name.dcm",
        NAME,
    ),
    ("another path of the same file", "dcmconv name.dcm ./name.dcm", 4, SAME, "name.dcm", NAME),
    ("a hard link", "dcmconv name.dcm linked", 4, SAME, "name.dcm", NAME),
    ("a symbolic link", "dcmodify -ep name.dcm symbolic", 4, SAME, "name.dcm", NAME),
    ("standard input that is the output", "dcmconv - name.dcm < name.dcm", 4, SAME, "name.dcm", NAME),
    ("lines that are the output", "dump2dcm lines ./lines", 4, SAME, "lines", LINES),
    ("another folder of the same file", "dcmconv name.dcm /proc/self/cwd/name.dcm", 4, SAME, "name.dcm", NAME),
    ("a symbolic link that is read", "dcmconv symbolic name.dcm", 4, SAME, "name.dcm", NAME),
    ("an empty file that is the output", "dcmconv empty ./empty", 4, SAME, "empty", b""),
    ("standard input by its path", "dcmconv /dev/stdin name.dcm < name.dcm", 4, SAME, "name.dcm", NAME),
    ("standard input of a hard link", "dcmconv - name.dcm < linked", 4, SAME, "name.dcm", NAME),
    ("an open file that is the output", "dcmconv name.dcm /dev/fd/3 3>> name.dcm", 4, SAME, "name.dcm", NAME),
    ("standard output by its path that is the input", "dcmconv name.dcm /dev/stdout >> name.dcm", 4, SAME, "name.dcm", NAME),
    ("a dump at the end of its input", "dcmdump name.dcm >> name.dcm", 4, SAME, "name.dcm", NAME),
    ("a dump at the end of a hard link", "dcmdump name.dcm >> linked", 4, SAME, "name.dcm", NAME),
    ("a dump at the end of standard input", "dcmdump - < name.dcm >> name.dcm", 4, SAME, "name.dcm", NAME),
    ("a dump over its input", "dcmdump name.dcm 1<> name.dcm", 4, SAME, "name.dcm", NAME),
    ("a dump over what the shell has emptied", "dcmdump name.dcm > name.dcm", 4, SAME, "name.dcm", b""),
    ("several dumps at the end of one of them", "dcmdump +F name.dcm >> name.dcm", 4, "name.dcm: " + SAME, "name.dcm", NAME),
    ("a dump of one stream for both", "dcmdump - <> name.dcm 1>&0", 4, SAME, "name.dcm", NAME),
    ("a conversion at the end of its input", "dcmconv name.dcm - >> name.dcm", 4, SAME, "name.dcm", NAME),
    ("a conversion over its input", "dcmconv name.dcm - 1<> name.dcm", 4, SAME, "name.dcm", NAME),
    ("a conversion at the end of standard input", "dcmconv - - < name.dcm >> name.dcm", 4, SAME, "name.dcm", NAME),
    ("a conversion over standard input by its path", "dcmconv /dev/stdin - < name.dcm 1<> linked", 4, SAME, "name.dcm", NAME),
    ("a modification at the end of its input", "dcmodify -ep name.dcm - >> name.dcm", 4, SAME, "name.dcm", NAME),
    ("lines at the end of themselves", "dump2dcm lines - >> lines", 4, SAME, "lines", LINES),
    ("the same file, and standard error closed", "dcmconv name.dcm - >> name.dcm 2>&-", 4, "", "name.dcm", NAME),
    ("the same file, and a missing one", "dcmconv missing - >> name.dcm", 4, "input cannot be opened", "name.dcm", NAME),
    ("the same file, and refused words", "dcmconv +x name.dcm - >> name.dcm", 1, "V2 at word 2: unknown option", "name.dcm", NAME),
    ("the output as a standard input that is not read", "dcmconv +ow name.dcm older < older", 0, "", "older", NAME),
    ("the input as a standard output that is not written", "dcmconv name.dcm out >> name.dcm", 0, "", "out", NAME),
    ("the end of another file", "dcmconv +tb name.dcm - >> empty", 0, "", "empty", BIG),
    ("a link to no file", "dcmconv name.dcm leading", 0, "", "out", NAME),
    ("a link to itself", "dcmconv name.dcm circle", 4, "output cannot be opened", "out", None),
    ("a path of an output that is no text", "dcmconv name.dcm $'\\xfc'", 4, "output cannot be opened", "name.dcm", NAME),
    ("standard input whose path is no text", "dcmconv +tb - out < $'M\\xfc.dcm'", 0, "", "out", BIG),
    ("an edit that is no text", "dcmodify -m $'PatientName=M\\xfcller' name.dcm out", 0, "", "out", LATIN),
    ("an edit in UTF-8", "dcmodify -m $'PatientName=M\\xc3\\xbcller' name.dcm out", 0, "", "out", UTF_8),
    ("a new element that is no text", "dcmodify -i $'PatientID=\\xfc' name.dcm out", 0, "", "out", NAME + b"\x10\0\x20\0LO\2\0\xfc "),
    ("files with the names of words", "dcmconv help out +tb", 0, "", "out", BIG),
    ("an output with the name of a word", "dcmconv +ow +tb help version", 0, "", "version", BIG),
    ("a path of a file with such a name", "dcmconv +tb ./help out", 0, "", "out", BIG),
    ("edits to a file with such a name", "dcmodify +ow help version", 0, "", "version", NAME),
    ("a last line without its end", "dump2dcm <(printf %s '(0002,0010) UI =LittleEndianExplicit') out", 0, "", "out", GROUP),
    (
        "an encapsulated file beside an older output",
        "dcmconv +ow +te jpeg.dcm older",
        2,
        "R14 at byte 174: encapsulated syntax cannot be changed",
        "older",
        FILES["older"],
    ),
    ("a directory beside an older output", "dcmconv . older", 4, "input cannot be opened", "older", FILES["older"]),
    ("standard output by its path", "dcmconv +tb name.dcm /dev/stdout > out", 0, "", "out", BIG),
    ("a pipe by its path", "dcmconv +tb name.dcm /dev/stdout | cat > out", 0, "", "out", BIG),
    ("the null device", "dcmconv +tb name.dcm /dev/null", 0, "", "out", None),
    ("a named pipe", "dcmconv +tb name.dcm queue & cat queue > out; wait", 0, "", "out", BIG),
    ("a dump with the extract", "dcmdump tube.dcm > out", 0, "", "out", TUBE_LINES[0]),
    ("a dump with the whole dictionary", "dcmdump +dict tube.dcm > out", 0, "", "out", TUBE_LINES[1]),
    ("a dictionary after the path", "dcmdump tube.dcm -dict +dict > out", 0, "", "out", TUBE_LINES[1]),
    ("the last of two dictionaries", "dcmdump +dict tube.dcm -dict > out", 0, "", "out", TUBE_LINES[0]),
    ("a plan with the extract", "dcmconv +te plan.dcm out", 0, "", "out", OPAQUE_PLAN),
    ("a plan with the whole dictionary", "dcmconv +dict +te plan.dcm out", 0, "", "out", EXPLICIT_PLAN),
    ("a plan of standard streams", "dcmconv +te - - +dict < plan.dcm > out", 0, "", "out", EXPLICIT_PLAN),
    ("a plan with -dict after +dict", "dcmconv +dict +te -dict plan.dcm out", 0, "", "out", OPAQUE_PLAN),
    ("a plan that is dumped and built", 'dcmdump +L +dict plan.dcm | "$0" dump2dcm - out', 0, "", "out", implicit_plan(b"1 ")),
    ("an edit with the whole dictionary", "dcmodify +dict -m XRayTubeCurrent=90 tube.dcm out", 0, "", "out", TUBE_CHANGED),
    ("a dictionary after the edit", "dcmodify -m '(0018,1151)=90' +dict tube.dcm out", 0, "", "out", TUBE_CHANGED),
    ("+dict after -dict", "dcmodify -dict -m XRayTubeCurrent=90 +dict tube.dcm out", 0, "", "out", TUBE_CHANGED),
    (
        "an edit within a sequence of the standard",
        "dcmodify +dict -m 'DoseReferenceSequence[0].DoseReferenceNumber=2' plan.dcm out",
        0,
        "",
        "out",
        implicit_plan(b"2 "),
    ),
    ("a dictionary and no edits", "dcmodify +dict plan.dcm out", 0, "", "out", implicit_plan(b"1 ")),
    ("no edits with the extract", "dcmodify -dict plan.dcm out", 0, "", "out", PLAN),
    ("64 edits and a dictionary", "dcmodify +dict" + " -ep" * 64 + " +dict private.dcm out", 0, "", "out", NAME),
]

# a limit of the size of files, in KB, for a program that goes on for ever, or after some of its output
LIMITED = "trap '' XFSZ; ulimit -f {}; \"$0\" {}"

# Whole commands for a shell, in which `$0` is the program: the status, the line, and a path with what has to be there.
COMMANDS = [
    (what, LIMITED.format(5000, words), 4, SAME, "growing.dcm", GROWING)
    for what, words in [
        ("a conversion that reads itself", "dcmconv growing.dcm - >> growing.dcm"),
        ("a conversion that reads over itself", "dcmconv +te - - < growing.dcm 1<> growing.dcm"),
        ("a dump that reads itself", "dcmdump +L growing.dcm >> growing.dcm"),
        ("a dump that reads over itself", "dcmdump +L growing.dcm 1<> growing.dcm"),
        ("edits that read themselves", "dcmodify -ma Rows=1 - - < growing.dcm >> growing.dcm"),
    ]
]
COMMANDS += [
    (what, LIMITED.format(1, words), 4, "output failed", "out", LARGE[:1024])
    for what, words in [
        ("a limit of the size", "dcmconv large.dcm out"),
        ("a limit of the size of standard output", "dcmconv large.dcm - > out"),
        ("a limit of the size of edits", "dcmodify -ma Rows=1 large.dcm out"),
    ]
]
COMMANDS += [
    ("a stack of 1 MB", "ulimit -s 1024; \"$0\" dcmodify -m PatientName=Q name.dcm out", 0, "", "out", REPLACED),
    ("the mode of a new file", "umask 027; \"$0\" dcmconv name.dcm out; test $(stat -c %a out) = 640", 0, "", "out", NAME),
    (
        "the mode of an older file",
        "chmod 600 older; \"$0\" dcmconv +ow name.dcm older; test $(stat -c %a older) = 600",
        0,
        "",
        "older",
        NAME,
    ),
]

# the same, for root, with a folder in place of /proc
WITHOUT_PROC = [
    ("standard input", "\"$0\" dcmconv - name.dcm < name.dcm", 4, "output cannot be opened", "name.dcm", NAME),
    ("a link", "\"$0\" dcmconv name.dcm linked", 4, SAME, "name.dcm", NAME),
    ("another file", "\"$0\" dcmconv +tb - out < name.dcm", 0, "", "out", BIG),
    ("another stream", "\"$0\" dcmconv +tb - - < name.dcm > out", 0, "", "out", BIG),
    ("closed streams", "\"$0\" dcmconv +tb name.dcm out <&- >&- 2>&-", 0, "", "out", BIG),
]

# words that are answered with usage or a version, and what has to be in the answer
USAGE, VERSION = ("help", "--help", "-h"), ("version", "--version")
TOOLS = ("dcmdump", "dcmconv", "dump2dcm", "dcmodify")
ANSWERED = [([word], TOOLS) for word in USAGE]
ANSWERED += [([tool, word], (tool,)) for tool in TOOLS for word in USAGE]
ANSWERED += [(words, ("dcmtools", ".")) for word in VERSION for words in ([word], *([tool, word] for tool in TOOLS))]

# words that write to a pipe that nobody reads
CLOSED_PIPE = [
    ("a closed pipe of usage", ["--help"]),
    ("a closed pipe of a version", ["dcmconv", "version"]),
    ("a closed pipe of a dump", ["dcmdump", "name.dcm"]),
    ("a closed pipe", ["dcmconv", "name.dcm", "-"]),
    ("a closed pipe of a modification", ["dcmodify", "name.dcm", "-"]),
]


def prepare(folder):
    for path, content in FILES.items():
        with open(os.path.join(os.fsencode(folder), os.fsencode(path)), "wb") as file:
            file.write(content)
    os.link(os.path.join(folder, "name.dcm"), os.path.join(folder, "linked"))
    os.symlink("name.dcm", os.path.join(folder, "symbolic"))
    os.symlink("out", os.path.join(folder, "leading"))
    os.symlink("circle", os.path.join(folder, "circle"))
    os.mkfifo(os.path.join(folder, "queue"))


def content_of(path):
    if not os.path.exists(path):
        return None
    with open(path, "rb") as file:
        return file.read()


def ends_well(done, status, line):
    reported = f"dcmtools: {line}\n".encode() if line else b""
    if done.returncode == status and done.stderr == reported:
        return ""
    return f"status {done.returncode}, {done.stderr!r}"


def run_command(binary, folder, command):
    """The end of a command, or of what stopped it after a while."""
    return subprocess.run(
        ["timeout", "--foreground", "20", "bash", "-o", "pipefail", "-c", command, binary],
        cwd=folder,
        capture_output=True,
        timeout=60,
        check=False,
    )


def wrong_command(binary, command, status, line, path=None, content=None):
    """What is wrong with a command, or nothing."""
    with tempfile.TemporaryDirectory() as folder:
        prepare(folder)
        wrong = ends_well(run_command(binary, folder, command), status, line)
        found = content_of(os.path.join(folder, path)) if path and not wrong else content
        if found == content:
            return wrong
        return f"{path} is {found and found[:400]!r}, of {found and len(found)} bytes"


def wrong_case(binary, words, *rest):
    """The same of words after the program."""
    return wrong_command(binary, f'"$0" {words}', *rest)


def wrong_without_proc(binary, command, *rest):
    """The same of a command on a system without /proc."""
    inner = f"mount -t tmpfs none /proc && {command}"
    return wrong_command(binary, f"exec unshare -m bash -c {shlex.quote(inner)} \"$0\"", *rest)


def wrong_answer(binary, words, parts):
    """The same of words that are answered on standard output."""
    with tempfile.TemporaryDirectory() as folder:
        prepare(folder)
        done = subprocess.run([binary, *words], cwd=folder, capture_output=True, timeout=60, check=False)
        missing = [part for part in parts if part.encode() not in done.stdout]
        whole = done.stdout.endswith(b"\n")
        return ends_well(done, 0, "") or ("" if whole and not missing else f"the answer is {done.stdout!r}")


def wrong_pipe(binary, words):
    """The same of words whose output goes to a pipe that nobody reads."""
    with tempfile.TemporaryDirectory() as folder:
        prepare(folder)
        reader, writer = os.pipe()
        os.close(reader)
        done = subprocess.run(
            [binary, *words], cwd=folder, stdout=writer, stderr=subprocess.PIPE, timeout=60, check=False
        )
        os.close(writer)
        return ends_well(done, 4, "output failed")


def answers_without_proc(binary):
    """The cases of a system without /proc, where this can be tried."""
    tried = subprocess.run(["unshare", "-m", "mount", "-t", "tmpfs", "none", "/proc"], capture_output=True, check=False)
    if tried.returncode:
        print("a system without /proc is not tried: this takes root, and the right to mount")
        return []
    return [(f"{what} without /proc", wrong_without_proc(binary, *rest)) for what, *rest in WITHOUT_PROC]


def main():
    binary = os.path.abspath(sys.argv[1] if len(sys.argv) > 1 else os.path.join(ROOT, "crates/dcmtools/out/dcmtools"))
    answers = [(what, wrong_case(binary, *rest)) for what, *rest in CASES + WRITTEN]
    answers += [(what, wrong_command(binary, *rest)) for what, *rest in COMMANDS]
    answers += answers_without_proc(binary)
    answers += [(" ".join(words), wrong_answer(binary, words, parts)) for words, parts in ANSWERED]
    answers += [(what, wrong_pipe(binary, words)) for what, words in CLOSED_PIPE]
    for what, wrong in answers:
        if wrong:
            print(f"{what}: {wrong}")
    wrong = sum(bool(wrong) for _, wrong in answers)
    print(f"{len(answers)} cases, {wrong} wrong")
    return 1 if wrong else 0


if __name__ == "__main__":
    sys.exit(main())
