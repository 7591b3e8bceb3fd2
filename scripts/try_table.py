#!/usr/bin/python3
"""Makes a table of real files, and looks at its cells with the eyes of other programs.

    scripts/try_table.py BINARY FOLDER..

One run of `dcm2csv +by -k .. @-` has a row for each DICOM file below the folders. Each cell is compared with the value that
pydicom has (Debian's python3-pydicom): its bytes without trailing 00 and 20, or its numbers; and, where DCMTK is there, with
what its `dcmdump -M +F +P` prints of the outermost level. The same table without `+by` has to be valid UTF-8, with the same
cells but for the bytes that are escaped.

Each kind of difference is printed with the number of cells and the first files. Kinds that have a reason are listed in
REASONS. The last line is `N files, M cells, K differences without a reason`; the status is 1 where K is not 0."""
import csv
import io
import os
import re
import shutil
import subprocess
import sys
import warnings

import pydicom

from try_identity import sources

COLUMNS = {"PatientID": 0x0010_0020, "Modality": 0x0008_0060, "StudyDate": 0x0008_0020, "Rows": 0x0028_0010,
           "SOPInstanceUID": 0x0008_0018, "PatientName": 0x0010_0010}
NUMBERS = {"Rows"}
SHOWN_FILES = 3
REASONS = {
    "pydicom, after R6": "a deflated file is refused after its meta group",
    "DCMTK, after R6": "a deflated file is refused after its meta group",
    "pydicom, after R7": "pydicom finds that a data set is implicit, though its transfer syntax is explicit",
    "DCMTK: nothing of the file": "DCMTK prints nothing of a file that is cut, a table has what comes before",
}


def table_of(binary, paths, options):
    """The rows by their files, and the fault that is reported of a file."""
    words = [binary, "dcm2csv", *options, *(word for column in COLUMNS for word in ("-k", column)), "@-"]
    run = subprocess.run(words, input=b"".join(path + b"\n" for path in paths), capture_output=True)
    rows = list(csv.reader(io.StringIO(run.stdout.decode("latin-1"), newline="")))
    if rows[0] != ["File", *COLUMNS]:
        sys.exit(f"the header is {rows[0]}")
    faults = dict(re.findall(rb"^dcmtools: (.*): (R\d+) at byte \d+: .*$", run.stderr, re.M))
    cells = {row[0].encode("latin-1"): [cell.encode("latin-1") for cell in row[1:]] for row in rows[1:]}
    return run.stdout, cells, {path: fault.decode() for path, fault in faults.items()}


def pydicom_cells(path):
    """The cells by pydicom, or why it has none."""
    try:
        data_set = pydicom.dcmread(os.fsdecode(path), stop_before_pixels=True, force=True)
    except Exception as error:
        return f"pydicom: {type(error).__name__}"
    return [pydicom_cell(data_set, column, tag) for column, tag in COLUMNS.items()]


def pydicom_cell(data_set, column, tag):
    if tag not in data_set:
        return b""
    if column in NUMBERS:
        value = data_set[tag].value
        return b"" if value is None else str(value).encode()
    value = data_set.get_item(tag).value
    return (value if isinstance(value, bytes) else b"" if value is None else str(value).encode()).rstrip(b"\0 ")


def unknown_bytes(digits):
    """The bytes of an unknown value, by the digits that DCMTK prints. A table has it by the dictionary (PS3.5 6.2.2)."""
    return bytes.fromhex(digits.decode().replace("\\", ""))


def dcmtk_cells(paths):
    """The cells by DCMTK of each file."""
    words = ["dcmdump", "-q", "-M", "-Un", "+F", "+L", "+p", *(word for column in COLUMNS for word in ("+P", column)), *paths]
    out = subprocess.run(words, capture_output=True).stdout
    parts = re.split(rb"^# dcmdump \(\d+/\d+\): (.*)\n", out, flags=re.M)
    found = {path: {} for path in parts[1::2]}
    line = re.compile(rb"\(([0-9a-f]{4}),([0-9a-f]{4})\) (..) (?:\[(.*)\]|\(no value available\)|(\S+)) +# +\d+, ?\d+ \w+", re.S)
    for path, lines in zip(parts[1::2], parts[2::2]):
        for text in re.split(rb"\n(?=\()", lines.rstrip(b"\n")):
            if shown := line.fullmatch(text):
                tag = int(shown[1] + shown[2], 16)
                value = shown[4] or shown[5] or b""
                found[path].setdefault(tag, (unknown_bytes(value) if shown[3] == b"UN" else value).rstrip(b"\0 "))
    return {path: [cells.get(tag, b"") for tag in COLUMNS.values()] for path, cells in found.items() if cells}


def escaped(cell):
    return cell.decode("utf-8", "backslashreplace").encode()


class Differences:
    """Kinds of differences, with the files in which they are."""

    def __init__(self):
        self.kinds = {}

    def note(self, kind, path, *cells):
        self.kinds.setdefault(kind, []).append((os.path.basename(path), cells))

    def shown(self):
        """Prints them, and answers how many have no reason."""
        without = 0
        for kind, found in sorted(self.kinds.items()):
            reason = REASONS.get(kind)
            without += 0 if reason else len(found)
            print(f"{kind}: {len(found)}: {reason or 'NO REASON'}")
            for path, cells in found[:SHOWN_FILES]:
                print("   ", os.fsdecode(path), *(repr(cell[:60]) for cell in cells))
        return without


def kind_of(ours, theirs, fault):
    """The kind of a difference of two cells."""
    if fault:
        return f"after {fault}"
    return "empty here" if not ours else "empty there" if not theirs else "another value"


def compared(program, path, cells, others, fault, differences):
    """Compares the cells of a row with those of another program."""
    if isinstance(others, str):
        if any(cells):
            differences.note(others, path)
        return
    for column, ours, theirs in zip(COLUMNS, cells, others):
        if ours != theirs:
            differences.note(f"{program}, {kind_of(ours, theirs, fault)}", path, column.encode(), ours, theirs)


def main():
    binary, folders = sys.argv[1], sys.argv[2:]
    warnings.simplefilter("ignore")
    pydicom.config.settings.reading_validation_mode = pydicom.config.IGNORE
    paths = [os.fsencode(path) for path in sources(folders)]
    differences = Differences()
    _, rows, faults = table_of(binary, paths, ["+by"])
    whole, valid_rows, _ = table_of(binary, paths, [])
    whole.decode("utf-8")
    by_dcmtk = dcmtk_cells(paths) if shutil.which("dcmdump") else {}
    for path in paths:
        if path not in rows:
            differences.note("no row", path)
            continue
        if [escaped(cell) for cell in rows[path]] != valid_rows[path]:
            differences.note("other cells without +by", path)
        compared("pydicom", path, rows[path], pydicom_cells(path), faults.get(path), differences)
        if by_dcmtk:
            compared("DCMTK", path, rows[path], by_dcmtk.get(path, "DCMTK: nothing of the file"), faults.get(path), differences)
    without = differences.shown()
    for number in sorted(set(faults.values())):
        print(f"{number}: {sum(fault == number for fault in faults.values())} files")
    print(f"{len(paths)} files, {len(paths) * len(COLUMNS)} cells, {without} differences without a reason")
    return 1 if without else 0


if __name__ == "__main__":
    sys.exit(main())
