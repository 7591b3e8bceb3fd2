#!/usr/bin/python3
"""Takes identity out of real files, and looks at the outputs with the eyes of other programs.

    scripts/try_identity.py BINARY FOLDER..

For each DICOM file below the folders: `dcmdeid +bi +k KEY FILE OUTPUT`, with a key of its own. What is written is read by
pydicom (Debian's python3-pydicom), at every depth, and judged by data/deidentify.tsv: no private element, no element that
the table removes, no value where it empties, a new UID where it renames. No text that was in an element of the table in
FILE, of at least six bytes, is among the bytes of OUTPUT, unless an element that is kept has it too. Where PixelMed's classes
are there (Debian's libpixelmed-java, and a Java compiler), `scripts/PixelmedFinds.java` asks its own removal of identity what
it would still take out, and each finding that is no replacement of ours is printed.

Then again with `+pi +rm -1234`: each date of OUTPUT is the one at its place in FILE, so many days earlier, and what follows it is
the same; where FILE has a date that can be moved, OUTPUT has one or nothing. Files of one PatientID have one pseudonym, and files
of two have two.

The last line is `N files, M written, K findings`; the status is 1 where K is not 0."""
import datetime
import glob
import os
import re
import shutil
import subprocess
import sys
import tempfile
import warnings
from pathlib import Path

import pydicom

TOP = Path(__file__).resolve().parent.parent
# what stays of the meta group
META = {0x0002_0001, 0x0002_0002, 0x0002_0010, 0x0002_0012, 0x0002_0013}
PUT = {0x0012_0062, 0x0012_0063, 0x0012_0064, 0x0028_0303}
REPLACED = {"ANONYMIZED", "000Y", "19000101", "000000", "19000101000000", "0", "2.25.0"}
SHORTEST = 6
DAYS = -1234
DATE = re.compile(r"\d{8}")
PATIENT_ID = 0x0010_0020


def fates():
    """The fate of each tag of the table; a range is a pair of texts with x, and is left to the private elements."""
    table = {}
    for line in (TOP / "data/deidentify.tsv").read_text().splitlines():
        cells = line.split("\t")
        if line[:1] == "#" or len(cells) < 4 or cells[0] == "tag" or len(cells[0]) != 9:
            continue
        try:
            table[int(cells[0].replace(",", ""), 16)] = cells[3]
        except ValueError:
            pass
    return table


def elements(data_set):
    """All elements, at every depth."""
    for element in data_set:
        yield element
        if element.VR == "SQ":
            for item in element.value:
                yield from elements(item)


def texts(element):
    """The texts of a value, without pads."""
    value = element.value
    values = value if isinstance(value, (list, pydicom.multival.MultiValue)) else [value]
    for one in values:
        text = one if isinstance(one, bytes) else str(one).encode("utf-8", "replace")
        text = text.strip(b"\0 ")
        if len(text) >= SHORTEST and element.VR not in ("SQ", "OB", "OW", "US", "SS", "UL", "SL", "FL", "FD", "AT"):
            yield text


def is_new_uid(uid):
    return uid == "" or uid.startswith("2.25.") or uid.startswith("1.2.840.10008.")


def wrong_element(element, table):
    """What is wrong with an element of an output, or nothing."""
    tag = int(element.tag)
    fate = "keep" if tag in PUT else table.get(tag, "keep")
    if element.tag.is_private:
        return "private"
    if fate == "remove":
        return "removed by the table"
    if fate == "empty" and element.VR != "SQ" and element.value not in (None, "", [], b""):
        return "not empty"
    if fate in ("empty", "replace", "uid") and element.VR == "SQ" and len(element.value):
        return "a sequence with items"
    if fate == "uid" and element.VR != "SQ" and not is_new_uid(str(element.value or "")):
        return "an old UID"
    return None


def judged(source, output, table):
    """The findings in one output."""
    before, after = (pydicom.dcmread(path, force=True) for path in (source, output))
    found = [(str(e.tag), why) for e in elements(after) if (why := wrong_element(e, table))]
    kept = {text for element in before.file_meta if int(element.tag) in META for text in texts(element)}
    taken = {}
    for element in elements(before):
        is_kept = table.get(int(element.tag), "keep") == "keep" and not element.tag.is_private
        for text in texts(element):
            if is_kept:
                kept.add(text)
            else:
                taken[text] = str(element.tag)
    whole = Path(output).read_bytes()
    for text, tag in taken.items():
        if text in whole and text.decode("latin-1") not in REPLACED and not any(text in k for k in kept):
            if not text.startswith(b"1.2.840.10008."):
                found.append((tag, f"its text is among the bytes: {text[:40]!r}"))
    return found


def placed(data_set, place=()):
    """All elements, at every depth, by their places."""
    for element in data_set:
        here = (*place, int(element.tag))
        yield here, element
        if element.VR == "SQ":
            for index, item in enumerate(element.value):
                yield from placed(item, (*here, index))


def parts(element):
    """The parts of a value, as texts."""
    value = element.value
    if value is None or value == "":
        return []
    values = value if isinstance(value, (list, pydicom.multival.MultiValue)) else [value]
    return [str(one).strip(" \0") for one in values]


def moved(part):
    """A part whose date is moved, or nothing where that cannot be."""
    try:
        if not DATE.match(part):
            return ""
        day = datetime.date(int(part[:4]), int(part[4:6]), int(part[6:8])) + datetime.timedelta(DAYS)
        return f"{day.year:04}{day.month:02}{day.day:02}{part[8:]}"
    except (ValueError, OverflowError):
        return ""


def wrong_dates(source, output):
    """What is wrong with the dates of an output, and how many are right."""
    before, after = (dict(placed(pydicom.dcmread(path, force=True))) for path in (source, output))
    found, right = [], 0
    for place, element in after.items():
        if element.VR not in ("DA", "DT") or not parts(element):
            continue
        wanted = [moved(part) if part else "" for part in parts(before[place])]
        if parts(element) == wanted:
            right += len(wanted)
        else:
            found.append((str(element.tag), f"is {parts(element)}, of {parts(before[place])}"))
    return found, right


def patient(path):
    """The PatientID of a file as its bytes, without pads."""
    element = pydicom.dcmread(path, force=True, stop_before_pixels=True).get_item(PATIENT_ID)
    return (element.value or b"").strip(b" ").rstrip(b"\0 ") if element is not None else b""


def wrong_pseudonyms(pairs):
    """Of pairs of PatientIDs: those that are two where they should be one, or one where they should be two."""
    some = {pair for pair in pairs if pair[0]}
    return [pair for pair in some if sum(pair[0] == other[0] or pair[1] == other[1] for other in some) > 1]


def sources(folders):
    for folder in folders:
        for path in sorted(Path(folder).rglob("*")):
            if path.is_file() and path.stat().st_size > 136:
                with open(path, "rb") as file:
                    if file.read(132)[128:] == b"DICM":
                        yield path


def pixelmed_findings(folder, outputs):
    """What PixelMed would still take out, but for our own replacements and what says what was done."""
    jars = glob.glob("/usr/share/java/*.jar")
    if not shutil.which("javac") or not any("pixelmed" in jar for jar in jars) or not outputs:
        print("PixelMed is not here")
        return []
    path = ":".join([folder, *jars])
    subprocess.run(["javac", "-cp", path, "-d", folder, str(TOP / "scripts/PixelmedFinds.java")], check=True)
    run = subprocess.run(["java", "-cp", path, "PixelmedFinds", *outputs], stdout=subprocess.PIPE,
                         stderr=subprocess.DEVNULL, check=True, text=True)
    lines = [line.split("\t") for line in run.stdout.splitlines()]
    print(sum(line[0] == "read" for line in lines), "outputs were read by PixelMed")
    return [line[1:] for line in lines if line[0] == "would change" and not is_ours(line[2], line[3])]


def is_ours(tag, value):
    return tag.startswith(("(0x0012,0x0063)", "(0x0012,0x0064)")) or value in REPLACED


def main():
    binary, folders = sys.argv[1], sys.argv[2:]
    table, count, written, found = fates(), 0, [], 0
    warnings.simplefilter("ignore")
    with tempfile.TemporaryDirectory() as folder:
        key = os.path.join(folder, "key")
        Path(key).write_bytes(os.urandom(32))
        shifted, dates, named = os.path.join(folder, "moved"), 0, set()
        for source in sources(folders):
            count += 1
            output = os.path.join(folder, f"{count}.dcm")
            run = subprocess.run([binary, "dcmdeid", "+bi", "+k", key, str(source), output], capture_output=True)
            if run.returncode:
                print(f"status {run.returncode}: {source}: {run.stderr.decode(errors='replace').strip()}")
                continue
            written.append(output)
            for tag, why in judged(source, output, table):
                found += 1
                print(f"{source}: {tag}: {why}")
            run = subprocess.run([binary, "dcmdeid", "+bi", "+k", key, "+pi", "+rm", str(DAYS), str(source), shifted], capture_output=True)
            if run.returncode:
                found += 1
                print(f"status {run.returncode}: {source}: {run.stderr.decode(errors='replace').strip()}")
                continue
            wrong, right = wrong_dates(source, shifted)
            dates += right
            for tag, why in wrong:
                found += 1
                print(f"{source}: {tag}: {why}")
            named.add((patient(source), patient(shifted)))
            os.remove(shifted)
        for pair in wrong_pseudonyms(named):
            found += 1
            print("pseudonym:", *pair)
        print(f"{dates} dates are moved, {len(named)} patients named")
        for finding in pixelmed_findings(folder, written):
            found += 1
            print("PixelMed:", *finding)
    print(f"{count} files, {len(written)} written, {found} findings")
    return 1 if found else 0


if __name__ == "__main__":
    sys.exit(main())
