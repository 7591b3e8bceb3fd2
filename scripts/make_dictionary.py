#!/usr/bin/env python3
"""Makes crates/dcm_base/src/dictionary/standard.rt, the table of the whole data dictionary (PS3.6 sections 6 to 9, PS3.7 E).

    scripts/make_dictionary.py [--list] SOURCE
    scripts/make_dictionary.py --ambiguous SOURCE
    scripts/make_dictionary.py --extract

SOURCE is `_dicom_dict.py` of pydicom or `dicom.dic` of DCMTK: each is the standard's tables as a file. The table goes to standard
output, and one line on standard error tells which edition of the standard was read and how many elements are in the table.
With --list the rows go out as plain lines instead, to compare two sources. The table in the repository is of pydicom 2.3.1:

    scripts/make_dictionary.py /usr/lib/python3/dist-packages/pydicom/_dicom_dict.py > crates/dcm_base/src/dictionary/standard.rt

In the table is each element that has a keyword and exactly one VR, in tag order, retired ones too, and PixelData, as OW. Not in
it are the other elements between two VRs, those of repeating groups (tags with `xx`), items and delimiters, and elements without
a keyword.

With --ambiguous the elements between two VRs go out, without PixelData, and the places of their rows: the two tables of
crates/dcm_base/src/dictionary/ambiguous.rt. Each has the VR that an implicit head of it has where pixels are not signed: US for
`US or SS`, but UN for those that come before PixelRepresentation, which says whether they are; OW for all others (PS3.5 A.1).

Beside the table is `PLACES`, a guess at the row of a number by its remainder. It saves a search where it is right, and no proof
rests on it. With --extract the places of the extract go out, for crates/dcm_base/src/dictionary/extract.rt, where its elements are.
Of the extract and of the elements between two VRs each row stands at its place, which is proved; where two numbers share a
remainder, this stops: `EXTRACT_PLACES` or `AMBIGUOUS_PLACES` has to grow.
"""
import ast
import re
import sys
from pathlib import Path
from typing import NamedTuple

PIXEL_DATA = 0x7FE00010
PIXEL_REPRESENTATION = 0x00280103
ITEMS = 0xFFFE

# What the standard writes with `x` and DCMTK as one tag of them: (0028,04x0), (0028,08x0), (1000,xxx0), (1010,xxxx).
REPEATED = re.compile("002804[1-9A-F][0-3]|002808[0-9A-F][02348]|1000[0-9A-F]{3}[0-5]|1010[0-9A-F]{4}")


# What DCMTK calls a VR that the standard leaves open, and a UL that is an offset.
DCMTK_NAMES = {"up": "UL", "px": "OW", "xs": "US or SS", "lt": "US or SS or OW", "ox": "OB or OW"}

# The most columns of a line of the table.
WIDTH = 900

# How many remainders of a number have a place. Of the numbers below 5,000 this one tells most elements apart; more would tell more
# apart, and each check would take longer. Those of the two other tables are the least that tell all their elements apart.
PLACES = 4_917
EXTRACT_PLACES = 583
AMBIGUOUS_PLACES = 172


class Element(NamedTuple):
    number: int
    vr: str
    keyword: str


def read_pydicom(path: Path) -> tuple[str, list[Element]]:
    """The edition and the elements of `_dicom_dict.py`; the edition is in `_version.py` beside it."""
    tables = [s for s in ast.parse(path.read_text()).body if isinstance(s, ast.AnnAssign)]
    table = next(ast.literal_eval(s.value) for s in tables if s.target.id == "DicomDictionary")
    edition = re.search(r"__dicom_version__.*'(\w+)'", (path.parent / "_version.py").read_text())[1]
    return edition, [Element(number, row[0], row[4]) for number, row in table.items()]


def read_dcmtk(path: Path) -> tuple[str, list[Element]]:
    """The edition and the elements of `dicom.dic`: tag, VR, keyword, separated by tabulators. `up` is an UL."""
    text = path.read_text()
    edition = re.search(r"PS 3\.6-(\w+)", text)[1]
    elements = []
    for line in text.splitlines():
        row = re.match(r"\(([0-9A-Fa-f]{4}),([0-9A-Fa-f]{4})\)\t(\w+)\t(?:RETIRED_)?(\w+)\t", line)
        if row:
            vr = DCMTK_NAMES.get(row[3], row[3])
            elements.append(Element(int(row[1] + row[2], 16), vr, row[4]))
    return edition, elements


def is_in_table(element: Element) -> bool:
    one_vr = re.fullmatch("[A-Z]{2}", element.vr)
    item = element.number >> 16 == ITEMS
    return bool(one_vr and element.keyword and not item and not REPEATED.fullmatch(f"{element.number:08X}"))


def chosen(elements: list[Element]) -> list[Element]:
    """The elements of the table, in tag order."""
    elements = [e._replace(vr="OW") if e.number == PIXEL_DATA else e for e in elements]
    table = sorted(filter(is_in_table, elements))
    assert len({e.number for e in table}) == len({e.keyword for e in table}) == len(table)
    return table


def is_ambiguous(element: Element) -> bool:
    repeated = REPEATED.fullmatch(f"{element.number:08X}")
    return " or " in element.vr and element.number != PIXEL_DATA and not repeated


def unsigned_vr(element: Element) -> str:
    """The VR of an element between two, where pixels are not signed."""
    if element.vr != "US or SS":
        return "OW"
    return "UN" if element.number < PIXEL_REPRESENTATION else "US"


def packed(parts: list[str], indent: str) -> str:
    """Lines of as many parts as fit. Fewer lines make a smaller claim on the memory of the gate, which counts them."""
    lines, line = [], indent
    for part in parts:
        if len(line) + len(part) > WIDTH:
            lines.append(line.rstrip())
            line = indent
        line += part
    return "\n".join([*lines, line.rstrip()])


def places(numbers: list[int], first: set[int], count: int) -> str:
    """For each remainder of a number, the place of one that has it: one of the first, or the least. They are the lines of a table."""
    found = {}
    for place, number in sorted(enumerate(numbers), key=lambda it: (it[1] not in first, it[0])):
        found.setdefault(number % count, place)
    return packed([f"{found.get(it, 0)}, " for it in range(count)], "    ")


def places_of_all(numbers: list[int], count: int) -> str:
    """The same, where each number has a remainder of its own. Stops where two share one."""
    if len({number % count for number in numbers}) < len(numbers):
        sys.exit(f"two numbers have one remainder by {count}: take a greater one")
    return places(numbers, set(), count)


def tag_of(element: Element) -> str:
    return f"0x{element.number >> 16:04X}_{element.number & 0xFFFF:04X}"


def ambiguous(elements: list[Element]) -> str:
    """The two tables of the elements between two VRs."""
    table = sorted(filter(is_ambiguous, elements))
    rows = [f'    ({tag_of(e)}, Vr::{unsigned_vr(e)}, "{e.keyword}"),' for e in table]
    return "\n".join([*rows, "", places_of_all([e.number for e in table], AMBIGUOUS_PLACES)])


def extract() -> list[int]:
    """The numbers of the elements of the extract."""
    text = (Path(__file__).parent.parent / "crates/dcm_base/src/dictionary/extract.rt").read_text()
    return [int(n.replace("_", ""), 16) for n in re.findall(r"\b0x[0-9A-F]{4}_[0-9A-F]{4}\b", text)]


def rust(edition: str, elements: list[Element]) -> str:
    """The file of the table."""
    text = "".join(e.keyword + "\n" for e in elements)
    keywords = packed([e.keyword + "\\n" for e in elements], "").replace("\n", "\\\n")
    rows, start = [], 0
    for e in elements:
        rows.append(f"({tag_of(e)}, Vr::{e.vr}, {start}, {len(e.keyword)}), ")
        start += len(e.keyword) + 1
    return f"""//! The data dictionary of the standard (PS3.6 sections 6 to 9, PS3.7 E), edition {edition}.
//! `scripts/make_dictionary.py` wrote this file.
use crate::vr::Vr;

/// A data element: its number, its value representation, where in `KEYWORDS` its keyword begins, and how long that is.
pub type Entry = (u32, Vr, u32, u8);

/// The keywords of the elements, one a line.
pub const KEYWORDS: &str = "\\
{keywords}";

/// The elements, in tag order.
#[rattlefmt::skip]
pub const STANDARD: [Entry; {len(elements)}] = [
{packed(rows, "    ")}
];

/// A guess at the place of a number in `STANDARD`, by its remainder: most of them are right.
#[rattlefmt::skip]
pub const PLACES: [u16; {PLACES}] = [
{places([e.number for e in elements], {*extract()}, PLACES)}
];
"""


def main(words: list[str]) -> int:
    if words == ["--extract"]:
        print(places_of_all(extract(), EXTRACT_PLACES))
        return 0
    paths = [Path(w) for w in words if w not in ("--list", "--ambiguous")]
    if len(paths) != 1:
        print(__doc__, file=sys.stderr)
        return 1
    read = read_dcmtk if paths[0].suffix == ".dic" else read_pydicom
    edition, elements = read(paths[0])
    if "--ambiguous" in words:
        print(ambiguous(elements))
        return 0
    table = chosen(elements)
    if "--list" in words:
        for e in table:
            print(f"({e.number >> 16:04x},{e.number & 0xFFFF:04x}) {e.vr} {e.keyword}")
    else:
        sys.stdout.write(rust(edition, table))
    print(f"PS3.6 {edition}: {len(table)} of {len(elements)} elements", file=sys.stderr)
    return 0


if __name__ == "__main__":
    sys.exit(main(sys.argv[1:]))
