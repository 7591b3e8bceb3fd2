#!/usr/bin/env python3
"""Makes tables.rt and gb_tables.rt of crates/dcm_text/src, the characters of the sets of PS3.3 C.12.1.1.2, from the codecs of Python (3.11),
and digests.rt of crates/library_tests/src/texts, by which a test knows the characters of each set.

    scripts/make_charsets.py              writes the three
    scripts/make_charsets.py --check      ends with 1 where a file is another one
    scripts/make_charsets.py --iconv      tells where iconv of glibc has another character, and ends with 1 where OTHERWISE does not say so

A right half of one byte is 96 numbers, of the bytes A0 to FF. A set of 94 x 94 is the numbers of its rows, 94 each, from the rows
in ROWS one after another. GB18030 is 126 rows (81 to FE, in three tables) of 190 (40 to 7E, 80 to FE), and the ranges of its four
bytes: the number of the first, and its character. 0 is no character. A digest is SHA-256 of what cells show of all forms of a set, one
after another: the character in UTF-8, or each byte as \\xNN.
"""
import ctypes
import hashlib
import sys
from pathlib import Path

SOURCES = Path(__file__).parent.parent / "crates/dcm_text/src"
DIGESTS = Path(__file__).parent.parent / "crates/library_tests/src/texts/digests.rt"
SINGLE = {"13": "shift_jis", "100": "latin_1", "101": "iso8859_2", "109": "iso8859_3", "110": "iso8859_4", "126": "iso8859_7",
          "127": "iso8859_6", "138": "iso8859_8", "144": "iso8859_5", "148": "iso8859_9", "166": "tis_620", "203": "iso8859_15"}
DOUBLE = {"87": ("euc_jp", b""), "149": ("euc_kr", b""), "58": ("gb2312", b""), "159": ("euc_jp", b"\x8f")}
# of these sets both bytes of a pair are from A1 to FE
HIGH = ("149", "58")
ROWS = {"87": ((1, 8), (16, 84)), "149": ((1, 12), (16, 40), (42, 93)), "58": ((1, 9), (16, 87)), "159": ((2, 2), (6, 7), (9, 11), (16, 77))}
# what the codec has otherwise than the standard's own tables
CHANGED = {("159", 0x2237): 0xFF5E, ("149", 0x2268): 0x327E, ("149", 0x2454): 0x3164}
ICONV = {n: "ISO-8859-15" if n == "203" else "SHIFT_JIS" if n == "13" else "ISO-IR-" + n for n in SINGLE}
ICONV.update({"87": "EUC-JP", "149": "EUC-KR", "58": "EUC-CN", "159": "EUC-JP", "GB": "GB18030"})
# where glibc has another character, or none, and why the codec's stays
STANDARD_OF_2000 = "GB18030-2000, as the codec has it: glibc has a later edition, which gave these a character outside of the private use area"
OTHERWISE = {("GB", b): STANDARD_OF_2000 for b in
             "a6d9 a6da a6db a6dc a6dd a6de a6df a6ec a6ed a6f3 a8bc fe51 fe52 fe53 fe59 fe61 fe66 fe67 fe6c fe6d fe76 fe7e fe90 fe91 fea0".split()}
OTHERWISE.update({("GB", b): STANDARD_OF_2000 + ", and so took it away here" for b in
                  "8135f437 82359037 82359038 82359039 82359130 82359131 82359132 82359133 82359134 84318236 84318237 84318238 84318239 "
                  "84318330 84318331 84318332 84318333 84318334 84318335".split()})
WIDTH = 900
# the second bytes of pairs of GB18030, and how many numbers of four bytes are below FFFF
TRAILS = [*range(0x40, 0x7F), *range(0x80, 0xFF)]
FOURS = 39420


def number(codec, b):
    """The number of the one character that the bytes are, or 0."""
    try:
        text = b.decode(codec)
    except UnicodeDecodeError:
        return 0
    return ord(text) if len(text) == 1 else 0


def single(n):
    return {bytes([b]): number(SINGLE[n], bytes([b])) for b in range(0xA0, 0x100)}


def double(n):
    """The numbers of the rows in ROWS, by the bytes; all other rows are empty, which is checked."""
    codec, before = DOUBLE[n]
    found, rows = {}, [r for low, high in ROWS[n] for r in range(low, high + 1)]
    for row in range(1, 95):
        for cell in range(1, 95):
            b = before + bytes([row + 0xA0, cell + 0xA0])
            x = CHANGED.get((n, (row + 0x20) << 8 | cell + 0x20)) or number(codec, b)
            assert x == 0 or (row in rows and 0xA0 <= x < 0x10000)
            if row in rows:
                found[b] = x
    return found


def gb_pairs():
    return {bytes([a, b]): number("gb18030", bytes([a, b])) for a in range(0x81, 0xFF) for b in TRAILS}


def four_bytes(linear):
    """The four bytes of a number."""
    rest, d = divmod(linear, 10)
    rest, c = divmod(rest, 126)
    a, b = divmod(rest, 10)
    return bytes([0x81 + a, 0x30 + b, 0x81 + c, 0x30 + d])


def gb_ranges():
    """Where numbers of four bytes and their characters begin to ascend together: the number, and its character."""
    ranges, last = [], None
    for linear in range(FOURS):
        x = number("gb18030", four_bytes(linear))
        if last is None or x != last + 1:
            ranges.append((linear, x))
        last = x
    return ranges


def packed(parts):
    lines, line = [], "    "
    for part in parts:
        if len(line) + len(part) > WIDTH:
            lines.append(line.rstrip())
            line = "    "
        line += part
    return "\n".join([*lines, line.rstrip()])


def array(name, what, numbers):
    body = packed([f"0x{x:04X}, " if x else "0, " for x in numbers])
    return f"\n/// {what}\n#[rattlefmt::skip]\npub static {name}: [u16; {len(numbers)}] = [\n{body}\n];\n"


def tables():
    text = "//! The characters of the sets of PS3.3 C.12.1.1.2; 0 is none. `scripts/make_charsets.py` wrote this file.\n"
    for n in SINGLE:
        text += array(f"RIGHT_{n}", f"The right half of ISO-IR {n}: bytes A0 to FF.", list(single(n).values()))
    for n in DOUBLE:
        rows = ", ".join(f"{a} to {b}" for a, b in ROWS[n])
        text += array(f"ROWS_{n}", f"The rows {rows} of ISO-IR {n}, 94 characters each.", list(double(n).values()))
    return text


def gb_tables():
    text = "//! The characters of GB18030; 0 is none. `scripts/make_charsets.py` wrote this file.\n"
    numbers = list(gb_pairs().values())
    size = len(numbers) // 3
    for k, (low, high) in enumerate((("81", "AA"), ("AB", "D4"), ("D5", "FE"))):
        what = f"The pairs of GB18030 whose first byte is {low} to {high}: for each the second bytes 40 to 7E and 80 to FE."
        text += array(f"GB_PAIRS_{low}", what, numbers[size * k:size * (k + 1)])
    ranges = gb_ranges()
    body = packed([f"({linear}, 0x{x:04X}), " for linear, x in ranges])
    return text + (f"\n/// Where ranges of four bytes of GB18030 begin: their number, and their character.\n#[rattlefmt::skip]\n"
                   f"pub static GB_RANGES: [(u16, u16); {len(ranges)}] = [\n{body}\n];\n")


def fours():
    return {four_bytes(linear): number("gb18030", four_bytes(linear)) for linear in range(FOURS)}


def all_forms():
    """The characters of all forms of each set, by its name."""
    return {**{n: single(n) for n in SINGLE}, **{n: double(n) for n in DOUBLE}, "GB": gb_pairs(), "GB_FOURS": fours()}


def shown(n, forms):
    """What cells show of all forms of a set, one after another."""
    if n in DOUBLE:
        before, rows = DOUBLE[n][1], range(0xA1, 0xFF)
        high = n in HIGH
        pairs = [(bytes([row, cell]), forms.get(before + bytes([row, cell]), 0)) for row in rows for cell in rows]
        forms = {b if high else bytes(x & 0x7F for x in b): x for b, x in pairs}
    return b"".join(chr(x).encode() if x else b"".join(b"\\x%02x" % y for y in b) for b, x in forms.items())


def digests():
    text = "//! SHA-256 of what cells show of all forms of a set. `scripts/make_charsets.py` wrote this file.\n"
    for n, forms in all_forms().items():
        numbers = packed([f"0x{x:02x}, " for x in hashlib.sha256(shown(n, forms)).digest()])
        text += f"\n#[rattlefmt::skip]\npub static OF_{n}: [u8; 32] = [\n{numbers}\n];\n"
    return text


def files():
    return {SOURCES / "tables.rt": tables(), SOURCES / "gb_tables.rt": gb_tables(), DIGESTS: digests()}


def by_iconv(name, b):
    """What glibc makes of the bytes, or an empty text."""
    lib = ctypes.CDLL("libc.so.6")
    lib.iconv_open.restype = ctypes.c_void_p
    lib.iconv.restype = ctypes.c_size_t
    lib.iconv.argtypes = [ctypes.c_void_p] * 5
    cd = by_iconv.opened.setdefault(name, lib.iconv_open(b"UTF-8", name.encode()))
    lib.iconv(cd, None, None, None, None)
    source, room = ctypes.create_string_buffer(b, len(b)), ctypes.create_string_buffer(64)
    start, end = ctypes.c_void_p(ctypes.addressof(source)), ctypes.c_void_p(ctypes.addressof(room))
    left, free = ctypes.c_size_t(len(b)), ctypes.c_size_t(64)
    failed = lib.iconv(cd, *map(ctypes.byref, (start, left, end, free))) == 2 ** 64 - 1
    lib.iconv(cd, None, None, ctypes.byref(end), ctypes.byref(free))
    return "" if failed or left.value else room.raw[:64 - free.value].decode()


by_iconv.opened = {}


def compare():
    """How many characters differ from those of glibc and are not in OTHERWISE, or are in it and do not differ."""
    wrong = 0
    for n, forms in all_forms().items():
        name = n.split("_")[0]
        found = [(b, x, by_iconv(ICONV[name], b)) for b, x in forms.items()]
        differ = [(b, x, g) for b, x, g in found if (chr(x) if x else "") != g]
        bad = [f"{b.hex()} {x:04X} {'+'.join(f'{ord(y):04X}' for y in g) or 'none'}" for b, x, g in differ if (name, b.hex()) not in OTHERWISE]
        same = [b.hex() for b, x, g in found if (name, b.hex()) in OTHERWISE and (chr(x) if x else "") == g]
        print(f"{n}: {len(differ)} differ{', of which not listed: ' if bad else ''}{', '.join(bad)}{'; listed, and do not differ: ' if same else ''}{', '.join(same)}")
        wrong += len(bad) + len(same)
    return wrong


def main(words):
    if words == ["--iconv"]:
        sys.exit(1 if compare() else 0)
    elif words == ["--check"]:
        for path, text in files().items():
            if path.read_text() != text:
                sys.exit(f"{path} is not what this script writes")
        print("the tables are what the codecs have")
    elif words:
        sys.exit(__doc__)
    else:
        for path, text in files().items():
            path.write_text(text)


if __name__ == "__main__":
    main(sys.argv[1:])
