#!/usr/bin/env python3
"""Shows real files in many character sets by `+u8`, and compares the names with those that a person of that language reads.

    /usr/bin/python3 scripts/try_texts.py [BINARY] [FOLDER..]

It needs pydicom (Debian's python3-pydicom), whose files for tests are in eleven sets: PS3.3 C.12.1.1.2 and the examples of PS3.5, annexes H, I,
J and K. Of each file the name that is written below has to be in the dump and in the table. Of all files of pydicom, and of FOLDERs, dumps and
tables by `+u8` have to be valid UTF-8, and so have the dumps of each file cut in its middle. Where no byte of the dump without `+u8` is above 7E
or an escape, the dump with it has to be the same but for the end of its first line.
"""
import os
import subprocess
import sys
from pathlib import Path

TOP = Path(__file__).resolve().parent.parent
BINARY = TOP / "crates/dcmtools/out/dcmtools"

# The names of pydicom's files, as they are read.
NAMES = {
    "chrArab.dcm": "قباني^لنزار",
    "chrFren.dcm": "Buc^Jérôme",
    "chrFrenMulti.dcm": "Buc^Jérôme\\Buc^Jérôme",
    "chrGerm.dcm": "Äneas^Rüdiger",
    "chrGreek.dcm": "Διονυσιος",
    "chrH31.dcm": "Yamada^Tarou=山田^太郎=やまだ^たろう",
    "chrH32.dcm": "ﾔﾏﾀﾞ^ﾀﾛｳ=山田^太郎=やまだ^たろう",
    "chrHbrw.dcm": "שרון^דבורה",
    "chrI2.dcm": "Hong^Gildong=洪^吉洞=홍^길동",
    "chrJapMulti.dcm": "やまだ^たろう\\やまだ^たろう",
    "chrJapMultiExplicitIR6.dcm": "やまだ^たろう\\やまだ^たろう",
    "chrKoreanMulti.dcm": "김희중\\김희중",
    "chrRuss.dcm": "Люкceмбypг",
    "chrSQEncoding.dcm": "ﾔﾏﾀﾞ^ﾀﾛｳ=山田^太郎=やまだ^たろう",
    "chrSQEncoding1.dcm": "ﾔﾏﾀﾞ^ﾀﾛｳ=山田^太郎=やまだ^たろう",
    "chrX1.dcm": "Wang^XiaoDong=王^小東=",
    "chrX2.dcm": "Wang^XiaoDong=王^小东=",
}

# The end of the first line of a dump by characters.
MARK = b" (texts in UTF-8)\n"

# Those whose name is in an item, where a table has no column for it, or in other names.
NOT_IN_TABLES = {"chrSQEncoding.dcm", "chrSQEncoding1.dcm", "chrFrenMulti.dcm", "chrJapMulti.dcm", "chrJapMultiExplicitIR6.dcm", "chrKoreanMulti.dcm"}


def printed(binary, *words, given=None):
    return subprocess.run([binary, *words], input=given, capture_output=True, check=False).stdout


def is_utf8(output):
    try:
        output.decode("utf-8")
    except UnicodeDecodeError:
        return False
    return True


def wrong_name(binary, path, name):
    dump = printed(binary, "dcmdump", "+u8", "+dict", "+L", path)
    table = printed(binary, "dcm2csv", "+u8", "+nh", "-k", "PatientName", path)
    wrong = [] if f"[{name}]".encode() in dump else [f"{path}: its dump does not show {name}"]
    in_table = path.name in NOT_IN_TABLES or f'"{name}"'.encode() in table
    return wrong + ([] if in_table else [f"{path}: its table does not show {name}: {table!r}"])


def wrong_bytes(binary, path):
    content = path.read_bytes()
    with_word = printed(binary, "dcmdump", "+u8", "+dict", "+L", path)
    without = printed(binary, "dcmdump", "+dict", "+L", path)
    cut = printed(binary, "dcmdump", "+u8", "+dict", "+L", "-", given=content[:len(content) // 2])
    table = printed(binary, "dcm2csv", "+u8", "-k", "PatientName", "-k", "PatientID", path)
    wrong = [f"{path}: the {what} is no UTF-8" for what, output in (("dump", with_word), ("cut dump", cut), ("table", table)) if not is_utf8(output)]
    is_ascii = without.isascii() and b"%1B" not in without
    return wrong + ([f"{path}: a dump of ASCII is another one"] if is_ascii and with_word != without.replace(b"\n", MARK, 1) else [])


def files_in(folder):
    return [Path(top) / name for top, _, names in os.walk(folder) for name in sorted(names)]


def main(words):
    import pydicom.data

    binary = Path(words[0]) if words and os.path.isfile(words[0]) else BINARY
    folders = [word for word in words if os.path.isdir(word)]
    own = Path(pydicom.data.__file__).parent
    sets = {path.name: path for path in files_in(own / "charset_files") if path.suffix == ".dcm"}
    missing = [f"{name} is not there" for name in NAMES if name not in sets]
    wrong = missing + [text for name, path in sets.items() if name in NAMES for text in wrong_name(binary, path, NAMES[name])]
    others = [path for folder in [own, *folders] for path in files_in(folder) if path.suffix != ".py" and path.is_file()]
    wrong += [text for path in others for text in wrong_bytes(binary, path)]
    for text in wrong:
        print(text)
    print(f"{len(sets)} files of character sets, {len(others)} files, {len(wrong)} wrong")
    return 1 if wrong else 0


if __name__ == "__main__":
    sys.exit(main(sys.argv[1:]))
