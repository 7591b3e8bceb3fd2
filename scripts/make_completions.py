#!/usr/bin/env python3
"""Makes the parts of the completions that the program's tables have: tools, options, and keywords.

    scripts/make_completions.py            writes the parts, and completions/dcmtools.keywords
    scripts/make_completions.py --check    exits with 0 if the completions are what the tables say

Tools and options are those of the program's help, by scripts/make_options.py. The keywords that edits may name without `+dict` are those
of the extract. The file of keywords has those that both completions offer with `+dict` and after `-k`: each line is a letter and a
keyword, `v` of a value and `s` of a sequence, which edits may name with `+dict`; `c` of an element that only a column may name, since it
is of the meta group, or the standard leaves its VR open.
"""
import re
import sys
import textwrap
from pathlib import Path

sys.dont_write_bytecode = True

from made_pages import told, with_part, write_or_tell
from make_options import CONSTANTS, Option, options_of, tools

ROOT = Path(__file__).resolve().parent.parent
DICTIONARY = ROOT / "crates" / "dcm_base" / "src" / "dictionary"
KEYWORDS = ROOT / "completions" / "dcmtools.keywords"
BASH = ROOT / "completions" / "dcmtools.bash"
ZSH = ROOT / "completions" / "_dcmtools"
BEGIN, END = "# tables: written by scripts/make_completions.py", "# end of tables"
META_GROUP = 0x0002
WIDTH = 118


def group_of(number: str) -> int:
    return int(number.replace("_", ""), 16) >> 16


def standard() -> list:
    """The lines of the elements that have one VR."""
    text = (DICTIONARY / "standard.rt").read_text()
    keywords = re.search(r'const KEYWORDS: &str = "\\\n(.*?)";', text, re.S)[1].replace("\\\n", "").replace("\\n", "\n")
    lines = []
    for number, vr, start, size in re.findall(r"\((0x[0-9A-Fa-f_]+), Vr::(\w\w), (\d+), (\d+)\)", text):
        kind = "c" if group_of(number) == META_GROUP else "s" if vr == "SQ" else "v"
        lines.append(f"{kind} {keywords[int(start):int(start) + int(size)]}")
    return lines


def ambiguous() -> list:
    """The lines of those between two VRs."""
    text = (DICTIONARY / "ambiguous.rt").read_text().split("const AMBIGUOUS:")[1].split("];")[0]
    return [f"c {keyword}" for keyword in re.findall(r'"(\w+)"', text)]


def extract(is_sequence: bool) -> list:
    """The keywords of the extract that an edit may name, of sequences or of values, in lines."""
    text = (DICTIONARY / "extract.rt").read_text().split("const ELEMENTS:")[1].split("];")[0]
    rows = re.findall(r'\(\s*(0x[0-9A-Fa-f_]+),\s*Vr::(\w\w),\s*"(\w+)",?\s*\)', text)
    return textwrap.wrap(" ".join(word for number, vr, word in rows if group_of(number) != META_GROUP and (vr == "SQ") == is_sequence), WIDTH)


def described(option: Option) -> str:
    """An option as zsh describes it: what its argument is, and the first part of its text."""
    text = f"{option.argument}: {option.text}" if option.argument.isupper() else option.text
    return f"    '{option.word}:" + text.split(";")[0].replace("\\", "\\\\").replace(":", "\\:") + "'"


def once(tool: str) -> list:
    """The options of a tool, each word once."""
    return list({option.word: option for option in reversed(options_of(tool))}.values())[::-1]


def for_bash() -> str:
    lines = [f"_dcmtools_tools='{' '.join(CONSTANTS)}'"]
    lines += [f"_dcmtools_of_{tool}='{' '.join(option.word for option in once(tool))}'" for tool in CONSTANTS]
    for name, is_sequence in (("values", False), ("sequences", True)):
        lines += [f"_dcmtools_{name}='", *(f"    {line}" for line in extract(is_sequence)), "'"]
    return "\n".join(lines)


def for_zsh() -> str:
    lines = ["_dcmtools_tools=(", *(f"    '{tool}:{text}'" for tool, text in tools().items()), ")"]
    for tool in CONSTANTS:
        lines += [f"_dcmtools_of_{tool}=(", *map(described, once(tool)), ")"]
    for name, is_sequence in (("values", False), ("sequences", True)):
        lines += [f"_dcmtools_{name}=(", *(f"    {line}" for line in extract(is_sequence)), ")"]
    return "\n".join(lines)


def main() -> int:
    keywords = "".join(f"{line}\n" for line in sorted({*standard(), *ambiguous()}, key=lambda line: line[2:]))
    wrong = write_or_tell(KEYWORDS, keywords)
    for page, made in ((BASH, for_bash()), (ZSH, for_zsh())):
        text = page.read_text()
        missing = [f"{page.name} has no line {line}" for line in (BEGIN, END) if f"{line}\n" not in text]
        wrong += missing or write_or_tell(page, with_part(text, BEGIN, END, made, "\n"))
    return told(wrong)


if __name__ == "__main__":
    sys.exit(main())
