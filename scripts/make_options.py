#!/usr/bin/env python3
"""Writes the options of each tool into docs/users/PROFILE.md and man/dcmtools.1, as the program's help has them.

    scripts/make_options.py            writes the lists of options
    scripts/make_options.py --check    ends with 1 where a page has another list

The one table of options is the help of the program, crates/dcm_words/src/texts.rt. The prover reads this file, and its bytes reach each
user. So the file stays as a person wrote it, and the other places are made of it: a script that wrote the file would have to know the
columns and line breaks of each help text. scripts/make_completions.py makes the lists of both completions of the same table.
"""
import re
import sys
from functools import lru_cache
from pathlib import Path
from typing import NamedTuple

sys.dont_write_bytecode = True

from made_pages import told, with_part, write_or_tell

ROOT = Path(__file__).resolve().parent.parent
TEXTS = ROOT / "crates/dcm_words/src/texts.rt"
PROFILE = ROOT / "docs/users/PROFILE.md"
MANUAL = ROOT / "man/dcmtools.1"
CONSTANTS = {"dcmdump": "DUMP", "dcmconv": "CONVERT", "dump2dcm": "BUILD", "dcmodify": "MODIFY", "dcmdeid": "DEIDENTIFY", "dcm2csv": "TABLE"}

# The options of runs over a folder, which have one list for three tools.
FOLDERS = "a folder"
OF_FOLDERS = ("dcmconv", "dcmodify", "dcmdeid")

# What stands for something else in a text: the manual page has it in small letters.
STANDS_FOR = ("FILE", "FOLDER", "OUTPUT", "NAME", "STUDY", "SERIES", "INSTANCE", "KEY", "N", "I")

# Where PROFILE says more of an option: the anchor of a heading.
MORE = {
    ("dcmdump", "+u8"): "texts-as-characters",
    ("dcmdump", "+P"): "named-elements",
    ("dcmdump", "+dict"): "the-dictionaries",
    ("dcmdump", "+F"): "dumps-of-several-files",
    ("dcmconv", "+ow"): "the-output",
    ("dcmodify", "+dict"): "the-dictionaries",
    ("dcmdeid", "+rm N"): "date-shift",
    ("dcmdeid", "+rm key"): "date-shift-by-the-key",
    ("dcmdeid", "+pi"): "pseudonyms",
    ("dcmdeid", "+k"): "new-unique-identifiers",
    ("dcmdeid", "+ow"): "the-output",
    ("dcm2csv", "+u8"): "texts-as-characters",
    (FOLDERS, "+r of dcmdeid"): "new-names",
}


class Option(NamedTuple):
    word: str
    argument: str
    text: str

    @property
    def name(self) -> str:
        return f"{self.word} {self.argument}".rstrip()


@lru_cache
def text_of(constant: str) -> str:
    """A text of the program, by the name of its constant."""
    return re.search(rf'const {constant}: &str = "(?:\\\n)?(.*?)";', TEXTS.read_text(), re.S)[1].replace("\\\\", "\\")


def options_of(tool: str) -> list:
    """The options in the help of a tool, in their order. An option is on an indented line, and lines that are indented further go on with it."""
    options = []
    for line in text_of(CONSTANTS[tool]).splitlines():
        if begun := re.fullmatch(r"  ([-+]\S+)(?: (key|[A-Z]\S*))?(?: +(.*))?", line):
            options.append(Option(begun[1], begun[2] or "", begun[3] or ""))
        elif options and re.match(r" {5,}\S", line):
            options[-1] = options[-1]._replace(text=f"{options[-1].text} {line.strip()}".strip())
    return options


def tools() -> dict:
    """What each tool does, as the help of the program says."""
    rows = re.findall(r"^  dcmtools (\w+) .*?  +(\w.*)$", text_of("PROGRAM"), re.M)
    return {tool: text for tool, text in rows if tool in CONSTANTS}


def is_of_folders(option: Option) -> bool:
    return option.word == "+r" or option.text.startswith("with +r: ")


def own_options(tool: str) -> list:
    """The options of a tool that are not those of runs over a folder."""
    return [option for option in options_of(tool) if tool not in OF_FOLDERS or not is_of_folders(option)]


def folder_options() -> list:
    """The options of runs over a folder, each with its name: one that a tool alone has, or of which it says something else, is `of` the tool."""
    said = {}
    for tool in OF_FOLDERS:
        for option in filter(is_of_folders, options_of(tool)):
            own = option._replace(text=option.text.removeprefix("with +r: "))
            said.setdefault(own.name, {}).setdefault(own, []).append(tool)
    return [(name if len(of) > 1 else f"{name} of {of[0]}", option) for name, texts in said.items() for option, of in texts.items()]


# ---- PROFILE


def rows_of(tool: str, named: list) -> str:
    rows = ["| Option | Effect |", "|---|---|"]
    for name, option in named:
        anchor = MORE.get((tool, name)) or MORE.get((tool, option.word))
        rest = name.removeprefix(option.name)
        text = option.text.replace("|", "\\|")
        rows.append(f"| `{option.name}`{rest} | {text}{f' ([more](#{anchor}))' if anchor else ''} |")
    return "\n".join(rows)


# ---- the manual page


def macros_of(option: Option) -> str:
    """An option as mdoc has it: what stands for something else is in small letters."""
    word = f"Fl {option.word[1:]}" if option.word.startswith("-") else f"Cm {option.word}"
    if not option.argument:
        return word
    if option.argument.islower():
        return f"{word} {option.argument}"
    parts = re.split(r"([=/])", option.argument.lower())
    return f"{word} Ar " + " ".join(part if part not in "=/" else f"Ns {part} Ns Ar" for part in parts)


def sentence_of(text: str) -> str:
    """The text of an option as a sentence of the manual page."""
    text = text[0].upper() + text[1:] + "."
    text = re.sub(r"(?<!\S)-(?=\w)", r"\-", text.replace("\\", "\\e"))
    return re.sub(rf"\b(?:{'|'.join(STANDS_FOR)})\b", lambda word: rf"\fI{word[0].lower()}\fP", text)


def items_of(named: list) -> str:
    lines = [".Bl -tag -width Ds"]
    for name, option in named:
        rest = name.removeprefix(option.name)
        lines += [f".It {macros_of(option)}{f' No{rest}' if rest else ''}", sentence_of(option.text)]
    return "\n".join([*lines, ".El"])


def wrong() -> list:
    """What MORE names, and no tool has."""
    named = {(tool, name) for tool in CONSTANTS for option in own_options(tool) for name in (option.name, option.word)}
    named |= {(FOLDERS, name) for name, _ in folder_options()}
    return [f"no option {name} of {tool}" for tool, name in MORE if (tool, name) not in named]


def main() -> int:
    lists = {tool: [(option.name, option) for option in own_options(tool)] for tool in CONSTANTS} | {FOLDERS: folder_options()}
    profile, manual, faults = PROFILE.read_text(), MANUAL.read_text(), wrong()
    for of, named in lists.items():
        begin, end = f"<!-- options of {of}: written by scripts/make_options.py -->", f"<!-- end of options of {of} -->"
        faults += [f"PROFILE has no line {line}" for line in (begin, end) if line not in profile]
        profile = with_part(profile, begin, end, rows_of(of, named))
        begin, end = f'.\\" options of {of}: written by scripts/make_options.py', f'.\\" end of options of {of}'
        faults += [f"the manual page has no line {line}" for line in (begin, end) if line not in manual]
        manual = with_part(manual, begin, end, items_of(named), "\n")
    if faults:
        return told(faults)
    return told(write_or_tell(PROFILE, profile) + write_or_tell(MANUAL, manual))


if __name__ == "__main__":
    sys.exit(main())
