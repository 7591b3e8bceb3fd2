#!/usr/bin/env python3
"""Checks the pages: README, CHANGELOG, CONTRIBUTING, docs and the manual page. The program is not run.

    scripts/check_texts.py            all checks below; the words of each page, and the longest sentences
    scripts/check_texts.py --items    the public items of the crates that have no comment

- Words: a page's words are those with a letter or a digit, and each page has at most those of MOST_WORDS.
- Sentences: at most MOST_LONG of more than LONG words on all pages, and none of more than LONGEST. A code span is a word.
- Links and anchors, paths of files, names of pages in the crates' comments, and numbers of decisions lead somewhere.
- Numbers that are in the tree are the same on the pages: elements, limits, edits, faults, crates (FACTS).
- Each line on standard error has its cause in PROFILE's tables of faults, or in the manual's DIAGNOSTICS; what a newcomer has to be
  told is said in each place (TOLD).
- The version, the edition of the dictionary and the exit statuses are those of the program's texts (crates/dcm_words/src/texts.rt).
  The options of these texts are in the pages and completions by scripts/make_options.py and scripts/make_completions.py.

Exits with 0 if nothing is wrong.
"""
import re
import sys
from functools import lru_cache
from pathlib import Path

sys.dont_write_bytecode = True

from make_options import CONSTANTS, text_of

ROOT = Path(__file__).resolve().parent.parent
MANUAL = "man/dcmtools.1"
# scripts/make_laws.py makes this page of the comments of laws.
GENERATED = "docs/auditors/LAWS.md"

# The most words of each page.
MOST_WORDS = {
    "README.md": 720,
    "CHANGELOG.md": 525,
    "CONTRIBUTING.md": 1_236,
    "docs/PERF.md": 1_176,
    "docs/auditors/DEFINITIONS.md": 1_758,
    "docs/auditors/PROVED.md": 1_545,
    "docs/engineers/ARCHITECTURE.md": 1_863,
    "docs/engineers/DECISIONS.md": 2_520,
    "docs/engineers/GATE.md": 309,
    "docs/engineers/GLOSSARY.md": 618,
    "docs/users/BENCHMARKS.md": 515,
    "docs/users/COOKBOOK.md": 1_854,
    "docs/users/PROFILE.md": 5_745,
    MANUAL: 3_550,
}
LONG, LONGEST, MOST_LONG = 30, 45, 20


@lru_cache
def read(path: str) -> str:
    return (ROOT / path).read_text()


def pages() -> list:
    docs = sorted(str(path.relative_to(ROOT)) for path in ROOT.glob("docs/**/*.md"))
    docs.remove(GENERATED)
    return ["README.md", "CHANGELOG.md", "CONTRIBUTING.md", *docs, MANUAL]


# ---- words and sentences


def manual_text() -> str:
    """The manual page without the names of macros: a line that begins with one is a part of its sentence, but for titles and the like."""
    text = re.sub(r"^\.Bd.*?^\.Ed$", lambda shown: re.sub(r"^", "    ", shown[0], flags=re.M), read(MANUAL), flags=re.M | re.S)
    lines = []
    for line in text.splitlines():
        if re.match(r"\.(Dd|Dt|Os)|    \.", line):
            lines.append("\n")
            continue
        apart = "\n" if re.match(r"\.(Pp|Sh|Ss|It|Bl|El|Nd|Dl)\b", line) else ""
        words = line.split()[1:] if line.startswith(".") else [line]
        lines.append(apart + " ".join(word for word in words if not re.fullmatch(r"[A-Z][a-z]", word)) + "\n" + apart)
    return "".join(lines)


def text_of_page(page: str) -> str:
    return manual_text() if page == MANUAL else read(page)


def words_in(text: str) -> list:
    return [word for word in text.split() if re.search(r"\w", word)]


def plain(text: str) -> str:
    """Text in which a code span, a link and what is marked are words."""
    text = re.sub(r"`[^`]*`", "Code", text)
    text = re.sub(r"\[([^\]]*)\]\([^)]*\)", r"\1", text)
    return re.sub(r"[*<>]", "", text)


def blocks(text: str) -> list:
    """The paragraphs, points and cells of a page, without its code."""
    text = re.sub(r"^```.*?^```$", "", text, flags=re.M | re.S)
    found, current = [], []
    for line in text.split("\n") + [""]:
        code = re.match(r"^ {4,}\S", line) and not current
        if re.match(r"^\s*(?:[-*] |\d+\. |#|>?\s*$|\|)", line) or code:
            found.append(" ".join(current))
            current = []
        if code or line.startswith("#"):
            continue
        if line.startswith("|"):
            found += re.split(r"(?<!\\)\|", line)
        elif line.strip():
            current.append(re.sub(r"^\s*(?:[-*] |\d+\. |> ?)", "", line).strip())
    return [block for block in found if block.strip()]


def sentences(page: str) -> list:
    return [sentence for block in blocks(text_of_page(page)) for sentence in re.split(r"(?<=[.!?]) +(?=[A-Z`(]|dcm|dump2dcm)", plain(block))]


def wrong_sentences() -> list:
    long = sorted(((len(words_in(text)), page, text) for page in pages() for text in sentences(page)), reverse=True)
    long = [sentence for sentence in long if sentence[0] > LONG]
    print(f"{len(long)} sentences of more than {LONG} words:")
    for count, page, text in long:
        print(f"  {count} {page}: {' '.join(text.split()[:9])} ..")
    wrong = [f"{page}: a sentence of {count} words: {text[:60]}" for count, page, text in long if count > LONGEST]
    return wrong + ([f"{len(long)} sentences of more than {LONG} words, and not {MOST_LONG}"] if len(long) > MOST_LONG else [])


def wrong_sizes() -> list:
    counts = {page: len(words_in(re.sub(r"<!--.*?-->", "", text_of_page(page)))) for page in pages()}
    for page, count in counts.items():
        print(f"{count:7,} {page}")
    print(f"{sum(counts.values()):7,} words")
    wrong = [f"MOST_WORDS and the pages differ in {sorted(counts.keys() ^ MOST_WORDS.keys())}"] if counts.keys() != MOST_WORDS.keys() else []
    return wrong + [f"{page} has {count:,} words, more than {MOST_WORDS[page]:,}" for page, count in counts.items() if count > MOST_WORDS.get(page, 0)]


# ---- links, paths and decisions


def anchors(page: str) -> set:
    """The names that a link may give of a page's headings."""
    text = re.sub(r"^```.*?^```$", "", read(page), flags=re.M | re.S)
    titles = re.findall(r"^#+ (.*)$", text, re.M)
    return {re.sub(r"[^\w\- ]", "", title.lower()).replace(" ", "-") for title in titles}


def wrong_links() -> list:
    wrong = []
    for page in [*pages(), GENERATED]:
        if page == MANUAL:
            continue
        for target in re.findall(r"\]\(([^)\s]+)\)", read(page)):
            path, _, anchor = target.partition("#")
            file = (ROOT / page).parent / path if path else ROOT / page
            if not file.exists():
                wrong.append(f"{page}: no file {target}")
            elif anchor and anchor not in anchors(str(file.resolve().relative_to(ROOT))):
                wrong.append(f"{page}: no heading {target}")
        for path in set(re.findall(r"`((?:scripts|docs|data|bench|examples|completions|man|crates)/[\w./-]+)`", read(page))):
            if not re.search("NAME|CRATE|FILE", path) and not list(ROOT.glob(path.rstrip("/"))):
                wrong.append(f"{page}: no file {path}")
    return wrong


def sources(*suffixes: str) -> list:
    """The files of the crates' own code, specs and proofs."""
    return [path for path in sorted(ROOT.glob("crates/*/*/**/*")) if path.suffix in suffixes and "out" not in path.relative_to(ROOT).parts]


def wrong_citations() -> list:
    """Names of pages in the crates that no page has, and numbers of decisions that are not there."""
    names = {Path(page).name for page in pages()}
    decisions = [int(number) for number in re.findall(r"^- \*\*D-(\d+)\. ", read("docs/engineers/DECISIONS.md"), re.M)]
    wrong = [f"two pages have the name {name}" for name in names if sum(Path(page).name == name for page in pages()) > 1]
    wrong += ["DECISIONS: its numbers are not 1, 2, .."] if decisions != list(range(1, len(decisions) + 1)) else []
    for path in [*sources(".rt", ".antt"), *map(ROOT.joinpath, pages()), *ROOT.glob("scripts/*.py")]:
        text, place = path.read_text(), path.relative_to(ROOT)
        wrong += [f"{place}: no page {name}" for name in set(re.findall(r"\b([A-Z]{5,}\.md)\b", text)) - names]
        wrong += [f"{place}: no decision D-{n}" for n in set(map(int, re.findall(r"\bD-(\d+)\b", text))) - set(decisions)]
    return wrong


# ---- numbers of the tree


def constant(path: str, name: str) -> int:
    """A constant of a crate: its number, or how many entries it has."""
    found = re.search(rf"const {name}: (?:\[.*; (\d+)\]|\w+ = ([\d_]+);)", read(path))
    return int((found[1] or found[2]).replace("_", ""))


# what the pages say, and the constant that has it; the number is the pattern's group, with commas
FACTS = [
    (r"extract of(?: PS3\.6 with)? (\d+) elements|\| elements \| (\d+), an extract|\| (\d+) elements \|", "crates/dcm_base/src/dictionary/extract.rt", "ELEMENTS", 0),
    (r"([\d,]+)(?: elements)? with one (?:VR|value representation)|the ([\d,]+) rows of `standard.rt`", "crates/dcm_base/src/dictionary/standard.rt", "STANDARD", 0),
    (r"and (\d+) between two|the (\d+) of `ambiguous.rt`|, (\d+) between two", "crates/dcm_base/src/dictionary/ambiguous.rt", "AMBIGUOUS", 0),
    (r"has one of (\d+);", "crates/dcm_base/src/uid.rt", "UIDS", 0),
    (r"(?:up to|at most) (\d+) edits", "crates/dcm_edits/src/edits.rt", "MOST_EDITS", 0),
    (r"too many edits \| the (\d+)th", "crates/dcm_edits/src/edits.rt", "MOST_EDITS", 1),
    (r"more than (\d+) indexes", "crates/dcm_edits/src/form.rt", "MOST_INDEXES", 0),
    (r"the (\d+)th open sequence", "crates/dcm_base/src/level.rt", "MOST_LISTS", 1),
    (r"passes the ([\d,]+)th byte of the group|meta group has at most ([\d,]+) bytes", "crates/dcm_head/src/group.rt", "META_LIMIT", 0),
    (r"\b80 to ([\d,]+)", "crates/dcm_base/src/limits.rt", "LINE_LIMIT", 0),
    (r"of more than N bytes, (\d+) to", "crates/dcm_words/src/words.rt", "LEAST_LIMIT", 0),
    (r"\(default ([\d,]+)\)|The default is ([\d,]+)\.", "crates/dcm_words/src/words.rt", "USUAL_LIMIT", 0),
    (r"or of an edit ([\d,]+)|A value has at most ([\d,]+) bytes", "crates/dcm_base/src/limits.rt", "VALUE_LIMIT", 0),
    (r"(\d+) to 4,?096", "crates/dcm_cli/src/key.rt", "LEAST_OF_KEY", 0),
    (r"16 to ([\d,]+)", "crates/dcm_words/src/job.rt", "MOST_OF_KEY", 0),
    (r"1 to (\d+), in the order of the row|not 1 to (\d+) columns", "crates/dcm_table_words/src/plan.rt", "MOST_COLUMNS", 0),
    (r"value of more than (16,?384) bytes", "crates/dcm_table/src/cell.rt", "CELL_LIMIT", 0),
    (r"has a byte 00 or more than ([\d,]+) bytes|NAME is the name's first ([\d,]+) bytes", "crates/dcm_names/src/list.rt", "MOST_OF_NAME", 0),
    (r"writes ([\d,]+) bytes at a time", "crates/dcm_cli/src/rewrite.rt", "PIECE", 0),
    (r"a dump reads ([\d,]+)\.", "crates/dcm_cli/src/dump.rt", "PIECE", 0),
]


def wrong_facts() -> list:
    wrong = []
    text = {page: " ".join(text_of_page(page).split()) for page in pages()}
    for pattern, path, name, more in FACTS:
        value, seen = constant(path, name) + more, 0
        for page in pages():
            for found in re.finditer(pattern, text[page]):
                seen += 1
                said = next(group for group in found.groups() if group)
                if int(said.replace(",", "")) != value:
                    wrong.append(f"{page}: {found[0]!r}, but {path} has {value} ({name})")
        wrong += [f"no page says {pattern!r}"] if not seen else []
    return wrong


def wrong_crates() -> list:
    """The crates of ARCHITECTURE, and the edits of harms.tsv, that are others than those of the tree."""
    crates = {line.split(":")[0].split()[0] for line in read("crates.txt").splitlines() if line.strip()}
    table = read("docs/engineers/ARCHITECTURE.md").split("## The crates")[1].split("\n## ")[0]
    named = {name for row in re.findall(r"^\| ([a-z]\w+(?:, \w+)*) \|", table, re.M) for name in row.split(", ")}
    wrong = [f"ARCHITECTURE and crates.txt differ in {sorted(named ^ crates)}"] if named != crates else []
    for line in read("scripts/edits/harms.tsv").splitlines()[1:]:
        for edit in line.split("\t")[1].split():
            crate, name = edit.split("/")
            if not list(ROOT.glob(f"crates/{crate}/must-fail/{name}.edit")) + list(ROOT.glob(f"scripts/edits/{crate}/{name}.edit")):
                wrong.append(f"scripts/edits/harms.tsv: {crate} has no edit {name}")
    return wrong


def lines_on_standard_error() -> dict:
    """The words of each line by its number, and the beginnings of the lines without one, each by itself."""
    book, usages = read("crates/dcm_base/specs/Tables/Fault.antt"), read("crates/dcm_table_words/specs/Usages.antt")
    lines = {"reading failed": "reading failed", "edit 1 found no place": "edit 1 found no place", "3 dates are emptied": "3 dates are emptied"}
    for text, kinds in ((book, ("fault", "line_fault", "edit_refusal", "word_fault")), (usages, ("usage",))):
        for kind in kinds:
            words = dict(re.findall(rf'^{kind}_text ([\w.]+) = codes "([^"]+)"', text, re.M))
            lines |= {number: words[name] for name, number in re.findall(rf'^{kind}_number ([\w.]+) = codes "(\w+)"', text, re.M)}
    folders = read("crates/dcm_trees/specs/Run.antt") + read("crates/dcm_trees/specs/Fate.antt") + read("crates/dcm_trees/specs/Instance.antt")
    for line in re.findall(r'^(?:refusal_line refusals\.\w+ part = line \(|text_of \S+ = |unfit_text uids.Study = )codes "([^"]+)"', folders, re.M):
        lines[line] = line
    for whole in re.findall(r'error_line \(codes "([^"]+)"\)', read("crates/dcm_cli/specs/ErrorLines.antt")):
        number, _, rest = whole.partition(": ")
        lines |= {number: rest} if re.fullmatch(r"V\d+", number) else {number: number}
    return lines


def wrong_causes() -> list:
    """The lines that have neither a row in PROFILE's tables of faults nor an item in the manual's DIAGNOSTICS."""
    section = read("docs/users/PROFILE.md").split("\n# Faults\n")[1]
    told = dict(re.findall(r"^\| ([RBU]\d+) \| ([^|]+) \|", section, re.M))
    diagnostics = read(MANUAL).split(".Sh DIAGNOSTICS\n")[1].split(".Sh ")[0]
    for item in re.findall(r"^\.It (.*)$", diagnostics, re.M):
        if refusal := re.fullmatch(r"(V\d+): (.*)", item):
            told[refusal[1]] = refusal[2]
        else:
            told |= {line: line for line in (item.partition(": ")[0].removesuffix(" after 4096 bytes"), *item.split(" , "))}
    return [f"no page has the cause of {number}: {words}" for number, words in lines_on_standard_error().items() if told.get(number) != words]


# What a newcomer has to be told, and where: a page, a title of the manual page, a text of the program, or a script.
WRAPPERS = ("dcm2csv", "dcmconv", "dcmdeid", "dcmdump", "dcmodify", "dump2dcm")
TOLD = [
    ("that an existing OUTPUT is not changed", r"\bstays\b|is not changed", ("README.md", "Existing output files", "MODIFY")),
    ("what edits do not see without +dict", r"names may be left", ("README.md", "Edits of dcmodify", "MODIFY")),
    ("where the causes of lines are", r"likeliest cause", ("DIAGNOSTICS",)),
    ("where the causes of lines are", r"PROFILE.md#faults\)", ("README.md",)),
    ("which names of files it takes", r"UTF-8|any\s+(?:#\s+)?bytes", tuple(f"scripts/{name}" for name in WRAPPERS)),
    ("how to go on after it was cut off", r"cuts a block off", ("docs/users/COOKBOOK.md",)),
    ("that a cut behind the last column is not named", r"cut after its last column", ("docs/users/COOKBOOK.md",)),
]


def text_at(place: str) -> str:
    if place in CONSTANTS.values():
        return text_of(place)
    if place.startswith("scripts/"):
        return re.match(r"(?:#.*\n)*", read(place))[0]
    if "." in place:
        return read(place)
    return re.split(r"^\.S[sh] ", read(MANUAL).split(f" {place}\n")[1], flags=re.M)[0]


def wrong_told() -> list:
    return [f"{place} does not say {what}" for what, pattern, places in TOLD for place in places if not re.search(pattern, text_at(place))]


# ---- the texts of the program


def wrong_names() -> list:
    """The version and the edition, where they are not everywhere the same."""
    version, edition = re.search(r"dcmtools (\S+), with the data dictionary of DICOM PS3.6 (\S+?)\\n", text_of("VERSION")).groups()
    places = {
        MANUAL: f".Os dcmtools {version}\n",
        "CHANGELOG.md": f"\n## {version} ",
        "crates/dcm_base/src/dictionary/standard.rt": f"edition {edition}.",
        "docs/users/PROFILE.md": f"edition {edition}",
        "docs/engineers/DECISIONS.md": f"edition {edition}",
    }
    return [f"{path} does not say {text.strip()!r}" for path, text in places.items() if text not in read(path)]


def wrong_statuses() -> list:
    """The statuses of README that the text of the program lacks, and those of it that README lacks."""
    named = set(re.findall(r"^\| (\d) \|", read("README.md").split("## Exit status")[1].split("\n## ")[0], re.M))
    shown = set(re.findall(r"^  (\d)  ", text_of("PROGRAM"), re.M))
    return [f"README and the text of the program differ in statuses {sorted(named ^ shown)}"] if named != shown else []


# ---- public items


def items_without_comment() -> list:
    found = []
    for path in sources(".rt"):
        is_test = any(part == "tests" or part.endswith("_tests") for part in path.parts)
        if "src" not in path.parts or is_test or path.name == "tests.rt":
            continue
        lines = path.read_text().splitlines()
        for number, line in enumerate(lines):
            if not re.match(r"\s*pub (?:const )?(?:fn|struct|enum|trait|const|type) \w", line):
                continue
            above = number - 1
            while above >= 0 and re.match(r"\s*#\[|\s*\)?\]$", lines[above]):
                above -= 1
            if above < 0 or not lines[above].lstrip().startswith("///"):
                found.append(f"{path.relative_to(ROOT)}:{number + 1}: {line.strip()}")
    return found


def main() -> int:
    if "--items" in sys.argv:
        found = items_without_comment()
        print("\n".join(found + [f"{len(found)} public items without a comment"]))
        return 1 if found else 0
    checks = (wrong_sentences, wrong_sizes, wrong_links, wrong_citations, wrong_facts, wrong_crates, wrong_causes, wrong_told, wrong_names, wrong_statuses)
    wrong = [fault for check in checks for fault in check()]
    print("\n".join(wrong + [f"{len(wrong)} wrong"]))
    return 1 if wrong else 0


if __name__ == "__main__":
    sys.exit(main())
