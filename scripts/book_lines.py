#!/usr/bin/env python3
"""Counts what has to be believed for each tool alone: the definitions that its promise is made of, and their lines.

    scripts/book_lines.py            writes the table into docs/auditors/DEFINITIONS.md
    scripts/book_lines.py --check    ends with 1 where the page has another table, or does not name a file that a promise is made of
    scripts/book_lines.py --files dcmdump    the files of one tool, with the lines of each
    scripts/book_lines.py --names dcmdump    its definitions

It begins with the definitions of PARTS and follows the names that each definition uses, through the `use` lines of its file. Of a
definition by cases the cases of other tools are left out, each with the job or the tool of its name. Lines are those of the types and
equations: no comments, no `use` lines, no empty lines. The tables in Rust (elements, UIDs, actions) are not counted.
"""
import re
import sys
from functools import lru_cache
from pathlib import Path
from typing import NamedTuple

sys.dont_write_bytecode = True

from made_pages import write_or_check

ROOT = Path(__file__).resolve().parent.parent
PAGE = ROOT / "docs/auditors/DEFINITIONS.md"
BEGIN = "<!-- lines: written by scripts/book_lines.py -->"
END = "<!-- end of lines -->"

# the jobs that the words of a tool mean, by their names in dcm_words/specs/Words.antt; dcm2csv has none
JOBS = {
    "dcmdump": {"dump", "dump_decoded", "dump_named"},
    "dcmconv": {"convert"},
    "dump2dcm": {"build"},
    "dcmodify": {"modify"},
    "dcmdeid": {"deidentify"},
    "dcm2csv": set(),
}

# what a tool promises, each part without what an earlier one has
PARTS = [
    ("its answer to a whole input", ["dcm_cli.Answer.Answers"]),
    ("a failed reading", ["dcm_cli.Answer.Sure"]),
    ("the run", ["dcm_cli.Calls.Runs"]),
    ("the arguments, and what is opened", ["dcm_words.Words.meant", "dcm_cli.Program.Obeys"]),
]

# what one tool's words may ask for besides a job
MORE = {"dcmdump": ["dcm_dumps.Words.asks_dumps", "dcm_dumps.DumpsProgram.ObeysDumps"]}

# runs over trees, and the tools that do them
TREES = ["dcm_tree_words.Trees.meant_tree", "dcm_trees.Program.ObeysTree"]
OF_TREES = ["dcmconv", "dcmodify", "dcmdeid"]

# the laws of these runs
LAWS_OF_TREES = ("crates/dcm_tree_laws/src/laws.rt", "crates/dcm_tree_laws/src/ideal.rt")

# dcm2csv has no job: its rows, how far a file is read, what is done with it, and the words
TABLE_PARTS = [
    ["dcm_tables.RowOf.RowOf", "dcm_table.Row.row_parts", "dcm_table.Parts.SpellsParts", "dcm_tables.Rows.file_lines", "dcm_tables.Rows.file_status"],
    ["dcm_tables.RowOf.IsUndecided"],
    ["dcm_tables.Deciding.DoesRow"],
    ["dcm_table_words.Table.meant_table", "dcm_tables.TableProgram.asks_table", "dcm_tables.TableProgram.ObeysTable"],
]

# cases of one tool that no job of another one comes to: only dcmodify has edits, each of which may have found no place
OWN_CASES = {("dcm_cli.Answer", "unplaced_lines", "unplaced_lines n (e ∷ edits) set ="): "dcmodify"}

# the tools that read files; what the answers of all of them have is read once
READERS = ["dcmdump", "dcmconv", "dcmodify", "dcmdeid", "dcm2csv"]

# what a tool answers to sound files alone; the law says which answer it is, so that `Answers` is a word in between
SOUND = {"dcmdump": "DumpsSound", "dcmconv": "ConvertsSound", "dcmodify": "EditsSound"}

WORD = re.compile(r"[^\s(){}\[\],;|]+")


class Definition(NamedTuple):
    file: str  # as in `dcm_base.Dump.Dump`
    name: str
    head: list  # the lines of its type, or of a data type or record
    cases: list  # its equations, each a list of lines


class Book(NamedTuple):
    definitions: dict  # by file, by name: the definition, also of each constructor
    imports: dict  # by file, by name: the file and the name there
    modules: dict  # by file, by name: a file
    constructors: set  # (file, name)


def module_of(path: Path) -> str:
    parts = path.relative_to(ROOT / "crates").with_suffix("").parts
    return ".".join((parts[0],) + parts[2:])


def code_of(text: str) -> list:
    """The lines without comments and empty lines, those of a `mutual` as if they stood outside of it."""
    lines, inside = [], False
    for line in text.split("\n"):
        if not line.strip() or line.lstrip().startswith("--"):
            continue
        if not line.startswith(" "):
            inside = line.rstrip().endswith("mutual")
            if inside:
                continue
        lines.append(line[2:] if inside and line.startswith("  ") else line)
    return lines


STARTS = re.compile(r"^(?:abbrev |unfoldable |pub )*(data |record )?(?:pub )?(\S+) ?(.*)$")


def parse(file: str, text: str, book: Book) -> None:
    names = book.definitions.setdefault(file, {})
    current, used = None, ""
    for line in code_of(text):
        start = not line.startswith(" ")
        if used or (start and re.match(r"(pub )?use ", line)):
            used += " " + line.strip()
            if used.count("{") == used.count("}"):
                read_use(file, used.strip(), book)
                used = ""
            continue
        if start and re.match(r"(pub )?mod ", line):
            continue
        declares = start and re.match(r"(abbrev|unfoldable|pub|data|record)\b", line)
        if declares:
            is_type, name = STARTS.match(line).groups()[:2]
            current = Definition(file, name, [line], [])
            names[name] = current
            data = bool(is_type)
            continue
        if current is None:
            continue
        if start and line.split()[0] == current.name or start and line.split()[0] in names:
            current = names[line.split()[0]]
            current.cases.append([line])
        elif current.cases:
            current.cases[-1].append(line)
        else:
            current.head.append(line)
            made = re.match(r"^  ((?:[\w≡◌]+ )+): ", line)
            if data and made and current.head[0].split()[1] == "data":
                for name in made[1].split():
                    names.setdefault(name, current)
                    book.constructors.add((file, name))


def read_use(file: str, line: str, book: Book) -> None:
    """A `use` line: names of a file, or a file under a name."""
    line = re.sub(r"^(pub )?use ", "", line)
    path, _, inner = line.partition(".{")
    if ".specs." not in path:
        return
    place = path.split(" as ")[0].replace("Rattle.", "", 1).replace(".specs.", ".", 1).strip()
    if place.split(".")[1] == "declared":
        return
    if not inner:
        name = path.split(" as ")[1].strip() if " as " in path else place.rsplit(".", 1)[1]
        book.modules.setdefault(file, {})[name] = place
        return
    for part in inner.rstrip("}").split(","):
        name, _, alias = part.strip().partition(" as ")
        book.imports.setdefault(file, {})[alias or name] = (place, name)


@lru_cache
def book() -> Book:
    made = Book({}, {}, {}, set())
    for path in sorted(ROOT.glob("crates/*/specs/**/*.antt")):
        parse(module_of(path), path.read_text(), made)
    return made


def found(file: str, name: str):
    """The definition of a name in a file, and whether it is a constructor."""
    all_of = book()
    for _ in range(5):
        if name in all_of.definitions.get(file, {}):
            return all_of.definitions[file][name], (file, name) in all_of.constructors
        if name not in all_of.imports.get(file, {}):
            return None, False
        file, name = all_of.imports[file][name]
    return None, False


def resolve(file: str, word: str):
    """A word of an equation: a name of the file, one of another, or one by its module."""
    parts = word.split(".")
    if len(parts) > 1 and parts[0] in book().modules.get(file, {}):
        return found(book().modules[file][parts[0]], parts[1])
    definition, made = found(file, parts[0])
    if definition is None and not parts[0].isidentifier():
        definition, made = found(file, f"◌{parts[0]}◌")
    return definition, made


def bound_in(file: str, patterns: str) -> set:
    """The variables of patterns: words that are no constructors."""
    return {word for word in WORD.findall(patterns) if not resolve(file, word)[1]}


def uses(definition: Definition, lines: list) -> set:
    """The definitions that the lines of a case, or of a type, name."""
    text = " ".join(lines)
    bound = set()
    left, equals, right = text.partition(" = ")
    if lines in definition.cases and equals:
        bound |= bound_in(definition.file, left)
    else:
        right, left = text, ""
    for binder in re.findall(r"\(([^():]+) :", text):
        bound |= set(binder.split())
    bound |= set(re.findall(r"λ \(?(\w+)", text)) | set(re.findall(r"let (\w+) =", text)) | set(re.findall(r"(\w+) =(?!=)", right))
    for pattern in re.findall(r"[|\[] ([^|\[\]]*?) ↦", text):
        bound |= bound_in(definition.file, pattern)
    named = set()
    for word in WORD.findall(right) + WORD.findall(left):
        other, made = resolve(definition.file, word)
        if other is not None and (made or word.split(".")[0] not in bound):
            named.add((other.file, other.name))
    return named


def job_in(file: str, word: str):
    """The name of a job or a tool that a pattern's word stands for, if it does."""
    definition, made = resolve(file, word)
    if not made or definition.name not in ("Job", "Tool"):
        return None
    while word not in book().definitions.get(file, {}):
        file, word = book().imports[file][word]
    return word


def cases_of(tool: str, definition: Definition) -> list:
    """The cases without those of other tools' jobs, and up to the last that is each job of this tool, whatever is in it."""
    kept, whole = [], set()
    for case in definition.cases:
        owner = OWN_CASES.get((definition.file, definition.name, case[0]))
        left = " ".join(case).partition(" = ")[0]
        words = WORD.findall(left)[1:]
        jobs = {job_in(definition.file, word) for word in words} - {None}
        if owner not in (None, tool) or jobs - {tool} - JOBS[tool]:
            continue
        kept.append(case)
        plain = [word for word in words if word[0].islower() or word == "_"]
        forms = [word for word in plain if resolve(definition.file, word)[1]]
        if jobs and len(plain) == len(words) and len(forms) == 1:
            whole |= jobs
            if not JOBS[tool] - whole:
                break
    return kept


def reached(tool: str, roots: list, before: set) -> dict:
    """The definitions that are reached from these, without those of before, each with its lines for the tool."""
    lines, waiting = {}, [tuple(root.rsplit(".", 1)) for root in roots]
    while waiting:
        key = waiting.pop()
        if key in lines or key in before:
            continue
        definition = book().definitions[key[0]][key[1]]
        cases = cases_of(tool, definition)
        lines[key] = len(definition.head) + sum(map(len, cases))
        for part in [definition.head, *cases]:
            waiting += uses(definition, part)
    return lines


def parts_of(tool: str) -> list:
    """For each part its definitions with their lines."""
    before, parts = set(), []
    of_jobs = [roots for _, roots in PARTS]
    of_jobs[-1] = of_jobs[-1] + MORE.get(tool, [])
    for roots in TABLE_PARTS if tool == "dcm2csv" else of_jobs:
        lines = reached(tool, roots, before)
        before |= set(lines)
        parts.append(lines)
    return parts


def trees_of(tool: str) -> dict:
    """The definitions that runs over trees take besides those of the tool, with their lines."""
    if tool not in OF_TREES:
        return {}
    return reached(tool, TREES, {key for part in parts_of(tool) for key in part})


def statements(path: str) -> list:
    """The definitions that the laws of a file state."""
    text = (ROOT / path).read_text()
    return [f"{crate}.{file}.{name}" for crate, file, names in re.findall(r"^ghost use Rattle\.(\w+)\.specs\.(\w+)\.\{([^}]*)\};", text, re.M)
            for name in names.split(", ") if re.search(rf"ensures \w+ {{ {name}\b", text)]


def laws_of_trees(before: set) -> int:
    """The lines that the laws of runs over trees take besides these."""
    roots = [root for path in LAWS_OF_TREES for root in statements(path)]
    return sum(reached("dcmdeid", roots, before).values())


def counted(lines: dict, names: set) -> str:
    return f"{sum(count for key, count in lines.items() if key in names):,}"


def table() -> str:
    """For each tool the lines of each part; of its answer those that all readers of files have, and its own."""
    parts = {tool: parts_of(tool) for tool in JOBS}
    common = set.intersection(*(set(parts[tool][0]) for tool in READERS))
    rows = ["| For | reading, common | its own | " + " | ".join(name for name, _ in PARTS[1:]) + " | in all |", "|---" * (len(PARTS) + 3) + "|"]
    for tool, (answer, *others) in parts.items():
        cells = [counted(answer, common), counted(answer, set(answer) - common), *(counted(part, set(part)) for part in others)]
        rows.append(f"| {tool} | {' | '.join(cells)} | {sum(sum(part.values()) for part in parts[tool]):,} |")
    trees = {tool: trees_of(tool) for tool in OF_TREES}
    more = ", ".join(f"{tool} {sum(lines.values()):,}" for tool, lines in trees.items())
    everything = {key for tool in JOBS for part in [*parts[tool], trees.get(tool, {})] for key in part}
    rows.append(f"\nRuns over a folder (`+r`) add lines: {more}. Their laws add {laws_of_trees(everything):,}.")
    chosen = [book().definitions[file][name] for file, name in everything]
    lines = sum(len(chunk.head) + sum(map(len, chunk.cases)) for chunk in chosen)
    files = len({file for file, _ in everything})
    rows.append(f"\nAll six tools together: {lines:,} lines, {len(everything)} definitions, {files} files.")
    return "\n".join(rows)


def sound() -> str:
    """The lines of what is said of sound files."""
    between = {("dcm_cli.Answer", "Answers")}
    lines = {tool: sum(reached(tool, [f"dcm_sound.Laws.{name}"], between).values()) for tool, name in SOUND.items()}
    return f"For [sound files](#for-sound-files-alone): {', '.join(f'{tool} {count:,}' for tool, count in lines.items())} lines."


def unnamed_files(page: str) -> list:
    """The files that a promise is made of and the table of DEFINITIONS lacks."""
    named = page.split("## The files that are to be believed")[1].split("### For one tool alone")[0]
    files = {file for tool in JOBS for part in [*parts_of(tool), trees_of(tool)] for file, _ in part}
    return sorted(file for file in files if f"`{file.rsplit('.', 1)[1]}`" not in named)


def main() -> int:
    if len(sys.argv) > 2:
        parts = parts_of(sys.argv[2])
        lines = {key: count for part in parts for key, count in part.items()}
        if sys.argv[1] == "--names":
            print("\n".join(f"{count:4} {'.'.join(key)}" for key, count in sorted(lines.items())))
        else:
            for file in sorted({key[0] for key in lines}):
                print(f"{sum(count for key, count in lines.items() if key[0] == file):5} {file}")
        print("parts:", [sum(part.values()) for part in parts], "definitions:", len(lines))
        return 0
    wrong = [f"docs/auditors/DEFINITIONS.md does not name {file}" for file in unnamed_files(PAGE.read_text())]
    return write_or_check(PAGE, BEGIN, END, f"{table()}\n\n{sound()}", wrong)


if __name__ == "__main__":
    sys.exit(main())
