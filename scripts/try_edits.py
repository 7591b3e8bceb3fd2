#!/usr/bin/env python3
"""Tries edits that must fail, those of the gate and those that it leaves out, and reads why each is refused.

    scripts/try_edits.py [NAME..]      tries all edits of these crates, or of all, and notes the crates whose edits are all refused
    scripts/try_edits.py --others ..   the same, but those of scripts/edits alone; it notes nothing
    scripts/try_edits.py NAME/EDIT ..  tries these alone; it notes nothing
    scripts/try_edits.py --applies     says in a second which edits cannot be applied
    scripts/try_edits.py --check       says in a second which crates changed since their edits were tried
    scripts/try_edits.py --table       prints the edits of each crate, and when they were tried
    scripts/try_edits.py --without     lists the public functions that no edit turns, and fails where scripts/edits/without.tsv gives no reason

The gate's edits of a crate are in `crates/NAME/must-fail`, all others in `scripts/edits/NAME`, in the same form. It works on a copy of
the crates, and needs `rt`. The record is scripts/edits/tried.tsv: crate, checksum of its sources, definitions and edits (but not of
comments, nor of how lines are broken), day, edits.

A refusal counts only where a goal is left open: of the function that the edit changes, or of one that calls it or names what it changes,
be it by the struct that holds it. It is a goal that the function has without the edit too: where an edit takes away goals that proofs
name, those in their place say nothing.
One that comes of a missing name, a type, the shape of a proof or a form that does not compile fails, and so does any line that is not
understood. It ends with 0 where each edit is refused for a goal, and of --check where no crate changed.

Most of a check is done before its first goal, so edits in the bodies of several functions are tried in one check. That says as much: a
proof cites what another function's contract says, and never its body, so a goal of a function is left open by its own edit. An edit
whose function has no goal there is tried by itself, and then a goal of a caller counts too. So is one of a definition or a constant.
What was refused is kept in the crate's folder out, and is not tried again while the crate and the edit stay as they are.
"""
import datetime
import functools
import hashlib
import importlib.machinery
import os
import re
import shutil
import subprocess
import sys
import tempfile
import types
from pathlib import Path
from typing import Callable, Iterable, NamedTuple

ROOT = Path(__file__).resolve().parent.parent
OTHERS = ROOT / "scripts/edits"
RECORD = OTHERS / "tried.tsv"
WITHOUT = OTHERS / "without.tsv"

# What a check says of a goal that is left open: in the code, or in the answer to a goal that no longer holds.
OPEN_GOAL = re.compile(
    r"(?:note: )?(?:\./)?(?P<file>src/[\w/]+\.rt):(?P<line>\d+):\d+: (?:it is not proved that|`search` found no proof) .*?\(`(?P<goal>[^`]+)`\)"
)
OPEN_ANSWER = re.compile(r"\./proofs/(?P<path>[\w+/]+)/(?P<which>Answers|Invariants)\.antt:\d+:\d+: error: `(?P<goal>[^`]+)`: (?P<why>.*)")
OPEN_LEMMA = re.compile(r"\./(?P<file>(?:proofs|specs)/[\w/]+\.antt):\d+:\d+: error: `(?P<goal>[^`]+)`: (?P<why>.*)")

# What a check says of code that does not compile.
NO_CODE = re.compile(r"(?:\./)?src/[\w/]+\.rt:\d+:\d+: error")

# How many edits are tried in one check at most: 28 of dcm_trees took 8 GB.
MOST = 20

# The head of a function, of a constant, or of another name of a type.
HEAD = re.compile(r"(?P<indent>\s*)(?:pub(?:\([^)]*\))? )?(?P<kind>(?:const )?fn|const|static|type) (?P<name>\w+)")
IMPL = re.compile(r"impl(?:<[^>]*>)?\s+(?:(?P<trait>\w+)(?:<[^{]*>)?\s+for\s+)?(?P<type>\w+)")
CALL = re.compile(r"\b(\w+)(?:::<[^(]*>)?\(")
GHOST_NAMES = re.compile(r"ghost use (?P<module>[\w.]+)\.\{(?P<names>[^}]*)\};$")
CYCLE = re.compile(r"#\[cycle\((\w+)\)\]\s*(?:(?://|#\[)[^\n]*\s*)*(?:pub(?:\([^)]*\))? )?fn (\w+)")

# In an answer these speak of names and forms, and not of what is to be shown.
OF_FORM = (
    "has no field", "has no `", "record `Rattle.", "is not in scope", "names no ", "is not a function", "projects from a record", "expected answers",
    "expected a measure", "mismatched-types", "no constructor", "was not admitted", "is built in",
)


def edits_of(crate: str, others_alone: bool = False) -> list[Path]:
    folders = [OTHERS / crate] if others_alone else [ROOT / "crates" / crate / "must-fail", OTHERS / crate]
    return [edit for folder in folders if folder.is_dir() for edit in sorted(folder.glob("*.edit"))]


def crates_in_order() -> list[str]:
    """Those of crates.txt, the lowest first."""
    return [line.split(":")[0].split()[0] for line in (ROOT / "crates.txt").read_text().splitlines() if ":" in line]


def crates_with_edits() -> list[str]:
    return [name for name in crates_in_order() if edits_of(name)]


def checksum(crate: str) -> str:
    """Of what an edit of the crate may change or meet, and of its edits, whichever of the two folders they are in."""
    sum_of = hashlib.sha256(checksum_of(crate, ("src", "specs"), ()).encode())
    for edit in sorted(edits_of(crate), key=lambda it: it.name):
        sum_of.update(edit.name.encode() + b"\0" + edit.read_bytes() + b"\0")
    return sum_of.hexdigest()[:16]


def checksum_of(crate: str, names: Iterable[str], others: Iterable[Path]) -> str:
    """Of the files in folders of a crate, and in others. Comments of the sources, and how their lines are broken, are left out."""
    sum_of = hashlib.sha256()
    for folder in [*(ROOT / "crates" / crate / name for name in names), *others]:
        for path in sorted(folder.rglob("*")):
            if path.is_file():
                text = words_of(path.read_text()).encode() if path.suffix == ".rt" else path.read_bytes()
                sum_of.update(str(path.relative_to(ROOT)).encode() + b"\0" + text + b"\0")
    return sum_of.hexdigest()[:16]


def words_of(text: str) -> str:
    """A source without the lines that are comments, with one space where words are apart, and the imports of each ghost module as one."""
    lines = [line for line in text.splitlines() if not line.lstrip().startswith("//")]
    imports: dict[str, set[str]] = {}
    rest = []
    for line in lines:
        found = GHOST_NAMES.match(line)
        if found:
            imports.setdefault(found["module"], set()).update(name.strip() for name in found["names"].split(","))
        else:
            rest.append(line)
    return " ".join([*(f"{module} {sorted(names)}" for module, names in sorted(imports.items())), *"\n".join(rest).split()])


# ---- the record

def rows_of(path: Path) -> dict[str, list[str]]:
    """The rows of a record, by their crates."""
    if not path.exists():
        return {}
    rows = [line.split("\t") for line in path.read_text().splitlines() if not line.startswith("#")]
    return {row[0]: row[1:] for row in rows}


def note_row(path: Path, head: str, crate: str, row: list[str]) -> None:
    """Notes the row of a crate in a record, which is in the order of crates.txt."""
    rows = rows_of(path) | {crate: row}
    lines = [head, *("\t".join([name, *rows[name]]).rstrip("\t") for name in crates_in_order() if name in rows)]
    path.write_text("\n".join(lines) + "\n")


def record() -> dict[str, list[str]]:
    return rows_of(RECORD)


def note(crate: str, refused: int) -> None:
    row = [checksum(crate), datetime.date.today().isoformat(), str(refused)]
    note_row(RECORD, "# crate\tchecksum\tday\tedits that were refused for a goal", crate, row)


def changed() -> list[str]:
    rows = record()
    return [name for name in crates_with_edits() if name not in rows or rows[name][0] != checksum(name)]


def check() -> int:
    names = changed()
    for name in names:
        print(f"{name}: {'changed since its edits were tried' if name in record() else 'its edits were never noted as tried'}")
    return 1 if names else 0


def table() -> int:
    rows, stale = record(), changed()
    print("crate\tin the gate\tin scripts/edits\trefused for a goal\ttried")
    for name in crates_with_edits():
        in_gate = len(edits_of(name)) - len(edits_of(name, True))
        _, day, refused = rows.get(name, ["", "not noted", "-"])
        tried = f"{day}, changed since" if name in stale and name in rows else day
        print(name, in_gate, len(edits_of(name, True)), refused, tried, sep="\t")
    return 0


# ---- what an edit changes, and which function has a goal

def function_at(text: str, line: int) -> str:
    """The function that a line is in, or the constant that it declares. Comments and attributes belong to what comes after them."""
    lines = text.splitlines()
    while line < len(lines) and re.match(r"\s*(///|#\[)", lines[line - 1]):
        line += 1
    heads = (HEAD.match(words) for words in reversed(lines[:line]))
    return next((head["name"] for head in heads if head), "")


def changes(crate: str, edit: Path) -> dict[str, dict[int, str]]:
    """The lines that an edit writes anew, by their file and number, from 1. A pair applies to what those before it made."""
    texts: dict[str, str] = {}
    file = old = ""
    for line in edit.read_text().splitlines():
        if line.startswith("file: "):
            file = line[6:].strip()
        elif line.startswith("old: "):
            old = line[5:]
        elif line.startswith("new:"):
            text = texts.get(file) or (ROOT / "crates" / crate / file).read_text()
            if text.count(old) != 1:
                raise ValueError(f"{edit.relative_to(ROOT)}: the old text is {text.count(old)} times in {file}: {old}")
            texts[file] = text.replace(old, line[4:].removeprefix(" "))
    lines = {file: zip((ROOT / "crates" / crate / file).read_text().splitlines(), text.splitlines()) for file, text in texts.items()}
    return {file: {at: new for at, (was, new) in enumerate(pairs, 1) if was != new} for file, pairs in lines.items()}


def changed_item(crate: str, edit: Path) -> tuple[str, str]:
    """The file of an edit, and the function or constant of it that it changes first."""
    file, lines = next(iter(changes(crate, edit).items()))
    text = (ROOT / "crates" / crate / file).read_text()
    return file, function_at(text, min(lines)) if file.endswith(".rt") else ""


def is_in_body(text: str, line: int) -> bool:
    """Whether a line is in the body of a function, from its brace on: of its head and its contract another function's proof may speak."""
    lines = text.splitlines()
    heads = ((at, HEAD.match(lines[at - 1])) for at in range(line, 0, -1))
    first, head = next(((at, head) for at, head in heads if head), (0, None))
    if not head or head["kind"] != "fn":
        return False
    own = re.compile(rf"{head['indent']}\S")
    begin = next((at for at in range(first, len(lines) + 1) if own.match(lines[at - 1]) and lines[at - 1].rstrip().endswith(("{", "}"))), 0)
    end = next((at for at in range(begin, len(lines) + 1) if own.match(lines[at - 1]) and lines[at - 1].rstrip().endswith("}")), 0)
    return 0 < begin <= line <= end


def cycles_of(crate: str) -> dict[str, str]:
    """The cycles of calls that functions are in."""
    sources = (ROOT / "crates" / crate / "src").rglob("*.rt")
    return {name: f"+{cycle}" for path in sources for cycle, name in CYCLE.findall(path.read_text())}


def bodies(crate: str, edit: Path) -> set[str]:
    """The functions whose bodies are all that an edit changes, each by its cycle of calls where it is in one; none where it changes more."""
    cycles = cycles_of(crate)
    found = set()
    for file, lines in changes(crate, edit).items():
        text = (ROOT / "crates" / crate / file).read_text()
        if not file.endswith(".rt") or not all(is_in_body(text, line) for line in lines):
            return set()
        found |= {function_at(text, line) for line in lines}
    return {cycles.get(name, name) for name in found}


def function_of(crate: str, folder: str, goal: str) -> str:
    """The function of a goal, by the folder of its answers. That of a cycle of calls begins with a plus, and is named after the cycle; a
    goal begins with its function where the cycle has several."""
    if not folder.startswith("+"):
        return folder
    first = goal.split("-")[0]
    sources = (path.read_text() for path in (ROOT / "crates" / crate / "src").rglob("*.rt"))
    return first if any(re.search(rf"\bfn {first}\b", text) for text in sources) else folder[1:]


def goals_in(crate: str, said: str) -> list[tuple[str, str, str, str]]:
    """The goals that a check left open: each with the function that has it, why it says nothing of the contract, if so, and the line.
    Lines of the edited copy are those of the source, since an edit is of one line for one."""
    goals = []
    for line in said.splitlines():
        if found := OPEN_GOAL.match(line):
            text = (ROOT / "crates" / crate / found["file"]).read_text()
            goals.append((found["goal"], function_at(text, int(found["line"])), "", line))
        elif found := OPEN_ANSWER.match(line) or OPEN_LEMMA.match(line):
            why = next((form for form in OF_FORM if form in found["why"]), "")
            why = why or ("a ghost value is picked so no more" if found["goal"].startswith("ghost-") else "")
            place = found.groupdict()
            function = function_of(crate, place["path"].split("/")[-1], found["goal"]) if "path" in place else place["file"]
            goals.append((found["goal"], function, why, line))
    return goals


def speaks_of(crate: str, function: str, item: str) -> bool:
    """Whether a function of the crate, or a lemma, names an item: it calls it, is another function of one cycle of calls, or names a
    struct that has the item in its fields, as the length of an array is."""
    if not item or not function or function == item:
        return True
    if "/" in function:
        return True
    texts = [path.read_text() for path in (ROOT / "crates" / crate / "src").rglob("*.rt")]
    is_named = re.compile(rf"\b(?:{'|'.join(map(re.escape, [item, *holders(texts, item)]))})\b")
    return any(is_named.search(body) for text in texts for body in re.findall(rf"fn {re.escape(function)}\b.*?\n(?:    )?}}\n", text, re.S))


def holders(texts: list[str], item: str) -> list[str]:
    """The structs that have an item in their fields."""
    structs = (found for text in texts for found in re.findall(r"^pub(?:\([^)]*\))? struct (\w+)[^;{]*\{(.*?)^\}", text, re.S | re.M))
    return [name for name, fields in structs if re.search(rf"\b{re.escape(item)}\b", fields)]


def refusal(crate: str, edit: Path, said: str, is_alone: bool) -> str:
    """The goal for which a check refused an edit, and its function; nothing where it refused it for no goal of what the edit changes."""
    file, item = changed_item(crate, edit)
    own = bodies(crate, edit)
    goals = goals_in(crate, said)
    cycles = cycles_of(crate)
    is_of_it = lambda function: cycles.get(function, function) in own
    speaks = lambda function: is_alone and (not file.endswith(".rt") or speaks_of(crate, function, item))
    # (an answer that holds no more says more than a goal that no answer is for)
    open_ones = sorted((it for it in goals if not it[2]), key=lambda it: (not is_of_it(it[1]), bool(OPEN_GOAL.match(it[3]))))
    found = next((it for it in open_ones if is_of_it(it[1]) or speaks(it[1])), None)
    if not found:
        return ""
    if OPEN_GOAL.match(found[3]) and lost_goals(goals, found[1]):
        return ""
    return f"`{found[0]}` of {found[1]}"


def lost_goals(goals: list[tuple[str, str, str, str]], function: str) -> list[str]:
    """The goals of a function that its proofs name and that it has no more: what is left open then stands in their place, and no answer
    was written for it."""
    return [goal for goal, of, _, line in goals if of == function and re.search(r"Goals` has no ", line)]


# ---- the trying

class Bench:
    """A copy of crates, and of those that they use, with what checks of them kept, in which edits of a crate are checked, each time over
    what a check of the crate as it stands has kept."""

    def __init__(self, room: str, crates: Iterable[str]):
        self.top, self.kept = Path(room) / "repository", Path(room) / "kept"
        lines = lines_of(crates)
        for crate in lines:
            copy_kept(ROOT / "crates" / crate, self.top / "crates" / crate, shutil.ignore_patterns("must-fail", "refused.tsv"))
        (self.top / "crates.txt").write_text("".join(f"{line}\n" for line in lines.values()))
        shutil.copy(ROOT / "HANDLES", self.top / "HANDLES")

    def rt_check(self, crate: str) -> str:
        how = {"stdout": subprocess.PIPE, "stderr": subprocess.STDOUT, "text": True}
        run = subprocess.run([sys.executable, __file__, "--rt", "check", "--jobs", "1"], cwd=self.top / "crates" / crate, **how)
        return run.stdout

    def begin(self, crate: str) -> bool:
        """Proves the crate as it stands, and keeps what that left."""
        said = self.rt_check(crate)
        shutil.rmtree(self.kept, ignore_errors=True)
        if "\nlogic=proved" not in said:
            print(said[-2000:])
            return False
        copy_kept(self.top / "crates" / crate / "out/incremental", self.kept)
        return True

    def check(self, crate: str, edits: list[Path]) -> str:
        """What a check says of the crate with these edits. No two of them change one line."""
        folder = self.top / "crates" / crate
        shutil.rmtree(folder / "out/incremental", ignore_errors=True)
        copy_kept(self.kept, folder / "out/incremental")
        texts = {}
        for edit in edits:
            for file, lines in changes(crate, edit).items():
                text = texts.setdefault(file, (folder / file).read_text().split("\n"))
                for at, line in lines.items():
                    text[at - 1] = line
        for file, text in texts.items():
            (folder / file).write_text("\n".join(text))
        said = self.rt_check(crate)
        for file in texts:
            shutil.copy(ROOT / "crates" / crate / file, folder / file)
        return said


def rt(words: list[str]) -> int:
    """Runs `rt` in the current folder, but so that it reads the sources of each library once. By itself it reads them once for each way that
    leads to the library in crates.txt, which takes minutes of each check of an upper crate."""
    path = os.path.realpath(shutil.which("rt") or "rt")
    kit = types.ModuleType("kit_rt")
    kit.__file__ = path
    importlib.machinery.SourceFileLoader("kit_rt", path).exec_module(kit)
    kit.rtlib.Crate.stamp = functools.cache(kit.rtlib.Crate.stamp)
    return kit.main(words)


def lines_of(crates: Iterable[str]) -> dict[str, str]:
    """The lines of crates.txt of these crates, and of those of the repository that they use."""
    lines = {line.split(":")[0].split()[0]: line for line in (ROOT / "crates.txt").read_text().splitlines() if ":" in line}
    found: dict[str, str] = {}
    left = list(crates)
    while left:
        crate = left.pop()
        if crate in lines and crate not in found:
            found[crate] = lines[crate]
            left += lines[crate].split(":")[1].split()
    return found


def copy_kept(work: Path, to: Path, left_out: Callable | None = None) -> None:
    """Copies what a check kept. Its large files by links: a check replaces such a file, and changes none."""

    def copy(one: str, other: str) -> None:
        (os.link if one.endswith(".oantt") else shutil.copy2)(one, other)

    shutil.copytree(work, to, ignore=left_out, copy_function=copy)


def together(crate: str, edits: list[Path]) -> list[list[Path]]:
    """The edits in groups, each to be tried in one check: those in which no function is changed twice, and each other edit by itself."""
    groups: list[tuple[set[str], list[Path]]] = []
    alone = []
    for edit in edits:
        own = bodies(crate, edit)
        group = next((it for it in groups if not own & it[0] and len(it[1]) < MOST), None)
        if not own:
            alone.append([edit])
        elif group:
            group[0].update(own)
            group[1].append(edit)
        else:
            groups.append((own, [edit]))
    return [group for _, group in groups] + alone


def try_group(bench: Bench, crate: str, edits: list[Path]) -> dict[Path, tuple[bool, str]]:
    """Whether each edit is refused for a goal of what it changes, and a line that says which. Those that have none in a check of several
    are tried anew without the others, which may stand in the way of their proofs."""
    said = bench.check(crate, edits)
    if len(edits) == 1:
        why = refusal(crate, edits[0], said, True)
        return {edits[0]: (bool(why), why or what_was_said(crate, said))}
    if "\nlogic=not-proved" not in said:
        # (one does not compile)
        faults = [line for line in said.splitlines() if NO_CODE.match(line)]
        at_fault = {(file, int(at)) for line in faults for file, at in re.findall(r"(src/[\w/]+\.rt):(\d+)", line)}
        lines = {edit: {(file, at) for file, lines in changes(crate, edit).items() for at in lines} for edit in edits}
        parts = [edit for edit in edits if lines[edit] & at_fault]
        parts = parts if 0 < len(parts) < len(edits) else edits[: len(edits) // 2]
        return try_group(bench, crate, parts) | try_group(bench, crate, [edit for edit in edits if edit not in parts])
    why = {edit: refusal(crate, edit, said, False) for edit in edits}
    answers = {edit: (True, line) for edit, line in why.items() if line}
    rest = [edit for edit, line in why.items() if not line]
    for group in [rest] if answers and rest else [[edit] for edit in rest]:
        answers |= try_group(bench, crate, group)
    return answers


def what_was_said(crate: str, said: str) -> str:
    """Of an edit that no goal refused, what the check said instead."""
    if "\nlogic=proved" in said:
        return "NOT REFUSED: the crate is still proved"
    if goals := goals_in(crate, said):
        goal, function, why, line = next((it for it in goals if lost_goals(goals, it[1])), goals[0])
        if lost := lost_goals(goals, function):
            return f"{function} has no goal `{lost[0]}` any more, which its proofs name"
        return f"{why}: {line[:200]}" if why else f"the goal `{goal}` is of {function}"
    lines = [line for line in said.splitlines() if re.search(r"error|: no proof: |no verdict|could not tell", line)]
    return (lines or said.splitlines()[-1:] or ["nothing"])[0][:200]


def key_of(crate: str, edit: Path) -> str:
    """Of an edit and of what it is tried on."""
    sum_of = hashlib.sha256(edit.read_bytes())
    for path in sorted(path for name in ("src", "specs", "proofs") for path in (ROOT / "crates" / crate / name).rglob("*") if path.is_file()):
        sum_of.update(str(path.relative_to(ROOT)).encode() + b"\0" + path.read_bytes() + b"\0")
    return sum_of.hexdigest()[:32]


def kept_lines(kept: Path) -> dict[str, str]:
    """What earlier runs refused, by the keys of the edits."""
    return dict(line.split("\t") for line in kept.read_text().splitlines()) if kept.exists() else {}


def try_crate(bench: Bench, crate: str, edits: list[Path]) -> list[tuple[bool, str]]:
    """Tries edits of a crate, but for those that an earlier run refused of the same text: the folder out of the crate keeps for what."""
    keys = {edit: key_of(crate, edit) for edit in edits}
    kept = ROOT / "crates" / crate / "out/refused.tsv"
    refused = kept_lines(kept)
    answers = {edit: (True, refused[keys[edit]]) for edit in edits if keys[edit] in refused}
    new = [edit for edit in edits if edit not in answers]
    if new and not bench.begin(crate):
        return [(False, f"{crate}: it is not proved as it stands")] * len(edits)
    kept.parent.mkdir(exist_ok=True)
    for group in together(crate, new):
        tried = try_group(bench, crate, group)
        answers |= tried
        refused = kept_lines(kept) | {keys[edit]: line for edit, (is_refused, line) in tried.items() if is_refused}
        # (at once, so that a run that is cut off is gone on with; what another run kept meanwhile stays)
        kept.write_text("".join(f"{key}\t{line}\n" for key, line in refused.items()))
    return [(answers[edit][0], f"{crate}/{edit.stem}: {answers[edit][1]}") for edit in edits]


def applies() -> int:
    """Says which edits cannot be applied, or have the name of another."""
    failed = 0
    for crate in crates_with_edits():
        edits = edits_of(crate)
        for edit in edits:
            try:
                if not any(changes(crate, edit).values()):
                    raise ValueError(f"{edit.relative_to(ROOT)}: it changes nothing")
                if sum(1 for other in edits if other.name == edit.name) > 1:
                    raise ValueError(f"{edit.relative_to(ROOT)}: another edit of the crate has this name")
            except (OSError, ValueError, StopIteration) as error:
                print(error)
                failed += 1
    print(f"{sum(len(edits_of(crate)) for crate in crates_with_edits())} edits, {failed} cannot be applied")
    return 1 if failed else 0


# ---- public functions that no edit turns

class Function(NamedTuple):
    """A function of a crate: the type that it belongs to, if it does, the trait that it is of, and its lines up to the next function."""

    file: str
    owner: str
    trait: str
    name: str
    is_public: bool
    lines: range
    text: str


def functions_in(file: str, text: str) -> list[Function]:
    lines = text.splitlines()
    heads = []
    place = None
    for at, line in enumerate(lines, 1):
        if found := IMPL.match(line):
            place = found
        elif (found := HEAD.match(line)) and found["kind"].endswith("fn"):
            owner, trait = (place["type"], place["trait"] or "") if found["indent"] and place else ("", "")
            heads.append((at, owner, trait, found["name"], bool(trait) or line.lstrip().startswith("pub ")))
    ends = [at for at, *_ in heads[1:]] + [len(lines) + 1]
    return [Function(file, *head, range(at, end), "\n".join(lines[at - 1 : end - 1])) for (at, *head), end in zip(heads, ends)]


def functions_without_edit(crate: str) -> list[Function]:
    """The public functions and the methods of a crate, those of its private modules too, where no edit changes a line of them or of a
    private function that they call. Laws have edits of what they state."""
    top = ROOT / "crates" / crate
    paths = [path for path in sorted((top / "src").rglob("*.rt")) if "tests" not in path.parts and path.name not in ("tests.rt", "laws.rt", "ideal.rt")]
    functions = [it for path in paths for it in functions_in(str(path.relative_to(top)), path.read_text())]
    turned: dict[str, set[int]] = {}
    for edit in edits_of(crate):
        for file, lines in changes(crate, edit).items():
            turned.setdefault(file, set()).update(lines)

    def is_turned(function: Function, seen: set[Function]) -> bool:
        if turned.get(function.file, set()) & set(function.lines):
            return True
        called = set(CALL.findall(function.text)) - {function.name}
        below = [it for it in functions if it.name in called and not it.is_public and it not in seen]
        return any(is_turned(it, seen | {function, *below}) for it in below)

    return [it for it in functions if it.is_public and not is_turned(it, set())]


def without() -> int:
    names = set(rows_of(WITHOUT))
    failed = 0
    for crate in crates_with_edits():
        for function in functions_without_edit(crate):
            whole = f"{function.owner}::{function.name}" if function.owner else function.name
            is_named = whole in names
            failed += not is_named
            print(f"{'  ' if is_named else '!!'} {crate} {function.file} {whole}")
    return 1 if failed else 0


def wanted_edits(words: list[str], others_alone: bool) -> dict[str, list[Path]]:
    """The edits that words name, by their crates, in the order of the words; all where there is no word."""
    wanted: dict[str, list[Path]] = {}
    for word in words or [name for name in crates_with_edits() if edits_of(name, others_alone)]:
        crate, _, stem = word.partition("/")
        found = [edit for edit in edits_of(crate, others_alone) if stem in ("", edit.stem)]
        if not found:
            sys.exit(f"no edits of {word}: there are some of {', '.join(crates_with_edits())}")
        wanted.setdefault(crate, []).extend(found)
    return wanted


def main(words: list[str]) -> int:
    for word, call in (("--check", check), ("--table", table), ("--applies", applies), ("--without", without)):
        if words == [word]:
            return call()
    if words[:1] == ["--rt"]:
        return rt(words[1:])
    others_alone = words[:1] == ["--others"]
    words = words[1:] if others_alone else words
    wanted = wanted_edits(words, others_alone)
    failed = 0
    with tempfile.TemporaryDirectory() as room:
        bench = Bench(room, wanted)
        for crate, edits in wanted.items():
            judged = try_crate(bench, crate, edits)
            for good, line in judged:
                print(("   " if good else "!! ") + line, flush=True)
            bad = sum(1 for good, _ in judged if not good)
            failed += bad
            if not bad and edits == edits_of(crate):
                note(crate, len(judged))
    print(f"{sum(map(len, wanted.values()))} edits, {failed} not refused for a goal of what they change")
    return 1 if failed else 0


if __name__ == "__main__":
    sys.exit(main(sys.argv[1:]))
