#!/usr/bin/env python3
"""Writes the table of laws into docs/auditors/LAWS.md: each law by its name, with the sentence of its comment.

    scripts/make_laws.py            writes the table
    scripts/make_laws.py --check    ends with 1 where the page has another one, or a line is too long

A law is a public function of a crate's src/laws.rt, or of its src/ideal.rt, whose contract is what is proved. Its comment is one
sentence that says what a user gets from the law, and then a list of conditions. Laws of ON_THE_WAY carry what the contracts of functions
say up to the definitions, and are counted without a line. Those of IN_THE_THEOREM are named in the promises of PROVED.
"""
import re
import sys
from pathlib import Path
from typing import NamedTuple

sys.dont_write_bytecode = True

from made_pages import write_or_check

ROOT = Path(__file__).resolve().parent.parent
PAGE = ROOT / "docs/auditors/LAWS.md"
PROVED = ROOT / "docs/auditors/PROVED.md"
BEGIN = "<!-- laws: written by scripts/make_laws.py -->"
END = "<!-- end of laws -->"
MOST_WORDS = 30

ON_THE_WAY = {
    "dcm_base": "one_front reads_one front_shows value_reads_back normal_recodes keywords_are_lines elements_ascend extract_is_part",
    "dcm_base_laws": "one_shown line_reads_back rebuilt_recodes target_fits keywords_differ called_back",
    "dcm_head": "heads_read one_head heads_written meta_reads meta_reads_one data_set_begins meta_steps",
    "dcm_value": "text_steps value_reads_back decoded_text_steps",
    "dcm_stream": """machine_steps machine_answers machine_halts machine_stays_small machine_grows reads_one reads_some
        ascending_by_atoms machine_drives machine_ends machine_refuses machine_waits sinks_bar bars_are_decided""",
    "dcm_sinks": "dump_steps dump_reads encode_steps encode_reads encode_bars recode_reads recode_twice new_meta_reads",
    "dcm_build_laws": "build_steps dump_lines steps_build dump_builds",
    "dcm_editor": "edits_are_few edits_fit edit_steps bar_steps reads_ascend recode_anew edit_reads edits_are_apart",
    "dcm_editor_laws": """edited_reads edited_ascends edited_is_bytes erased_all_is_gone erased_private_is_gone modified_all_is_so
        others_stay others_stay_written edited_reads_by opens_alike edited_for_others erased_for_all edited_twice edited_again""",
    "dcm_text": "pieces_do_not_matter each_set_is_kept",
    "dcm_uid": "new_uids_are_uids one_patient_one_move",
    "dcm_deid": """nothing_flows taken_is_gone actions_ascend bar_steps deidentify_steps pixel_steps nothing_flows_out only_said_is_put pairs_are_alike
        what_stays_is_known uids_agree""",
    "dcm_deid_laws": "deidentified_reads written_is_clean deidentified_twice there_and_back",
    "dcm_table": "meta_steps row_steps table_bar_steps table_by_atoms row_is_valid",
    "dcm_names": "lines_in_pieces",
    "dcm_cli": "sure_grows",
    "dcm_instance": "held_is_fit",
    "dcm_run_laws": "output_for_others output_opens_alike first_reading_ends",
    "dcm_tables": "row_is_read row_is_done row_is_settled row_stays row_is_decided",
}


IN_THE_THEOREM = {"dcm_cli": "answers_one answers_some comes_one comes_some", "dcm_tables": "row_is_one row_is_some table_is_one table_is_some",
                  "dcm_dumps": "dumps_are_one dumps_are_some"}


def on_the_way(crate: str) -> set:
    return set(ON_THE_WAY.get(crate, "").split())


def in_the_theorem(crate: str) -> set:
    return set(IN_THE_THEOREM.get(crate, "").split())


class Law(NamedTuple):
    """A law by its name, and its comment: one sentence, and then perhaps a list of conditions."""

    name: str
    sentence: str
    conditions: str


def laws_in(path: Path, module: str) -> list:
    """The laws of a file."""
    laws = []
    for comment, name in re.findall(r"((?:^///.*\n)+)pub fn (\w+)", path.read_text(), re.M):
        text = re.sub(r"^/// ?", "", comment, flags=re.M).strip()
        sentence, _, conditions = text.partition("\n\n")
        laws.append(Law(module + name, sentence.replace("\n", " "), conditions))
    return laws


def laws_of(crate: str) -> list:
    files = {"laws.rt": "", "ideal.rt": "ideal::"}
    found = [(ROOT / "crates" / crate / "src" / name, module) for name, module in files.items()]
    return [law for path, module in found if path.exists() for law in laws_in(path, module)]


def crates() -> list:
    """The crates that have laws, the lowest first."""
    names = [line.split(":")[0].split()[0] for line in (ROOT / "crates.txt").read_text().splitlines() if line.strip()]
    return [name for name in names if (ROOT / "crates" / name / "src/laws.rt").exists()]


def table() -> str:
    rows, others = ["| Law | It says |", "|---|---|"], set()
    for crate in crates():
        way = on_the_way(crate)
        for law in laws_of(crate):
            if law.name not in way | in_the_theorem(crate):
                more = " .." if law.conditions else ""
                rows.append(f"| `{crate}::{law.name}` | {law.sentence.rstrip('.')}{more} |")
        if way:
            others.add(crate)
    count = sum(map(len, map(on_the_way, ON_THE_WAY)))
    return "\n".join(rows) + f"\n\nOn the way to them there are {count} more, in {len(others)} crates."


def faults() -> list:
    """The names that are no laws, and the lines that are too long."""
    wrong = []
    for crate in crates():
        laws = {law.name: law for law in laws_of(crate)}
        way = on_the_way(crate)
        wrong += [f"{crate} has no law {name}" for name in sorted((way | in_the_theorem(crate)) - set(laws))]
        wrong += [f"docs/auditors/PROVED.md does not name {name}" for name in sorted(in_the_theorem(crate)) if f"`{name}`" not in PROVED.read_text()]
        for law in laws.values():
            count = len(law.sentence.split())
            if law.name not in way and count > MOST_WORDS:
                wrong.append(f"{crate} {law.name}: its sentence has {count} words, more than {MOST_WORDS}")
            if law.conditions and not law.conditions.startswith("- "):
                wrong.append(f"{crate} {law.name}: what follows its sentence is no list")
    return wrong


if __name__ == "__main__":
    sys.exit(write_or_check(PAGE, BEGIN, END, table(), faults()))
