#!/usr/bin/env python3
"""Tries both completions, in shells at a terminal: what a line becomes by the tab key.

    scripts/try_completions.py

Nothing of dcmtools is run. zsh is tried where it is installed. Exits with 0 if each line becomes what it should.
"""
import os
import pty
import select
import shutil
import sys
import tempfile
import time

ROOT = os.path.dirname(os.path.dirname(os.path.abspath(__file__)))
COMPLETIONS = os.path.join(ROOT, "completions")

# a key that writes the line to a file
SHOW = b"\x18\x18"

BASH = r"""
source {completions}/dcmtools.bash
bind 'set bell-style none'
show() {{ printf %s "$READLINE_LINE" > {shown}; }}
bind -x '"\C-x\C-x": show'
PS1='> '
"""

ZSH = r"""
PROMPT='> '
fpath=({completions} $fpath)
autoload -Uz compinit
compinit -u -D
unsetopt beep
show() {{ print -rn -- "$BUFFER" > {shown} }}
zle -N show
bindkey '^X^X' show
"""

START = {"bash": ("rc", BASH, ["bash", "--rcfile", "rc", "-i"]), "zsh": (".zshrc", ZSH, ["zsh", "-d", "-i"])}

# what it is, the line, and what it becomes in both; or in bash and in zsh
CASES = [
    ("a tool", "dcmtools dcmc", "dcmtools dcmconv "),
    ("a file", "dcmtools dcmdump sc", "dcmtools dcmdump scan.dcm "),
    ("a list", "dcmtools dcm2csv -k Rows @li", "dcmtools dcm2csv -k Rows @list.txt "),
    ("a list of files to dump", "dcmtools dcmdump @li", "dcmtools dcmdump @list.txt "),
    ("a list in a folder", "dcmtools dcm2csv @folder/in", "dcmtools dcm2csv @folder/inner.txt "),
    ("a folder of lists", "dcmtools dcm2csv @fol", "dcmtools dcm2csv @folder/"),
    ("a list of files to convert", "dcmtools dcmconv +r @li", "dcmtools dcmconv +r @list.txt "),
    ("a list of files to edit, in a folder", "dcmtools dcmodify -ep +r @folder/in", "dcmtools dcmodify -ep +r @folder/inner.txt "),
    ("a word of trees", "dcmtools dcmconv +r +pa", "dcmtools dcmconv +r +part "),
    ("nothing is offered for a part", "dcmtools dcmconv +part sc", "dcmtools dcmconv +part sc"),
    ("a word of trees among edits", "dcmtools dcmodify -ep +n", "dcmtools dcmodify -ep +nh "),
    ("a column that the extract has", "dcmtools dcm2csv -k PatientBirthDateInA", "dcmtools dcm2csv -k PatientBirthDateInAlternativeCalendar "),
    ("a column that the extract lacks", "dcmtools dcm2csv -k XRayTubeCurrentInu", "dcmtools dcm2csv -k XRayTubeCurrentInuA "),
    ("a column of the meta group", "dcmtools dcm2csv -k MediaStorageSOPC", "dcmtools dcm2csv -k MediaStorageSOPClassUID "),
    ("a column between two VRs", "dcmtools dcm2csv -k PixelPaddingV", "dcmtools dcm2csv -k PixelPaddingValue "),
    ("no column is a sequence", "dcmtools dcm2csv -k DoseReferenceSeq", "dcmtools dcm2csv -k DoseReferenceSeq"),
    ("an edit", "dcmtools dcmodify -m PatientNa", "dcmtools dcmodify -m PatientName="),
    ("an edit that the extract lacks", "dcmtools dcmodify -m RTPlanLab", "dcmtools dcmodify -m RTPlanLab"),
    ("the same with +dict", "dcmtools dcmodify +dict -m RTPlanLab", "dcmtools dcmodify +dict -m RTPlanLabel="),
    ("the last dictionary counts", "dcmtools dcmodify +dict -dict -m RTPlanLab", "dcmtools dcmodify +dict -dict -m RTPlanLab"),
    ("no edit is of the meta group", "dcmtools dcmodify +dict -m MediaStorageSOPC", "dcmtools dcmodify +dict -m MediaStorageSOPC"),
    ("an edit at all depths, with +dict", "dcmtools dcmodify +dict -ea RTPlanLab", "dcmtools dcmodify +dict -ea RTPlanLabel "),
    ("a replacement at all depths, with +dict", "dcmtools dcmodify +dict -ma RTPlanLab", "dcmtools dcmodify +dict -ma RTPlanLabel="),
    ("a sequence", "dcmtools dcmodify +dict -m DoseReferenceSeq", "dcmtools dcmodify +dict -m DoseReferenceSequence[", r"dcmtools dcmodify +dict -m DoseReferenceSequence\[0\]."),
    ("a path", "dcmtools dcmodify -e SourceImageSequence[0].ReferencedSOPI", "dcmtools dcmodify -e SourceImageSequence[0].ReferencedSOPInstanceUID", r"dcmtools dcmodify -e SourceImageSequence\[0\].ReferencedSOPInstanceUID"),
    ("a path in quotes", "dcmtools dcmodify -e 'SourceImageSequence[0].ReferencedSOPI", "dcmtools dcmodify -e 'SourceImageSequence[0].ReferencedSOPInstanceUID'", "dcmtools dcmodify -e 'SourceImageSequence[0].ReferencedSOPInstanceUID"),
]


def read_for(terminal, seconds):
    """Lets a shell write for so long."""
    end = time.monotonic() + seconds
    while (left := end - time.monotonic()) > 0:
        if select.select([terminal], [], [], left)[0]:
            try:
                os.read(terminal, 65536)
            except OSError:
                return


def wait_for(terminal, path):
    """Lets a shell write until a file is there, or for ten seconds."""
    for _ in range(100):
        read_for(terminal, 0.1)
        if os.path.exists(path):
            read_for(terminal, 0.1)
            with open(path, encoding="utf-8") as file:
                return file.read()
    return None


def completed(shell, line):
    """The line after the tab key, in a folder with a few files."""
    name, start, command = START[shell]
    with tempfile.TemporaryDirectory() as home, tempfile.TemporaryDirectory() as folder:
        shown = os.path.join(home, "shown")
        with open(os.path.join(home, name), "w", encoding="utf-8") as file:
            file.write(start.format(completions=COMPLETIONS, shown=shown))
        os.mkdir(os.path.join(folder, "folder"))
        for path in ("list.txt", "scan.dcm", "folder/inner.txt"):
            with open(os.path.join(folder, path), "w", encoding="utf-8"):
                pass
        child, terminal = pty.fork()
        if child == 0:
            os.chdir(folder)
            environment = os.environ | {"HOME": home, "ZDOTDIR": home, "TERM": "dumb"}
            os.execvpe(command[0], [os.path.join(home, word) if word == name else word for word in command], environment)
        os.write(terminal, SHOW)
        wait_for(terminal, shown)
        os.remove(shown)
        os.write(terminal, line.encode() + b"\t")
        read_for(terminal, 0.8)
        os.write(terminal, SHOW)
        found = wait_for(terminal, shown)
        os.close(terminal)
        os.kill(child, 9)
        os.waitpid(child, 0)
        return found


def main():
    wrong = count = 0
    for place, shell in enumerate(("bash", "zsh")):
        if not shutil.which(shell):
            print(f"no {shell} here: it is not tried")
            continue
        for what, line, *wanted in CASES:
            count += 1
            found = completed(shell, line)
            if found != wanted[min(place, len(wanted) - 1)]:
                wrong += 1
                print(f"{shell}: {what}: {line!r} becomes {found!r}")
    print(f"{count} lines, {wrong} wrong")
    return 1 if wrong or not count else 0


if __name__ == "__main__":
    sys.exit(main())
