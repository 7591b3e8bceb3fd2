"""What the scripts have in common that make a part of a page."""
import sys
from pathlib import Path


def with_part(text: str, begin: str, end: str, made: str, gap: str = "\n\n") -> str:
    """The text with what was made between two of its lines."""
    before, _, rest = text.partition(begin)
    return f"{before}{begin}{gap}{made}{gap}{end}{rest.partition(end)[2]}"


def write_or_tell(page: Path, anew: str) -> list:
    """Writes a page; with `--check` it is left, and is wrong where it has another text."""
    is_same = page.exists() and page.read_text() == anew
    if "--check" not in sys.argv:
        page.write_text(anew)
        return []
    return [] if is_same else [f"{page.name}: what {Path(sys.argv[0]).name} makes is something else: run the script"]


def told(wrong: list) -> int:
    """Prints what is wrong, and gives the status."""
    print("\n".join([*wrong, f"{len(wrong)} wrong"]))
    return 1 if wrong else 0


def write_or_check(page: Path, begin: str, end: str, made: str, wrong: list) -> int:
    """Writes what was made between two lines of a page; with `--check` a page that has something else there is wrong."""
    return told([*wrong, *write_or_tell(page, with_part(page.read_text(), begin, end, made))])
