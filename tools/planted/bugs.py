"""The bugs that are planted by hand, and the form in which they are kept."""
import re
from dataclasses import dataclass
from pathlib import Path

HERE = Path(__file__).resolve().parent
TOP = HERE.parent.parent
CRATES = TOP / "crates"


@dataclass(frozen=True)
class Bug:
    """A wrong edit of a crate's code: lines ('file', ..), ('old', ..), ('new', ..), as in must-fail/. Where `above` names a
    crate, that one is checked with it: the bug's own has nothing that speaks of what it changes."""

    crate: str
    name: str
    kind: str
    edit: tuple
    above: str = ""


def library_crates():
    """The crates with contracts of their own, lowest first: all but programs and those that only test."""
    listed = re.findall(r"^(\w+):", (TOP / "crates.txt").read_text(), re.M)
    return [crate for crate in listed
            if not crate.endswith("cases") and (CRATES / crate / "src" / "lib.rt").exists()]


def records(path):
    """The records of a file: lines 'key: value', parted by empty lines."""
    for block in re.split(r"\n\s*\n", path.read_text().strip()) if path.exists() else []:
        yield [tuple(line.split(": ", 1)) for line in block.split("\n")]


def edit_of(record):
    return tuple(pair for pair in record if pair[0] in ("file", "old", "new"))


def written(crate):
    """The bugs that were written by hand."""
    for record in records(HERE / f"{crate}.txt"):
        fields = dict(record)
        yield Bug(crate, fields["name"], fields["kind"], edit_of(record), fields.get("above", ""))


def known_same():
    """The drawn edits that change nothing that a call answers or writes, each with the reason."""
    return {(dict(record)["crate"], edit_of(record)): dict(record)["why"] for record in records(HERE / "same.txt")}
