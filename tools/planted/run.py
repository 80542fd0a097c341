#!/usr/bin/env python3
"""Plants bugs in library code, one at a time, and reports for each whether the check refuses it, and where.

    tools/planted/run.py [--drawn] [--table] [CRATE ..]

Without names every library crate. The bugs are those written by hand in tools/planted/CRATE.txt or, with --drawn, those that
draw.py makes of the code. Each is an edit of a copy of crates/, checked as an edit of must-fail/ is. A line for each:

    refused   CRATE NAME KIND PLACE FUNCTION: what was not proved
    stopped   the same, where the check stops before it comes to a fact: a proof by hand speaks of what the bug took away, or
              the borrow checker does not cover what it left
    survived  CRATE NAME KIND
    same      CRATE NAME KIND: why the code means the same with it (same.txt)
    bad       CRATE NAME KIND: why it is no bug: it cannot be applied, or does not compile

and at the end how many of each. With --table the lines are rows of Markdown. The status is 1 if a bug survived, or if one that
was written by hand is stopped or bad: of those that are drawn many do not compile."""
import argparse
import re
import shutil
import subprocess
import sys
import tempfile
from collections import Counter
from dataclasses import dataclass
from pathlib import Path

from bugs import CRATES, TOP, known_same, library_crates, written
from draw import drawn


@dataclass(frozen=True)
class End:
    """How a bug ended, and where the first error lies."""

    how: str
    place: str = ""
    function: str = ""
    message: str = ""


# Checking with a bug.

def put(folder, edit):
    """Makes the edit in a crate's folder; gives the files that it changes, with their texts as they were."""
    before = {}
    for key, value in edit:
        if key == "file":
            path = folder / value
            before.setdefault(path, path.read_text())
        elif key == "old":
            old = value
        else:
            text = path.read_text()
            if text.count(old) != 1:
                sys.exit(f"{path}: {old!r} stands there {text.count(old)} times")
            path.write_text(text.replace(old, value))
    return before


def said_above(work, bug):
    """What the kit says of the crate above with the bug, in the words of `rt must-fail`. Without it that crate is checked by
    its own bugs."""
    before = put(work / "crates" / bug.crate, bug.edit)
    told = subprocess.run(["rt", "check"], cwd=work / "crates" / bug.above, capture_output=True, text=True)
    for path, text in before.items():
        path.write_text(text)
    if told.returncode == 0:
        return "NOT REFUSED"
    errors = re.findall(r"(?:note: )?(?:\./proofs|src)/[\w/]+\.\w+:\d+:\d+: .*", told.stdout + told.stderr)
    return f"refused, as it must be: {errors[0]}" if errors else f"BAD EDIT: {told.stderr[-300:]}"


def said_of(work, crate, bugs):
    """Checks the crate as it is, then with each bug as an edit of must-fail/: what the kit says of each, by name."""
    folder = work / "crates" / crate / "must-fail"
    folder.mkdir()
    for bug in bugs:
        lines = (f"{key}: {value}\n" for key, value in bug.edit)
        (folder / f"{bug.name}.edit").write_text("".join(lines))
    checked = subprocess.run(["rt", "check"], cwd=folder.parent, capture_output=True, text=True)
    if checked.returncode != 0:
        sys.exit(f"{crate} is not proved without a bug:\n{checked.stdout[-2000:]}{checked.stderr[-2000:]}")
    told = subprocess.run(["rt", "must-fail", crate], cwd=work, capture_output=True, text=True)
    said, name = {}, None
    for line in (told.stdout + told.stderr).split("\n"):
        found = re.match(rf"rt: must-fail {crate}/(\w+)\.edit: (.*)", line)
        if found:
            name = found.group(1)
            said[name] = found.group(2)
        elif name and said[name].startswith("BAD EDIT") and line and not line.startswith("rt:"):
            said[name] += " " + line.strip()
    return said


def plant(work, crate, bugs):
    """What the kit says of a crate with each of its bugs."""
    said = said_of(work, crate, [bug for bug in bugs if not bug.above])
    said.update((bug.name, said_above(work, bug)) for bug in bugs if bug.above)
    return said


# What came of it.

HEAD = re.compile(r"\s*(?:pub(?:\(crate\))? )?(?:final )?(?:fn (\w+)|const (\w+):)")


def function_at(path, line):
    """The function, or the constant, in whose text a line stands."""
    heads = (HEAD.match(text) for text in path.read_text().split("\n")[:line])
    names = [head.group(1) or head.group(2) for head in heads if head]
    return names[-1] if names else ""


def first_error(crate, said):
    """The place of the first error, its function and its text. Of a clause or of code the kit names the line; of a proof
    by hand the file, which lies in a folder for the function; a file of lemmas lies in none, and is named itself."""
    found = re.search(r"(src/[\w/]+\.rt):(\d+):\d+: (.*)", said)
    if found:
        path, line = found.group(1), int(found.group(2))
        return f"{path}:{line}", function_at(CRATES / crate / path, line), found.group(3)
    found = re.search(r"\./(proofs/((?:\w+/)*)(\w+)\.antt:\d+):\d+: (?:error: )?(.*)", said)
    if found:
        return found.group(1), (found.group(2).strip("/") or found.group(3)).split("/")[-1], found.group(4)
    return "", "", "no error was shown"


def end_of(bug, said, same):
    if said.startswith("BAD EDIT"):
        return End("bad", message=said.split(":", 1)[1].strip())
    if said.startswith("NOT REFUSED"):
        reason = same.get((bug.crate, bug.edit))
        return End("same", message=reason) if reason else End("survived")
    # A proof that asks for a field or a goal that there is no more: `record .. has no field`, `module .. has no`.
    is_stopped = not said.startswith("refused, as it must be: ") or re.search(r": (record|module) `", said)
    return End("stopped" if is_stopped else "refused", *first_error(bug.above or bug.crate, said))


def line_for(bug, end):
    words = [f"{end.how:9}", bug.crate, bug.name, bug.kind.replace(" ", "-"), end.place, end.function]
    line = " ".join(word for word in words if word)
    return f"{line}: {end.message}" if end.message else line


def goal_of(message):
    """The name of what is not proved: in brackets where the kit names a line of code, first where it names one of a proof."""
    found = re.search(r"\(`([\w-]+)(?:`|$)", message) or re.match(r"`([\w-]+)`", message) or re.search(r"`([\w-]+)`", message)
    return f"`{found.group(1)}`" if found else message


def row_for(bug, end):
    """A row of Markdown: the bug, its kind, the function where the first error lies, and the goal that is not proved there."""
    where = f"`{end.function}`" + (f" of {bug.above}" if bug.above else "") if end.function else end.how
    return f"| {bug.name.replace('_', ' ')} | {bug.kind} | {where} | {goal_of(end.message)} |"


def main():
    options = argparse.ArgumentParser(description=__doc__.split("\n")[0])
    options.add_argument("--drawn", action="store_true", help="draw the bugs from the code")
    options.add_argument("--table", action="store_true", help="print rows of Markdown")
    options.add_argument("crates", nargs="*", metavar="CRATE")
    chosen = options.parse_args()
    for crate in set(chosen.crates) - set(library_crates()):
        options.error(f"there is no library crate {crate}")
    source, same = (drawn, known_same()) if chosen.drawn else (written, {})
    ends = Counter()
    with tempfile.TemporaryDirectory() as folder:
        work = Path(folder)
        shutil.copytree(CRATES, work / "crates", ignore=shutil.ignore_patterns("out", "must-fail"))
        shutil.copy(TOP / "crates.txt", work)
        for crate in chosen.crates or library_crates():
            bugs = list(source(crate))
            said = plant(work, crate, bugs) if bugs else {}
            for bug in bugs:
                end = end_of(bug, said.get(bug.name, "BAD EDIT: nothing was said of it"), same)
                ends[end.how] += 1
                print((row_for if chosen.table else line_for)(bug, end), flush=True)
    print(", ".join(f"{count} {how}" for how, count in sorted(ends.items())))
    return 1 if ends["survived"] or (not chosen.drawn and ends["bad"] + ends["stopped"]) else 0


if __name__ == "__main__":
    sys.exit(main())
