#!/usr/bin/env python3
"""Empties the parts under the call that carries the whole promise, one at a time, and shows that this call is then refused.

    tools/planted/emptied.py [--table] [PART ..]

A part is a public function or a view on which `check` of crates/checker rests. In a copy of the repository its `ensures` say
nothing any more, under the names that proofs cite, and its body gives up. Whatever lies between it and the call, and is refused
then, is emptied in turn: so in the end the crates below the call prove, and only the call can notice. For each part:

    CRATE PART: GIVES UP. Refused: CRATE FUNCTION: what was not proved; then .., as far as the crate of the call

The status is 1 if the crate of the call is still proved, if it is not refused for a fact, or if a crate below it is refused that
was to prove. It takes about a minute a part."""
import argparse
import re
import shutil
import subprocess
import sys
import tempfile
from dataclasses import dataclass
from pathlib import Path

from bugs import CRATES, TOP
from run import first_error, goal_of

CALL = "checker"


@dataclass(frozen=True)
class Empty:
    """A function whose `ensures` say nothing, and whose body becomes this one. `head` is how its first line begins, and `proofs` the
    folder of its proof, where it has one. With a `clause` they say no more than that."""

    crate: str
    file: str
    head: str
    body: str
    proofs: str = ""
    clause: str = "Unit {0}"

    def apply(self, work):
        crate = work / "crates" / self.crate
        path = crate / "src" / self.file
        path.write_text(emptied(path.read_text(), self.head, self.body, self.clause))
        if (crate / "proofs" / self.proofs).is_dir() and self.proofs:
            shutil.rmtree(crate / "proofs" / self.proofs)


@dataclass(frozen=True)
class Instead:
    """A line of a file that says something else."""

    crate: str
    file: str
    old: str
    new: str

    def apply(self, work):
        path = work / "crates" / self.crate / "src" / self.file
        text = path.read_text()
        if text.count(self.old) != 1:
            sys.exit(f"{path}: {self.old!r} stands there {text.count(self.old)} times")
        path.write_text(text.replace(self.old, self.new))


@dataclass(frozen=True)
class Whole:
    """A file that becomes this text."""

    crate: str
    file: str
    text: str
    proofs: str

    def apply(self, work):
        crate = work / "crates" / self.crate
        (crate / "src" / self.file).write_text(self.text)
        shutil.rmtree(crate / "proofs" / self.proofs)


@dataclass(frozen=True)
class Part:
    """What is emptied at first, and what of the code above it then has to be emptied too, a step after another."""

    name: str
    gives_up: str
    steps: tuple


def emptied(text, head, body, clause):
    """The text with the function emptied: its signature, its `requires` and the names of its `ensures` stay."""
    lines = text.split("\n")
    starts = [i for i, line in enumerate(lines) if line.strip().startswith(head)]
    if len(starts) != 1:
        sys.exit(f"{head!r} begins {len(starts)} lines")
    indent = lines[starts[0]][: -len(lines[starts[0]].lstrip())]
    opens = lines.index(indent + "{", starts[0])
    closes = lines.index(indent + "}", opens)
    first = next(i for i in range(starts[0], opens) if lines[i].strip().startswith("ensures"))
    names = [clause.group(1) for clause in (re.match(r"\s*ensures (\w+ )?\{", line) for line in lines[first:opens]) if clause]
    nothing = [f"{indent}    ensures {name or ''}{{ {clause} }}" for name in names]
    return "\n".join(lines[:first] + nothing + [indent + "{", f"{indent}    {body}"] + lines[closes:])


# Carrying out calls is one function with some private ones below it.
REPLAY = Whole("sessions", "replay.rt", """//! Carries out nothing.
use crate::calls::{Answer, Call};
use events::raw::RawEvent;

pub fn replay(
    _calls: &[Call],
    _memory: &mut [RawEvent],
    _others: &mut [RawEvent],
    _answers: &mut [Answer],
)
    ensures { Unit {0} }
{
}
""", "replay")


def call_of_a_record(name, body, gives_up):
    emptied_call = Empty("recorder", "opened.rt", f"pub fn {name}(", body, f"opened/OpenRecord/{name}")
    return Part(name, gives_up, ((emptied_call,), (REPLAY,)))


# What a call that passes every order still promises.
PASSES_ALL = """(IsOrder M.SCOPE (E.Execution.events run.now) order.now
        × Satisfies M.SCOPE (M.Synchronises.Rule.pairs rule.now (E.Execution.events run.now)) (E.Execution.events run.now) (Mo (E.Execution.events run.now) order.now))
        → result ≡ Ok Passes"""


def by_model(crate, name, body, gives_up, clause="Unit {0}", part=""):
    """A call under a model; the call by number of its crate has to be emptied with it."""
    number = name.removesuffix("_under")
    return Part(part or name, gives_up, (
        (Empty(crate, "by_model.rt", f"pub fn {name}<", body, f"by_model/{name}", clause),),
        (Empty(crate, "by_number.rt", f"pub fn {number}<", body, f"by_number/{number}"),),
    ))


def view(module, mode):
    return Part(module, "shows every event as it is", ((
        Instead("views", f"{module}.rt", f"ghost events = {{ λ v. {module} (E.Execution.events v.run) }};",
                "ghost events = { λ v. E.Execution.events v.run };"),
        Instead("views", f"{module}.rt", f"ghost full = {{ λ v. {module}_full (E.Execution.events v.run) (E.Execution.full v.run) }};",
                "ghost full = { λ v. E.Execution.full v.run };"),
        Instead("views", f"{module}.rt", mode, "mode: event.mode,"),
    ),))


PARTS = (
    call_of_a_record("note", "Err(RecordFault::TooMany)", "says that there are too many events"),
    call_of_a_record("link", "Err(RecordFault::ShortMemory)", "says that the memory is too short"),
    call_of_a_record("retract", "Err(RecordFault::NoEvents)", "says that there are no events"),
    Part("seal", "hands the record back", (
        (Empty("recorder", "sealing.rt", "pub fn seal<", "Err(NotSealed { record: self, fault: RecordFault::ShortMemory })",
               "opened/OpenRecord/seal"),),
        (REPLAY,),
    )),
    Part("reopen", "gives a record without events", (
        (Empty("recorder", "sealed.rt", "pub fn reopen(", "OpenRecord { count: 0 }"),),
        (REPLAY,),
    )),
    Part("replay", "carries out nothing", ((REPLAY,),)),
    by_model("judge", "judge_under", "Err(CheckerFault::ShortBuffer)", "says that the buffers are too short"),
    by_model("confirm", "confirm_under", "Err(CheckerFault::NotAnOrder)", "says that the slice is no order"),
    by_model("confirm", "confirm_under", "Ok(Finding::Passes)", "passes every order, and promises that those pass that satisfy the model",
             PASSES_ALL, "confirm_under_passes_all"),
    view("strengthened", "mode: strongest(event.kind),"),
    view("relaxed", "mode: Mode::Relaxed,"),
)


# Checking.

def depends():
    """For each crate those that it names in crates.txt, lowest first."""
    listed = re.findall(r"^(\w+):(.*)$", (TOP / "crates.txt").read_text(), re.M)
    return {crate: below.split() for crate, below in listed}


def from_to(crate):
    """The crates that see this one on the way up to the call, lowest first, and it among them."""
    below = depends()
    return [c for c in below if (c == crate or crate in below[c]) and (c == CALL or c in below[CALL])]


def check(work, crate):
    """What the kit says of the crate where it refuses it, else nothing."""
    told = subprocess.run(["rt", "check"], cwd=work / "crates" / crate, capture_output=True, text=True)
    said = told.stdout + told.stderr
    if told.returncode == 0:
        return ""
    places = r"(?:\./proofs/[\w/+.-]+:\d+:\d+: error: |note: src/[\w/.]+:\d+:\d+: it is not proved )"
    errors = [line for line in said.split("\n") if re.match(places, line)]
    return errors[0] if errors else said[-400:]


def refused_first(work, crate):
    """The lowest crate that is refused, and what is said of it."""
    for above in from_to(crate):
        said = check(work, above)
        if said:
            return above, said
    return "", ""


def try_part(part, work):
    """Each refusal on the way up to the call; and whether all is as it must be."""
    found = []
    for i, step in enumerate(part.steps):
        for change in step:
            change.apply(work)
        crate, said = refused_first(work, part.steps[0][0].crate)
        if not crate:
            return found + ["nothing is refused"], False
        place, function, message = first_error(crate, said)
        found.append(f"{crate} `{function}`: {goal_of(message)}" if place else f"{crate}: {message} {said[:200]}")
        is_last = i + 1 == len(part.steps)
        # Not a proof that cites what there is no more.
        is_fact = bool(place) and not re.search(r": (record|module) `|has no ", said)
        if not is_fact or (crate == CALL) != is_last:
            return found, False
    return found, True


def main():
    options = argparse.ArgumentParser(description=__doc__.split("\n")[0])
    options.add_argument("--table", action="store_true", help="print rows of Markdown")
    options.add_argument("parts", nargs="*", metavar="PART")
    chosen = options.parse_args()
    for name in set(chosen.parts) - {part.name for part in PARTS}:
        options.error(f"there is no part {name}")
    wrong = 0
    for part in PARTS:
        if chosen.parts and part.name not in chosen.parts:
            continue
        with tempfile.TemporaryDirectory() as folder:
            work = Path(folder)
            shutil.copytree(CRATES, work / "crates", ignore=shutil.ignore_patterns("out", "must-fail"))
            shutil.copy(TOP / "crates.txt", work)
            found, is_right = try_part(part, work)
        wrong += not is_right
        ways = "; then ".join(found)
        if chosen.table:
            print(f"| `{part.name}` | {part.gives_up} | {ways}{'' if is_right else ' (**WRONG**)'} |", flush=True)
        else:
            print(f"{part.name}: {part.gives_up}. Refused: {ways}{'' if is_right else ' WRONG'}", flush=True)
    return 1 if wrong else 0


if __name__ == "__main__":
    sys.exit(main())
