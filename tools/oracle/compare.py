"""Runs the program on drawn logs and compares what it prints with the oracle.

Refusals, verdicts and orders must be equal line for line. A violation must hold and be of the first kind.
"""

import argparse
import sys
from collections import Counter
from dataclasses import dataclass, replace
from functools import partial
from itertools import permutations
from multiprocessing import Pool
from subprocess import TimeoutExpired, run as run_process

from drawn import drawn
from logs import FENCE, RLX, Refused, Run, read_log, text
from models import MODELS, RC20, WHOLE_SCOPE, stores_by_location
from oracle import BYTES_READ, Disagreement, TooLarge, lines_for, model_line
from violations import KINDS, holds

LONGEST_WAIT = 60
OUTCOMES = ("consistent", *KINDS, "refused 24")
LOG_REFUSALS = ("10", "11", "20")


# One log.

@dataclass(frozen=True)
class Compared:
    """What came of one log: nothing to complain of, if all is well."""

    index: int
    data: bytes
    printed: str
    wanted: tuple
    complaints: tuple
    notes: tuple


def line_fits(opened, model, wanted, line):
    """Whether the line says what the oracle says; the words of a violation are looked at in the run."""
    words, wanted_words = line.split(" "), wanted.split(" ")
    if wanted_words[1] != "inconsistent":
        return line == wanted
    return words[:3] == wanted_words and holds(opened, model, wanted_words[2], words[3:])


def complaints_about(opened, wanted, printed, status=0, errors=""):
    """All that is wrong with what a program printed for a log; `wanted` are the oracle's lines."""
    complaints = [f"exit status {status}"] * (status != 0) + [f"standard error: {errors}"] * (errors != "")
    lines = printed.split("\n")
    if lines.pop() != "":
        complaints.append("the last line does not end")
    if len(lines) != len(wanted):
        return complaints + [f"{len(lines)} lines for {len(wanted)}"]
    models = [None] if isinstance(opened, Refused) else MODELS
    return complaints + [f"{line!r} for {want!r}" for model, want, line in zip(models, wanted, lines)
                         if not line_fits(opened, model, want, line)]


def compare_one(program, seed, index):
    """Draws one log and compares. A log that the oracle cannot judge is a complaint too."""
    data = drawn(seed, index)
    try:
        ended = run_process([program], input=data, capture_output=True, timeout=LONGEST_WAIT)
    except TimeoutExpired:
        return Compared(index, data, "", (), (f"no answer in {LONGEST_WAIT} seconds",), ())
    printed, errors = (stream.decode("ascii", "backslashreplace") for stream in (ended.stdout, ended.stderr))
    opened = read_log(data[:BYTES_READ])
    try:
        wanted = lines_for(opened)
    except (TooLarge, Disagreement) as problem:
        return Compared(index, data, printed, (), (f"the oracle: {problem!r}",), ())
    complaints = complaints_about(opened, wanted, printed, ended.returncode, errors)
    return Compared(index, data, printed, tuple(wanted), tuple(complaints), tuple(notes_on(opened, wanted)))


# What is counted.

def outcome(line):
    """The model, and what the line says of it: `consistent`, a kind, or `refused` and the number."""
    words = line.split(" ")
    if words[1] == "consistent":
        return words[0], "consistent"
    return words[0], words[2] if words[1] == "inconsistent" else f"refused {words[2]}"


def is_by_number(line):
    """Whether the stores of each location of a consistent line stand by rising number."""
    groups = [[int(store) for store in word.split(":")[1].split("<")] for word in line.split(" ")[2:]]
    return all(group == sorted(group) for group in groups)


def fences_decide(run, outcomes):
    """Whether RC20 rules the run out, but not with all its fences relaxed; asked only where it may be."""
    has_fences = any(event.kind == FENCE for event in run.events)
    if not has_fences or outcomes["RC20"] == "consistent" or outcomes["RELAXED"] != "consistent":
        return False
    relaxed = Run(tuple(replace(e, mode=RLX) if e.kind == FENCE else e for e in run.events))
    return outcome(model_line(relaxed, RC20))[1] == "consistent"


def notes_on(opened, wanted):
    """What is worth counting of a run besides the outcomes."""
    if isinstance(opened, Refused):
        return []
    outcomes = dict(map(outcome, wanted))
    notes = ["opened"] + ["RC20 inconsistent by fences alone"] * fences_decide(opened, outcomes)
    ra_order, sra_order = (line.split(" ")[2:] for line in wanted[1:3])
    both = outcomes["SRA"] == outcomes["RA"] == "consistent"
    notes += ["SRA's order is not RA's"] * (both and ra_order != sra_order)
    several = any(len(group) > 1 for group in stores_by_location(opened))
    consistent = [line for line in wanted if outcome(line)[1] == "consistent"]
    notes += [f"several stores {outcome(line)[0]}" for line in consistent if several]
    return notes + [f"not by number {outcome(line)[0]}" for line in consistent if not is_by_number(line)]


def can_occur(model, result):
    """Whether a model can have this outcome at all."""
    if result == "consistent":
        return True
    if result == "refused 24":
        return model.scope == WHOLE_SCOPE
    return model.scope in KINDS[result][0]


class Tally:
    """The counts over all logs."""

    def __init__(self):
        self.outcomes, self.differences, self.notes = Counter(), Counter(), Counter()

    def add(self, compared):
        outcomes = [outcome(line) for line in compared.wanted]
        self.outcomes.update(outcomes)
        self.notes.update(compared.notes)
        for (one, result), (other, other_result) in permutations(outcomes, 2):
            if result == "consistent" and other_result not in ("consistent", "refused 24"):
                self.differences[one, other] += 1

    def never(self):
        """The outcomes that can occur and did not."""
        possible = [(model.name, result)
                    for model in MODELS for result in OUTCOMES if can_occur(model, result)]
        possible += [("log", f"refused {number}") for number in LOG_REFUSALS]
        return [pair for pair in possible if self.outcomes[pair] == 0]

    def row(self, title, cells):
        return f"{title:<26}" + "".join(f"{cell:>9}" for cell in cells)

    def lines(self):
        """The table as lines."""
        names = [model.name for model in MODELS]
        table = [self.row("", names)]
        for result in OUTCOMES:
            cells = [self.outcomes[model.name, result] if can_occur(model, result) else "-"
                     for model in MODELS]
            table.append(self.row(result, cells))
        for title in ("several stores", "not by number"):
            table.append(self.row(f"consistent, {title}", [self.notes[f"{title} {name}"] for name in names]))
        table += ["", self.row("consistent, and not under", names)]
        table += [self.row(one, [self.differences[one, other] if one != other else "-" for other in names])
                  for one in names]
        notes = ("RC20 inconsistent by fences alone", "SRA's order is not RA's", "opened")
        table += [""] + [f"{note}: {self.notes[note]}" for note in notes]
        refusals = [f"refused {number}" for number in LOG_REFUSALS]
        return table + [f"log {refusal}: {self.outcomes['log', refusal]}" for refusal in refusals]


# All logs.

def show(compared):
    """One disagreement, with all that is needed to look into it."""
    opened = read_log(compared.data[:BYTES_READ])
    lines = [f"log {compared.index}: {complaint}" for complaint in compared.complaints]
    lines += [f"  bytes {compared.data.hex()}"] + ([] if isinstance(opened, Refused) else text(opened))
    lines += [f"  program: {line}" for line in compared.printed.split("\n")]
    print("\n".join(lines + [f"  oracle:  {line}" for line in compared.wanted]), flush=True)


def compare_all(program, seed, logs, jobs):
    """The outcome of each log, in the order of their indices."""
    compare = partial(compare_one, program, seed)
    if jobs == 1:
        yield from map(compare, range(logs))
    else:
        with Pool(jobs) as pool:
            yield from pool.imap(compare, range(logs), chunksize=20)


def main():
    parser = argparse.ArgumentParser(description=__doc__)
    parser.add_argument("--program", required=True)
    parser.add_argument("--logs", type=int, default=20_000)
    parser.add_argument("--seed", type=int, default=1)
    parser.add_argument("--jobs", type=int, default=2)
    arguments = parser.parse_args()
    tally, disagreements = Tally(), 0
    for compared in compare_all(arguments.program, arguments.seed, arguments.logs, arguments.jobs):
        tally.add(compared)
        if compared.complaints:
            disagreements += 1
            show(compared)
    print("\n".join(tally.lines()))
    for model, result in tally.never():
        print(f"never: {model} {result}")
    print(f"{arguments.logs} logs, {disagreements} disagreements")
    return 1 if disagreements or tally.never() else 0


if __name__ == "__main__":
    sys.exit(main())
