"""Runs the program `manyrecords` on drawn lists of calls and compares what it prints with the oracle.

All that is printed must be equal, letter for letter. Many lists go in one input, each begun by `open`.
"""

import argparse
import sys
from collections import Counter
from functools import partial
from itertools import combinations
from multiprocessing import Pool
from subprocess import TimeoutExpired, run as run_process

from drawn_records import drawn_list
from logs import FENCE, MOST_EVENTS, UPDATE, WRITE
from records import KIND, LOCATION, STORES, WRITER, answers, carry_out, field_faults, fits, is_load

LONGEST_WAIT = 120
LISTS_AT_ONCE = 25
ENOUGH = 5_000

# What can become of each call: obeyed, barred, or refused with a number.
OUTCOMES = {
    "open": ("obeyed",),
    "note": ("obeyed", "barred", "9", "25", "1", "2", "3", "4", "20"),
    "link": ("obeyed", "barred", "9", "25", "5", "6", "7"),
    "retract": ("obeyed", "barred", "9", "25", "21", "22"),
    "seal": ("obeyed", "barred", "9", "25", "23"),
    "reopen": ("obeyed", "barred"),
    "count": ("obeyed", "barred"),
    "event": ("obeyed", "barred", "5"),
    "damage": ("obeyed", "barred"),
    "no call": ("",),
}
# What else is to be seen: why a call is refused, and which faults it has besides, which come later.
NOTES = {
    "note": ("obeyed over what was taken back",),
    "link": ("obeyed cleared", "obeyed to a later event", "obeyed in place of another", "6 to none", "6 to a number",
             "7 itself, an update", "7 itself, a read", "7 no store", "7 elsewhere", "7 above the count",
             "7 once a store there, taken back", "7 fits by its low bytes", "6 before 7"),
    "retract": ("22 one load", "22 several loads"),
    "seal": ("obeyed with no events", f"obeyed with {MOST_EVENTS} events", "23 one load", "23 several loads"),
    "event": ("obeyed a fence", "obeyed an update"),
}
DAMAGED = tuple(f"25 {why}" for why in (
    "field 1", "field 2", "field 3", "field 4", "writer of a write", "writer of a fence", "writer itself",
    "writer no store", "writer elsewhere", "writer above the count"))
CAN_OCCUR = [(name, outcome) for name, outcomes in OUTCOMES.items() for outcome in outcomes]
CAN_OCCUR += [(name, note) for name, notes in NOTES.items() for note in notes]
CAN_OCCUR += [(name, why) for name in ("note", "link", "retract", "seal") for why in DAMAGED]
# The checks of a call are made in this order; 6 and 7 are not asked of an event that there is not, and so on.
CAN_OCCUR += [(name, f"{first} before {later}") for name, order in (
    ("note", ("9", "25", "1", "2", "3", "4", "20")), ("link", ("9", "25", "5")), ("link", ("9", "25", "6", "7")),
    ("retract", ("9", "25", "22")), ("seal", ("9", "25", "23"))) for first, later in combinations(order, 2)]
CAN_OCCUR += [("retract", "9 before 21")]


# What is counted. Each call is looked at with the session before it.

def why_unfit(places, event, writer):
    """Why a number that is not 0 does not fit a load, or would not if the event were one."""
    if writer == event:
        return "itself"
    if writer > len(places):
        return "above the count"
    return "elsewhere" if places[writer - 1][KIND] in STORES else "no store"


def why_damaged(places, event):
    """What is wrong with a damaged place."""
    *fields, writer = places[event - 1]
    faults = field_faults(*fields)
    if faults:
        return f"field {faults[0]}"
    if not is_load(places[event - 1]):
        return f"writer of a {'write' if fields[KIND] == WRITE else 'fence'}"
    return f"writer {why_unfit(places, event, writer)}"


def why_refused(memory, count, event, writer):
    """What is wrong with the writer of a link that is refused with 7."""
    places, here = memory[:count], memory[event - 1]
    why = why_unfit(places, event, writer)
    if why == "itself":
        return "itself, an update" if here[KIND] in STORES else "itself, a read"
    if why != "above the count":
        return why
    if writer <= len(memory) and fits(memory, event, writer):
        return "once a store there, taken back"
    low_bytes = {writer % 256, writer % 65_536} - {writer}
    return "fits by its low bytes" if any(fits(places, event, low) for low in low_bytes) else why


def notes_on_refused(memory, count, call, number, faults):
    """What a refused call is an example of, by the first of its faults."""
    if number == 25:
        return [why_damaged(memory[:count], faults[0][1])]
    if number == 7:
        return [why_refused(memory, count, *call[3:])]
    if number == 6:
        return ["to a number" if call[4] else "to none"]
    if number in (22, 23):
        return ["several loads" if len(faults) > 1 else "one load"]
    return []


def notes_on_obeyed(memory, count, call):
    """What a call is an example of that is obeyed."""
    if call[0] == "note":
        return ["over what was taken back"] * any(memory[count])
    if call[0] == "seal":
        return [f"with {count or 'no'} events"] * (count in (0, MOST_EVENTS))
    if call[0] == "link":
        old, event, new = memory[call[3] - 1][WRITER], *call[3:]
        is_other = old != 0 and new not in (0, old)
        return ["cleared"] * (new == 0) + ["to a later event"] * (new > event) + ["in place of another"] * is_other
    if call[0] == "event":
        return {FENCE: ["a fence"], UPDATE: ["an update"]}.get(memory[call[1] - 1][KIND], [])
    return []


def outcomes_of(session, call):
    """The call's name with what becomes of it, with what it is an example of, and with the faults that come after."""
    if call is None:
        return [("no call", "")]
    name = call[0]
    if name == "open":
        return [(name, "obeyed")]
    if session.is_barred(call):
        return [(name, "barred")]
    memory, count, faults = session.memories["own"], session.record, list(session.faults(call))
    if faults:
        numbers = list(dict.fromkeys(number for number, _ in faults))
        first = [fault for fault in faults if fault[0] == numbers[0]]
        notes = notes_on_refused(memory, count, call, numbers[0], first) + [f"before {later}" for later in numbers[1:]]
        return [(name, f"{numbers[0]}")] + [(name, f"{numbers[0]} {note}") for note in notes]
    if name == "event" and not 1 <= call[1] <= count:
        return [(name, "5")]
    return [(name, "obeyed")] + [(name, f"obeyed {note}") for note in notes_on_obeyed(memory, count, call)]


def answers_and_counts(script):
    """The oracle's lines for a script, and how often each outcome and each note came of it."""
    printed = []
    counts = Counter(each for session, call in carry_out(script, printed) for each in outcomes_of(session, call))
    return printed, counts


def never(counts):
    """What can occur and did not."""
    return [each for each in CAN_OCCUR if counts[each] == 0]


def table(counts):
    """A line for each call, with how often each of its outcomes was seen; then what else was seen."""
    lines = []
    for name, outcomes in OUTCOMES.items():
        lines += [f"{name:<8}" + "".join(f"{outcome:>8}{counts[name, outcome]:>9}" for outcome in outcomes)]
    others = [(each, count) for each, count in counts.items() if each[1] not in OUTCOMES[each[0]]]
    return lines + [""] + [f"{name} {note}: {count}" for (name, note), count in sorted(others)]


# Lists, many in one input.

def as_script(lists):
    return "".join(line + "\n" for lines in lists for line in lines)


def script_of(seed, indices):
    """The lists one after another. Some begin without the first `open`, and some end without the last line feed."""
    script = as_script(drawn_list(seed, index) for index in indices)
    sort = indices[0] // LISTS_AT_ONCE % 4
    if sort == 1:
        return script.removeprefix("open\n")
    return script[:-1] if sort == 2 and script[-2] != "\n" else script


def run_program(program, script):
    """What it printed, its status and its errors."""
    ended = run_process([program], input=script.encode("utf-8"), capture_output=True, timeout=LONGEST_WAIT)
    printed, errors = (stream.decode("utf-8", "backslashreplace") for stream in (ended.stdout, ended.stderr))
    return printed, ended.returncode, errors


def complaints_about(wanted, printed, status=0, errors=""):
    """All that is wrong with what a program printed; `wanted` are the oracle's lines."""
    complaints = [f"exit status {status}"] * (status != 0) + [f"standard error: {errors}"] * (errors != "")
    lines, printed_lines = [*wanted, ""], printed.split("\n")
    if printed_lines == lines:
        return complaints
    at = next((at for at, pair in enumerate(zip(printed_lines, lines)) if pair[0] != pair[1]), None)
    if at is None:
        return complaints + [f"{len(printed_lines) - 1} lines for {len(wanted)}, or the last line does not end"]
    return complaints + [f"output line {at + 1} is {printed_lines[at]!r} for {lines[at]!r}"]


def complaints_of(program, script, wanted):
    """All that is wrong with what the program does with a script."""
    try:
        return complaints_about(wanted, *run_program(program, script))
    except TimeoutExpired:
        return [f"no answer in {LONGEST_WAIT} seconds"]


def compare_lists(program, seed, lists, first):
    """The complaints about the lists from an index on, each with its script, and the counts.

    Where they are wrong together, each list is looked at alone.
    """
    indices = range(first, min(first + LISTS_AT_ONCE, lists))
    script = script_of(seed, indices)
    wanted, counts = answers_and_counts(script)
    together, wrong = complaints_of(program, script, wanted), []
    for index in indices if together else ():
        alone = as_script([drawn_list(seed, index)])
        complaints = complaints_of(program, alone, answers(alone))
        wrong += [(f"list {index}: {complaint}", alone) for complaint in complaints]
    if together and not wrong:
        wrong = [(f"lists {indices[0]} to {indices[-1]} together: {complaint}", script) for complaint in together]
    return wrong, counts


def compare_all(program, seed, lists, jobs):
    """What comes of the lists, in the order of their indices."""
    compare = partial(compare_lists, program, seed, lists)
    starts = range(0, lists, LISTS_AT_ONCE)
    if jobs == 1:
        yield from map(compare, starts)
    else:
        with Pool(jobs) as pool:
            yield from pool.imap(compare, starts)


def show(complaint, script):
    """One disagreement, with the list and what the oracle says of it."""
    lines = [complaint] + [f"  line {number}: {line!r}" for number, line in enumerate(script.split("\n")[:-1], 1)]
    print("\n".join(lines + [f"  oracle: {line}" for line in answers(script)]), flush=True)


def main():
    parser = argparse.ArgumentParser(description=__doc__)
    parser.add_argument("--program", required=True)
    parser.add_argument("--lists", type=int, default=20_000)
    parser.add_argument("--seed", type=int, default=1)
    parser.add_argument("--jobs", type=int, default=2)
    arguments = parser.parse_args()
    counts, disagreements = Counter(), 0
    for wrong, more in compare_all(arguments.program, arguments.seed, arguments.lists, arguments.jobs):
        counts.update(more)
        disagreements += len(wrong)
        for complaint, script in wrong:
            show(complaint, script)
    print("\n".join(table(counts)))
    missing = never(counts)
    for name, note in missing:
        print(f"never: {name} {note}")
    print(f"{arguments.lists} lists, {disagreements} disagreements")
    return 1 if disagreements or missing and arguments.lists >= ENOUGH else 0


if __name__ == "__main__":
    sys.exit(main())
