"""Checks of the oracle against answers worked out by hand in the docs, and that wrong answers are found."""

import re
from itertools import permutations
from pathlib import Path

import selftest_records
from compare import compare_one, complaints_about, outcome
from drawn import drawn
from laid import laid
from logs import ACQ, ACQREL, FENCE, READ, REL, RLX, UPDATE, WRITE, Event, Refused, Run, read_log, spell, text
from models import (LOCATION_SCOPE, MODELS, RA, RC20, RELAXED, SRA, WEAK_SCOPE, WRA, first_failing, hb,
                    orders, po, rf, satisfying, union)
from oracle import BYTES_READ, TooLarge, answer, lines_for, model_line, order_words
from violations import (BACK, CAUSAL, ROUND, TWIN, WEAK, WHOLE, first_kind, heads, holds, leads_back,
                        location_steps, read_steps, steps_between_chains, twins, weak_triples)

SAMPLES = Path(__file__).resolve().parent.parent.parent / "samples"
KIND_WORDS = {"R": READ, "W": WRITE, "U": UPDATE, "F": FENCE}
MODE_WORDS = {"rlx": RLX, "acq": ACQ, "rel": REL, "acqrel": ACQREL}


def run_of(lines):
    """The run of lines as docs/MODELS.md has them, parted by semicolons."""
    events = []
    for line in lines.split(";"):
        words = line.split()
        location = int(words[3][1:]) if len(words) > 3 else 0
        writer = int(words[5]) if len(words) > 5 else 0
        events.append(Event(int(words[0][1:]), KIND_WORDS[words[1]], MODE_WORDS[words[2]], location, writer))
    return read_log(spell(events))


IN_BETWEEN = "T1 W rlx L1; T2 U rlx L1 from 1; T3 W rlx L1; T3 R rlx L1 from 2"
HANDING = "T1 W rlx L1; T1 W rlx L1; T1 W rel L2; T2 R {} L2 from 3; T2 R rlx L1 from 1"
FENCES = "T1 W rlx L1; T1 W rlx L1; T1 F {} ; T1 W rlx L2; T2 R rlx L2 from 4; T2 F {}; T2 R rlx L1 from 1"
EACH_WAY = "T1 W rel L1; T1 W rel L2; T1 R acq L2 from 4; T2 W rel L2; T2 W rel L1; T2 R acq L1 from 1"
BUFFERING = "T1 R rlx L1 from 4; T1 W rlx L2; T2 R rlx L2 from 2; T2 W rlx L1"

# Rows of docs/MODELS.md: the order, and the answers under RC20, RA, SRA, WRA (empty order), Relaxed.
TABLES = (
    (IN_BETWEEN, ("3 1 2", "00000"), ("1 3 2", "444-4"), ("1 2 3", "333-3")),
    (HANDING.format("acq"), ("1 2 3", "33330"), ("2 1 3", "222-2")),
    (HANDING.format("rlx"), ("1 2 3", "03330"), ("2 1 3", "222-2")),
    (FENCES.format("rel", "acq"), ("1 2 4", "33330")),
    (FENCES.format("rlx", "acq"), ("1 2 4", "03330")),
    (FENCES.format("rel", "rlx"), ("1 2 4", "03330")),
    (EACH_WAY, ("5 1 2 4", "00200"), ("1 5 2 4", "333-3"), ("5 1 4 2", "333-3"), ("1 5 4 2", "333-3")),
    (BUFFERING, ("4 2", "11111")),
)

# Lines of docs/JUDGE.md, with a violation where it names one.
JUDGED = (
    ("T1 W rlx L1; T2 U rlx L1 from 1; T3 U rlx L1 from 1",
     ("RC20 inconsistent TWIN 2 3", "RA inconsistent TWIN 2 3", "SRA refused 24 2",
      "WRA inconsistent TWIN 2 3", "RELAXED inconsistent TWIN 2 3")),
    ("T1 W rlx L1; T2 U rlx L1 from 1; T2 R rlx L1 from 1",
     ("RC20 inconsistent BACK 2 1", "RA inconsistent BACK 2 1", "SRA refused 24 2",
      "WRA inconsistent WEAK 1 2 3", "RELAXED inconsistent BACK 2 1")),
    (BUFFERING, tuple(f"{model.name} inconsistent CAUSAL 1 2 3 4" for model in MODELS)),
    (HANDING.format("acq"),
     ("RC20 inconsistent ROUND 1:1>2,2>1", "RA inconsistent ROUND 1:1>2,2>1", "SRA inconsistent WHOLE 1 2",
      "WRA inconsistent WEAK 1 2 5", "RELAXED consistent 1:1<2 2:3")),
    (HANDING.format("rlx"),
     ("RC20 consistent 1:1<2 2:3", "RA inconsistent ROUND 1:1>2,2>1", "SRA inconsistent WHOLE 1 2",
      "WRA inconsistent WEAK 1 2 5", "RELAXED consistent 1:1<2 2:3")),
    (EACH_WAY,
     ("RC20 consistent 1:5<1 2:2<4", "RA consistent 1:5<1 2:2<4", "SRA inconsistent WHOLE 1 2 4 5",
      "WRA consistent", "RELAXED consistent 1:5<1 2:2<4")),
    (IN_BETWEEN,
     ("RC20 consistent 1:3<1<2", "RA consistent 1:3<1<2", "SRA refused 24 2", "WRA consistent",
      "RELAXED consistent 1:3<1<2")),
    ("T1 R rlx L1 from 4; T1 W rlx L2; T2 W rlx L2; T3 W rlx L1",
     ("RC20 consistent 1:4 2:2<3", "RA consistent 1:4 2:2<3", "SRA consistent 1:4 2:3<2", "WRA consistent",
      "RELAXED consistent 1:4 2:2<3")),
)


# The docs' examples and the samples.

def check_tables():
    for lines, *table in TABLES:
        run = run_of(lines)
        for row, (order, answers) in enumerate(table):
            order = tuple(map(int, order.split()))
            for model, wanted in zip(MODELS, answers):
                if wanted != "-":
                    given = () if model.scope == WEAK_SCOPE else order
                    assert given in orders(run, model.scope)
                    assert first_failing(run, model, given) == int(wanted), (lines, model, order)


def check_judged():
    for lines, wanted in JUDGED:
        run = run_of(lines)
        assert complaints_about(run, lines_for(run), "\n".join(wanted) + "\n") == [], lines


def check_samples():
    for path in sorted(SAMPLES.glob("*.log")):
        opened, printed = read_log(path.read_bytes()[:BYTES_READ]), path.with_suffix(".txt").read_text()
        try:
            wanted = lines_for(opened)
        except TooLarge:
            assert path.stem == "longest_run"
            continue
        assert complaints_about(opened, wanted, printed) == [], path.stem


def check_longest_sample():
    """Its orders are too many to try; what is said of it without them must still be what is printed."""
    run = read_log((SAMPLES / "longest_run.log").read_bytes())
    printed = (SAMPLES / "longest_run.txt").read_text().splitlines()
    for model, line in zip(MODELS, printed):
        kind = first_kind(run, model)
        if kind is None:
            assert line.split(" ") == [model.name, "consistent"] + order_words(run, laid(run, model)), model
        else:
            words = line.split(" ")
            assert words[:3] == [model.name, "inconsistent", kind], model
            assert holds(run, model, kind, words[3:]), model


def check_whole_scope_is_not_always_stronger():
    """The remark of docs/MODELS.md on an update before the write that it reads from."""
    run = run_of("T1 W rlx L1; T2 U rlx L1 from 1")
    for model in (RC20, RELAXED):
        at_whole = type(model)(model.name, model.rule, SRA.scope)
        assert first_failing(run, model, (2, 1)) == 2 and first_failing(run, at_whole, (2, 1)) == 0


# Reading a log.

LOGS = (
    ("", 10, 0), ("0800", 10, 0), ("040002000100", 10, 0), ("04000200000000", 10, 6), ("0400020000", 10, 0),
    ("08000100010200010000" "040002000100", None, None),
    ("08000100090200010000" "040002000100", 11, 0), ("08000100010500010000" "040002000100", 11, 0),
    ("08000100010201010000" "040002000100", 11, 0), ("08000100010200410000" "040002000100", 11, 0),
    ("08000100010400010000" "040002000100", 11, 0), ("08000100010200010100" "040002000100", 11, 0),
    ("08000100010100010000" "040002000100", 11, 0), ("08000100010100010100" "040002000100", 11, 0),
    # A wrong count comes before bytes after the end, and every shape before a writer.
    ("08000100010200010000" "040002000200" "ff", 10, 10), ("08000100010100010000" "0400020001", 10, 10),
    ("08000100010100010000" "08000100000200010000" "040002000200", 11, 10),
)


def check_reading():
    for digits, number, place in LOGS:
        opened = read_log(bytes.fromhex(digits))
        assert isinstance(opened, Run) if number is None else opened == Refused(number, place), digits
    store = Event(8, WRITE, REL, 64, 0)
    assert isinstance(read_log(spell([store] * 512)), Run)
    assert read_log(spell([store] * 513)) == Refused(20, 5120)
    assert read_log(spell([store] * 512 + [Event(0, WRITE, REL, 64, 0)])) == Refused(20, 5120)
    assert read_log(spell([store] * 513)[:5129]) == Refused(10, 5120)
    assert read_log(spell([Event(8, READ, RLX, 64, 0)] * 513)) == Refused(20, 5120)


def check_spelling_and_drawing():
    for index in range(400):
        data = drawn(3, index)
        assert data == drawn(3, index)
        opened = read_log(data)
        if isinstance(opened, Run):
            assert spell(opened.events) == data


# What the docs say of the models together.

def drawn_runs(seed, count):
    opened = (read_log(drawn(seed, index)) for index in range(count))
    return [run for run in opened if isinstance(run, Run) and len(run.events) < 20]


def viewed(run, modes):
    """The run in other modes, by kind."""
    return Run(tuple(Event(e.thread, e.kind, modes[e.kind], e.location, e.writer) for e in run.events))


def check_relations_of_models():
    strong = {READ: ACQ, WRITE: REL, UPDATE: ACQREL, FENCE: ACQREL}
    weak = dict.fromkeys(strong, RLX)
    for run in drawn_runs(5, 600):
        passing = {model: set(satisfying(run, model)) for model in MODELS}
        assert passing[SRA] <= passing[RA] <= passing[RC20] <= passing[RELAXED], text(run)
        assert passing[WRA] or not passing[RA], text(run)
        said = {model: model_line(run, model).split(" ")[1:] for model in (RA, RELAXED)}
        assert model_line(viewed(run, strong), RC20).split(" ")[1:] == said[RA], text(run)
        assert model_line(viewed(run, weak), RC20).split(" ")[1:] == said[RELAXED], text(run)


# A violation, found by search: right violations must be accepted.

def some_cycle(r):
    """A shortest cycle of r, by looking from each event for a way back to it."""
    for start in sorted({a for a, b in r}):
        ways = [[start]]
        for way in ways:
            following = sorted(b for a, b in r if a == way[-1])
            if start in following:
                return way
            ways += [way + [b] for b in following if all(b not in other for other in ways)]
    return None


def from_lowest(cycle):
    """The cycle from its lowest on; of steps, from the one that starts lowest."""
    at = cycle.index(min(cycle))
    return cycle[at:] + cycle[:at]


def some_violation(run, model, kind):
    """The words of a violation of the kind."""
    if kind == CAUSAL:
        return from_lowest(some_cycle(union(po(run), rf(run))))
    if kind == WHOLE:
        return from_lowest(some_cycle(union(hb(run, model.rule), read_steps(run, model.rule))))
    if kind == TWIN:
        return twins(run)[0]
    if kind == WEAK:
        return weak_triples(run, model.rule)[0]
    steps, head = sorted(location_steps(run, model.rule)), heads(run)
    if kind == BACK:
        return next(step for step in steps if leads_back(run, step))
    chains = some_cycle(steps_between_chains(run, model.rule))
    edges = zip(chains, chains[1:] + chains[:1])
    round_steps = [next(s for s in steps if (head[s[0]], head[s[1]]) == edge) for edge in edges]
    listed = ",".join(f"{start}>{end}" for start, end in from_lowest(round_steps))
    return [f"{run.event(chains[0]).location}:{listed}"]


def violation_words(run, model, line):
    """What a right program may add to the oracle's line."""
    if " inconsistent " not in line:
        return ""
    return "".join(f" {word}" for word in some_violation(run, model, outcome(line)[1]))


def right_print(opened):
    """What a right program may print."""
    lines = lines_for(opened)
    if isinstance(opened, Refused):
        return lines
    return [line + violation_words(opened, model, line) for model, line in zip(MODELS, lines)]


def check_right_violations_are_accepted():
    for index in range(1500):
        opened = read_log(drawn(11, index))
        if isinstance(opened, Refused) or len(opened.events) < 20:
            printed = "\n".join(right_print(opened)) + "\n"
            assert complaints_about(opened, lines_for(opened), printed) == [], (index, printed)


# Wrong answers must be found.

def without(lines, at):
    return lines[:at] + lines[at + 1:]


def damaged_lines(lines):
    """Lines that are dropped, doubled, exchanged, or written otherwise than they must be."""
    for at, line in enumerate(lines):
        yield without(lines, at)
        yield lines[:at] + [line] + lines[at:]
        spaced = (line + " ", " " + line, line.replace(" ", "  ", 1))
        for other in (*spaced, line.lower(), line + "\r", line + " 1", ""):
            yield lines[:at] + [other] + lines[at + 1:]
    yield from map(list, permutations(lines))
    yield lines + [""]


def damaged_words(lines):
    """Other words and other numbers in the place of each. Each sample's print is the only right one."""
    for at, line in enumerate(lines):
        words = line.split(" ")
        others = [re.sub(r"\b(CAUSAL|TWIN|WEAK|BACK|ROUND|WHOLE)\b", kind, line)
                  for kind in (CAUSAL, TWIN, WEAK, BACK, ROUND, WHOLE)]
        others += [line.replace(" consistent", " inconsistent"), line.replace(" inconsistent", " consistent")]
        others += [" ".join(without(words, place)) for place in range(len(words))]
        others += [" ".join(words[:3] + list(shuffled)) for shuffled in permutations(words[3:])]
        found = list(re.finditer(r"\d+", line))
        others += [line[:m.start()] + str(new) + line[m.end():] for m in found for new in range(20)]
        others += [line[:m.start()] + "0" + line[m.start():] for m in found]
        others += [line.replace(mark, new) for mark in ":<>," for new in (";", "<<", ">", ",")]
        if "," in line:
            start, steps = line.split(":")
            others += [start + ":" + ",".join(shuffled) for shuffled in permutations(steps.split(","))]
        yield from (lines[:at] + [other] + lines[at + 1:] for other in others)


def damaged_orders(run, lines):
    """Every other order of the stores, also one that satisfies but is not the one that is laid."""
    for at, model in enumerate(MODELS):
        if " consistent" in lines[at] and model.scope != WEAK_SCOPE:
            for order in orders(run, LOCATION_SCOPE):
                line = " ".join([model.name, "consistent", *order_words(run, order)])
                yield lines[:at] + [line] + lines[at + 1:]


def check_wrong_answers_are_found():
    count = 0
    for path in sorted(SAMPLES.glob("*.log")):
        if path.stem == "longest_run":
            continue
        opened = read_log(path.read_bytes()[:BYTES_READ])
        lines = path.with_suffix(".txt").read_text().splitlines()
        damaged = [*damaged_lines(lines), *damaged_words(lines)]
        damaged += damaged_orders(opened, lines) if isinstance(opened, Run) else []
        damaged = [wrong for wrong in damaged if wrong != lines]
        wanted = lines_for(opened)
        for wrong in damaged:
            assert complaints_about(opened, wanted, "\n".join(wrong) + "\n") != [], (path.stem, wrong)
        assert complaints_about(opened, wanted, "\n".join(lines)) != []
        assert complaints_about(opened, wanted, "\n".join(lines) + "\n", status=1) != []
        assert complaints_about(opened, wanted, "\n".join(lines) + "\n", errors="warning") != []
        count += len(damaged)
    assert count > 10_000


def check_violations_that_are_none():
    run = run_of(EACH_WAY)
    assert holds(run, SRA, WHOLE, ["1", "2", "4", "5"])
    others = "2 4 5 1; 1 5 4 2; 1 2 4; 1 2 4 5 1; 1 2 1 2 4 5; 1; ; 1 2 4 7; 0 1; 01 2 4 5"
    for words in others.split(";"):
        assert not holds(run, SRA, WHOLE, words.split()), words
    of_others = [(SRA, kind) for kind in (CAUSAL, WEAK, ROUND, BACK, "ROUNDS")]
    for model, kind in [(RA, WHOLE), (WRA, WHOLE), *of_others]:
        assert not holds(run, model, kind, ["1", "2", "4", "5"]), kind
    chains = read_log((SAMPLES / "round_through_chains.log").read_bytes())
    assert holds(chains, RA, ROUND, ["1:1>4,3>2"])
    others = "1:3>2,1>4 2:1>4,3>2 1:1>4 1:1>4,3>2,1>4,3>2 1:1>2,3>2 1>4,3>2 1: 1:1>4,3>2,"
    for word in others.split():
        assert not holds(chains, RA, ROUND, [word]), word
    ring = run_of("T1 U rlx L1 from 2; T2 U rlx L1 from 1")
    assert holds(ring, RA, CAUSAL, ["1", "2"])
    assert not holds(ring, RA, BACK, ["1", "2"]) and not holds(ring, RA, ROUND, ["1:1>2,2>1"])


def check_a_program_that_says_nothing():
    assert compare_one("/bin/true", 1, 0).complaints and compare_one("/bin/false", 1, 0).complaints


def check_too_large():
    """Nine writes of one location have more orders than are tried."""
    try:
        answer(spell([Event(1, WRITE, RLX, 1, 0)] * 9))
    except TooLarge:
        return
    raise AssertionError("nine writes are not too large")


if __name__ == "__main__":
    for name, check in [*globals().items(), *vars(selftest_records).items()]:
        if name.startswith("check_"):
            check()
            print(f"ok {name[len('check_'):]}", flush=True)
