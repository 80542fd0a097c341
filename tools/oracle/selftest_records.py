"""Checks of what the oracle says of records, and that wrong answers are found. They are run by selftest.py."""

import re
from pathlib import Path

from compare_records import answers_and_counts, as_script, compare_lists, complaints_about, script_of
from drawn import drawn
from drawn_records import LONG_EVERY, drawn_list
from logs import Run, event_text, read_log
from picked_records import list_of, picked_lists
from records import FAULTS, WRITER, Session, Tally, answers, read_line

DOCS = Path(__file__).resolve().parent.parent.parent / "docs"

# The session of docs/RECORD.md with its answers, and some calls more.
SESSION = (
    ("note 1 2 0 1", "event 1"), ("note 1 2 2 2", "event 2"), ("note 2 1 1 2", "event 3"),
    ("note 2 1 0 1", "event 4"), ("link 3 2", "done"), ("link 4 2", "record refused 7 4"), ("retract", "done"),
    ("seal", "done"), ("count", "count 3"), ("event 3", "T2 R acq L2 from 2"), ("reopen", "done"),
    ("count", "barred"), ("note 2 2 0 3", "event 4"),
)

# The rows of docs/REFUSALS.md for a record, and 5 of the checker: calls of which the last is refused, and how.
REFUSALS = (
    ("note 0 2 0 1", "1 0"), ("note 9 2 0 1", "1 0"), ("note 1 0 0 1", "2 0"), ("note 1 5 0 1", "2 0"),
    ("note 1 1 2 1", "3 0"), ("note 1 2 1 1", "3 0"), ("note 1 3 4 1", "3 0"), ("note 1 2 0 0", "4 0"),
    ("note 1 2 0 65", "4 0"), ("note 1 4 0 1", "4 0"), ("link 0 0", "5 0"), ("note 1 2 0 1; link 2 1", "5 2"),
    ("note 1 2 0 1; link 1 0", "6 1"), ("note 1 4 0 0; note 1 2 0 1; link 1 2", "6 1"),
    ("note 1 1 0 1; link 1 2", "7 1"), ("note 1 3 0 1; link 1 1", "7 1"),
    ("note 1 1 0 1; note 1 1 0 1; link 2 1", "7 2"), ("note 1 1 0 1; note 1 2 0 2; link 1 2", "7 1"),
    ("note own 511 1 2 0 1", "9 0"), ("seal other 520", "9 0"),
    ("; ".join(["note 1 2 0 1"] * 513), "20 0"), ("retract", "21 0"),
    ("note 1 1 0 1; note 1 1 0 1; note 1 2 0 1; link 2 3; link 1 3; retract", "22 1"),
    ("note 1 2 0 1; note 1 1 0 1; note 1 3 0 1; seal", "23 2"),
    ("note 1 2 0 1; note 1 2 0 1; damage 2 thread 0; retract", "25 2"),
    ("note 1 2 0 1; damage 1 writer 1; seal", "25 1"),
    ("note 1 1 0 1; note 1 2 0 1; link 1 2; damage 2 location 2; note 9 9 9 9", "25 1"),
)

CALLS = """note own 0 0 0 0 0; note other 999999 255 255 255 255; link own 1 4294967295 0; link own 1 0 4294967295
retract own 512; seal other 0; reopen; count; event 0; event 4294967295; damage own 1 thread 0; damage own 520 kind 255
damage own 2 mode 9; damage own 3 location 9; damage own 4 writer 65535; damage other 511 writer 0; open"""
NO_CALLS = """;note own 0 0 0 0;note own 0 0 0 0 0 0;note own 512 256 0 0 0;note own 1000000 1 1 1 1;note own 01 1 1 1 1
note mine 1 1 1 1 1;link own 1 4294967296 0;link own 1 0 4294967296;link own 1 -1 0;link own 1 +1 0;seal;seal own
seal own 1 ; seal own 1;seal  own 1;seal\town 1;seal own 1\r;Seal own 1;event;event 00;event 4294967296;event 1.0
damage own 0 thread 0;damage own 521 thread 0;damage other 512 thread 0;damage own 1 thread 256
damage own 1 writer 65536;damage own 1 reader 1;damage own thread 1 1;open 1;reopen 1;count 1;\u0661
event \u0661;event \u00b2;event 1\0;#"""


def section(page, heading):
    text = (DOCS / page).read_text()
    return text[text.index(f"## {heading}\n"):].split("\n## ")[0]


def last_answer(short):
    """The answer to the last call of a list that is written short."""
    session = Session()
    return [session.answer(read_line(line)) for line in list_of(short)[1:]][-1]


def drawn_small(seed, count):
    return [drawn_list(seed, index) for index in range(count) if index % LONG_EVERY != LONG_EVERY - 1]


# The docs' examples.

def check_example_of_records():
    script, printed = re.findall(r"```\n(.*?)```", section("PROGRAMS.md", "manyrecords"), re.DOTALL)
    assert "".join(line + "\n" for line in answers(script)) == printed
    assert answers(script[:-1]) == answers(script)
    assert answers("") == [] and answers("\n") == ["not a call"] and answers("count") == ["barred"]
    before = "note own 512 1 2 0 1\nopen\nopen"
    assert answers(before) == ["event 1", "own 1: 1 2 0 1 0", "open", "open"]


def check_session_of_record():
    session = Session()
    for short, wanted in SESSION:
        assert session.answer(read_line(list_of(short)[1])) == wanted, short
        if short.startswith("retract"):
            rows = re.findall(r"^\| (\d) \| ([\d ]+) \|$", section("RECORD.md", "A session"), re.MULTILINE)
            assert [f"own {int(place) + 1}: {numbers}" for place, numbers in rows] == session.places()[:3]
            assert session.places()[3:] == ["own 4: 2 1 0 1 0"]
    assert session.places()[3:] == ["own 4: 2 2 0 3 0"]


def check_refusals_of_record():
    for short, wanted in REFUSALS:
        assert last_answer(short) == f"record refused {wanted}", short[:80]
    for event in (0, 2, 65_537):
        assert last_answer(f"note 1 2 0 1; seal; event {event}") == f"checker refused 5 {event}"
    rows = re.findall(r"^\| (\d+)(?: to (\d+))? \| record \|", section("REFUSALS.md", "By number"), re.MULTILINE)
    numbers = {number for first, last in rows for number in range(int(first), int(last or first) + 1)}
    assert numbers == {int(wanted.split(" ")[0]) for _, wanted in REFUSALS}


def check_order_of_the_checks():
    """The faults of each call come in the order that docs/RECORD.md has."""
    rows = re.findall(r"^\| `(\w+)` \| ([^|]*\d) \|$", section("RECORD.md", "When a call is refused"), re.MULTILINE)
    order = {name: [int(number) for number in re.findall(r"\d+", checks)] for name, checks in rows}
    assert order.keys() == FAULTS.keys()
    for lines in [*picked_lists()[:250], *drawn_small(3, 300)]:
        session = Session()
        for call in filter(None, map(read_line, lines[1:])):
            places = [order[call[0]].index(number) for number, _ in session.faults(call)]
            assert places == sorted(places), call
            session.answer(call)


def check_what_calls_write():
    """A note writes one place and a link one writer; no other call writes, and none that is refused or barred does."""
    for lines in drawn_small(4, 150):
        session = Session()
        for call in filter(None, map(read_line, lines[1:])):
            count = session.record
            before = {name: list(map(list, memory)) for name, memory in session.memories.items()}
            answer = session.answer(call)
            if answer.startswith("event") and call[0] == "note":
                before["own"][count] = [*call[3:], 0]
            elif answer == "done" and call[0] == "link":
                before["own"][call[3] - 1][WRITER] = call[4]
            if answer != "damaged":
                assert before == session.memories, call


def check_tally():
    """Where nothing damages memory, a list of events that never sees it answers the same."""
    compared = 0
    for lines in [*picked_lists(), *drawn_small(6, 1000), drawn_list(6, LONG_EVERY - 1)]:
        session, tally = Session(), Tally()
        for call in map(read_line, lines[1:]):
            if call and call[0] != "damage":
                assert session.answer(call) == tally.answer(call), (call, lines)
                compared += 1
        listed = [[e.thread, e.kind, e.mode, e.location, e.writer] for e in tally.events]
        assert session.memories["own"][:session.record] == listed, lines
    assert compared > 10_000


def check_recording():
    """The calls that record a run are all obeyed, and the answers are the run."""
    for index in range(300):
        run = read_log(drawn(9, index))
        if isinstance(run, Run):
            calls = [f"note {e.thread} {e.kind} {e.mode} {e.location}" for e in run.events]
            calls += [f"link {number} {e.writer}" for number, e in enumerate(run.events, 1) if e.is_load()]
            calls += ["seal", "count", *(f"event {number}" for number in run.numbers())]
            session = Session()
            said = [session.answer(read_line(line)) for line in list_of("; ".join(calls))[1:]]
            assert said[-len(run.events) - 1:] == [f"count {len(run.events)}", *map(event_text, run.events)]
            assert not any("refused" in line or line == "barred" for line in said)


def check_lines_of_calls():
    for line in re.split(r"; |\n", CALLS):
        assert read_line(line) is not None, line
    for line in re.split(r";|\n", NO_CALLS):
        assert read_line(line) is None, line


# Lists, and that wrong answers are found.

def check_lists():
    for lines in [*picked_lists(), *drawn_small(8, 300)]:
        assert lines[0] == "open" and "open" not in lines[1:]
        assert not any("\n" in line for line in lines)
    assert drawn_small(8, 40) == drawn_small(8, 40)
    script = as_script([*picked_lists(), *drawn_small(8, 100)])
    alone = [line for lines in [*picked_lists(), *drawn_small(8, 100)] for line in answers(as_script([lines]))]
    assert answers_and_counts(script)[0] == answers(script) == alone


def damaged_texts(text):
    """One character is changed, one line dropped, doubled or moved on, or something stands at the end."""
    for at, letter in enumerate(text):
        for other in {"0", "1", " ", "\n", "x", letter.swapcase()} - {letter}:
            yield text[:at] + other + text[at + 1:]
        yield text[:at] + text[at + 1:]
    lines = text.splitlines(keepends=True)
    for at, line in enumerate(lines):
        yield "".join(lines[:at] + [line] + lines[at:])
        yield "".join(lines[:at] + lines[at + 1:])
        for to in range(at + 1, len(lines)):
            if lines[at] != lines[to]:
                yield "".join([*lines[:at], lines[to], *lines[at + 1:to], line, *lines[to + 1:]])
    yield from (text + "\n", text + " ", text + lines[-1], text[:-1], "")


def check_wrong_answers_of_records_are_found():
    count = 0
    for index in range(40):
        script = as_script([drawn_list(12, index), drawn_list(13, index)])
        wanted = answers(script)
        text = "".join(line + "\n" for line in wanted)
        assert complaints_about(wanted, text) == []
        assert complaints_about(wanted, text, status=1) != [] and complaints_about(wanted, text, errors="warning") != []
        for wrong in damaged_texts(text):
            assert complaints_about(wanted, wrong) != [], wrong
            count += 1
    assert count > 50_000


def check_a_records_program_that_says_nothing():
    for program in ("/bin/true", "/bin/false"):
        wrong, counts = compare_lists(program, 1, 30, 25)
        assert len({complaint.split(":")[0] for complaint, _ in wrong}) == 5 and counts["open", "obeyed"] == 4
    assert not script_of(1, range(25, 30)).startswith("open\n")
