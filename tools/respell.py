#!/usr/bin/env python3
"""Brings the names of this repository's own definitions and lemmas to Rattle's spelling of today: snake case, and a dash
only before or after the name of a definition. To be run right after the kit's port.py, at the top of the repository;
on today's tree it changes nothing. Names of src/, strings, inputs and outputs are not in the table."""
import glob
import re

# Definitions of specs/. Each is one word in camel case there, which no Rust name is, so they are respelled wherever they stand.
DEFINITIONS = """
    checkedKind checkedMode endBytes eventAt eventBytes eventText eventsOf faultNumber faultPlace inLocations inThreads
    isAccess isEnd isEvent isLoad kindLetter kindNumber lineText linesText linkedTo linkedUp littleEndian logText maxEvents
    maxLocations maxThreads modeNumber modeWord noEvent placeWords rawAt rawOf recordAt refusalText runText tooMany
    withWriters
""".split()

# Lemmas of proofs/, whose dashes join plain words.
LEMMAS = """
    a-writer after-kind after-thread answered-err answered-ok at-number bad-location bad-mode bad-thread begins-more
    begins-none checked-back checked-legal closed-from-scanned closed-full closed-scanned closed-spelled empty-reads
    empty-shows end-byte end-no-event ended-outcome ended-shape ended-trailing ended-whole ends-back ends-test event-byte
    false-linked fault-from-reading fault-is field-first first-mode first-place fits-once fits-true full-from-reading
    full-none full-of full-once full-shown kind-high kind-low legal-checked legal-once legal-test length-body
    length-from-reading linked-false linked-in linked-none linked-once linked-past linked-some linked-true links-all
    links-bad links-more links-outcome links-past no-writer nth-events number-kind number-mode ok-value opens-err opens-ok
    passed-kind passed-mode raw-back reading-from-spelled reads-shown refuses-err refuses-ok rf-reads scanned-bad
    scanned-end scanned-full scanned-more scanned-outcome scanned-past scanned-reading shown-at size-high sound-checked
    sound-event sound-legal spelled-closed spelled-events spelled-from-reading spelled-linked test-ends test-legal
    threads-in true-fits true-linked
""".split()

# Those that would fall together with a definition, or that name one after the dash.
OTHERS = {
    "at-events": "at-events_of",
    "length-events": "length-events_of",
    "end-at": "end_bytes_at",
    "event-at": "event_bytes_at",
    "end-bytes": "byte-end_bytes",
    "event-bytes": "byte-event_bytes",
    "in-locations": "locations_in_test",
    "in-threads": "threads_in_test",
    "kind-number": "number_of_kind",
    "mode-number": "number_of_mode",
    "kind-of": "kind_of-number",
    "mode-of": "mode_of-number",
    "with-writers": "with_writers_outcome",
}

# Fields of a record, which stand after a dot too.
FIELDS = {"kind-high", "kind-low", "size-high"}


def snake(name):
    return re.sub(r"([A-Z])", lambda m: "_" + m.group(1).lower(), name).replace("-", "_")


NEW = {name: snake(name) for name in DEFINITIONS + LEMMAS} | OTHERS
LETTER = r"[\w'≡≢≤-]"
WORD = re.compile(r"(?<!%s)(%s)(?!%s)" % (LETTER, "|".join(map(re.escape, sorted(NEW, key=len, reverse=True))), LETTER))


def respelled(m):
    name = m.group(1)
    # what stands after a dot and has a dash is a name that Rattle makes of the code
    if m.string[: m.start()].endswith(".") and "-" in name and name not in FIELDS:
        return name
    return NEW[name]


def main():
    for kind in ("src/**/*.rt", "specs/**/*.antt", "proofs/**/*.antt", "must-fail/*.edit"):
        for path in sorted(glob.glob("crates/*/" + kind, recursive=True)):
            with open(path, encoding="utf-8") as f:
                old = f.read()
            new = WORD.sub(respelled, old)
            if new != old:
                with open(path, "w", encoding="utf-8") as f:
                    f.write(new)


main()
