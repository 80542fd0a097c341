"""What the program `manyrecords` must print for lists of a record's calls: docs/PROGRAMS.md and docs/RECORD.md.

By definition: a memory is a list of places of five numbers each, and an open record is its number of events. Each call
names its faults in the order of the checks, and the first is the refusal. Reads the lists from stdin.
"""

import re
import sys
from functools import cache

from logs import (ALL_MODES, ALLOWED, FENCE, MOST_EVENTS, MOST_LOCATIONS, MOST_THREADS, READ, UPDATE, WRITE, Event,
                  event_text)

PLACES = {"own": 520, "other": 511}
LEAST_PLACES = 512
FIELDS = ("thread", "kind", "mode", "location", "writer")
KIND, LOCATION, WRITER = 1, 3, 4
LOADS, STORES = (READ, UPDATE), (WRITE, UPDATE)


# The lines. A shape has for each word the words that may stand there, or the numbers.

HANDED, BYTE, NUMBER = (tuple(PLACES), range(1_000_000)), range(256), range(2 ** 32)
SHAPES = [
    (("open",),),
    (("note",), *HANDED, BYTE, BYTE, BYTE, BYTE),
    (("link",), *HANDED, NUMBER, NUMBER),
    (("retract",), *HANDED),
    (("seal",), *HANDED),
    (("reopen",),),
    (("count",),),
    (("event",), NUMBER),
] + [
    (("damage",), (memory,), range(1, places + 1), (field,), range(65_536) if field == "writer" else BYTE)
    for memory, places in PLACES.items() for field in FIELDS
]
OF_SEALED = ("reopen", "count", "event")
DIGITS = re.compile("0|[1-9][0-9]{0,9}")


def value(word, allowed):
    """What a word says where these words or numbers are allowed, or None."""
    if isinstance(allowed, tuple):
        return word if word in allowed else None
    return int(word) if DIGITS.fullmatch(word) and int(word) in allowed else None


def read_line(line):
    """The call of a line: its name and what it is given. None if the line is not a call."""
    words = line.split(" ")
    for shape in SHAPES:
        if len(words) == len(shape):
            call = tuple(map(value, words, shape))
            if None not in call:
                return call
    return None


def lines_of(script):
    """The lines that end with a line feed, and what follows the last one, if anything does."""
    lines = script.split("\n")
    return lines[:-1] if lines[-1] == "" else lines


# Places.

def is_load(place):
    return place[KIND] in LOADS


def fits(places, event, writer):
    """Whether the writer is another event of the record, a store, at the location of the event."""
    if writer == event or not 1 <= writer <= len(places):
        return False
    return places[writer - 1][KIND] in STORES and places[writer - 1][LOCATION] == places[event - 1][LOCATION]


@cache
def field_faults(thread, kind, mode, location):
    """The numbers of all fields that are out of range, in the order of the checks."""
    return [number for number, is_out in (
        (1, not 1 <= thread <= MOST_THREADS),
        (2, not READ <= kind <= FENCE),
        (3, mode not in ALLOWED.get(kind, ALL_MODES)),
        (4, location != 0 if kind == FENCE else not 1 <= location <= MOST_LOCATIONS),
    ) if is_out]


def is_damaged(places, event):
    """Whether no calls leave such numbers in the event's place."""
    thread, kind, mode, location, writer = places[event - 1]
    if field_faults(thread, kind, mode, location):
        return True
    return writer != 0 and not (kind in LOADS and fits(places, event, writer))


# The faults of each call, number and place, all of them in the order of the checks: the first is the refusal.

def memory_faults(memory, count):
    if len(memory) < LEAST_PLACES:
        yield 9, 0
    places = memory[:count]
    for event in range(1, len(places) + 1):
        if is_damaged(places, event):
            yield 25, event


def note_faults(memory, count, *fields):
    yield from memory_faults(memory, count)
    for number in field_faults(*fields):
        yield number, 0
    if count == MOST_EVENTS:
        yield 20, 0


def link_faults(memory, count, event, writer):
    yield from memory_faults(memory, count)
    places = memory[:count]
    if not 1 <= event <= len(places):
        yield 5, event
        return
    if not is_load(places[event - 1]):
        yield 6, event
    if writer != 0 and not fits(places, event, writer):
        yield 7, event


def retract_faults(memory, count):
    yield from memory_faults(memory, count)
    if count == 0:
        yield 21, 0
    for event, place in enumerate(memory[:count], 1):
        if is_load(place) and place[WRITER] == count:
            yield 22, event


def seal_faults(memory, count):
    yield from memory_faults(memory, count)
    for event, place in enumerate(memory[:count], 1):
        if is_load(place) and place[WRITER] == 0:
            yield 23, event


FAULTS = {"note": note_faults, "link": link_faults, "retract": retract_faults, "seal": seal_faults}


# One list.

class Session:
    """What one list works on: two memories, and a record: how many events it has, and once sealed their list."""

    def __init__(self):
        self.memories = {name: [[0] * 5 for _ in range(places)] for name, places in PLACES.items()}
        self.record, self.sealed = 0, None

    def faults(self, call):
        """All that is wrong with a call of the open record; the others have no faults of the record."""
        if call[0] not in FAULTS:
            return ()
        name, memory, places, *numbers = call
        return FAULTS[name](self.memories[memory][:places], self.record, *numbers)

    def is_barred(self, call):
        """Whether the call is of an open record and this one is sealed, or the other way round."""
        return (call[0] in OF_SEALED) != (self.sealed is not None)

    def answer(self, call):
        """Carries out a call, any but `open`, and gives the line that is printed."""
        if self.is_barred(call):
            return "barred"
        for number, place in self.faults(call):
            return f"record refused {number} {place}"
        name, *given = call
        return getattr(self, name)(*given)

    def note(self, memory, _, *fields):
        self.memories[memory][self.record] = [*fields, 0]
        self.record += 1
        return f"event {self.record}"

    def link(self, memory, _, event, writer):
        self.memories[memory][event - 1][WRITER] = writer
        return "done"

    def retract(self, *_):
        self.record -= 1
        return "done"

    def seal(self, memory, _):
        self.sealed = [Event(*place) for place in self.memories[memory][:self.record]]
        return "done"

    def reopen(self):
        self.sealed = None
        return "done"

    def count(self):
        return f"count {len(self.sealed)}"

    def event(self, number):
        if not 1 <= number <= len(self.sealed):
            return f"checker refused 5 {number}"
        return event_text(self.sealed[number - 1])

    def damage(self, memory, number, field, new):
        self.memories[memory][number - 1][FIELDS.index(field)] = new
        return "damaged"

    def places(self):
        """The line of each place that is not all 0."""
        return [f"{name} {number}: {' '.join(map(str, place))}" for name, memory in self.memories.items()
                for number, place in enumerate(memory, 1) if any(place)]


def carry_out(script, printed):
    """Carries out the lines in turn, and adds what each prints. Gives each call with the session before it."""
    session = Session()
    for line in lines_of(script):
        call = read_line(line)
        yield session, call
        if call is None:
            printed.append("not a call")
        elif call == ("open",):
            printed += session.places() + ["open"]
            session = Session()
        else:
            printed.append(session.answer(call))
    printed += session.places()


def answers(script):
    """The lines for a script."""
    printed = []
    for _ in carry_out(script, printed):
        pass
    return printed


# The same calls again, and nothing shared with the above: right as long as nothing damages the memory.

class Tally:
    """A record as the list of its events alone. It never sees a memory, and is told only how many places are handed."""

    KINDS_MODES = {(1, 0), (1, 1), (2, 0), (2, 2)} | {(kind, mode) for kind in (3, 4) for mode in range(4)}

    def __init__(self):
        self.events, self.is_sealed = [], False

    def writer_fits(self, event, writer):
        stores = {number: e.location for number, e in enumerate(self.events, 1) if e.is_store() and number != event}
        return stores.get(writer) == self.events[event - 1].location

    def readers(self, writer):
        return [number for number, e in enumerate(self.events, 1) if e.is_load() and e.writer == writer]

    def note(self, thread, kind, mode, location):
        if thread not in range(1, 9):
            return "record refused 1 0"
        if kind not in (1, 2, 3, 4):
            return "record refused 2 0"
        if (kind, mode) not in self.KINDS_MODES:
            return "record refused 3 0"
        if location not in ([0] if kind == 4 else range(1, 65)):
            return "record refused 4 0"
        if len(self.events) > 511:
            return "record refused 20 0"
        self.events.append(Event(thread, kind, mode, location, 0))
        return f"event {len(self.events)}"

    def link(self, event, writer):
        if event not in range(1, len(self.events) + 1):
            return f"record refused 5 {event}"
        old = self.events[event - 1]
        if not old.is_load():
            return f"record refused 6 {event}"
        if writer != 0 and not self.writer_fits(event, writer):
            return f"record refused 7 {event}"
        self.events[event - 1] = Event(old.thread, old.kind, old.mode, old.location, writer)
        return "done"

    def retract(self):
        if not self.events:
            return "record refused 21 0"
        readers = self.readers(len(self.events))
        if readers:
            return f"record refused 22 {readers[0]}"
        self.events.pop()
        return "done"

    def seal(self):
        if self.readers(0):
            return f"record refused 23 {self.readers(0)[0]}"
        self.is_sealed = True
        return "done"

    def asked(self, name, given):
        if name == "reopen":
            self.is_sealed = False
            return "done"
        if name == "count":
            return f"count {len(self.events)}"
        number, = given
        exists = 0 < number < len(self.events) + 1
        return event_text(self.events[number - 1]) if exists else f"checker refused 5 {number}"

    def answer(self, call):
        """The line for a call, any but `open` and `damage`."""
        name, *given = call
        if name in ("reopen", "count", "event"):
            return self.asked(name, given) if self.is_sealed else "barred"
        if self.is_sealed:
            return "barred"
        memory, places, *numbers = given
        if memory == "other" or places < 512:
            return "record refused 9 0"
        return getattr(self, name)(*numbers)


if __name__ == "__main__":
    sys.stdout.write("".join(line + "\n" for line in answers(sys.stdin.buffer.read().decode("latin-1"))))
