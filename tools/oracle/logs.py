"""Runs, and how a log spells one: docs/RUNS.md, docs/LOG.md and the last part of docs/REFUSALS.md."""

from dataclasses import dataclass

MOST_EVENTS, MOST_THREADS, MOST_LOCATIONS = 512, 8, 64
READ, WRITE, UPDATE, FENCE = 1, 2, 3, 4
RLX, ACQ, REL, ACQREL = 0, 1, 2, 3
ALL_MODES = (RLX, ACQ, REL, ACQREL)
ALLOWED = {READ: (RLX, ACQ), WRITE: (RLX, REL), UPDATE: ALL_MODES, FENCE: ALL_MODES}

EVENT_RECORD, END_RECORD = b"\x08\x00\x01\x00", b"\x04\x00\x02\x00"
SHAPE, BAD_EVENT, TOO_MANY = 10, 11, 20


@dataclass(frozen=True)
class Event:
    """One access or fence; the writer is the number of another event, or 0."""

    thread: int
    kind: int
    mode: int
    location: int
    writer: int

    def is_load(self):
        return self.kind in (READ, UPDATE)

    def is_store(self):
        return self.kind in (WRITE, UPDATE)


@dataclass(frozen=True, eq=False)
class Run:
    """A full run. Two runs are equal only if they are the same object: relations are remembered for each."""

    events: tuple

    def numbers(self):
        return range(1, len(self.events) + 1)

    def event(self, number):
        return self.events[number - 1]


@dataclass(frozen=True)
class Refused:
    """Why the bytes are no log: the number of the fault and its place."""

    number: int
    place: int


def is_legal(event):
    """Whether thread, kind, mode and location are in their ranges."""
    if not 1 <= event.thread <= MOST_THREADS or event.kind not in ALLOWED:
        return False
    if event.mode not in ALLOWED[event.kind]:
        return False
    return event.location == 0 if event.kind == FENCE else 1 <= event.location <= MOST_LOCATIONS


def is_linked(number, events):
    """Whether the event is a load whose writer fits, or no load and without a writer."""
    event = events[number - 1]
    if not event.is_load():
        return event.writer == 0
    if event.writer == number or not 1 <= event.writer <= len(events):
        return False
    writer = events[event.writer - 1]
    return writer.is_store() and writer.location == event.location


def two_bytes(record, at):
    return int.from_bytes(record[at:at + 2], "little")


def first_pass(data):
    """The events of the records in turn, or the first fault."""
    events = []
    while True:
        at = 10 * len(events)
        record = data[at:at + 10]
        if len(record) == 10 and record[:4] == EVENT_RECORD:
            event = Event(*record[4:8], two_bytes(record, 8))
            if len(events) == MOST_EVENTS:
                return Refused(TOO_MANY, at)
            if not is_legal(event):
                return Refused(BAD_EVENT, at)
            events.append(event)
        elif len(record) >= 6 and record[:4] == END_RECORD and two_bytes(record, 4) == len(events):
            return tuple(events) if len(data) == at + 6 else Refused(SHAPE, at + 6)
        else:
            return Refused(SHAPE, at)


def read_log(data):
    """The run that the bytes spell, or the first fault in two passes."""
    events = first_pass(data)
    if isinstance(events, Refused):
        return events
    for number in range(1, len(events) + 1):
        if not is_linked(number, events):
            return Refused(BAD_EVENT, 10 * (number - 1))
    return Run(events)


def spell(events):
    """The log of the events, whether or not they make a full run."""
    fields = (bytes((e.thread, e.kind, e.mode, e.location)) + e.writer.to_bytes(2, "little") for e in events)
    records = b"".join(EVENT_RECORD + field for field in fields)
    return records + END_RECORD + len(events).to_bytes(2, "little")


def event_text(event):
    """An event as a person reads it."""
    kinds, modes = {1: "R", 2: "W", 3: "U", 4: "F"}, ("rlx", "acq", "rel", "acqrel")
    words = [f"T{event.thread}", kinds[event.kind], modes[event.mode]]
    return " ".join(words + [f"L{event.location}"] * (event.kind != FENCE)
                    + [f"from {event.writer}"] * event.is_load())


def text(run):
    """The lines of the run as a person reads them, each with its number."""
    return [f"{number:3}  {event_text(run.event(number))}" for number in run.numbers()]
