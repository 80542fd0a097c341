"""Logs drawn at random, good and broken. What is drawn depends on the seed and the index alone.

The mix is tuned by what compare.py counts: every outcome, and each way that models differ, is to be frequent.
"""

from dataclasses import dataclass, replace
from random import Random

from logs import (ACQ, ACQREL, ALLOWED, EVENT_RECORD, FENCE, MOST_LOCATIONS, MOST_THREADS, READ, REL, RLX,
                  UPDATE, WRITE, Event, Run, spell)
from oracle import count_orders

LONG_EVERY = 120
BROKEN_SHARE = 0.24


# Modes.

STRONGEST = {READ: ACQ, WRITE: REL, UPDATE: ACQREL, FENCE: ACQREL}


def draw_mode(r, kind, strong_share):
    """The strongest mode with this probability, else any other that the kind may have."""
    if r.random() < strong_share:
        return STRONGEST[kind]
    return r.choice([mode for mode in ALLOWED[kind] if mode != STRONGEST[kind]])


def draw_modes(r, events):
    """All modes anew, mostly strong, mostly relaxed or mixed; at times strong fences among weak accesses."""
    accesses = r.choice((1.0, 0.85, 0.5, 0.5, 0.15, 0.0))
    fences = r.choice((accesses, 0.9))
    return [replace(e, mode=draw_mode(r, e.kind, fences if e.kind == FENCE else accesses)) for e in events]


# Events one after the other. A load reads from what is there already, so causality holds.

@dataclass
class Shape:
    threads: int
    locations: int
    kinds: tuple
    reads: str
    twins: bool
    most_orders: int


def draw_shape(r):
    weights = r.choice(((5, 5, 0, 0), (5, 4, 0, 2), (4, 4, 3, 0), (4, 3, 2, 2), (3, 2, 5, 0), (6, 2, 1, 0)))
    return Shape(
        threads=r.choice((1, 2, 2, 3, 3, 4)),
        locations=r.choice((1, 1, 2, 2, 3)),
        kinds=tuple(r.choices((READ, WRITE, UPDATE, FENCE), weights, k=40)),
        reads=r.choice(("any", "late", "late", "early")),
        twins=r.random() < 0.12,
        most_orders=r.choice((6, 24, 24, 120, 120)) if r.random() < 0.97 else 720,
    )


def choose_writer(r, fitting, reads):
    if reads == "late" and r.random() < 0.8:
        return fitting[-1]
    if reads == "early" and r.random() < 0.6:
        return fitting[0]
    return r.choice(fitting)


def with_one_more(r, shape, events):
    """The events and one more: a load without a fitting writer becomes a write, a store too many a fence."""
    kind, thread, location = r.choice(shape.kinds), r.randint(1, shape.threads), r.randint(1, shape.locations)
    if kind == FENCE:
        return events + [Event(thread, FENCE, RLX, 0, 0)]
    fitting = [n for n, e in enumerate(events, 1) if e.is_store() and e.location == location]
    if kind == UPDATE and not shape.twins:
        read_by_updates = {e.writer for e in events if e.kind == UPDATE}
        fitting = [n for n in fitting if n not in read_by_updates]
    if kind == WRITE or not fitting:
        longer = events + [Event(thread, WRITE, RLX, location, 0)]
    else:
        longer = events + [Event(thread, kind, RLX, location, choose_writer(r, fitting, shape.reads))]
    is_too_many = count_orders(Run(tuple(longer))) > shape.most_orders
    return events + [Event(thread, FENCE, RLX, 0, 0)] if is_too_many else longer


def random_events(r):
    shape, events = draw_shape(r), []
    for _ in range(r.choice((0, 1, 2, 3, 4, 5, 5, 6, 6, 7, 7, 8, 8, 9))):
        events = with_one_more(r, shape, events)
    return events


# Small runs that tell models apart. Of each event: thread, kind, location, and after `<` the writer.

TEMPLATES = (
    # Handing over, plain, by fences, and through an update.
    "1W1 1W1 1W2 2R2<3 2R1<1",
    "1W1 1W1 1F 1W2 2R2<4 2F 2R1<1",
    "1W1 1W1 1W2 2U2<3 3R2<4 3R1<1",
    "1W1 1W1 1F 1W2 2U2<4 3R2<5 3F 3R1<1",
    # A release and then another write of the thread; an acquire fence far after the read.
    "1W1 1W1 1W2 1W2 2R2<4 2R1<1",
    "1W1 1W1 1F 1W2 1W2 2R2<5 2F 2R1<1",
    "1W1 1W1 1W2 1W2 1W2 2R2<5 2R1<1",
    "1W1 1W1 1W2 1W2 2U2<4 3R2<5 3R1<1",
    "1W1 1W1 1W2 1W2 1U2<4 2R2<5 2R1<1",
    # Two writes each way, seen by the writers or by two readers; three threads in a ring.
    "1W1 1W2 2W2 2W1 1R2<3 2R1<1",
    "1W1 1W2 2W2 2W1 3R2<2 3R2<3 4R1<4 4R1<1",
    "1W1 1W2 2W2 2W3 3W3 3W1 1R2<3 2R3<5 3R1<1",
    # Two readers, or two writers that read, see two writes in different orders.
    "1W1 2W1 3R1<1 3R1<2 4R1<2 4R1<1",
    "1W1 2W1 1R1<2 2R1<1",
    # Three writes in a ring, each seen by the thread of another; a ring of program order and reads-from.
    "1W1 2W1 3W1 1R1<2 2R1<3 3R1<1",
    "1R1<6 1W2 2R2<2 2W3 3R3<4 3W1",
    # Chains that see one another: a round of two steps, and orders by reads against numbers.
    "1W1 2U1<1 3W1 4U1<3 2R1<3 4R1<1",
    "1W1 2U1<1 2R1<1",
    "1W1 2U1<1 3W1 3R1<2",
    # An order of stores that only whole scope has to reverse.
    "1W1 2R1<1 2W2 3W2",
    "1W1 2R1<1 2W2 3W2",
)
KIND_LETTERS = {"R": READ, "W": WRITE, "U": UPDATE, "F": FENCE}


def template_event(word):
    location, _, writer = word[2:].partition("<")
    return Event(int(word[0]), KIND_LETTERS[word[1]], RLX, int(location or 0), int(writer or 0))


def template_events(r):
    """A template, at times with a few more events after it."""
    events = [template_event(word) for word in r.choice(TEMPLATES).split()]
    shape = replace(draw_shape(r), most_orders=24)
    for _ in range(r.choice((0, 0, 0, 1, 2))):
        events = with_one_more(r, shape, events)
    return events


# Changes that leave a run full.

def renumbered(r, events):
    """The events in another order of numbers, with program order kept in each thread."""
    slots = [e.thread for e in events]
    r.shuffle(slots)
    by_thread = {t: [n for n, e in enumerate(events, 1) if e.thread == t] for t in slots}
    order = [by_thread[t].pop(0) for t in slots]
    new_number = {old: new for new, old in enumerate(order, 1)}
    return [replace(events[old - 1], writer=new_number.get(events[old - 1].writer, 0)) for old in order]


def renamed(r, events):
    """Other threads and other locations, up to the highest."""
    threads = r.sample(range(1, MOST_THREADS + 1), MOST_THREADS)
    locations = [0] + r.sample((1, 2, 3, 4, 5, 9, MOST_LOCATIONS - 1, MOST_LOCATIONS), 8)
    return [replace(e, thread=threads[e.thread - 1], location=locations[e.location]) for e in events]


def repointed(r, events):
    """One load, if there is one, reads from any store that fits; this may break causality."""
    loads = [n for n, e in enumerate(events, 1) if e.is_load()]
    if not loads:
        return events
    number = r.choice(loads)
    location = events[number - 1].location
    fitting = [n for n, e in enumerate(events, 1) if e.is_store() and e.location == location and n != number]
    return events[:number - 1] + [replace(events[number - 1], writer=r.choice(fitting))] + events[number:]


def good_events(r):
    """A full run of few events."""
    events = template_events(r) if r.random() < 0.4 else random_events(r)
    events = draw_modes(r, events)
    if r.random() < 0.75:
        events = renumbered(r, events)
    if r.random() < 0.3:
        events = renamed(r, events)
    for _ in range(r.choice((1, 1, 2, 4)) if events and r.random() < 0.2 else 0):
        events = repointed(r, events)
    return events


# Damages, each of a log's bytes. A damage that finds nothing to do leaves the log as it is.

def with_field(data, number, field, value):
    """The log with one of the bytes 4 to 7 of an event's record changed, or the writer at 8."""
    at, size = 10 * (number - 1) + field, 2 if field == 8 else 1
    return data[:at] + value.to_bytes(size, "little") + data[at + size:]


def event_count(data):
    """How many whole event records stand at the start."""
    count = 0
    while len(data) >= 10 * (count + 1) and data[10 * count:10 * count + 4] == EVENT_RECORD:
        count += 1
    return count


def any_event(r, data, wanted):
    """The number of an event whose record satisfies what is wanted, or None."""
    records = [(n, data[10 * (n - 1):10 * n]) for n in range(1, event_count(data) + 1)]
    fitting = [n for n, record in records if wanted(record)]
    return r.choice(fitting) if fitting else None


def change_byte(r, data):
    if not data:
        return data
    at = r.randrange(len(data))
    return data[:at] + bytes((r.choice((0, 1, 2, 3, 4, 5, 8, 9, 64, 255, r.randrange(256))),)) + data[at + 1:]


def change_heading(r, data):
    """Another length or kind for one record, the end record too."""
    at = 10 * r.randint(0, event_count(data)) + r.choice((0, 0, 1, 2, 2, 3))
    return data[:at] + bytes((r.choice((0, 1, 2, 3, 4, 6, 8, 10, 255)),)) + data[at + 1:]


def cut_short(r, data):
    return data[:r.randint(0, len(data))]


def add_bytes(r, data):
    extra = r.choice((b"\x00", r.randbytes(r.randint(1, 12)), spell(()), data[:10], data[-6:]))
    return data + extra


def change_count(r, data):
    count = event_count(data)
    wrong = r.choice((0, count + 1, max(count - 1, 0), count + 256, 512, 513, 65535))
    return data[:-2] + wrong.to_bytes(2, "little")


def change_field(r, data):
    """A thread, kind, mode or location at the edge of its range, inside or outside."""
    number = any_event(r, data, lambda record: True)
    if number is None:
        return data
    field, limit = r.choice(((4, MOST_THREADS), (5, FENCE), (6, ACQREL), (7, MOST_LOCATIONS)))
    return with_field(data, number, field, r.choice((0, limit, limit + 1, limit + 1, 255)))


def change_mode(r, data):
    number = any_event(r, data, lambda record: record[5] in (READ, WRITE))
    return data if number is None else with_field(data, number, 6, r.randint(0, 3))


def change_writer(r, data):
    """A load with a writer that may not fit."""
    number = any_event(r, data, lambda record: record[5] in (READ, UPDATE))
    if number is None:
        return data
    here = data[10 * number - 3]
    elsewhere = any_event(r, data, lambda record: record[5] in (WRITE, UPDATE) and record[7] != here)
    no_store = any_event(r, data, lambda record: record[5] in (READ, FENCE))
    count = event_count(data)
    writers = [0, number, elsewhere, no_store, count, count + 1, 512, 513, 65535, number + 256]
    return with_field(data, number, 8, r.choice([writer for writer in writers if writer is not None]))


def give_writer(r, data):
    """A write or a fence with a writer."""
    number = any_event(r, data, lambda record: record[5] in (WRITE, FENCE))
    writer = r.choice((1, event_count(data), 256, 65535))
    return data if number is None else with_field(data, number, 8, writer)


def drop_or_double(r, data):
    """One record too few or too many for the count."""
    at = 10 * r.randint(0, event_count(data))
    return data[:at] + data[at + 10:] if r.random() < 0.5 else data[:at] + data[at:at + 10] + data[at:]


DAMAGES = (change_byte, change_heading, cut_short, add_bytes, change_count, change_field, change_mode,
           change_writer, change_writer, give_writer, drop_or_double)


def broken_log(r):
    if r.random() < 0.02:
        return b""
    if r.random() < 0.04:
        return r.choice((b"", EVENT_RECORD, spell(())[:4])) + r.randbytes(r.randint(1, 40))
    data = spell(good_events(r))
    for damage in r.choices(DAMAGES, k=r.choice((1, 1, 1, 2))):
        data = damage(r, data)
    return data


# Long logs.

def long_events(r, count, alone):
    """Mostly reads and fences. Each store is alone at its location, or two updates make a chain at one.

    Reads see what was written last, save that in one run of three one load may see anything.
    """
    locations = r.sample(range(1, MOST_LOCATIONS + 1), 12)
    events = [Event(r.randint(1, 8), WRITE, RLX, location, 0) for location in locations]
    updates_at = () if alone else (count // 3, count // 2)
    for at in range(len(events), count):
        if at in updates_at:
            writer = 1 if at == updates_at[0] else updates_at[0] + 1
            events.append(Event(r.randint(1, 8), UPDATE, RLX, locations[0], writer))
        elif r.random() < 0.3:
            events.append(Event(r.randint(1, 8), FENCE, RLX, 0, 0))
        else:
            location = r.choice(locations)
            last = max(n for n, e in enumerate(events, 1) if e.location == location and e.is_store())
            events.append(Event(r.randint(1, 8), READ, RLX, location, last))
    events = renumbered(r, draw_modes(r, events))
    return repointed(r, events) if r.random() < 0.3 else events


def change_field_before(r, data, before):
    return with_field(data, r.randint(1, before), 4, r.choice((0, 9)))


def long_log(r, which):
    """One of twelve sorts of long logs; the first two always open, and two others may."""
    sort = which % 12
    full, over = spell(long_events(r, 512, alone=sort != 1)), spell(long_events(r, 513, alone=True))
    return (
        full,
        full,
        over,
        change_field_before(r, over, 512),
        with_field(over, 513, 4, 0),
        over[:5120] + r.choice((b"\x09", b"\x04", b"\x00")) + over[5121:],
        r.choice((change_count(r, over), over[:-1], over + b"\x00")),
        full + r.randbytes(4000),
        change_writer(r, full),
        change_count(r, full),
        over[:5120 + r.randint(0, 9)],
        change_writer(r, over),
    )[sort]


def drawn(seed, index):
    """The bytes of the log with this index."""
    r = Random(f"{seed}:{index}")
    if index % LONG_EVERY == LONG_EVERY - 1:
        return long_log(r, index // LONG_EVERY)
    return broken_log(r) if r.random() < BROKEN_SHARE else spell(good_events(r))
