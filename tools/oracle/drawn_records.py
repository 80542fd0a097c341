"""Lists of a record's calls drawn at random. What is drawn depends on the seed and the index alone.

A list is drawn line by line, and each line with an eye to what the lines before it leave, so that most calls are
obeyed or refused for one reason. The mix is tuned by what compare_records.py counts.
"""

from random import Random

from logs import ALLOWED, FENCE, MOST_EVENTS, MOST_LOCATIONS, MOST_THREADS, READ, UPDATE, WRITE
from records import FIELDS, PLACES, STORES, WRITER, Session, fits, is_load, read_line

LONG_EVERY = 300
LONG_ENOUGH, TOO_SHORT = (512, 513, 519, 520, 521, 999_999), (0, 1, 2, 256, 510, 511, 511, 511)
BYTES = (0, 1, 2, 3, 4, 5, 7, 8, 9, 63, 64, 65, 128, 254, 255)
NUMBERS = (0, 1, 2, 255, 256, 257, 511, 512, 513, 520, 521, 65_535, 65_536, 65_537, 2 ** 31, 2 ** 32 - 1)


class Drawing:
    """A list while it is drawn: its lines, and the session as they leave it."""

    def __init__(self, r):
        self.r, self.lines, self.session, self.damages = r, ["open"], Session(), []
        self.threads = r.choice(([1], [1, 2], [1, 2, 3], [1, MOST_THREADS], list(range(1, MOST_THREADS + 1))))
        self.locations = r.choice(([1], [1], [1, 2], [1, 2], [1, MOST_LOCATIONS], [3, 4, 5]))
        self.kinds = r.choice(((3, 4, 3, 2), (4, 4, 0, 0), (2, 3, 5, 1), (4, 2, 4, 0), (1, 1, 1, 6)))

    def say(self, *words):
        line = " ".join(map(str, words))
        self.lines.append(line)
        call = read_line(line)
        if call:
            self.session.answer(call)

    def places(self):
        """The places within the count."""
        return self.session.memories["own"][:self.session.record]

    def events(self, wanted=lambda place: True):
        """The numbers of the events whose places are as wanted."""
        return [number for number, place in enumerate(self.places(), 1) if wanted(place)]

    def handed(self):
        return "own", self.r.choice(LONG_ENOUGH) if self.r.random() < 0.2 else 512


# Calls that are obeyed, if nothing is damaged and the record is open.

def good_fields(d):
    kind = d.r.choices((READ, WRITE, UPDATE, FENCE), d.kinds)[0]
    location = 0 if kind == FENCE else d.r.choice(d.locations)
    return [d.r.choice(d.threads), kind, d.r.choice(ALLOWED[kind]), location]


def note(d):
    d.say("note", *d.handed(), *good_fields(d))


def notes(d):
    for _ in range(d.r.randint(1, 4)):
        note(d)


def fitting(d, event):
    return [writer for writer in d.events() if fits(d.places(), event, writer)]


def link(d):
    """A load gets a writer that fits, mostly one that has none; where there is none, a store is noted first."""
    loads = d.events(is_load)
    without = [event for event in loads if d.places()[event - 1][WRITER] == 0]
    if not loads:
        return note(d)
    event = d.r.choice(without if without and d.r.random() < 0.7 else loads)
    if not fitting(d, event):
        store(d, event)
    writers = fitting(d, event)
    return d.say("link", *d.handed(), event, d.r.choice(writers)) if writers else note(d)


def store(d, event):
    """Notes a store at the location of the event."""
    kind = d.r.choice(STORES)
    d.say("note", *d.handed(), d.r.choice(d.threads), kind, d.r.choice(ALLOWED[kind]), d.places()[event - 1][3])


def unlink(d):
    loads = d.events(is_load)
    return d.say("link", *d.handed(), d.r.choice(loads), 0) if loads else note(d)


def retract(d):
    d.say("retract", *d.handed())


def seal(d):
    d.say("seal", *d.handed())


def link_all(d):
    for event in d.events(lambda place: is_load(place) and place[WRITER] == 0):
        if not fitting(d, event) and d.session.record < MOST_EVENTS:
            d.say("note", *d.handed(), d.r.choice(d.threads), WRITE, 2, d.places()[event - 1][3])
        if fitting(d, event):
            d.say("link", *d.handed(), event, d.r.choice(fitting(d, event)))


def link_all_and_seal(d):
    link_all(d)
    seal(d)


# Questions.

def ask(d):
    """Of a sealed record its count or an event, at times one that there is not."""
    count = d.session.record
    if d.r.random() < 0.25:
        return d.say("count")
    sure = d.r.random() < 0.7 and count
    return d.say("event", d.r.randint(1, count) if sure else d.r.choice((0, count + 1, count + 65_536, *NUMBERS)))


def ask_all(d):
    d.say("count")
    for event in d.events():
        d.say("event", event)


def reopen(d):
    d.say("reopen")


# Calls that are refused.

def bad_note(d):
    """One or two fields of a good event are anything."""
    fields = good_fields(d)
    for at in d.r.sample(range(4), d.r.choice((1, 1, 1, 2))):
        fields[at] = d.r.choice(BYTES)
    d.say("note", *d.handed(), *fields)


def bad_mode(d):
    kind = d.r.choice((READ, WRITE, UPDATE, FENCE))
    location = 0 if kind == FENCE else d.r.choice(d.locations)
    d.say("note", *d.handed(), d.r.choice(d.threads), kind, d.r.choice((0, 1, 2, 3, 4, 255)), location)


def link_nothing(d):
    """An event that there is not, by a little or by much."""
    count = d.session.record
    event = d.r.choice((0, count + 1, count + 1, count + 256, count + 65_536, d.r.choice(NUMBERS)))
    d.say("link", *d.handed(), event, d.r.choice((0, 1, count, count + 1, d.r.choice(NUMBERS))))


def link_no_load(d):
    others = d.events(lambda place: not is_load(place))
    writer = d.r.choice((0, 0, 1, 1, d.session.record, d.session.record + 1, d.r.choice(NUMBERS)))
    return d.say("link", *d.handed(), d.r.choice(others), writer) if others else note(d)


def link_itself(d):
    """A load to itself, mostly an update."""
    loads = d.events(lambda place: place[1] == UPDATE) or d.events(is_load)
    if not loads:
        return d.say("note", *d.handed(), d.r.choice(d.threads), UPDATE, d.r.randint(0, 3), d.r.choice(d.locations))
    event = d.r.choice(loads)
    return d.say("link", *d.handed(), event, event)


def link_unfit(d):
    """A load to what is no event, no store or elsewhere, also to one that was taken back, and to numbers that are
    one of those again where only the low bytes are looked at."""
    loads, count = d.events(is_load), d.session.record
    if not loads:
        return note(d)
    event = d.r.choice(loads)
    if d.r.random() < 0.2:
        store(d, event)
        retract(d)
        count = d.session.record
    here = d.places()[event - 1][3]
    unfit = [[writer] for writer in (count + 1, count + 1, d.r.choice(NUMBERS))]
    behind = d.session.memories["own"][count:count + 3]
    unfit += [[writer for writer, place in enumerate(behind, count + 1) if place[1] in STORES and place[3] == here]]
    unfit += [d.events(lambda place: place[1] not in STORES), d.events(lambda place: place[3] != here)]
    unfit += [[writer + over for writer in fitting(d, event)] for over in (256, 65_536, 2 ** 31)]
    return d.say("link", *d.handed(), event, d.r.choice(d.r.choice([writers for writers in unfit if writers])))


def retract_writer(d):
    """The last event becomes the writer of one or two loads and is taken back; then it is freed, or is not."""
    loads = d.events(is_load)
    if not loads:
        return note(d)
    event = d.r.choice(loads)
    store(d, event)
    last = d.session.record
    for reader in {event, d.r.choice(loads)}:
        d.say("link", *d.handed(), reader, last)
    retract(d)
    if d.r.random() < 0.5:
        d.say("link", *d.handed(), event, d.r.choice((0, *fitting(d, event))))
        retract(d)
    return None


def retract_all(d):
    for _ in range(d.session.record + 1):
        retract(d)


def short(d):
    """Any call with too few places, or with other memory."""
    handed = ("own", d.r.choice(TOO_SHORT)) if d.r.random() < 0.6 else ("other", d.r.choice(LONG_ENOUGH + TOO_SHORT))
    event, writer = d.r.randint(0, d.session.record + 1), d.r.randint(0, d.session.record + 1)
    fields = good_fields(d)
    if d.r.random() < 0.3:
        fields[d.r.randrange(4)] = d.r.choice(BYTES)
    d.say(*d.r.choice((("note", *handed, *fields), ("link", *handed, event, writer), ("retract", *handed),
                       ("seal", *handed))))


# Damage.

def damage(d, place, field, new):
    if d.session.sealed is None:
        d.damages.append((place, field, d.session.memories["own"][place - 1][FIELDS.index(field)]))
    d.say("damage", "own", place, field, new)


def damage_any(d):
    """Any field of a place, mostly within the count or right behind it."""
    count, field = d.session.record, d.r.choice(FIELDS)
    place = d.r.choice([*range(1, count + 1)] * 2 + [count + 1, 512, 513, 520, d.r.randint(1, 520)])
    values = (0, 1, count, count + 1, place, place, 512, 513, 65_535) if field == "writer" else BYTES
    damage(d, min(place, 520), field, d.r.choice(values))


def damage_link(d):
    """The writer of a linked load becomes unfit: it changes, or its place does."""
    linked = d.events(lambda place: is_load(place) and place[WRITER] != 0)
    if not linked:
        return link(d)
    event, count = d.r.choice(linked), d.session.record
    writer = d.places()[event - 1][WRITER]
    damage(d, *d.r.choice((
        (event, "writer", d.r.choice((0, event, event, count, count + 1, 513, 65_535, d.r.randint(1, count)))),
        (event, "location", d.r.choice((0, 1, 2, 3, 64, 65, 255))),
        (event, "kind", d.r.choice((READ, WRITE, UPDATE, FENCE, 0, 5))),
        (min(writer, 520), "kind", d.r.choice((READ, UPDATE, FENCE, 0, 5))),
        (min(writer, 520), "location", d.r.choice((0, 1, 2, 3, 64, 65, 255))),
        (min(writer, 520), "thread", d.r.choice((0, 9, 255))),
        (min(writer, 520), "mode", d.r.choice((1, 4, 255))))))
    return None


def damage_no_load(d):
    """A write or a fence gets a writer, or what would be one if it were a load."""
    others = d.events(lambda place: not is_load(place))
    stores = d.events(lambda place: place[1] in STORES)
    return damage(d, d.r.choice(others), "writer", d.r.choice((1, 512, 65_535, *stores))) if others else note(d)


def damage_other(d):
    field = d.r.choice(FIELDS)
    values = (0, 1, 65_535) if field == "writer" else BYTES
    d.say("damage", "other", d.r.choice((1, 1, 2, 510, 511)), field, d.r.choice(values))


def repair(d):
    """Damages are taken back, the latest first."""
    while d.damages:
        place, field, old = d.damages.pop()
        d.say("damage", "own", place, field, old)


def damaged_round(d):
    """Damage, one to three calls on it, and mostly repair."""
    for _ in range(d.r.choice((1, 1, 1, 2))):
        d.r.choice((damage_any, damage_link, damage_link, damage_no_load))(d)
    for _ in range(d.r.choice((1, 1, 2, 3))):
        d.r.choice((note, link, retract, retract, retract, seal, seal, bad_note, link_nothing, link_no_load, link_unfit,
                    link_itself, short))(d)
    if d.r.random() < 0.85:
        repair(d)


# Lines that are not calls, and calls that are just inside.

GOOD_LINES = ("note own 512 1 2 0 1", "link own 512 1 0", "retract own 512", "seal own 512", "reopen", "count",
              "event 1", "damage own 1 thread 1", "damage other 1 writer 1", "open")
EDGES = (
    "note own 999999 255 255 255 255", "note own 1000000 1 2 0 1", "note own 512 256 2 0 1", "note own 512 1 256 0 1",
    "note own 512 1 2 256 1", "note own 512 1 2 0 256", "note other 999999 1 2 0 1", "note other 1000000 1 2 0 1",
    "link own 512 4294967295 4294967295", "link own 512 4294967296 0", "link own 512 1 4294967296",
    "link own 999999 0 0", "link own 1000000 1 0", "retract own 1000000", "seal own 1000000", "seal other 999999",
    "event 4294967295", "event 4294967296", "event 0", "damage own 0 thread 1", "damage own 520 thread 255",
    "damage own 521 thread 1", "damage other 511 mode 255", "damage other 512 mode 1", "damage other 0 mode 1",
    "damage own 1 thread 256", "damage own 1 kind 256", "damage own 1 mode 256", "damage own 1 location 256",
    "damage own 1 writer 65536", "damage own 519 writer 65535", "damage own 1 writer 256",
    "damage other 1 writer 65535", "damage other 1 writer 65536",
    "note own 18446744073709551616 1 2 0 1", "event 18446744073709551617", "link own 512 4294967297 0",
    "damage own 65537 thread 1", "note own 512 257 2 0 1", "event 340282366920938463463374607431768211457",
)
WORDS = ("", "own", "other", "OWN", "memory", "open", "count", "0", "1", "00", "01", "+1", "-1", "-0", "1.0", "1e0",
         "0x1", "1_0", "T1", "thread", "writer", "field", "\u0661", "\u00b2", "\u00e9", "\x00", "\t", "1\t", "1\r",
         "99999999999999999999")


def edge_line(d):
    d.say(d.r.choice(EDGES))


def not_a_call(d):
    """A line of calls with one word more, fewer or other, or with other space."""
    words = d.r.choice(GOOD_LINES + tuple(d.lines[1:])).split(" ")
    at = d.r.randrange(len(words) + 1)
    other = d.r.choice(WORDS)
    line = d.r.choice((
        " ".join(words[:at] + words[at + 1:]),
        " ".join(words[:at] + [other] + words[at:]),
        " ".join(words[:at] + [other] + words[at + 1:]),
        " ".join(words[:at] + [other] + words[at + 1:]),
        " ".join(words[:at] + ["0" + word for word in words[at:at + 1]] + words[at + 1:]),
        " ".join(words).replace(" ", "\t", 1),
        " ".join(words) + d.r.choice((" ", "\t", "\r", "  ", "\x00", ";")),
        " " + " ".join(words), "  ".join(words), "".join(words), " ".join(words).upper(), " ".join(words).title(),
        " ".join(words + words), "", " ", "#", "x" * d.r.choice((1, 80, 300)), "1" * d.r.choice((1, 20, 300)),
    ))
    if line != "open":
        d.say(line)


# Lists.

OPEN_MOVES = {
    notes: 8, link: 10, unlink: 1, retract: 2, seal: 1, link_all_and_seal: 4, ask: 1, reopen: 1, bad_note: 2,
    bad_mode: 1, link_nothing: 1, link_no_load: 1, link_itself: 1, link_unfit: 2, retract_writer: 2, retract_all: 0.3,
    short: 2, damage_any: 0.5, damage_link: 0.3, damage_other: 0.3, damaged_round: 2, repair: 0.5, edge_line: 0.7,
    not_a_call: 0.7,
}
SEALED_MOVES = {
    reopen: 8, ask: 6, ask_all: 3, note: 0.7, link: 0.7, retract: 0.7, seal: 0.7, damage_any: 0.7, damage_other: 0.3,
    short: 0.7, bad_note: 0.3, link_nothing: 0.3, edge_line: 0.5, not_a_call: 0.5,
}
# What a list has more of: so many times as much.
STYLES = (
    {}, {}, {},
    {bad_note: 6, bad_mode: 8},
    {link_nothing: 4, link_no_load: 5, link_itself: 4, link_unfit: 8, link: 2},
    {retract: 6, retract_writer: 5, retract_all: 6, link: 2},
    {damaged_round: 6, damage_any: 4, damage_link: 8},
    {short: 8, damage_other: 8},
    {link_all_and_seal: 6, ask_all: 2, reopen: 2, seal: 3},
    {not_a_call: 15, edge_line: 15},
)


def move(d, style):
    moves = OPEN_MOVES if d.session.sealed is None else SEALED_MOVES
    weights = [weight * style.get(each, 1) for each, weight in moves.items()]
    d.r.choices(list(moves), weights)[0](d)


def small_list(r):
    d, style = Drawing(r), r.choice(STYLES)
    for _ in range(r.choice((0, 0, 1, 2, 3))):
        notes(d)
    for _ in range(r.choice((1, 2, 4, 6, 8, 10, 12, 16))):
        move(d, style)
    if r.random() < 0.4 and d.session.sealed is None:
        repair(d)
        link_all_and_seal(d)
        ask_all(d)
    return d.lines


def note_when_full(d):
    """The record is filled up, if it can be. Then come notes that have another fault besides."""
    for _ in range(MOST_EVENTS - d.session.record):
        note(d)
    for at in range(4):
        fields = good_fields(d)
        fields[at] = d.r.choice((65, 128, 255))
        d.say("note", *d.handed(), *fields)
    d.say("note", "own", d.r.choice(TOO_SHORT), *good_fields(d))
    damage(d, d.r.randint(1, MOST_EVENTS), "thread", d.r.choice((0, 9, 255)))
    note(d)
    repair(d)
    note(d)


LAST_MOVES = (note, note, bad_note, note_when_full, retract, link, link_nothing, link_no_load, link_itself, link_unfit,
              damaged_round, short, seal, ask, reopen, edge_line)


def long_list(r):
    """A record with 510 to 512 events, few of them loads; calls at its end; then it is sealed and asked."""
    d = Drawing(r)
    d.kinds = (1, 40, 1, 2)
    for _ in range(r.choice((510, 511, 512, 512))):
        fields = good_fields(d)
        d.lines.append(" ".join(map(str, ("note own 512", *fields))))
        d.session.note("own", 512, *fields)
    for _ in range(r.randint(8, 20)):
        r.choice(LAST_MOVES)(d)
    if d.session.sealed is None:
        repair(d)
        link_all_and_seal(d)
    for event in (1, 511, 512, 513, r.randint(1, 512)):
        d.say("event", event)
    for _ in range(r.randint(0, 6)):
        r.choice((reopen, *LAST_MOVES))(d)
    return d.lines


def drawn_list(seed, index):
    """The lines of the list with this index. The first is `open`."""
    r = Random(f"records:{seed}:{index}")
    return long_list(r) if index % LONG_EVERY == LONG_EVERY - 1 else small_list(r)
