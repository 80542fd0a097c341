"""Lists of a record's calls that are picked by hand: each refusal at its edge, with a neighbour that is obeyed.

They are written short: a list is a line, its calls parted by `;`. Where a call names no memory it is `own 512`, and a
damage is of `own`.
"""

from records import FAULTS, FIELDS, PLACES

# A write and an update that reads from it; two loads that read from a later write, a write elsewhere and a fence.
PAIR = "note 1 2 0 1; note 2 3 0 1; link 2 1"
LATER = "note 1 1 0 3; note 1 3 0 3; note 2 2 0 3; note 2 2 2 4; note 3 4 3 0; link 1 3; link 2 3"
CALLS = ("note {} 1 2 0 1", "link {} 2 1", "retract {}", "seal {}")


def fields():
    """Each field at and past its edge."""
    yield "note 0 2 0 1; note 1 2 0 1; note 8 2 0 1; note 9 2 0 1; note 255 2 0 1; note 4 2 0 1"
    yield "note 1 0 0 1; note 1 1 0 1; note 1 2 0 1; note 1 3 0 1; note 1 4 0 0; note 1 5 0 1; note 1 255 0 1"
    for kind, location in ((1, 1), (2, 1), (3, 1), (4, 0)):
        yield "; ".join(f"note 1 {kind} {mode} {location}" for mode in (0, 1, 2, 3, 4, 255))
        yield "; ".join(f"note 1 {kind} 0 {place}" for place in (0, 1, 2, 63, 64, 65, 128, 255))
    yield "note 0 4 0 0; note 9 4 0 0; note 8 4 3 0; note 8 4 3 64; note 8 4 3 1"
    yield "note 255 255 255 255; note 1 255 255 255; note 1 4 255 255; note 1 4 3 255; note 1 4 3 0"


def order_of_fields():
    """Two faults at a time, in the order of the checks; then each alone, and none."""
    wrong = {0: 9, 1: 5, 2: 4, 3: 65}
    for first in wrong:
        for later in range(first + 1, 4):
            calls = []
            for chosen in ((first, later), (first,), (later,), ()):
                values = [wrong[at] if at in chosen else good for at, good in enumerate((1, 3, 0, 1))]
                calls.append("note " + " ".join(map(str, values)))
            yield "; ".join(calls)
    for memory in ("own 511", "other 511"):
        yield f"note {memory} 0 0 4 65; note 0 0 4 65; note 1 0 4 65; note 1 1 4 65; note 1 1 0 65; note 1 1 0 64"


def links():
    yield "link 0 0; link 1 0; link 1 1; note 1 1 0 1; link 0 0; link 1 0; link 2 0; link 1 1"
    for event in (3, 4, 256, 257, 512, 513, 65_535, 65_536, 65_538, 2 ** 31, 2 ** 32 - 1):
        yield f"{PAIR}; link {event} 1; link {event} 0; link {event} {event}; link 2 0; link 2 1"
    yield "note 1 2 0 1; note 1 2 0 1; link 1 0; link 1 1; link 1 2; note 1 1 0 1; link 3 2; link 3 1"
    yield "note 1 4 0 0; note 1 2 0 1; link 1 0; link 1 2; link 1 1; link 2 0; link 2 1; link 2 3; link 3 1"
    yield "note 1 2 0 1; link 1 9; note 1 4 0 0; link 2 9; link 3 9; note 1 3 0 1; link 3 9; link 3 1"
    # An update to itself and its neighbours; a read to itself; two updates that read from one another.
    yield "note 1 3 0 1; link 1 1; note 1 3 0 1; link 1 1; link 2 2; link 1 2; link 2 1; seal; event 1; event 2"
    yield "note 1 3 3 64; link 1 1; link 1 0; seal; note 2 2 2 64; link 1 1; link 1 2; seal; event 1"
    yield "note 1 1 0 1; link 1 1; note 1 2 0 1; link 1 2; link 1 1; seal; event 1"
    yield f"{PAIR}; link 2 2; seal; event 2; reopen; link 2 0; link 2 2; seal"
    # A writer that is no store, at another location, above the count, there no more, or there again.
    yield "note 1 1 0 1; note 1 1 0 1; note 1 4 0 0; note 1 2 0 1; link 1 2; link 1 3; link 1 4; link 2 4"
    yield ("note 1 2 0 1; note 1 2 0 2; note 1 1 0 2; link 3 1; link 3 2; note 1 3 0 64; note 1 2 0 63; link 4 5; "
           "link 4 2")
    yield ("note 1 1 0 1; link 1 2; note 1 2 0 1; link 1 3; link 1 2; link 1 0; retract; link 1 2; note 1 2 0 1; "
           "link 1 2")
    yield ("note 1 1 0 1; note 1 2 0 1; retract; note 1 2 0 2; link 1 2; retract; note 1 3 3 1; link 1 2; seal; "
           "event 1")
    for over in (256, 65_536, 131_072, 2 ** 31):
        yield f"{PAIR}; link 2 {1 + over}; link 2 {over}; link {2 + over} 1; link 2 0; seal; link 2 1; seal"
    yield f"{PAIR}; link 2 4294967295; link 2 65535; link 2 512; link 2 513; link 2 3; link 2 1"
    yield f"{LATER}; link 1 4; link 2 4; link 1 2; link 2 1; link 2 5; link 1 5; link 1 2; seal; event 1; event 2"
    yield f"{LATER}; link 2 0; link 2 0; link 2 3; link 2 3; seal; event 2"


def memory_sizes():
    """Each call with each size of each memory: where it is obeyed, on a record of its own."""
    for call in CALLS:
        for size in (512, 513, 519, 520, 521, 999_999):
            yield f"{PAIR}; {call.format('own 511')}; {call.format(f'own {size}')}"
        yield f"{PAIR}; " + "; ".join(call.format(f"own {size}") for size in (0, 1, 2, 3, 255, 256, 510, 511))
        yield f"{PAIR}; " + "; ".join(call.format(f"other {size}") for size in (0, 1, 510, 511, 512, 520, 999_999))
        yield f"{call.format('own 511')}; {call.format('other 512')}; {call.format('own 512')}"
    # A short memory comes first, whatever else is wrong.
    yield ("retract own 511; retract; note own 511 0 0 0 0; note 0 0 0 0; link own 511 0 0; link 0 0; seal own 0; "
           "seal")
    yield f"{PAIR}; damage 1 thread 9; " + "; ".join(
        f"{call.format('own 511')}; {call.format('other 511')}; {call.format('own 512')}" for call in CALLS)
    yield ("note 1 1 0 1; note 1 2 0 1; link 1 2; retract own 511; retract; seal own 511; link 1 0; seal own 511; "
           "seal")
    # Another record's events in other memory.
    for size in (2, 511, 520):
        events = {1: (1, 2, 0, 1, 0), 2: (2, 3, 0, 1, 1)}
        other = "; ".join(f"damage other {place} {field} {new}" for place, numbers in events.items()
                          for field, new in zip(FIELDS, numbers))
        yield (f"{other}; {PAIR}; note other {size} 1 2 0 1; link other {size} 2 1; retract other {size}; "
               f"seal other {size}")
    yield ("damage other 511 writer 65535; damage other 1 kind 255; seal other 511; seal own 512; "
           "damage other 2 mode 1")


def each_call_between(before, damage, repair):
    """Each call on what is damaged; then, repaired, each is obeyed or refused for its own reason."""
    calls = "note 1 2 0 1; link 2 1; retract; seal"
    return f"{before}; {damage}; {calls}; {repair}; {calls}; count"


def damages():
    """Each field of a place within, at and above the count, with a legal neighbour; and what repairs it."""
    edges = {"thread": (0, 9, 255), "kind": (0, 5, 255), "mode": (4, 255), "location": (0, 65, 255)}
    good = {1: (1, 2, 0, 1), 2: (2, 3, 0, 1)}
    for place, numbers in good.items():
        for field, old in zip(FIELDS, numbers):
            for new in edges[field]:
                yield each_call_between(PAIR, f"damage {place} {field} {new}", f"damage {place} {field} {old}")
    for place in (3, 4, 512, 513, 520):
        for field, new in (("thread", 255), ("kind", 9), ("mode", 4), ("location", 65), ("writer", 65_535)):
            yield f"{PAIR}; damage {place} {field} {new}; link 2 1; note 1 2 0 1; retract; seal; event 2"
    # Modes of each kind, locations of each kind, and what is noticed only there.
    for kind, location in ((1, 1), (2, 1), (3, 1), (4, 0)):
        event = f"note 1 {kind} 0 {location}"
        yield f"{event}; " + "; ".join(f"damage 1 mode {mode}; retract; {event}" for mode in (1, 2, 3, 4))
        yield f"{event}; " + "; ".join(f"damage 1 location {at}; link 1 0" for at in (0, 1, 64, 65, 255, 0))
    # A write or a fence with a writer, also with one that would fit a load.
    for writer in (1, 2, 3, 512, 65_535):
        yield f"note 1 2 0 1; note 1 2 0 1; damage 2 writer {writer}; seal; retract; damage 2 writer 0; seal; count"
        yield (f"note 1 4 0 0; note 1 2 0 1; damage 1 writer {writer}; seal; note 1 2 0 1; damage 1 writer 0; "
               "seal; event 1")
    # A load with a writer that does not fit: itself, none, no store, elsewhere; and one that does.
    for writer in (1, 2, 4, 5, 6, 256, 257, 259, 512, 65_535, 3, 0):
        yield f"{LATER}; damage 1 writer {writer}; seal; event 1; link 1 3; note 1 2 0 3"
        yield f"{LATER}; damage 2 writer {writer}; seal; event 2; link 2 3; retract"
    # The writer's place: its kind and its location decide of the load; what else is wrong there is its own.
    for field, new in (("kind", 1), ("kind", 3), ("kind", 4), ("kind", 0), ("kind", 5), ("kind", 255), ("location", 4),
                       ("location", 0), ("location", 65), ("thread", 0), ("thread", 9), ("thread", 8), ("mode", 1),
                       ("mode", 2), ("mode", 4), ("writer", 1), ("writer", 5)):
        old = dict(zip(FIELDS, (2, 2, 0, 3, 0)))[field]
        yield (f"{LATER}; damage 3 {field} {new}; seal; event 3; reopen; retract; link 1 0; "
               f"damage 3 {field} {old}; seal; link 1 3; seal; event 3")
    yield (f"{LATER}; damage 3 kind 1; damage 1 writer 0; seal; damage 2 writer 0; seal; link 2 3; "
           "damage 3 kind 2; seal")
    # The place of a load: its own location and kind.
    for field, new in (("kind", 2), ("kind", 4), ("kind", 3), ("kind", 0), ("location", 4), ("location", 0),
                       ("mode", 2), ("mode", 1)):
        yield f"{LATER}; damage 1 {field} {new}; seal; event 1; note 1 2 0 1; link 1 0; damage 1 writer 0; seal"
    # Damage that leaves another legal event cannot be told.
    yield f"{PAIR}; damage 1 thread 8; damage 1 mode 2; damage 2 mode 3; seal; event 1; event 2"
    yield f"{PAIR}; damage 1 kind 3; seal; link 1 2; seal; event 1; event 2"
    yield f"{PAIR}; damage 1 location 2; seal; damage 2 location 2; seal; event 1; event 2"
    yield ("note 1 1 0 1; damage 1 kind 2; seal; event 1; reopen; damage 1 kind 1; seal; damage 1 kind 4; "
           "damage 1 location 0; seal; event 1")
    # The lowest damaged event is named, and the call's own faults come after it.
    yield (f"{LATER}; damage 5 thread 9; seal; damage 4 kind 0; seal; damage 2 mode 4; seal; damage 1 location 65; "
           "seal")
    yield ("note 1 1 0 1; note 1 2 0 1; note 1 2 0 1; damage 3 mode 1; note 9 2 0 1; link 9 0; link 2 1; link 1 1; "
           "seal; retract")
    yield "note 1 1 0 1; note 1 2 0 1; link 1 2; damage 2 thread 0; retract; seal; damage 2 thread 1; retract; seal"


def retracts():
    yield "retract; note 1 2 0 1; retract; retract; note 1 4 0 0; retract; retract"
    yield "note 1 1 0 1; note 1 2 0 1; retract; note 1 2 0 1; link 1 2; retract; link 1 0; retract; retract; retract"
    yield ("note 1 1 0 1; note 1 3 0 1; note 1 2 0 1; link 2 3; retract; link 1 3; retract; link 1 2; retract; "
           "link 2 0; retract")
    yield "note 1 3 0 1; note 1 3 0 1; link 1 2; link 2 1; retract; link 1 0; retract; seal; retract; seal"
    yield (f"{LATER}; retract; retract; retract; link 1 2; retract; link 2 0; retract; link 1 0; retract; retract; "
           "retract")
    # What was taken back stays where it was, and the next note writes over it, its writer too.
    yield f"{PAIR}; retract; note 3 1 1 1; seal; link 2 1; seal; event 2"
    yield f"{PAIR}; retract; retract; note 3 4 3 0; note 3 2 2 9; seal; event 1; event 2; event 3"
    yield (f"{PAIR}; retract; damage 2 thread 255; damage 2 writer 9; seal; reopen; note 1 3 1 1; seal; link 2 1; "
           "seal")
    yield "damage 1 thread 9; damage 1 writer 7; seal; reopen; link 1 0; retract; note 1 1 0 1; seal"


def seals():
    yield "seal; count; event 0; event 1; reopen; seal; reopen; note 1 2 0 1; seal; count; event 0; event 1; event 2"
    yield ("note 1 1 0 1; seal; note 1 3 0 1; seal; note 1 2 0 1; link 1 3; seal; link 2 3; seal; event 1; "
           "event 2; event 3")
    yield ("note 1 2 0 1; note 1 3 0 1; note 1 1 0 1; seal; link 2 1; seal; link 3 2; seal; count; reopen; "
           "link 3 0; seal")
    yield ("note 1 1 0 1; note 1 2 0 1; seal; link 1 2; note 2 4 3 0; seal; event 1; event 3; reopen; reopen; "
           "note 2 4 1 0; count")
    for event in (0, 1, 2, 3, 4, 256, 258, 512, 513, 65_538, 2 ** 31, 2 ** 32 - 1):
        yield f"{PAIR}; event {event}; seal; event {event}; count; event 2; reopen; event {event}"
    for kind, location in ((1, 2), (2, 64), (3, 2), (4, 0)):
        modes = {1: (0, 1), 2: (0, 2)}.get(kind, (0, 1, 2, 3))
        notes = "; ".join(f"note {thread} {kind} {mode} {location}" for thread, mode in zip((1, 8, 4, 5), modes))
        links = "".join(f"; link {event} {len(modes) + 1}" for event in range(1, len(modes) + 1) if kind in (1, 3))
        asked = "; ".join(f"event {event}" for event in range(1, len(modes) + 2))
        yield f"{notes}; note 1 2 0 2{links}; seal; {asked}"
    # What is barred, each call in each state, and that it does nothing.
    yield f"{PAIR}; count; event 1; reopen; event 4294967295; seal; count"
    yield (f"{PAIR}; seal; note 1 2 0 1; link 2 0; retract; seal; damage 1 thread 2; damage other 1 thread 2; "
           "count; event 1; event 2")
    yield (f"{PAIR}; seal; note own 511 0 0 0 0; link other 1 0 0; retract own 0; seal other 511; reopen; "
           "note own 511 0 0 0 0")
    yield (f"{PAIR}; seal own 520; event 2; reopen; seal own 513; event 1; reopen; damage 513 thread 9; "
           "seal own 513; count")
    yield (f"{PAIR}; seal; reopen; note 1 1 0 1; seal; link 3 2; seal; event 3; reopen; retract; retract; retract; "
           "retract; seal; count")
    yield (f"{PAIR}; damage 2 thread 0; seal; count; damage 2 thread 1; seal; count; damage 2 thread 0; event 2; "
           "reopen; damage 2 thread 0; seal")


def lines():
    """Lines that are not calls, and the longest numbers that are."""
    yield ("note 1 2 0; note 1 2 0 1 0; note 1 2 0 1; note; note own; note own 512; own 512; link 1; link; "
           "retract own; seal")
    yield ("note own 512 256 2 0 1; note own 512 1 256 0 1; note own 512 1 2 256 1; note own 512 1 2 0 256; "
           "note own 512 255 255 255 255")
    yield ("note own 999999 1 2 0 1; note own 1000000 1 2 0 1; seal own 1000000; retract own 1000000; "
           "link own 1000000 1 0; seal own 999999")
    yield (f"{PAIR}; link 4294967295 4294967295; link 4294967296 0; link 2 4294967296; link 4294967298 1; "
           "link 2 4294967297; seal")
    yield (f"{PAIR}; seal; event 4294967296; event 4294967295; event 4294967297; event 18446744073709551617; "
           "event 99999999999999999999; event")
    yield ("damage 0 thread 1; damage 520 thread 1; damage 521 thread 1; damage other 511 kind 1; "
           "damage other 512 kind 1; damage other 0 kind 1")
    yield ("damage 1 thread 256; damage 1 kind 256; damage 1 mode 256; damage 1 location 256; damage 1 writer 256; "
           "damage 1 writer 65536")
    yield ("damage 2 thread 255; damage 3 kind 255; damage 4 mode 255; damage 5 location 255; "
           "damage 6 writer 65535; damage 7 writer 0")
    yield ("damage 1 threads 1; damage 1 Thread 1; damage 1 0 1; damage 1; damage own 1 thread; "
           "damage own thread 1 1; damage 1 thread 1 1; damage 1 field 1")
    yield ("note own 0512 1 2 0 1; note own 512 01 2 0 1; note own 512 1 2 00 1; note own 512 1 2 0 1; "
           "damage own 01 thread 1; event 00")
    yield ("note own 512 +1 2 0 1; note own 512 -1 2 0 1; note own 512 1 2 -0 1; note own 512 1 2 0 1.0; "
           "note own 512 0x1 2 0 1; note own 5_12 1 2 0 1")
    yield ("note  own 512 1 2 0 1;  note own 512 1 2 0 1; note own 512 1 2 0 1 ;note own 512 1 2 0  1;"
           "note\town 512 1 2 0 1; note own 512 1 2 0 1\t")
    yield ("note Own 512 1 2 0 1; note mine 512 1 2 0 1; note 512 own 1 2 0 1; NOTE own 512 1 2 0 1; seal own512; "
           "sealown 512; note own 512 1 2 0 1")
    yield ";;note 1 2 0 1; ;;retract;  ;seal;"
    yield ("seal; count 0; count count; reopen 1; reopen own 512; seal own 512 1; open 1; Open; opened; open ; "
           "OPEN; reopened; count; event 1 1; Count")
    yield ("note own 512 1 2 0 1\r;seal own 512\r;count\r; count;\u0661;note own 512 \u0661 2 0 1; "
           "note own 512 1\u00b2 2 0 1; \u00e9")
    yield (f"{'x' * 300};{'1' * 300};note own 512 {'0' * 60}1 2 0 1;note own 512 {'1' * 60} 2 0 1;"
           "note own 512 1 2 0 1")
    yield ("record refused 9 0; event 1; barred; not a call; damaged; done; log 1; own 1: 1 2 0 1 0; #; -; 0; 1; "
           "seal; event 1")


def full():
    """Records of 512 events: the 513th in its order of checks; links, damage and questions at the end."""
    filled = "; ".join("note 1 4 0 0" for _ in range(510))
    checks = "note own 511 1 4 0 0; note 0 4 0 0; note 1 0 0 0; note 1 4 4 0; note 1 4 0 1; note 1 4 0 0"
    asked = "seal; count; event 511; event 512; event 513; event 0; reopen"
    yield (f"note 1 1 0 1; {filled}; note 1 2 0 1; {checks}; damage 513 thread 9; note 1 2 0 1; link 1 513;"
           f"link 513 1; link 1 512; {asked}; {checks}; retract; link 1 0; retract; {checks}; damage 512 thread 9;"
           f"{checks}; retract")
    filled = "; ".join("note 8 2 2 64" for _ in range(511))
    yield (f"{filled}; note 8 3 3 64; note 1 2 0 1; link 512 512; link 512 513; link 513 512; link 512 511; {asked};"
           "damage 512 writer 512; seal; damage 512 writer 513; seal; damage 512 writer 1; seal own 520; event 512;"
           "reopen; retract own 511; retract; note 9 2 0 1; note 1 3 0 64; seal; note 1 2 0 1; link 512 256; seal;"
           "event 512")


def spelled(call):
    """A call in full."""
    name, *words = call.split(" ")
    names_none = words == [] or words[0].isdigit() and set(PLACES).isdisjoint(words)
    if name in FAULTS and names_none:
        return " ".join([name, "own", "512", *words])
    if name == "damage" and names_none:
        return " ".join([name, "own", *words])
    return call


def list_of(short):
    """The lines of a list that is written short. A space after a `;` is for reading only."""
    return ["open"] + [spelled(call.removeprefix(" ")) for call in short.split(";")]


def picked_lists():
    groups = (fields, order_of_fields, links, memory_sizes, damages, retracts, seals, lines, full)
    return [list_of(short) for group in groups for short in group()]
