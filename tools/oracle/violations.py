"""The violations of docs/JUDGE.md: whether one that was printed holds, and which kind a run has first."""

from itertools import combinations

from models import (LOCATION_SCOPE, WEAK_SCOPE, WHOLE_SCOPE, causality_holds, compose, hb, inverse,
                    is_acyclic, po, remembered, rf, rf_hb, rf_optional_hb, same_location, stores, union,
                    updates, without_identity)

CAUSAL, TWIN, WEAK, BACK, ROUND, WHOLE = "CAUSAL", "TWIN", "WEAK", "BACK", "ROUND", "WHOLE"
EVERY_SCOPE = (LOCATION_SCOPE, WHOLE_SCOPE, WEAK_SCOPE)


# Steps and chains.

def between_stores(run, r):
    """The pairs of r that join two different stores of one location."""
    store = set(stores(run))
    return frozenset((a, b) for a, b in without_identity(r) & same_location(run) if a in store and b in store)


@remembered
def before_steps(run, rule):
    return between_stores(run, rf_optional_hb(run, rule))


@remembered
def read_steps(run, rule):
    """From a to the store b that a load reads from, where a reaches the load by rf? ; hb."""
    return between_stores(run, compose(rf_hb(run, rule), inverse(rf(run))))


def location_steps(run, rule):
    return union(before_steps(run, rule), read_steps(run, rule))


@remembered
def chain_of(run):
    """For each store the head of its chain and its place there. Asked for only where chains are defined."""
    places = {}
    for store in stores(run):
        head, place = store, 0
        while run.event(head).is_load():
            head, place = run.event(head).writer, place + 1
        places[store] = (head, place)
    return places


def heads(run):
    return {store: head for store, (head, place) in chain_of(run).items()}


def leads_back(run, step):
    """Whether the step leads to a store that stands before its start in its chain."""
    (head, place), (other_head, other_place) = chain_of(run)[step[0]], chain_of(run)[step[1]]
    return head == other_head and other_place < place


def steps_between_chains(run, rule):
    """From head to head, for each step that leads from one chain to another."""
    head = heads(run)
    return without_identity(frozenset((head[a], head[b]) for a, b in location_steps(run, rule)))


# Which kinds a run has.

def twins(run):
    return [(u, v) for u, v in combinations(updates(run), 2) if run.event(u).writer == run.event(v).writer]


def weak_triples(run, rule):
    """All (w, v, r): w happens before the store v of its location, v before r, and r reads from w."""
    happens, near = hb(run, rule), same_location(run)
    return [(w, v, r) for w, r in rf(run) for v in stores(run)
            if (w, v) in happens and (w, v) in near and (v, r) in happens]


@remembered
def first_kind(run, model):
    """The first kind in the table that the run has at the model's scope, or None."""
    if not causality_holds(run):
        return CAUSAL
    if twins(run):
        return TWIN
    if model.scope == WEAK_SCOPE:
        return WEAK if weak_triples(run, model.rule) else None
    if model.scope == WHOLE_SCOPE:
        return None if is_acyclic(union(hb(run, model.rule), read_steps(run, model.rule))) else WHOLE
    if any(leads_back(run, step) for step in location_steps(run, model.rule)):
        return BACK
    return None if is_acyclic(steps_between_chains(run, model.rule)) else ROUND


# Whether a violation holds as it was printed.

def number(word):
    """The number that the word is in plain decimal digits, else None."""
    return int(word) if word.isascii() and word.isdigit() and str(int(word)) == word else None


def numbers(words, run):
    """The events that the words name, or None if a word names none."""
    events = [number(word) for word in words]
    return events if all(event is not None and 1 <= event <= len(run.events) for event in events) else None


def around(things):
    """Each thing with the next, and the last with the first."""
    return list(zip(things, things[1:] + things[:1]))


def is_cycle(events, r):
    """Whether these are two or more different events, from the lowest on, each r-related to the next."""
    return (len(events) >= 2 and len(set(events)) == len(events) and events[0] == min(events)
            and all(pair in r for pair in around(events)))


def causal_holds(run, model, events):
    return is_cycle(events, union(po(run), rf(run)))


def twin_holds(run, model, events):
    return tuple(events) in twins(run)


def weak_holds(run, model, events):
    return tuple(events) in weak_triples(run, model.rule)


def back_holds(run, model, events):
    return tuple(events) in location_steps(run, model.rule) and leads_back(run, events)


def whole_holds(run, model, events):
    return is_cycle(events, union(hb(run, model.rule), read_steps(run, model.rule)))


def round_holds(run, model, words):
    """The one word is a location, a colon, and the steps as from>to, joined by commas."""
    if len(words) != 1 or words[0].count(":") != 1:
        return False
    location, listed = words[0].split(":")
    steps = [numbers(step.split(">"), run) for step in listed.split(",")]
    if any(step is None or len(step) != 2 for step in steps):
        return False
    return steps_go_round(run, model, number(location), [tuple(step) for step in steps])


def steps_go_round(run, model, location, steps):
    """Whether each step starts in the chain where the one before it ended, through different chains."""
    head = heads(run)
    if not all(step in location_steps(run, model.rule) for step in steps):
        return False
    if any(run.event(start).location != location for start, end in steps):
        return False
    chains = [head[start] for start, end in steps]
    lowest_start = min(start for start, end in steps)
    return (len(steps) >= 2 and len(set(chains)) == len(chains) and steps[0][0] == lowest_start
            and all(head[step[1]] == head[following[0]] for step, following in around(steps)))


def of_events(check):
    """The check of a kind whose words are the numbers of events."""
    def holds_of_words(run, model, words):
        events = numbers(words, run)
        return events is not None and check(run, model, events)
    return holds_of_words


KINDS = {
    CAUSAL: (EVERY_SCOPE, of_events(causal_holds)),
    TWIN: ((LOCATION_SCOPE, WEAK_SCOPE), of_events(twin_holds)),
    WEAK: ((WEAK_SCOPE,), of_events(weak_holds)),
    BACK: ((LOCATION_SCOPE,), of_events(back_holds)),
    ROUND: ((LOCATION_SCOPE,), round_holds),
    WHOLE: ((WHOLE_SCOPE,), of_events(whole_holds)),
}


def holds(run, model, kind, words):
    """Whether the violation holds in the run, and is printed as docs/PROGRAMS.md says."""
    if kind not in KINDS or model.scope not in KINDS[kind][0]:
        return False
    chains_are_needed = kind in (BACK, ROUND)
    if chains_are_needed and (not causality_holds(run) or twins(run)):
        return False
    return KINDS[kind][1](run, model, words)
