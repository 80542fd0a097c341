"""The five memory models as docs/MODELS.md states them. A relation is a frozenset of pairs of events."""

from dataclasses import dataclass
from functools import lru_cache
from itertools import chain, combinations, permutations, product

from logs import ACQ, ACQREL, FENCE, REL, UPDATE

LOCATION_SCOPE, WHOLE_SCOPE, WEAK_SCOPE = "location", "whole", "weak"
RC20_RULE, READS_FROM_RULE, EMPTY_RULE = "RC20's", "reads-from", "empty"


@dataclass(frozen=True)
class Model:
    """A name as the program prints it, a rule and a scope."""

    name: str
    rule: str
    scope: str


RC20 = Model("RC20", RC20_RULE, LOCATION_SCOPE)
RA = Model("RA", READS_FROM_RULE, LOCATION_SCOPE)
SRA = Model("SRA", READS_FROM_RULE, WHOLE_SCOPE)
WRA = Model("WRA", READS_FROM_RULE, WEAK_SCOPE)
RELAXED = Model("RELAXED", EMPTY_RULE, LOCATION_SCOPE)
MODELS = (RC20, RA, SRA, WRA, RELAXED)

# What does not depend on an order is worked out once for each run. The size only has to hold the run at hand.
remembered = lru_cache(maxsize=16)


# The operators.

def rows(r):
    """For each event the set of those that it is r-related to."""
    after = {}
    for a, b in r:
        after.setdefault(a, set()).add(b)
    return after


def compose(*relations):
    """r ; s ; ..."""
    first, *rest = relations
    for s in rest:
        after = rows(s)
        first = frozenset((a, c) for a, b in first for c in after.get(b, ()))
    return first


def union(*relations):
    return frozenset().union(*relations)


def inverse(r):
    return frozenset((b, a) for a, b in r)


def identity_on(events):
    """[S]"""
    return frozenset((a, a) for a in events)


def optional(r, run):
    """r?, where the step that is left out may be at any event of the run."""
    return union(r, identity_on(run.numbers()))


def without_identity(r):
    return frozenset((a, b) for a, b in r if a != b)


def plus(r):
    """r⁺: each event with all that can be reached from it by one or more steps."""
    after = rows(r)
    pairs = set()
    for a in after:
        reached, waiting = set(), [a]
        while waiting:
            new = after.get(waiting.pop(), set()) - reached
            reached |= new
            waiting += new
        pairs.update((a, b) for b in reached)
    return frozenset(pairs)


def is_irreflexive(r):
    return all(a != b for a, b in r)


def is_acyclic(r):
    return is_irreflexive(plus(r))


# Sets of events and relations that come with a run.

@remembered
def stores(run):
    return tuple(a for a in run.numbers() if run.event(a).is_store())


@remembered
def updates(run):
    return tuple(a for a in run.numbers() if run.event(a).kind == UPDATE)


@remembered
def same_location(run):
    """Pairs of accesses of one location; an access goes with itself."""
    at = {}
    for a in run.numbers():
        if run.event(a).kind != FENCE:
            at.setdefault(run.event(a).location, []).append(a)
    return frozenset(pair for events in at.values() for pair in product(events, events))


@remembered
def po(run):
    return frozenset((a, b) for a, b in combinations(run.numbers(), 2)
                     if run.event(a).thread == run.event(b).thread)


@remembered
def rf(run):
    return frozenset((run.event(r).writer, r) for r in run.numbers() if run.event(r).is_load())


@remembered
def sw(run, rule):
    """Which events synchronise."""
    if rule == EMPTY_RULE:
        return frozenset()
    if rule == READS_FROM_RULE:
        return rf(run)
    fence = identity_on(a for a in run.numbers() if run.event(a).kind == FENCE)
    release = identity_on(a for a in run.numbers() if run.event(a).mode in (REL, ACQREL))
    acquire = identity_on(a for a in run.numbers() if run.event(a).mode in (ACQ, ACQREL))
    after_a_fence = optional(compose(fence, po(run)), run)
    before_a_fence = optional(compose(po(run), fence), run)
    return compose(release, after_a_fence, plus(rf(run)), before_a_fence, acquire)


@remembered
def hb(run, rule):
    return plus(union(po(run), sw(run, rule)))


@remembered
def rf_hb(run, rule):
    """rf? ; hb"""
    return compose(optional(rf(run), run), hb(run, rule))


@remembered
def rf_optional_hb(run, rule):
    """rf? ; hb?"""
    return compose(optional(rf(run), run), optional(hb(run, rule), run))


# Relations of an order.

def mo(run, order):
    return frozenset((a, b) for a, b in combinations(order, 2)
                     if run.event(a).location == run.event(b).location)


def fr(run, order):
    return without_identity(compose(inverse(rf(run)), mo(run, order)))


# The axioms.

@remembered
def causality_holds(run):
    return is_acyclic(union(po(run), rf(run)))


def causality(run, rule, order):
    return causality_holds(run)


def write_coherence(run, rule, order):
    return is_irreflexive(compose(mo(run, order), rf_optional_hb(run, rule)))


def write_coherence_whole(run, rule, order):
    return is_acyclic(union(hb(run, rule), mo(run, order)))


def write_coherence_weak(run, rule, order):
    return True


def read_coherence(run, rule, order):
    return is_irreflexive(compose(fr(run, order), rf_hb(run, rule)))


def read_coherence_weak(run, rule, order):
    hb_loc = hb(run, rule) & same_location(run)
    return is_irreflexive(compose(hb_loc, identity_on(stores(run)), hb(run, rule), inverse(rf(run))))


def atomicity(run, rule, order):
    return is_irreflexive(compose(fr(run, order), mo(run, order)))


def atomicity_weak(run, rule, order):
    writers = [run.event(u).writer for u in updates(run)]
    return len(writers) == len(set(writers))


AXIOMS = {
    LOCATION_SCOPE: (causality, write_coherence, read_coherence, atomicity),
    WHOLE_SCOPE: (causality, write_coherence_whole, read_coherence, atomicity),
    WEAK_SCOPE: (causality, write_coherence_weak, read_coherence_weak, atomicity_weak),
}


def first_failing(run, model, order):
    """The number of the first axiom that fails for the order, or 0 if all hold."""
    for number, axiom in enumerate(AXIOMS[model.scope], 1):
        if not axiom(run, model.rule, order):
            return number
    return 0


# Orders.

def stores_by_location(run):
    """The stores of each location, location by rising location."""
    locations = sorted({run.event(a).location for a in stores(run)})
    return [[a for a in stores(run) if run.event(a).location == location] for location in locations]


def orders(run, scope):
    """All orders of the stores; at weak scope only the empty one."""
    if scope == WEAK_SCOPE:
        return iter([()])
    choices = product(*(permutations(group) for group in stores_by_location(run)))
    return (tuple(chain(*choice)) for choice in choices)


def satisfying(run, model):
    """All the orders that satisfy the model's rule at its scope."""
    return [order for order in orders(run, model.scope) if first_failing(run, model, order) == 0]
