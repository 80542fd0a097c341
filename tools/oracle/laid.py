"""The one order that is laid: docs/JUDGE.md, for a run without violation."""

from models import LOCATION_SCOPE, WEAK_SCOPE, hb, inverse, rows, stores_by_location, union
from violations import chain_of, heads, read_steps, steps_between_chains


def lay(things, r):
    """The things one by one: always the lowest that r leads to from none that is not laid yet."""
    before = rows(inverse(r))
    waiting, laid = set(things), []
    while waiting:
        lowest = min(thing for thing in waiting if waiting.isdisjoint(before.get(thing, ())))
        waiting.remove(lowest)
        laid.append(lowest)
    return laid


def laid_at_location_scope(run, rule):
    """Within each location whole chains, by the lowest head that no chain in waiting leads to."""
    head, between = heads(run), steps_between_chains(run, rule)
    order = []
    for group in stores_by_location(run):
        for chain in lay({head[store] for store in group}, between):
            members = [store for store in group if head[store] == chain]
            order += sorted(members, key=lambda store: chain_of(run)[store])
    return tuple(order)


def laid_at_whole_scope(run, rule):
    """All events are laid; then the stores of each location are read off."""
    laid = lay(run.numbers(), union(hb(run, rule), read_steps(run, rule)))
    return tuple(event for group in stores_by_location(run) for event in laid if event in group)


def laid(run, model):
    if model.scope == WEAK_SCOPE:
        return ()
    if model.scope == LOCATION_SCOPE:
        return laid_at_location_scope(run, model.rule)
    return laid_at_whole_scope(run, model.rule)
