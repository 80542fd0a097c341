"""What the program `bunkmallard` must print for a log, found by trying every order. Reads a log from stdin.

Of an inconsistent run only the kind is told: which of several violations of that kind is shown is left open.
"""

import sys
from itertools import groupby
from math import factorial, prod

from laid import laid
from logs import Refused, read_log
from models import MODELS, WHOLE_SCOPE, satisfying, stores_by_location, updates
from violations import first_kind

BYTES_READ = 8192
MOST_ORDERS = 50_000


class TooLarge(Exception):
    """The run has too many orders to try them all."""


class Disagreement(Exception):
    """The orders that satisfy, the kinds of violations and the order that is laid do not agree with one another."""


def count_orders(run):
    return prod(factorial(len(group)) for group in stores_by_location(run))


def order_words(run, order):
    """A word for each location: the location, a colon, and its stores joined by `<`."""
    groups = groupby(order, key=lambda store: run.event(store).location)
    return [f"{location}:" + "<".join(map(str, group)) for location, group in groups]


def model_line(run, model):
    """The verdict by trying all orders; the other definitions of the docs must agree with it."""
    if model.scope == WHOLE_SCOPE and updates(run):
        return f"{model.name} refused 24 {min(updates(run))}"
    passing, kind = satisfying(run, model), first_kind(run, model)
    if bool(passing) != (kind is None):
        raise Disagreement(f"{model.name}: {len(passing)} orders satisfy, but the kind is {kind}")
    if not passing:
        return f"{model.name} inconsistent {kind}"
    order = laid(run, model)
    if order not in passing:
        raise Disagreement(f"{model.name}: the order that is laid, {order}, does not satisfy")
    return " ".join([model.name, "consistent"] + order_words(run, order))


def lines_for(opened):
    """The lines for what `read_log` gave."""
    if isinstance(opened, Refused):
        return [f"log refused {opened.number} {opened.place}"]
    if count_orders(opened) > MOST_ORDERS:
        raise TooLarge(f"{count_orders(opened)} orders")
    return [model_line(opened, model) for model in MODELS]


def answer(data):
    """The lines for a log's bytes."""
    return lines_for(read_log(data[:BYTES_READ]))


if __name__ == "__main__":
    print("\n".join(answer(sys.stdin.buffer.read(BYTES_READ))))
