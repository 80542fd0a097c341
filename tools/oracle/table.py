"""Writes a table of logs and the oracle's lines for them: the files `stdin` and `stdout` of a gate.

`stdin` has a line for each log, its bytes in hexadecimal. `stdout` has for each log a line with its number
from 1, and the oracle's lines, where a violation is told by its kind alone.
"""

import argparse
from collections import Counter
from pathlib import Path

from compare import notes_on, outcome
from drawn import LONG_EVERY, drawn
from logs import read_log
from oracle import BYTES_READ, lines_for

LONGEST_SMALL = 200
# Places among the long logs of drawn.py: one that opens, two with 513 events, one with bytes after the end.
LONG_SORTS = (0, 2, 4, 7)
WANTED_OF_EACH = 8
LOOKED_AT = 6_000


def features(data):
    """What a log is an example of: each outcome, each note, and the verdicts of all models together."""
    opened = read_log(data[:BYTES_READ])
    lines = lines_for(opened)
    outcomes = [outcome(line) for line in lines]
    return lines, outcomes + notes_on(opened, lines) + [tuple(outcomes)]


def choose(seed, count):
    """Logs with their lines: the long ones, then small ones with a feature that is still rare, then any."""
    long_ones = [drawn(seed, LONG_EVERY * (sort + 1) - 1) for sort in LONG_SORTS]
    chosen, spare, seen = {data: features(data)[0] for data in long_ones}, {}, Counter()
    for index in range(LOOKED_AT):
        if len(chosen) == count:
            return chosen
        data = drawn(seed, index)
        if len(data) > LONGEST_SMALL or data in chosen or data in spare:
            continue
        lines, found = features(data)
        is_rare = any(seen[feature] < WANTED_OF_EACH for feature in found)
        (chosen if is_rare else spare)[data] = lines
        seen.update(found if is_rare else ())
    return dict([*chosen.items(), *spare.items()][:count])


def main():
    parser = argparse.ArgumentParser(description=__doc__)
    parser.add_argument("--logs", type=int, default=300)
    parser.add_argument("--seed", type=int, default=7)
    parser.add_argument("--into", type=Path, default=Path("."), help="the folder of the two files")
    arguments = parser.parse_args()
    table = choose(arguments.seed, arguments.logs)
    arguments.into.mkdir(parents=True, exist_ok=True)
    (arguments.into / "stdin").write_text("".join(data.hex() + "\n" for data in table))
    blocks = ["\n".join([f"log {number}", *lines]) + "\n" for number, lines in enumerate(table.values(), 1)]
    (arguments.into / "stdout").write_text("".join(blocks))


if __name__ == "__main__":
    main()
