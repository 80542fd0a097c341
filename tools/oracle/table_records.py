"""Writes lists of a record's calls and the oracle's lines for them: the files `stdin` and `stdout` of a gate.

First come a few lines before the first `open`, then the lists that are picked by hand, then drawn ones. The last line
has no line feed.
"""

import argparse
from collections import Counter
from pathlib import Path

from compare_records import answers_and_counts, as_script, never
from drawn_records import drawn_list
from picked_records import picked_lists
from records import answers

BEFORE = ["count", "note own 512 1 2 0 1", "seal own 512", "count", "damage own 1 thread 2"]
LONGEST_SMALL = 1_000
WANTED_OF_EACH = 4
LOOKED_AT = 6_000


def drawn_lists(seed, count):
    """Small lists with an outcome that is still rare among them, then any."""
    chosen, spare, seen = [], [], Counter()
    for index in range(LOOKED_AT):
        lines = drawn_list(seed, index)
        script = as_script([lines])
        if len(script) > LONGEST_SMALL or "\0" in script:
            continue
        outcomes = answers_and_counts(script)[1]
        is_rare = any(seen[outcome] < WANTED_OF_EACH for outcome in outcomes)
        (chosen if is_rare else spare).append(lines)
        seen.update(outcomes if is_rare else ())
        if len(chosen) >= count:
            break
    return (chosen + spare)[:count]


def main():
    parser = argparse.ArgumentParser(description=__doc__)
    parser.add_argument("--drawn", type=int, default=130)
    parser.add_argument("--seed", type=int, default=7)
    parser.add_argument("--into", type=Path, default=Path("."), help="the folder of the two files")
    arguments = parser.parse_args()
    picked, drawn = picked_lists(), drawn_lists(arguments.seed, arguments.drawn)
    script = as_script([BEFORE, *picked, *drawn, ["open", "note own 512 1 2 0 1"]]).removesuffix("\n")
    arguments.into.mkdir(parents=True, exist_ok=True)
    for name, text in (("stdin", script), ("stdout", "".join(line + "\n" for line in answers(script)))):
        (arguments.into / name).write_bytes(text.encode("utf-8"))
    print(f"{len(picked)} lists picked, {len(drawn)} drawn, {len(script)} characters")
    for name, note in never(answers_and_counts(script)[1]):
        print(f"never: {name} {note}")


if __name__ == "__main__":
    main()
