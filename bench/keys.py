#!/usr/bin/env python3
"""Key bytes against `compare` on the values themselves: both sides sort 100,000 documents by two fields.

Makes no data: `engine_bench keys` makes the documents from a fixed seed. Each command sorts them a number of times,
so that making them counts little. `bytes` makes a key for each document and sorts the keys; `trees` finds both fields
of each document once and sorts these pairs of values. Both print one number for the order found, which must be the
same.

Then the order of keys is tried against `compare` on 100,000 random pairs of deep values, in both directions.

Run it after `rt run` in crates/engine_bench.
"""
import os
import subprocess
import sys

import measure

PROGRAM = os.path.join(os.path.dirname(__file__), "..", "crates", "engine_bench", "out", "engine_bench")
COUNT = "100000"
ROUNDS = "20"


def answer(*words):
    """What a case prints."""
    return subprocess.run([PROGRAM, "keys", *words], capture_output=True, check=True, text=True).stdout.strip()


def main():
    if not os.path.exists(PROGRAM):
        sys.exit("no engine_bench: `rt run` in crates/engine_bench makes it")
    if answer("bytes", COUNT, "1") != answer("trees", COUNT, "1"):
        sys.exit("the two orders differ")
    measure.compare(
        "keys of 100,000 documents by two fields, and their sort, against compare",
        [PROGRAM, "keys", "bytes", COUNT, ROUNDS],
        [PROGRAM, "keys", "trees", COUNT, ROUNDS],
        "0.5",
        times=5,
    )
    pairs = answer("pairs", COUNT)
    print(f"random pairs: {pairs}")
    if not pairs.endswith("wrong 0"):
        sys.exit("byte order and compare differ")


if __name__ == "__main__":
    main()
