#!/usr/bin/env python3
"""A million records of a 12-byte key and a 60-byte body in one block, pushed and ordered, against a Rust arena with an index."""
import os
import subprocess
import sys
import tempfile

from measure import compare

HERE = os.path.dirname(os.path.abspath(__file__))
OURS = os.path.join(HERE, "..", "crates", "engine_bench", "out", "engine_bench")
COUNT = 1_000_000
BYTES = COUNT * (12 + 60 + 24)


def main():
    if not os.path.exists(OURS):
        sys.exit("build the program first: run `rt run` in crates/engine_bench")
    with tempfile.TemporaryDirectory() as folder:
        baseline = os.path.join(folder, "pile")
        subprocess.run(["rustc", "-O", "-o", baseline, os.path.join(HERE, "baseline", "pile.rs")], check=True)
        words = [str(COUNT), str(BYTES)]
        same = {subprocess.run(c, check=True, capture_output=True).stdout for c in ([OURS, "pile"] + words, [baseline] + words)}
        if len(same) != 1:
            sys.exit("the two programs give different orders")
        compare("pile, a million records", [OURS, "pile"] + words, [baseline] + words, 1.3)


if __name__ == "__main__":
    main()
