#!/usr/bin/env python3
"""How deep a value each call takes on the default stack: doubles the levels until the program dies, then halves the gap.

Run it after `rt run` in crates/engine_bench.
"""
import os
import subprocess
import sys

PROGRAM = os.path.join(os.path.dirname(__file__), "..", "crates", "engine_bench", "out", "engine_bench")


def lives(what, levels):
    return subprocess.run([PROGRAM, "nesting", what, str(levels)], capture_output=True, check=False).returncode == 0


def deepest(what):
    low, high = 1000, 2000
    while lives(what, high) and high < 64_000_000:
        low, high = high, high * 2
    while high - low > low // 50:
        middle = (low + high) // 2
        if lives(what, middle):
            low = middle
        else:
            high = middle
    return low


def main():
    if not os.path.exists(PROGRAM):
        sys.exit("no engine_bench: `rt run` in crates/engine_bench makes it")
    for what in ("drop", "compare", "copy", "depth"):
        print(f"{what}: {deepest(what)} levels")


if __name__ == "__main__":
    main()
