#!/usr/bin/env python3
"""Union, intersection and difference of two arrays of 100,000 numbers against plain Rust with a hash set on the numbers, and
what ten times the size costs."""
import os
import subprocess
import sys
import tempfile

from measure import best, compare

HERE = os.path.dirname(os.path.abspath(__file__))
OURS = os.path.join(HERE, "..", "crates", "engine_bench", "out", "engine_bench")
COUNT = 100_000
ROUNDS = 100


def main():
    if not os.path.exists(OURS):
        sys.exit("build the program first: run `rt run` in crates/engine_bench")
    with tempfile.TemporaryDirectory() as folder:
        baseline = os.path.join(folder, "sets")
        subprocess.run(["rustc", "-O", "-o", baseline, os.path.join(HERE, "baseline", "sets.rs")], check=True)
        for operator in ("union", "intersection", "difference"):
            words = [operator, str(COUNT), str(ROUNDS)]
            ours, theirs = [OURS, "sets"] + words, [baseline] + words
            if len({subprocess.run(c, check=True, capture_output=True).stdout for c in (ours, theirs)}) != 1:
                sys.exit("the two programs give different sets")
            compare(f"{operator} of two arrays of {COUNT} numbers", ours, theirs, 3.0)
            for name, program in (("ours", [OURS, "sets"]), ("plain Rust", [baseline])):
                rounds = {size: ROUNDS * COUNT // size // 3 for size in (COUNT // 10, COUNT, COUNT * 10)}
                seconds = {size: best(program + [operator, str(size), str(n)])[0] / n for size, n in rounds.items()}
                for size in (COUNT // 10, COUNT):
                    times = seconds[size * 10] / max(seconds[size], 1e-6)
                    print(f"{operator}, {name}: ten times {size} numbers cost {times:.1f} times the time (goal 12)", flush=True)


if __name__ == "__main__":
    main()
