#!/usr/bin/env python3
"""One field of a document of a million set a thousand times, and a thousand paths kept of a thousand fields, against Rust.

The time in which the document is made is not counted."""
import os
import subprocess
import sys
import tempfile

from measure import best

HERE = os.path.dirname(os.path.abspath(__file__))
OURS = os.path.join(HERE, "..", "crates", "engine_bench", "out", "engine_bench")
CASES = [("set, a thousand times in a million fields", ["set", "1000000", "1000"]), ("keep, a thousand paths of a thousand fields", ["keep", "1000", "2000"])]


def main():
    if not os.path.exists(OURS):
        sys.exit("build the program first: run `rt run` in crates/engine_bench")
    with tempfile.TemporaryDirectory() as folder:
        baseline = os.path.join(folder, "paths")
        subprocess.run(["rustc", "-O", "-o", baseline, os.path.join(HERE, "baseline", "paths.rs")], check=True)
        for title, words in CASES:
            same = {subprocess.run(c, check=True, capture_output=True).stdout for c in ([OURS, "paths"] + words, [baseline] + words)}
            if len(same) != 1:
                sys.exit("the two programs give different answers")
            ours, theirs = [OURS, "paths"] + words, [baseline] + words
            (time, memory), (base_time, base_memory) = best(ours), best(theirs)
            start, _ = best(ours[:-1] + ["0"])
            base_start, _ = best(theirs[:-1] + ["0"])
            print(f"{title}: time {(time - start) / (base_time - base_start):.2f}, peak memory {memory / base_memory:.2f}", flush=True)


if __name__ == "__main__":
    main()
