#!/usr/bin/env python3
"""Ten computed fields of 100,000 documents: reading, evaluating and the length of what is made, against plain Rust.

Run it after `rt run` in crates/engine_bench.
"""
import os
import subprocess
import sys
import tempfile

import measure
from decode import PROGRAM

HERE = os.path.dirname(os.path.abspath(__file__))
sys.path.append(os.path.join(HERE, "..", "tests"))
from make_sample import document


PROJECTION = {
    "a": {"$add": ["$n", 1]},
    "b": {"$multiply": ["$n", "$m"]},
    "c": {"$subtract": ["$n", "$m"]},
    "d": {"$concat": ["$s", "-", "$t"]},
    "e": {"$cond": [{"$gt": ["$n", 50]}, "$s", "$t"]},
    "f": {"$size": "$xs"},
    "g": {"$arrayElemAt": ["$xs", -1]},
    "h": {"$filter": {"input": "$xs", "as": "x", "cond": {"$gt": ["$$x", 5]}}},
    "i": {"$ifNull": ["$none", "none"]},
    "j": {"$eq": ["$d.k", 3]},
}


def record(i):
    return document({
        "_id": i,
        "n": i % 101,
        "m": i % 17,
        "s": f"customer {i}",
        "t": f"order {i % 1000}",
        "xs": [(i * k) % 11 for k in range(1, 6)],
        "d": {"k": i % 7, "u": "unused"},
    })


def main():
    if not os.path.exists(PROGRAM):
        sys.exit("no engine_bench: `rt run` in crates/engine_bench makes it")
    with tempfile.TemporaryDirectory() as folder:
        baseline = os.path.join(folder, "baseline")
        source = os.path.join(HERE, "baseline", "project.rs")
        subprocess.run(["rustc", "-O", "--edition", "2021", "-o", baseline, source], check=True)
        expression = os.path.join(folder, "expression.bson")
        documents = os.path.join(folder, "documents.bson")
        with open(expression, "wb") as file:
            file.write(document(PROJECTION))
        with open(documents, "wb") as file:
            file.write(b"".join(record(i) for i in range(100_000)))
        ours = [PROGRAM, "project", expression, documents]
        theirs = [baseline, documents]
        answers = {subprocess.run(words, capture_output=True, check=True, text=True).stdout for words in (ours, theirs)}
        if len(answers) != 1:
            sys.exit(f"the answers differ: {answers}")
        measure.compare("ten computed fields of 100,000 documents", ours, theirs, 1.5)


if __name__ == "__main__":
    main()
