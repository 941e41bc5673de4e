#!/usr/bin/env python3
"""The program over a file of 300 MB where nothing matches, against the same in plain Rust: two strict passes in pieces.

Prints the ratios of processor time and of peak memory, and the program's own peak memory, which has to stay below 40 MB.

Run it after `rt run` in crates/mongopipe, or after the gate.
"""
import os
import struct
import subprocess
import sys
import tempfile

import measure
from decode import document, small

HERE = os.path.dirname(os.path.abspath(__file__))
PROGRAM = os.path.join(HERE, "..", "crates", "mongopipe", "out", "mongopipe")
SIZE = 300_000_000


def text(name, value):
    """An element of a name and a text."""
    return b"\x02" + name + b"\0" + struct.pack("<i", len(value) + 1) + value + b"\0"


def array(name, items):
    """An element of a name and an array of documents."""
    inner = b"".join(b"\x03%d\0" % i + document(item) for i, item in enumerate(items))
    return b"\x04" + name + b"\0" + document(inner)


def write_files(folder):
    shard = text(b"name", b"a") + text(b"file", b"a.bson")
    collection = text(b"name", b"c") + array(b"shards", [shard])
    cluster = b"\x10cluster\0\x01\0\0\0" + array(b"collections", [collection])
    stage = b"\x03$match\0" + document(text(b"t", b"no such text"))
    command = text(b"aggregate", b"c") + array(b"pipeline", [stage])
    for name, body in (("c.bson", cluster), ("q.bson", command)):
        with open(os.path.join(folder, name), "wb") as file:
            file.write(document(body))
    with open(os.path.join(folder, "a.bson"), "wb") as file:
        written = number = 0
        while written < SIZE:
            piece = b"".join(small(i) for i in range(number, number + 10_000))
            written += file.write(piece)
            number += 10_000


def main():
    if not os.path.exists(PROGRAM):
        sys.exit("no mongopipe: `rt run` in crates/mongopipe makes it")
    program = os.path.abspath(PROGRAM)
    with tempfile.TemporaryDirectory() as folder:
        baseline = os.path.join(folder, "baseline")
        source = os.path.join(HERE, "baseline", "records.rs")
        subprocess.run(["rustc", "-O", "--edition", "2021", "-o", baseline, source], check=True)
        write_files(folder)
        os.chdir(folder)
        ours = [program, "run", "c.bson", "q.bson"]
        measure.compare("300 MB of small records", ours, [baseline, "a.bson", "t", "no such text"], 1.5)
        _, memory = measure.best(ours, 1)
        print(f"peak memory of the program: {memory / 1000:.1f} MB (below 40)")


if __name__ == "__main__":
    main()
