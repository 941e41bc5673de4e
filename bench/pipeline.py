#!/usr/bin/env python3
"""A pipeline of match, project, unwind and limit over 100,000 orders on one shard, against the same in plain Rust.

The baseline reads the file twice, as the program does: a survey that reads each record strictly, and then the run: decode,
match, project, unwind, limit, encode. Both outputs have to be equal. Prints the ratios of processor time and of peak memory,
and the peak memory of both.

Run it after `rt run` in crates/mongopipe, or after the gate.
"""
import filecmp
import os
import struct
import subprocess
import sys
import tempfile

import measure

HERE = os.path.dirname(os.path.abspath(__file__))
PROGRAM = os.path.join(HERE, "..", "crates", "mongopipe", "out", "mongopipe")
ORDERS = 100_000
LIMIT = 150_000


def element(name, value):
    """An element of a text, a whole number, a document or an array."""
    head = name.encode() + b"\0"
    if isinstance(value, str):
        text = value.encode() + b"\0"
        return b"\x02" + head + struct.pack("<i", len(text)) + text
    if isinstance(value, dict):
        return b"\x03" + head + document(value)
    if isinstance(value, list):
        return b"\x04" + head + document({str(i): item for i, item in enumerate(value)})
    return b"\x10" + head + struct.pack("<i", value)


def document(fields):
    body = b"".join(element(name, value) for name, value in fields.items())
    return struct.pack("<i", len(body) + 5) + body + b"\0"


def order(i):
    """Two of three orders are shipped; an order has two or three items."""
    items = [{"sku": f"sku-{(i * 7 + k) % 1000}", "qty": k + 1, "price": (i * 31 + k) % 500} for k in range(2 + i % 2)]
    status = "open" if i % 3 == 0 else "shipped"
    return {"_id": i, "customer": f"customer {i % 997}", "status": status, "items": items, "note": "n" * (i % 40)}


def write_files(folder):
    pipeline = [
        {"$match": {"status": "shipped"}},
        {"$project": {"customer": 1, "items": 1}},
        {"$unwind": "$items"},
        {"$limit": LIMIT},
    ]
    shards = [{"name": "a", "file": "a.bson"}]
    cluster = {"cluster": 1, "collections": [{"name": "c", "shards": shards}]}
    with open(os.path.join(folder, "c.bson"), "wb") as file:
        file.write(document(cluster))
    with open(os.path.join(folder, "q.bson"), "wb") as file:
        file.write(document({"aggregate": "c", "pipeline": pipeline}))
    # one by one: what this script holds would count as a child's peak memory
    with open(os.path.join(folder, "a.bson"), "wb") as file:
        for i in range(ORDERS):
            file.write(document(order(i)))


def write_output(command, name):
    """Writes what the command writes into a file of that name."""
    with open(name, "wb") as file:
        subprocess.run(command, stdout=file, check=True)


def main():
    if not os.path.exists(PROGRAM):
        sys.exit("no mongopipe: `rt run` in crates/mongopipe makes it")
    program = os.path.abspath(PROGRAM)
    with tempfile.TemporaryDirectory() as folder:
        baseline = os.path.join(folder, "baseline")
        source = os.path.join(HERE, "baseline", "pipeline.rs")
        subprocess.run(["rustc", "-O", "--edition", "2021", "-o", baseline, source], check=True)
        write_files(folder)
        os.chdir(folder)
        ours = [program, "run", "c.bson", "q.bson"]
        theirs = [baseline, "a.bson", str(LIMIT)]
        write_output(ours, "ours.out")
        write_output(theirs, "theirs.out")
        if not filecmp.cmp("ours.out", "theirs.out", shallow=False):
            sys.exit("the outputs differ")
        print(f"equal output: {os.path.getsize('ours.out')} bytes")
        measure.compare(f"{ORDERS} orders", ours, theirs, 1.5)
        for name, command in (("the program", ours), ("plain Rust", theirs)):
            _, memory = measure.best(command, 1)
            print(f"peak memory of {name}: {memory / 1000:.1f} MB")


if __name__ == "__main__":
    main()
