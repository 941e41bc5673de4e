#!/usr/bin/env python3
"""A cluster of 64 shards and 10,000 chunks with a million records, a tenth of them orphans, through the program.

What the program gives is compared with what a slow plain script gives over the same files: the records that lie on the
shard of the one chunk whose range has their key. Then the time is compared with that of the same records in one
collection that isn't sharded. Prints the ratio.

Run it after `rt run` in crates/mongopipe, or after the gate.
"""
import bisect
import os
import random
import struct
import subprocess
import sys
import tempfile

import measure
from decode import document
from survey import PROGRAM, array, text

SHARDS = 64
CHUNKS = 10_000
RECORDS = 1_000_000
SPAN = 1_000  # keys of one chunk

LEAST = b"\xffk\0"
GREATEST = b"\x7fk\0"


def whole(number):
    return b"\x10k\0" + struct.pack("<i", number)


def shard_name(place):
    return b"s%02d" % place


def file_name(place):
    return f"s{place:02}.bson"


def record(number, key):
    inner = document(b"\x12n\0" + struct.pack("<q", number))
    return document(
        b"\x10_id\0" + struct.pack("<i", number) + whole(key) + text(b"t", b"customer %08d" % number) + b"\x03d\0" + inner
    )


def write_inputs(folder, cluster):
    command = text(b"aggregate", b"c") + array(b"pipeline", [])
    for name, body in (("c.bson", cluster), ("q.bson", command)):
        with open(os.path.join(folder, name), "wb") as file:
            file.write(document(body))


def cluster_of(collection):
    return b"\x10cluster\0\x01\0\0\0" + array(b"collections", [collection])


def sharded(owners):
    """The cluster file's document: each chunk has a span of keys."""
    shards = [text(b"name", shard_name(i)) + text(b"file", file_name(i).encode()) for i in range(SHARDS)]
    random.shuffle(shards)
    chunks = []
    for i, owner in enumerate(owners):
        least = LEAST if i == 0 else whole(i * SPAN)
        bound = GREATEST if i == CHUNKS - 1 else whole((i + 1) * SPAN)
        chunks.append(
            b"\x03min\0" + document(least) + b"\x03max\0" + document(bound) + text(b"shard", shard_name(owner))
        )
    key = b"\x03key\0" + document(whole(1))
    return cluster_of(text(b"name", b"c") + key + array(b"shards", shards) + array(b"chunks", chunks))


def key_in(data, at):
    """The number of the field `k` of the record at a place; the fields are walked one by one."""
    at += 4
    sizes = {0x10: 4, 0x12: 8}
    while data[at] != 0:
        kind = data[at]
        end = data.index(0, at + 1)
        name, at = data[at + 1 : end], end + 1
        if name == b"k":
            return struct.unpack_from("<i", data, at)[0]
        if kind == 0x02:
            at += 4 + struct.unpack_from("<i", data, at)[0]
        elif kind == 0x03:
            at += struct.unpack_from("<i", data, at)[0]
        else:
            at += sizes[kind]
    return None


def owned(folder, owners):
    """What each shard owns, by name and in record order."""
    bounds = [i * SPAN for i in range(1, CHUNKS)]
    for place in range(SHARDS):
        with open(os.path.join(folder, file_name(place)), "rb") as file:
            data = file.read()
        at = 0
        while at < len(data):
            (size,) = struct.unpack_from("<i", data, at)
            if owners[bisect.bisect_right(bounds, key_in(data, at))] == place:
                yield data[at : at + size]
            at += size


def main():
    if not os.path.exists(PROGRAM):
        sys.exit("no mongopipe: `rt run` in crates/mongopipe makes it")
    program = [os.path.abspath(PROGRAM), "run", "c.bson", "q.bson"]
    random.seed(7)
    owners = [random.randrange(SHARDS) for _ in range(CHUNKS)]
    with tempfile.TemporaryDirectory() as many, tempfile.TemporaryDirectory() as one:
        parts = [[] for _ in range(SHARDS)]
        for number in range(RECORDS):
            key = random.randrange(CHUNKS * SPAN)
            owner = owners[key // SPAN]
            orphan = number % 10 == 0
            place = (owner + 1 + random.randrange(SHARDS - 1)) % SHARDS if orphan else owner
            parts[place].append(record(number, key))
        for place, part in enumerate(parts):
            with open(os.path.join(many, file_name(place)), "wb") as file:
                file.write(b"".join(part))
        with open(os.path.join(one, "s.bson"), "wb") as file:
            file.write(b"".join(b"".join(part) for part in parts))
        write_inputs(many, sharded(owners))
        shard = text(b"name", b"s") + text(b"file", b"s.bson")
        write_inputs(one, cluster_of(text(b"name", b"c") + array(b"shards", [shard])))

        expected = b"".join(owned(many, owners))
        found = subprocess.run(program, cwd=many, capture_output=True, check=True).stdout
        if found != expected:
            sys.exit(f"the owned documents differ: {len(found)} bytes, expected {len(expected)}")
        print(f"owned documents: {len(found)} bytes, the same as the plain script's")

        times = {}
        for name, folder in (("many", many), ("one", one)):
            os.chdir(folder)
            times[name], _ = measure.best(program)
        os.chdir("/")
        print(f"64 shards and 10,000 chunks against one shard: time {times['many'] / times['one']:.2f} (goal 1.3)")


if __name__ == "__main__":
    main()
