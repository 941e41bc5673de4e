#!/usr/bin/env python3
"""Writes the sample's files: the orders of a shop on two shards, the cluster file that names them, a command, a cluster
file whose second shard file was cut off, and a command that fails.

usage: tests/make_sample.py FOLDER

The bytes are BSON 1.1 (bsonspec.org). Only the types that the sample has are written.
"""
import struct
import sys
from pathlib import Path


LEAST = b"\xff"
GREATEST = b"\x7f"


def element(name, value):
    """A type byte, the name with a zero, and the value."""
    head = name.encode() + b"\0"
    if isinstance(value, str):
        text = value.encode() + b"\0"
        return b"\x02" + head + struct.pack("<i", len(text)) + text
    if isinstance(value, dict):
        return b"\x03" + head + document(value)
    if value is LEAST or value is GREATEST:
        return value + head
    if isinstance(value, list):
        return b"\x04" + head + document({str(i): v for i, v in enumerate(value)})
    return b"\x10" + head + struct.pack("<i", value)


def document(fields):
    """The length of all, the elements and a zero."""
    body = b"".join(element(name, value) for name, value in fields.items())
    return struct.pack("<i", len(body) + 5) + body + b"\0"


def cluster(west):
    """Two shards: the orders below 7 are the first's, the others the second's."""
    shards = [{"name": "east", "file": "east.bson"}, {"name": "west", "file": west}]
    chunks = [
        {"min": {"_id": LEAST}, "max": {"_id": 7}, "shard": "east"},
        {"min": {"_id": 7}, "max": {"_id": GREATEST}, "shard": "west"},
    ]
    collection = {"name": "orders", "key": {"_id": 1}, "shards": shards, "chunks": chunks}
    return {"cluster": 1, "collections": [collection]}


COMMAND = {
    "aggregate": "orders",
    "pipeline": [
        {"$match": {"status": "shipped"}},
        {"$project": {"customer": 1, "items": 1, "count": {"$size": "$items"}}},
        {"$unwind": {"path": "$items", "includeArrayIndex": "place"}},
        {"$match": {"count": {"$gte": 2}}},
        {"$limit": 8},
    ],
}

# It takes a text for a number, in its second stage.
FAILING = {
    "aggregate": "orders",
    "pipeline": [
        {"$match": {"status": "shipped"}},
        {"$set": {"next": {"$add": ["$customer", 1]}}},
    ],
}

ORDERS = [
    (1, "Anna", "shipped", ["tea", "teapot"]),
    (2, "Boris", "open", ["coffee"]),
    (3, "Chloé", "shipped", ["cup", "cup", "saucer"]),
    (4, "Dilip", "cancelled", ["kettle"]),
    (5, "Anna", "open", ["tea"]),
    (6, "Emre", "shipped", ["coffee", "filter"]),
    (7, "Fatou", "returned", ["teapot"]),
    (8, "Boris", "shipped", ["sugar"]),
    (9, "Greta", "open", ["tea", "cup"]),
    (10, "Hiro", "shipped", ["tea", "coffee", "sugar"]),
    (11, "Chloé", "cancelled", []),
    (12, "Emre", "open", ["saucer", "cup"]),
]


def main(folder):
    orders = [
        {"_id": number, "customer": customer, "status": status, "items": items}
        for number, customer, status, items in ORDERS
    ]
    # order 6 was moved to the first shard, and a copy of it stayed behind on the second: an orphan
    west = b"".join(document(order) for order in orders if order["_id"] >= 7 or order["_id"] == 6)
    folder.mkdir(parents=True, exist_ok=True)
    (folder / "c.bson").write_bytes(document(cluster("west.bson")))
    (folder / "cut.bson").write_bytes(document(cluster("west-cut.bson")))
    (folder / "q.bson").write_bytes(document(COMMAND))
    (folder / "fails.bson").write_bytes(document(FAILING))
    (folder / "east.bson").write_bytes(b"".join(document(order) for order in orders if order["_id"] < 7))
    (folder / "west.bson").write_bytes(west)
    (folder / "west-cut.bson").write_bytes(west[:200])


if __name__ == "__main__":
    if len(sys.argv) != 2:
        sys.exit(__doc__)
    main(Path(sys.argv[1]))
