#!/usr/bin/env python3
"""Strict reading of BSON against plain Rust: both sides read the same generated files into owned trees.

Three files: small records of about 50 bytes, documents of a million fields, and documents of 100 levels. Prints the
ratios of processor time and of peak memory.

Run it after `rt run` in crates/engine_bench.
"""
import os
import struct
import subprocess
import sys
import tempfile

import measure

HERE = os.path.dirname(os.path.abspath(__file__))
PROGRAM = os.path.join(HERE, "..", "crates", "engine_bench", "out", "engine_bench")


def document(body):
    """A document's spelling, of the elements' bytes."""
    return struct.pack("<i", len(body) + 5) + body + b"\0"


def small(number):
    text = b"customer %08d" % number
    inner = document(b"\x08f\0\x01\x12n\0" + struct.pack("<q", number))
    return document(
        b"\x10_id\0" + struct.pack("<i", number)
        + b"\x02t\0" + struct.pack("<i", len(text) + 1) + text + b"\0"
        + b"\x03d\0" + inner
    )


def wide(count, shift):
    names = ((i * 7919 + shift) % 9999991 for i in range(count))
    return document(b"".join(b"\x0af%07d\0" % name for name in names))


def deep(levels):
    """Documents, one in the other."""
    bytes_ = document(b"\x10a\0\x01\0\0\0")
    for _ in range(levels - 1):
        bytes_ = document(b"\x10b\0\x01\0\0\0\x03a\0" + bytes_)
    return bytes_


def main():
    if not os.path.exists(PROGRAM):
        sys.exit("no engine_bench: `rt run` in crates/engine_bench makes it")
    with tempfile.TemporaryDirectory() as folder:
        baseline = os.path.join(folder, "baseline")
        source = os.path.join(HERE, "baseline", "decode.rs")
        subprocess.run(["rustc", "-O", "--edition", "2021", "-o", baseline, source], check=True)
        files = {
            "small records": b"".join(small(i) for i in range(1_000_000)),
            "a million fields": b"".join(wide(1_000_000, i) for i in range(3)),
            "100 levels": deep(100) * 20_000,
        }
        for name, content in files.items():
            path = os.path.join(folder, "file.bson")
            with open(path, "wb") as file:
                file.write(content)
            answers = {
                subprocess.run(words, capture_output=True, check=True, text=True).stdout
                for words in ([PROGRAM, "decode", path], [baseline, path])
            }
            if len(answers) != 1:
                sys.exit(f"{name}: the answers differ: {answers}")
            measure.compare(f"decode, {name}", [PROGRAM, "decode", path], [baseline, path], "1.5")


if __name__ == "__main__":
    main()
