#!/usr/bin/env python3
"""Strict reading against a slow plain reader: every byte of a document changed to every other value.

The document has three levels and a value of each type. The plain reader here is the table of faults written out
once more. Run it after `rt run` in crates/engine_bench; it is skipped where that program is missing.
"""
import os
import struct
import subprocess
import sys
import tempfile

HERE = os.path.dirname(os.path.abspath(__file__))
PROGRAM = os.path.join(HERE, "..", "crates", "engine_bench", "out", "engine_bench")
TYPES = {0x02, 0x03, 0x04, 0x05, 0x07, 0x08, 0x09, 0x0A, 0x10, 0x11, 0x12, 0xFF, 0x7F}
WIDTHS = {0x07: 12, 0x09: 8, 0x0A: 0, 0x10: 4, 0x11: 8, 0x12: 8, 0xFF: 0, 0x7F: 0}


class Fault(Exception):
    """A place and a cause."""


def int32(bytes_, at):
    return int.from_bytes(bytes_[at:at + 4], "little", signed=True)


def is_text(bytes_):
    try:
        bytes_.decode("utf-8")
    except UnicodeDecodeError:
        return False
    return True


def document(bytes_, p, end, depth, array=False):
    """Reads the document at p, of the bytes up to end, and gives the place behind it."""
    top = depth == 1
    if depth == 101:
        raise Fault(p, "TooDeep")
    if end - p < 4:
        raise Fault(p, "Truncated" if top else "BadLength")
    length = int32(bytes_, p)
    if length < 5:
        raise Fault(p, "BadLength")
    if top and length > 16_777_216:
        raise Fault(p, "TooLong")
    if p + length > end:
        raise Fault(p, "Truncated" if top else "BadLength")
    z = p + length - 1
    q, names = p + 4, []
    while q < z:
        kind = bytes_[q]
        if kind == 0:
            raise Fault(q, "BadLength")
        if kind not in TYPES:
            raise Fault(q, f"TypeRefused({kind})")
        n = q + 1
        zero = bytes_.find(b"\0", n, z)
        if zero < 0:
            raise Fault(n, "BadLength")
        name = bytes_[n:zero]
        if not is_text(name):
            raise Fault(n, "NotText")
        if array and name != b"%d" % len(names):
            raise Fault(n, "ArrayName")
        if not array and name in names:
            raise Fault(n, "TwiceNamed")
        names.append(name)
        q = value(bytes_, kind, zero + 1, z, depth)
    if bytes_[z] != 0:
        raise Fault(z, "BadLength")
    return z + 1


def value(bytes_, kind, v, z, depth):
    """Reads the value at v, in a document whose last byte is at z, and gives the place behind it."""
    def need(count):
        if v + count > z:
            raise Fault(v, "BadLength")

    if kind in (0x03, 0x04):
        return document(bytes_, v, z, depth + 1, kind == 0x04)
    if kind == 0x08:
        need(1)
        if bytes_[v] > 1:
            raise Fault(v, "BadFlag")
        return v + 1
    if kind == 0x02:
        need(4)
        length = int32(bytes_, v)
        if length < 1:
            raise Fault(v, "BadLength")
        need(4 + length)
        if bytes_[v + 3 + length] != 0:
            raise Fault(v, "BadLength")
        if not is_text(bytes_[v + 4:v + 3 + length]):
            raise Fault(v, "NotText")
        return v + 4 + length
    if kind == 0x05:
        need(5)
        length = int32(bytes_, v)
        if length < 0:
            raise Fault(v, "BadLength")
        need(5 + length)
        return v + 5 + length
    need(WIDTHS[kind])
    return v + WIDTHS[kind]


def answer(bytes_):
    try:
        return f"ok {document(bytes_, 0, len(bytes_), 1)}"
    except Fault as fault:
        return f"{fault.args[0]} {fault.args[1]}"


def spelled(*elements):
    body = b"".join(bytes([kind]) + name + b"\0" + value_ for kind, name, value_ in elements)
    return struct.pack("<i", len(body) + 5) + body + b"\0"


def sample():
    """A document of three levels with a value of each type."""
    inner = spelled((0x10, b"0", struct.pack("<i", -2)), (0x12, b"1", struct.pack("<q", -3)), (0x08, b"2", b"\1"))
    middle = spelled(
        (0x04, b"l", inner),
        (0x07, b"i", bytes(range(1, 13))),
        (0x09, b"t", struct.pack("<q", -1)),
        (0x05, b"b", struct.pack("<i", 2) + b"\x80\0\xff"),
    )
    return spelled(
        (0xFF, b"", b""),
        (0x02, b"s", struct.pack("<i", 3) + "é".encode() + b"\0"),
        (0x03, b"d", middle),
        (0x11, b"u", struct.pack("<Q", 2**63)),
        (0x0A, b"n", b""),
        (0x7F, b"z", b""),
        (0x04, b"e", spelled()),
    )


def main():
    if not os.path.exists(PROGRAM):
        print("skipped: no engine_bench")
        return
    whole = sample()
    cases = [
        whole[:place] + bytes([byte]) + whole[place + 1:]
        for place in range(len(whole))
        for byte in range(256)
    ]
    with tempfile.TemporaryDirectory() as folder:
        path = os.path.join(folder, "cases")
        with open(path, "wb") as file:
            file.write(b"".join(cases))
        words = [PROGRAM, "decode_cases", path, str(len(whole))]
        told = subprocess.run(words, capture_output=True, check=True, text=True).stdout.splitlines()
    wrong = [(case, one, answer(case)) for case, one in zip(cases, told) if one != answer(case)]
    for case, one, right in wrong[:10]:
        print(f"{case.hex()}: {one}, and not {right}")
    if len(told) != len(cases) or wrong:
        sys.exit(f"{len(cases)} cases, {len(told)} answers, {len(wrong)} wrong")
    print(f"{len(cases)} cases agree")


if __name__ == "__main__":
    main()
