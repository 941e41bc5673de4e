#!/usr/bin/env python3
"""Shows BSON documents, one a line, as they stand one after another in the input or in the named file.

usage: tests/show_bson.py [FILE]
"""
import json
import struct
import sys

# How the values of a fixed size are read, by type byte.
FIXED = {0x08: "<?", 0x09: "<q", 0x10: "<i", 0x11: "<Q", 0x12: "<q"}
NAMED = {0x0A: None, 0x7F: "MaxKey", 0xFF: "MinKey"}


def value_at(kind, data, at):
    """The value of a type at a place, and the place behind it."""
    if kind == 0x02:
        (size,) = struct.unpack_from("<i", data, at)
        return data[at + 4 : at + 3 + size].decode(), at + 4 + size
    if kind in (0x03, 0x04):
        fields, end = document_at(data, at)
        return (list(fields.values()) if kind == 0x04 else fields), end
    if kind == 0x05:
        (size,) = struct.unpack_from("<i", data, at)
        return data[at + 5 : at + 5 + size].hex(), at + 5 + size
    if kind == 0x07:
        return data[at : at + 12].hex(), at + 12
    if kind in FIXED:
        (value,) = struct.unpack_from(FIXED[kind], data, at)
        return value, at + struct.calcsize(FIXED[kind])
    return NAMED[kind], at


def document_at(data, at):
    """The fields of the document at a place, and the place behind it."""
    (size,) = struct.unpack_from("<i", data, at)
    end = at + size
    at += 4
    fields = {}
    while data[at] != 0:
        kind = data[at]
        close = data.index(0, at + 1)
        name = data[at + 1 : close].decode()
        fields[name], at = value_at(kind, data, close + 1)
    return fields, end


def main():
    if len(sys.argv) > 1:
        with open(sys.argv[1], "rb") as file:
            data = file.read()
    else:
        data = sys.stdin.buffer.read()
    at = 0
    while at < len(data):
        fields, at = document_at(data, at)
        print(json.dumps(fields, ensure_ascii=False))


if __name__ == "__main__":
    main()
