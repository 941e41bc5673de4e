#!/usr/bin/env python3
"""Strict reading against readers from outside, on the same bytes.

1. libbson (Debian's libbson-dev): every byte of a document with all types changed to every other value. Told is how
   often both take or both refuse a piece, and by our cause how often only one of them does.
2. The drivers' BSON corpus, a folder of JSON files named by BSON_CORPUS or found where a package has put one: what is
   valid has to be read, or refused as a type outside the profile; what is a decode error has to be refused.

Each part is skipped where its tool is missing. Run it after `rt run` in crates/engine_bench.
"""
import collections
import glob
import json
import os
import shutil
import subprocess
import sys
import tempfile

import decode_faults

HERE = os.path.dirname(os.path.abspath(__file__))
PLACES = ["/usr/share/*/bson*corpus*", "/usr/share/doc/*/bson*corpus*", "/usr/lib/python3/dist-packages/*/bson_corpus"]


def pieces_told(program, pieces, folder):
    """The answers of a program to pieces of one length."""
    path = os.path.join(folder, "pieces")
    with open(path, "wb") as file:
        file.write(b"".join(pieces))
    words = [*program, path, str(len(pieces[0]))]
    return subprocess.run(words, capture_output=True, check=True, text=True).stdout.splitlines()


def against_libbson(folder):
    flags = subprocess.run(["pkg-config", "--cflags", "--libs", "libbson-1.0"], capture_output=True, text=True)
    if flags.returncode != 0 or not shutil.which("gcc"):
        print("libbson: skipped, no libbson-dev or no gcc")
        return
    reader = os.path.join(folder, "outside_bson")
    source = os.path.join(HERE, "outside_bson.c")
    subprocess.run(["gcc", "-O", "-o", reader, source, *flags.stdout.split()], check=True)
    whole = decode_faults.sample()
    pieces = [
        whole[:place] + bytes([byte]) + whole[place + 1:] for place in range(len(whole)) for byte in range(256)
    ]
    ours = pieces_told([decode_faults.PROGRAM, "decode_cases"], pieces, folder)
    theirs = pieces_told([reader], pieces, folder)
    tally = collections.Counter()
    for mine, other in zip(ours, theirs, strict=True):
        cause = mine.split(" ", 1)
        taken = cause[0] == "ok" and cause[1] == str(len(whole))
        named = "whole" if taken else ("shorter" if cause[0] == "ok" else cause[1].split("(")[0])
        tally[named, other] += 1
    print(f"libbson, {len(pieces)} pieces:")
    for (named, other), count in sorted(tally.items()):
        print(f"  ours {named}, libbson {other}: {count}")


def against_corpus(folder):
    places = [os.environ["BSON_CORPUS"]] if "BSON_CORPUS" in os.environ else [p for g in PLACES for p in glob.glob(g)]
    files = [f for place in places for f in sorted(glob.glob(os.path.join(place, "*.json")))]
    if not files:
        print("corpus: skipped, no package has put one here (BSON_CORPUS names a folder)")
        return
    wrong = 0
    for name in files:
        with open(name, encoding="utf-8") as file:
            cases = json.load(file)
        for kind, key in (("valid", "canonical_bson"), ("decodeErrors", "bson")):
            for case in cases.get(kind, []):
                piece = bytes.fromhex(case[key])
                told = pieces_told([decode_faults.PROGRAM, "decode_cases"], [piece], folder)[0] if piece else "0 Truncated"
                good = told == f"ok {len(piece)}"
                outside = "TypeRefused" in told
                if (kind == "valid") != good and not outside:
                    wrong += 1
                    print(f"  {os.path.basename(name)}, {case['description']}: {told}")
    print(f"corpus: {len(files)} files, {wrong} answers differ")


def main():
    if not os.path.exists(decode_faults.PROGRAM):
        print("skipped: no engine_bench")
        return
    with tempfile.TemporaryDirectory() as folder:
        against_libbson(folder)
        against_corpus(folder)


if __name__ == "__main__":
    sys.exit(main())
