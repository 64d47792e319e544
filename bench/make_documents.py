#!/usr/bin/env python3
"""Writes the documents of JSON and CBOR that time.py times, the same on each run."""

import json
import os
import random
import sys

LIMIT = 1 << 24
EVENTS = 70_000
WHOLE = 900_000
FRACTIONS = 700_000
ESCAPES = 400_000
MIXED = 60_000
PARTS = ["a", "b", "c", "\\n", "\\t", "\\\"", "\\u00e9", "\\u0001"]
BRACKETS = 4_000_000
SMALL = 8_000_000


def event(number):
    """A log event, as an object."""
    return {
        "ts": f"2026-01-02T03:{number // 60 % 60:02}:{number % 60:02}Z",
        "lvl": ["Trace", "Debug", "Info", "Warn", "Error"][number % 5],
        "msg": f"request served in {number * 7 % 1000} ms",
        "user": number * 7919 % 100_000 if number % 4 else None,
        "err": 500 if number % 9 == 0 else None,
    }


def documents():
    """The documents by their names, each as bytes."""
    source = random.Random(3)
    events = [event(number) for number in range(EVENTS)]
    compact = json.dumps(events, separators=(",", ":"))
    whole = ",".join(str(source.randrange(-(10**9), 10**12)) for _ in range(WHOLE))
    fractions = ",".join(f"{source.uniform(-1000, 1000):.9g}" for _ in range(FRACTIONS))
    escapes = json.dumps(["line\n\"quoted\" \\ tab\t" for _ in range(ESCAPES)], separators=(",", ":"))
    mixed = ",".join('"' + "".join(source.choices(PARTS, k=40)) + '"' for _ in range(MIXED))
    yield "log.json", compact.encode()
    yield "lines.json", "".join(json.dumps(it, separators=(",", ":")) + "\n" for it in events).encode()
    yield "pretty.json", json.dumps(events, indent=2).encode()[:LIMIT]
    yield "whole.json", f"[{whole}]".encode()
    yield "fractions.json", f"[{fractions}]".encode()
    yield "escapes.json", escapes.encode()
    yield "mixed.json", f"[{mixed}]".encode()
    yield "brackets.json", b"[" * BRACKETS + b"]" * BRACKETS
    yield "brackets.cbor", b"\x81" * SMALL + b"\x01"
    yield "small.cbor", b"\x9f" + bytes(number % 24 for number in range(SMALL)) + b"\xff"


def main():
    if len(sys.argv) != 2:
        sys.exit("usage: make_documents.py FOLDER")
    folder = sys.argv[1]
    os.makedirs(folder, exist_ok=True)
    for name, document in documents():
        with open(os.path.join(folder, name), "wb") as file:
            file.write(document)
        print(f"{name}: {len(document)} bytes")


main()
