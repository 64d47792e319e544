#!/usr/bin/env python3
"""Writes the scripts that time.py times, each below the 16,777,216 bytes that the program reads."""

import os
import random
import sys

LIMIT = 1 << 24
TEXT_BYTES = 7_000_000
PIECE = 1024
RECORDS = 50_000
EVENTS = 12_000
LEVELS = 100_000


def hexed(text):
    return "=" + text.encode().hex()


def records():
    """A sequence of records of a number and a text in two fragments."""
    lines = [f"seq_begin {RECORDS}"]
    for number in range(RECORDS):
        lines += [
            "seq_value_begin",
            "record_begin - - - 2",
            f"record_value_begin - {hexed('id')}:VALUE_IDENT",
            f"u64 {number}",
            f"record_value_end - {hexed('id')}:VALUE_IDENT",
            f"record_value_begin - {hexed('name')}:VALUE_IDENT",
            "text_begin -",
            "text_fragment =6e",
            f"text_fragment_computed {hexed(str(number))}",
            "text_end",
            f"record_value_end - {hexed('name')}:VALUE_IDENT",
            "record_end - - -",
            "seq_value_end",
        ]
    lines.append("seq_end")
    return lines


LEVEL_NAMES = ["Trace", "Debug", "Info", "Warn", "Error"]


def name(tag, label, index):
    """The fields of a name whose label is an identifier and whose index is a place."""
    place = "-" if index is None else f"{index}:VALUE_OFFSET"
    return f"{tag} {hexed(label)}:VALUE_IDENT {place}"


def optional(number):
    """A number that may not be there."""
    if number is None:
        return ["tag " + name("RUST_OPTION_NONE", "None", 0)]
    some = name("RUST_OPTION_SOME", "Some", 1)
    return ["tagged_begin " + some, f"u64 {number}", "tagged_end " + some]


def short_text(*pieces):
    size = sum(len(piece.encode()) for piece in pieces)
    return [f"text_begin {size}", *("text_fragment " + hexed(piece) for piece in pieces), "text_end"]


def event(number):
    """A log event: a record that is a tuple too, with its time, level, message, user and error."""
    level = number % 5
    fields = {
        "ts": short_text(f"2026-01-02T03:{number // 60 % 60:02}:{number % 60:02}Z"),
        "lvl": [
            "enum_begin " + name("-", "Level", None),
            "tag " + name("-", LEVEL_NAMES[level], level),
            "enum_end " + name("-", "Level", None),
        ],
        "msg": short_text("request served in", f" {number * 7 % 1000} ms"),
        "user": optional(number * 7919 % 100_000 if number % 4 else None),
        "err": optional(500 if number % 9 == 0 else None),
    }
    lines = [f"record_tuple_begin {name('-', 'Event', None)} {len(fields)}"]
    for place, (label, value) in enumerate(fields.items()):
        field = name("-", label, place)
        lines += [f"record_tuple_value_begin {field}", *value, f"record_tuple_value_end {field}"]
    return [*lines, "record_tuple_end " + name("-", "Event", None)]


def log():
    """A sequence of log events."""
    lines = ["seq_begin -"]
    for number in range(EVENTS):
        lines += ["seq_value_begin", *event(number), "seq_value_end"]
    lines.append("seq_end")
    return lines


def text(content):
    """One text in pieces of the same length."""
    pieces = [content[at : at + PIECE] for at in range(0, len(content), PIECE)]
    fragments = [f"text_fragment ={piece.hex()}" for piece in pieces]
    return [f"text_begin {len(content)}", *fragments, "text_end"]


def nested():
    """Sequences in one another, with a null in the innermost."""
    return ["seq_begin 1", "seq_value_begin"] * LEVELS + ["null"] + ["seq_value_end", "seq_end"] * LEVELS


def letters(count):
    return (b"the quick brown fox jumps over the lazy dog " * (count // 44 + 1))[:count]


def with_escapes(content, every):
    """The content with a line feed in place of the last of each `every` bytes."""
    changed = bytearray(content)
    changed[every - 1 :: every] = b"\n" * len(changed[every - 1 :: every])
    return bytes(changed)


def random_ascii(count):
    """Printable characters, among them quotes and backslashes, in an order that repeats on each run."""
    source = random.Random(1)
    return bytes(source.randrange(32, 127) for _ in range(count))


def random_utf8(count):
    """Characters of one to four bytes, up to so many bytes in all. A fragment may cut one, so pieces are made apart."""
    source, whole, size = random.Random(2), [], 0
    ranges = [(32, 127), (0xA0, 0x800), (0x800, 0xD800), (0x10000, 0x110000)]
    while size < count:
        character = chr(source.randrange(*source.choice(ranges))).encode()
        whole.append(character)
        size += len(character)
    return whole


def text_of_characters(characters):
    """One text in pieces that cut no character."""
    pieces, last = [], b""
    for character in characters:
        if len(last) + len(character) > PIECE:
            pieces.append(last)
            last = b""
        last += character
    pieces.append(last)
    fragments = [f"text_fragment ={piece.hex()}" for piece in pieces]
    return [f"text_begin {sum(map(len, pieces))}", *fragments, "text_end"]


def main():
    if len(sys.argv) != 2:
        sys.exit("usage: make_scripts.py OUTDIR")
    folder = sys.argv[1]
    os.makedirs(folder, exist_ok=True)
    clean = letters(TEXT_BYTES)
    scripts = {
        "records": records(),
        "log": log(),
        "text_clean": text(clean),
        "text_escapes": text(with_escapes(clean, 16)),
        "nested": nested(),
        "random_ascii": text(random_ascii(TEXT_BYTES)),
        "random_utf8": text_of_characters(random_utf8(TEXT_BYTES)),
    }
    for name, lines in scripts.items():
        script = "".join(line + "\n" for line in lines).encode()
        assert len(script) < LIMIT, name
        with open(os.path.join(folder, name + ".script"), "wb") as file:
            file.write(script)
        print(f"{name}.script: {len(script)} bytes, {len(lines)} lines")


main()
