#!/usr/bin/env python3
"""Writes the sample traces, the listing that the program listing has to print of one of them, and a text with the
trace that the program assemble has to make of it.

It is written from docs/trace-format.md, docs/listing.md and docs/script.md alone, apart from the proved code, so that
the stored outputs are a second opinion. Run it at the top of the repository.
"""
WIDTHS = [("operation", 4), ("space", 4), ("page", 18), ("count", 9), ("object", 4), ("offset", 8),
          ("protection", 2), ("zero", 15), ("word", 32)]
NAMES = ["map", "unmap", "protect", "read", "write", "wire", "unwire", "sync"]
USES = {
    "map": ["space", "page", "count", "object", "offset", "protection"],
    "protect": ["space", "page", "protection"],
    "write": ["space", "page", "word"],
    "sync": ["object"],
}


def packed(fields):
    bits = "".join(format(fields.get(name, 0), "0%db" % width) for name, width in WIDTHS)
    assert len(bits) == 96
    return bytes(int(bits[i:i + 8], 2) for i in range(0, 96, 8))


def call(operation, **fields):
    return dict(fields, operation=NAMES.index(operation) + 1)


def words(number, fields):
    operation = fields.get("operation", 0)
    if not 1 <= operation <= 8:
        return "%d refused 3 F" % number
    name = NAMES[operation - 1]
    uses = USES.get(name, ["space", "page"])
    if any(fields.get(field, 0) for field, _ in WIDTHS if field != "operation" and field not in uses):
        return "%d refused 4 F" % number
    return " ".join([str(number), name] + ["%s %d" % (field, fields.get(field, 0)) for field in uses])


def file(frames, records):
    return frames.to_bytes(2, "big") + b"".join(packed(r) for r in records)


def listing(frames, records):
    lines = [words(number, fields) for number, fields in enumerate(records)]
    away = sum(" refused " in line for line in lines)
    lines.append("listed: frame count %d, records %d, turned away %d" % (frames, len(records), away))
    return "".join(line + "\n" for line in lines)


def script(frames, records, numbers):
    """A text of these records, where the places in `numbers` have their number, with a comment and blanks that say nothing."""
    lines = ["# written by samples/make.py", "", "frames %d" % frames]
    for number, fields in enumerate(records):
        line = words(number, fields)
        lines.append(line if number in numbers else " \t" + line.split(" ", 1)[1].replace(" ", "  ") + " \r")
    return "\n".join(lines + ["  # the end"])


FIRST = [
    call("map", space=0, page=16, count=2, object=0, offset=0, protection=3),
    call("write", space=0, page=16, word=7),
    call("read", space=0, page=17),
    call("read", space=0, page=16),
    call("read", space=0, page=16),
    call("read", space=1, page=16),
    call("map", space=1, page=16, count=1, object=0, offset=0, protection=1),
    call("read", space=1, page=16),
    call("write", space=1, page=16, word=0),
    call("write", space=0, page=17, word=5),
]

# Every operation with small and with largest fields, and records that are turned away.
EACH = [
    call("map", space=1, page=74565, count=2, object=3, offset=4, protection=3),
    call("map", space=15, page=262143, count=511, object=15, offset=255, protection=3),
    call("map"),
    call("unmap", space=1, page=74565),
    call("protect", space=2, page=131072, protection=1),
    call("read", space=3, page=1),
    call("write", space=0, page=131073, word=4294967295),
    call("write", space=0, page=0, word=16777216),
    call("wire", space=8, page=65536),
    call("unwire", space=4, page=1024),
    call("sync", object=7),
    dict(operation=0, space=1),
    dict(operation=9),
    dict(operation=15, zero=1),
    call("sync", object=7, space=1),
    call("read", space=3, page=1, zero=1),
    call("read", space=3, page=1, word=1),
    call("map", space=1, page=2, count=3, object=4, offset=5, protection=1, word=6),
    call("sync", object=0),
]

open("samples/first.trace", "wb").write(file(1, FIRST))
open("crates/listing/stdin", "wb").write(file(256, EACH))
open("crates/listing/stdout", "w").write(listing(256, EACH))

WRITTEN = [fields for fields in EACH if " refused " not in words(0, fields)]
open("samples/first.txt", "w").write("frames 1\n" + "".join(words(number, fields) + "\n" for number, fields in enumerate(FIRST)))
open("crates/assemble/stdin", "w", newline="").write(script(256, WRITTEN, {0, 3, 11}))
open("crates/assemble/stdout", "wb").write(file(256, WRITTEN))
