#!/usr/bin/env python3
"""Packs the sample trace of the replay program, and writes the listing that is expected of it.

usage: replay.py TRACE LISTING

The trace, with one frame: map space 0 page 16 count 2 object 0 offset 0 protection 3; write page 16 word 7; read 17, 16, 16;
read space 1 page 16; map space 1 page 16 count 1 object 0 offset 0 protection 1; read it; write it; write space 0 page 17 word 5.
The listing below was not computed here: it is the worked example that came with the rules of the memory.
"""
import sys

WIDTHS = [4, 4, 18, 9, 4, 8, 2, 15, 32]  # operation, space, page, count, object, offset, protection, zero, word


def pack(*fields):
    number = 0
    for value, width in zip(fields, WIDTHS):
        assert 0 <= value < 1 << width
        number = number << width | value
    return number.to_bytes(12, 'big')


MAP, READ, WRITE = 1, 4, 5
RECORDS = [
    pack(MAP, 0, 16, 2, 0, 0, 3, 0, 0),
    pack(WRITE, 0, 16, 0, 0, 0, 0, 0, 7),
    pack(READ, 0, 17, 0, 0, 0, 0, 0, 0),
    pack(READ, 0, 16, 0, 0, 0, 0, 0, 0),
    pack(READ, 0, 16, 0, 0, 0, 0, 0, 0),
    pack(READ, 1, 16, 0, 0, 0, 0, 0, 0),
    pack(MAP, 1, 16, 1, 0, 0, 1, 0, 0),
    pack(READ, 1, 16, 0, 0, 0, 0, 0, 0),
    pack(WRITE, 1, 16, 0, 0, 0, 0, 0, 0),
    pack(WRITE, 0, 17, 0, 0, 0, 0, 0, 5),
]
BLOCK = """\
machine {}
read 2 1
read 3 7
read 4 7
refused 5 9 M
read 7 7
refused 8 10 M
accesses 6 hits 1 soft 1 hard 4 loads 4 evicted 3 written 1
dirty 0 1
"""

with open(sys.argv[1], 'wb') as f:
    f.write((1).to_bytes(2, 'big') + b''.join(RECORDS))
with open(sys.argv[2], 'w') as f:
    f.write(''.join(BLOCK.format(name) for name in ('x86-64', 'powerpc', 'pile')))
