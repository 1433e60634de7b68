#!/usr/bin/env python3
"""Compares the program `replay` with reference/replay.py on random traces.

usage: compare_python.py PROGRAM [COUNT [SEED]]

The traces crowd hash groups and leaf tables, have few frames, wired pages, raised and lowered protections, every refusal,
turned away records and damaged files. A difference is printed with the trace's path, and the exit status is then 1.
"""
import os, random, subprocess, sys, tempfile
sys.path.insert(0, os.path.dirname(os.path.abspath(__file__)))
from replay import FIELDS, NAMES, replay


def pack(op, space=0, page=0, count=0, object=0, offset=0, protection=0, zero=0, word=0):
    n = 0
    for value, (_, width) in zip((op, space, page, count, object, offset, protection, zero, word), FIELDS):
        n = n << width | value & (1 << width) - 1
    return n.to_bytes(12, 'big')


def trace(rng):
    style = rng.randrange(4)
    spaces = rng.choice([[0], [0, 1], [0, 1, 2, 3], [0, 1, 5]])
    if style == 0:    # pages of one hash group: the low ten bits of the index alike, mostly
        pages = [(rng.randrange(16) << 14 | 5) + 1024 * rng.randrange(8) for _ in range(24)]
    elif style == 1:  # many leaf tables
        pages = [512 * rng.randrange(512) + rng.randrange(3) for _ in range(24)]
    elif style == 2:  # neighbours
        pages = list(range(16, 40))
    else:             # the ends of things
        pages = [0, 1, 511, 512, 65535, 65536, 262142, 262143, rng.randrange(262144), rng.randrange(262144)]
    frames = rng.choice([1, 1, 2, 3, 8, 9, 40, 256])
    out = [frames.to_bytes(2, 'big')]
    for _ in range(rng.choice([5, 40, 150, 400])):
        op = rng.choices(range(1, 9), weights=[5, 1, 2, 10, 10, 3, 2, 1])[0]
        s, p = rng.choice(spaces), rng.choice(pages)
        q = rng.choice([1, 3, 3, 3, rng.randrange(4)])
        o = rng.choice([0, 0, 1, 7, rng.randrange(16)])
        if op == 1:
            n = rng.choice([1, 1, 2, 4, 24, rng.randrange(512)])
            r = pack(1, s, p, n, o, rng.choice([0, 0, 1, 255, rng.randrange(256)]), q)
        elif op == 3:
            r = pack(3, s, p, protection=q)
        elif op == 5:
            r = pack(5, s, p, word=rng.randrange(1 << 32))
        elif op == 8:
            r = pack(8, object=o)
        else:
            r = pack(op, s, p)
        if rng.random() < 0.01:
            r = bytes(rng.randrange(256) for _ in range(12))
        out.append(r)
    data = b''.join(out)
    if rng.random() < 0.02:
        data = data[:-rng.randrange(1, 12)]
    if rng.random() < 0.02:
        data = rng.randrange(65536).to_bytes(2, 'big') + data[2:]
    return data


def main():
    program, count, seed = sys.argv[1], int((sys.argv + [0, 200])[2] if len(sys.argv) > 2 else 200), int(sys.argv[3]) if len(sys.argv) > 3 else 1
    bad = 0
    for i in range(count):
        data = trace(random.Random(f'{seed}/{i}'))
        got = subprocess.run([program], input=data, capture_output=True).stdout.decode()
        want = replay(data)
        if got != want:
            bad += 1
            path = os.path.join(tempfile.gettempdir(), f'differs-{seed}-{i}.trace')
            with open(path, 'wb') as f:
                f.write(data)
            lines = [(a, b) for a, b in zip(got.splitlines(), want.splitlines()) if a != b][:3]
            print(f'{path}: {lines or "other length"}')
    print(f'{count} traces, {bad} differ')
    return bad > 0


if __name__ == '__main__':
    sys.exit(main())
