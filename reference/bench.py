#!/usr/bin/env python3
"""Times a replay program and the reference on hard traces of full size.

    bench.py PROGRAM [RUNS]

Both read the trace from a file and print to nowhere. Taken is the processor
time of the process (user and system), the best of RUNS runs (5 if not given).
A run of more than two seconds is not repeated.
"""

import os
import sys
import tempfile

sys.dont_write_bytecode = True

import build
from traces import MAP, MOST_RECORDS, READ, SYNC, WRITE, file, record


def map_whole(object, space=0):
    """Maps a whole object at page 1,000 times its number."""
    return record(MAP, space=space, page=1000 * object, count=256, object=object, protection=3)


def write(page, number):
    return record(WRITE, page=page, word=number)


def filled(frames, start, more):
    """A file of full size: the records of start, then more(0), more(1), .."""
    rest = MOST_RECORDS - len(start)
    return file(frames, start + [more(number) for number in range(rest)])


def evicting_few():
    return filled(4, [map_whole(0)], lambda n: write(n % 256, n))


def evicting_many():
    return filled(256, [map_whole(0), map_whole(1)], lambda n: write(1000 * (n // 256 % 2) + n % 256, n))


def object_resident():
    return [map_whole(0)] + [record(READ, page=page) for page in range(256)]


def syncing():
    return filled(256, object_resident(), lambda n: record(SYNC, object=0))


def syncing_written():
    return filled(256, object_resident(),
                  lambda n: record(SYNC, object=0) if n % 2 else write(n // 2 % 256, n))


def one_page_regions(stride):
    """64 regions of a page each, over different pages of object 0."""
    return [record(MAP, page=stride * n, count=1, object=0, offset=n, protection=3) for n in range(64)]


def crowded_group():
    return filled(64, one_page_regions(1024), lambda n: write(1024 * (n % 64), n))


def crowded_leaves():
    return filled(64, one_page_regions(512), lambda n: write(512 * (n % 64), n))


def hits():
    return filled(256, object_resident(), lambda n: record(READ, page=n % 256))


TRACES = [
    ("evicting on every access, 4 frames", evicting_few),
    ("evicting and storing on every access, 256 frames", evicting_many),
    ("syncs of 256 resident pages", syncing),
    ("the same, a write before each", syncing_written),
    ("crowding one hash group", crowded_group),
    ("crowding leaf tables", crowded_leaves),
    ("all hits", hits),
]


def one_run(program, path):
    """The processor time of one run, in seconds."""
    pid = os.fork()
    if pid == 0:
        os.dup2(os.open(path, os.O_RDONLY), 0)
        os.dup2(os.open(os.devnull, os.O_WRONLY), 1)
        os.execv(program, [program])
    _, status, usage = os.wait4(pid, 0)
    if status != 0:
        sys.exit(f"{program} ended with status {status}")
    return usage.ru_utime + usage.ru_stime


def best(program, path, runs):
    shortest = one_run(program, path)
    for _ in range(0 if shortest > 2 else runs - 1):
        shortest = min(shortest, one_run(program, path))
    return shortest


def main():
    program = os.path.abspath(sys.argv[1])
    runs = int(sys.argv[2]) if len(sys.argv) > 2 else 5
    reference = build.build()
    print(f"{'trace':50} {'program':>10} {'reference':>10} {'ratio':>7}")
    with tempfile.TemporaryDirectory() as folder:
        path = os.path.join(folder, "trace")
        for name, make in TRACES:
            with open(path, "wb") as out:
                out.write(make())
            took, own = best(program, path, runs), best(reference, path, runs)
            print(f"{name:50} {took:9.4f}s {own:9.4f}s {took / own:7.2f}", flush=True)


if __name__ == "__main__":
    main()
