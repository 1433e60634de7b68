#!/usr/bin/env python3
"""Writes a fixed selection of small traces with the reference's listings.

    selection.py FOLDER

writes the pairs NN.trace and NN.listing. The traces are written out below,
so that they stay the same everywhere.
"""

import os
import sys

sys.dont_write_bytecode = True

import build
import traces
from traces import file, record

LAST = traces.PAGES - 1


def map(space, page, count, object, offset, protection=3):
    return record(traces.MAP, space=space, page=page, count=count, object=object, offset=offset, protection=protection)


def unmap(space, page):
    return record(traces.UNMAP, space=space, page=page)


def protect(space, page, protection):
    return record(traces.PROTECT, space=space, page=page, protection=protection)


def read(space, page):
    return record(traces.READ, space=space, page=page)


def write(space, page, word):
    return record(traces.WRITE, space=space, page=page, word=word)


def wire(space, page):
    return record(traces.WIRE, space=space, page=page)


def unwire(space, page):
    return record(traces.UNWIRE, space=space, page=page)


def sync(object):
    return record(traces.SYNC, object=object)


def one_frame():
    """Each access to the other page evicts; a written page is stored."""
    return file(1, [map(0, 16, 2, 0, 0), write(0, 16, 7), read(0, 16), read(0, 17), read(0, 16),
                    write(0, 17, 4_294_967_295), write(0, 17, 8), read(0, 16), read(0, 17), write(0, 16, 9)])


def oldest_load_goes():
    """A hit does not make a page younger."""
    return file(3, [map(2, 100, 6, 5, 40)] + [read(2, p) for p in (100, 101, 102, 100, 100, 103, 101, 102, 100, 104, 103)]
                + [write(2, 105, 1), read(2, 100), read(2, 101), write(2, 105, 2), read(2, 102), read(2, 103), read(2, 105)])


def shared_pages():
    """Four places stand for one object page, and all see its word."""
    places = [(0, 10), (1, 20), (2, 30), (3, 262_000)]
    maps = [map(s, p, 4, 3, 8) for s, p in places] + [map(0, 50, 2, 3, 9)]
    return file(2, maps + [write(0, 11, 5)] + [read(s, p + 1) for s, p in places] + [read(0, 50), write(0, 50, 6)]
                + [read(s, p + 1) for s, p in places] + [read(1, 20), read(1, 22), read(3, 262_001), sync(3), read(0, 50)])


def protections():
    """Lowered under a used page, and raised again."""
    return file(4, [map(0, 5, 3, 0, 0, 1), read(0, 5), write(0, 5, 1), protect(0, 5, 3), read(0, 5), write(0, 5, 2),
                    write(0, 5, 3), protect(0, 5, 1), read(0, 5), write(0, 5, 4), protect(0, 5, 3), write(0, 5, 6),
                    protect(0, 6, 1), protect(1, 5, 1), read(0, 7), protect(0, 5, 3), write(0, 7, 1), write(0, 6, 1)])


def come_and_go():
    """Pages stay resident while their region is away."""
    return file(3, [map(1, 40, 3, 2, 250), write(1, 40, 1), write(1, 42, 2), unmap(1, 40), read(1, 40), map(1, 41, 3, 2, 250),
                    read(1, 41), read(1, 43), read(1, 42), unmap(1, 42), unmap(1, 41), unmap(1, 41), map(1, 40, 3, 2, 253),
                    read(1, 40), read(1, 41), write(1, 42, 3), map(2, 0, 6, 2, 250), read(2, 0), read(2, 2), read(2, 5)])


def syncs():
    """A sync stores the modified pages of its object only, and once."""
    return file(5, [map(0, 0, 4, 0, 0), map(0, 4, 2, 1, 0), write(0, 0, 10), write(0, 2, 11), write(0, 4, 12), sync(1),
                    sync(1), sync(7), sync(0), read(0, 0), write(0, 2, 13), read(0, 1), sync(0), write(0, 0, 14),
                    write(0, 3, 15), read(0, 5), read(0, 4)])


def wired_stay():
    """Eviction passes over wired pages; in the end no frame is left."""
    return file(2, [map(0, 0, 6, 0, 0), wire(0, 0), read(0, 0), read(0, 1), read(0, 2), write(0, 0, 3), wire(0, 2), read(0, 3),
                    wire(0, 4), write(0, 5, 1), read(0, 2), map(1, 0, 6, 0, 0, 1), read(1, 0), read(1, 2), read(1, 3), wire(1, 2),
                    unwire(0, 2), read(1, 3), unwire(1, 2), read(1, 3), unwire(0, 0), read(0, 4), read(0, 0)])


def ninth_wire():
    """Eight places may be wired, whatever frames they stand on."""
    wires = [wire(0, p) for p in range(6)] + [wire(1, 0), wire(1, 1)]
    return file(7, [map(0, 0, 10, 0, 0), map(1, 0, 10, 0, 0, 1)] + wires
                + [wire(0, 0), wire(0, 9), wire(1, 9), wire(2, 9), unwire(0, 9), unmap(0, 0), protect(1, 0, 3), read(0, 9),
                   read(0, 8), unwire(1, 0), unwire(1, 0), wire(1, 7), wire(1, 8), unwire(1, 7), unwire(0, 0), wire(1, 1),
                   unwire(1, 1), protect(1, 0, 3), write(1, 1, 4), read(0, 1), read(0, 7), read(0, 6)])


def ranges():
    """Each number just outside its range, and at its end."""
    return file(9, [map(4, 0, 1, 0, 0), map(0, 0, 0, 0, 0), map(0, 0, 1, 8, 0), map(0, 0, 1, 0, 0, 0), map(0, 0, 1, 0, 0, 2),
                    map(0, 0, 257, 0, 0), map(0, 0, 2, 0, 255), map(0, LAST, 2, 0, 0), map(0, LAST - 254, 256, 0, 0),
                    map(3, LAST - 255, 256, 7, 0), map(0, LAST, 1, 0, 255), map(1, 0, 511, 0, 0), map(15, LAST, 511, 15, 255),
                    read(4, 0), write(5, 0, 1), wire(15, 0), unwire(8, 0), unmap(4, 0), protect(4, 0, 3), protect(0, LAST, 0),
                    protect(0, LAST, 2), protect(0, 7, 2), sync(8), sync(15), sync(7), write(3, LAST, 1), read(0, LAST),
                    read(3, LAST - 255), read(3, LAST - 256)])


def overlaps():
    """Regions may touch, and overlap only in different spaces."""
    return file(4, [map(1, 10, 5, 0, 0), map(1, 15, 5, 0, 0), map(1, 5, 5, 0, 0), map(1, 14, 1, 0, 0), map(1, 9, 2, 0, 0),
                    map(1, 0, 100, 0, 0), map(1, 10, 5, 0, 0), map(1, 12, 1, 0, 0), map(2, 10, 5, 0, 0), map(1, 12, 1, 8, 0),
                    unmap(1, 10), map(1, 12, 1, 4, 4), read(1, 12), read(1, 11), read(1, 13), read(1, 15), read(2, 12)])


def regions_full():
    """64 regions, a 65th, one that overlaps too, and room again."""
    maps = [map(n % 4, 1000 * n, 1, n % 8, n) for n in range(64)]
    return file(2, maps + [map(0, 64_000, 1, 0, 0), map(0, 0, 1, 0, 0), unmap(3, 63_000), map(0, 64_000, 1, 0, 99), read(0, 64_000)])


def smallest_refusal():
    """Several refusals fit; the smallest number counts."""
    return file(1, [map(0, 0, 2, 0, 0, 1), map(1, 0, 2, 0, 0), wire(1, 0), write(0, 1, 5), write(0, 5, 5), wire(0, 1), wire(1, 0),
                    wire(1, 5), unmap(1, 1), unmap(1, 0), protect(1, 0, 2), protect(1, 1, 1), protect(1, 0, 1), unwire(1, 1),
                    unwire(3, 77), unwire(1, 0), unwire(1, 0), read(0, 1)])


def turned_away():
    """Records that the reader turns away keep their numbers."""
    return file(3, [map(0, 0, 4, 0, 0), record(0), record(9), record(15, zero=1), record(traces.READ, zero=1), read(0, 1),
                    record(traces.READ, word=1), record(traces.MAP, count=1, protection=3, word=4), record(traces.SYNC, space=1),
                    record(traces.SYNC, object=9, page=1), record(traces.UNMAP, object=1), record(traces.PROTECT, count=1, protection=1),
                    record(traces.WRITE, protection=1), record(traces.WIRE, offset=1), record(traces.UNWIRE, zero=16_384),
                    write(0, 1, 6), read(0, 1)])


def ends_of_a_space():
    """The pile's shift takes the last three pages to the first ones."""
    return file(6, [map(0, LAST - 3, 4, 1, 0), map(0, 0, 4, 1, 4), map(1, LAST, 1, 1, 0)]
                + [write(0, p, p) for p in (LAST - 3, LAST - 2, LAST - 1, LAST, 0, 1)]
                + [read(0, p) for p in (LAST - 3, LAST - 2, LAST - 1, LAST, 0, 1)] + [read(1, LAST), read(0, 2), read(0, 3), wire(0, LAST)]
                + [read(0, p) for p in (2, 3, LAST, 0)] + [unwire(0, LAST)])


def crowd(steps, page, passes, frames=24):
    """The frame count, regions of a page each, and writes to them in turn."""
    pages = [page + step for step in steps]
    maps = [map(1, p, 1, 2, n) for n, p in enumerate(pages)]
    return frames, maps, [write(1, p, n) for n, p in enumerate(pages * passes)]


def crowded_group():
    """18 pages of one hash group: the sixteen slots do not do."""
    frames, maps, writes = crowd(range(0, 18 * 1024, 1024), 70_000, 1)
    reads = [read(1, 70_000 + 1024 * n) for n in (17, 16, 2, 0, 1, 3, 15, 0, 17, 9)]
    return file(frames, maps + writes + reads + [sync(2)] + reads[:4])


def crowded_group_wired():
    """A primary group of wired slots: the secondary one makes room."""
    frames, maps, _ = crowd(range(0, 19 * 1024, 1024), 5, 1)
    wires = [wire(1, 5 + 1024 * n) for n in range(8)]
    touches = [write(1, 5 + 1024 * n, n) for n in range(8, 19)] + [read(1, 5 + 1024 * n) for n in (8, 9, 10, 18, 0, 7, 8)]
    return file(frames, maps + wires + touches + [unwire(1, 5 + 3 * 1024)] + [read(1, 5 + 1024 * n) for n in (11, 12, 3, 9, 10)])


def groups_of_many_spaces():
    """Pages of one hash group from four spaces and four segments."""
    places = [(s, 65_536 * n + 1024 * s + (300 ^ (16 * s + n))) for s in range(4) for n in range(4)]
    places += [(2, 65_536 + 1024 * 9 + (300 ^ 33)), (3, 1024 * 9 + (300 ^ 48)), (0, 1024 * 9 + (1023 - 300))]
    return file(30, [map(s, p, 1, 5, n) for n, (s, p) in enumerate(places)]
                + [write(s, p, 1) for s, p in places] + [read(*places[n]) for n in (18, 17, 16, 15, 8, 2, 1, 0, 18, 3, 1, 2)])


def complement_group():
    """A group is shared by pages of its own and of its complement."""
    pages = [1024 * n + (77 if n % 3 else 1023 - 77) for n in range(20)]
    return file(30, [map(0, p, 1, 5, n) for n, p in enumerate(pages)]
                + [read(0, p) for p in pages] + [read(0, pages[n]) for n in (19, 17, 18, 0, 1, 3, 2, 8, 16, 0, 1, 12)])


def halves_disagree():
    """The PowerPC half forgets a place that the x86-64 half still holds."""
    pages = [1024 * n + 1 for n in range(19)]
    order = (16, 17, 16, 18, 17, 16, 18, 18, 17)
    return file(30, [map(2, p, 1, 5, n) for n, p in enumerate(pages)] + [wire(2, p) for p in pages[:7]]
                + [read(2, p) for p in pages[7:17]] + [write(2, pages[n], n) for n in order] + [read(2, pages[n]) for n in order])


def shift_of_three(page):
    """The page and the next one stand in one leaf or in two."""
    far = [map(0, 512 * n + 100, 1, 1, n) for n in range(2, 11)]
    return file(20, [map(0, 500, 20, 0, 0)] + far + [write(0, page, 1), write(0, page + 1, 2)]
                + [read(0, 512 * n + 100) for n in range(2, 11)] + [read(0, page), read(0, page + 1), read(0, page)])


def shifted_apart():
    """With the pile's shift the next page is the first of another leaf."""
    return shift_of_three(508)


def shifted_together():
    """With the pile's shift the next page is the last of the same leaf."""
    return shift_of_three(507)


def crowded_leaves():
    """Twelve leaf tables are wanted, and there are ten."""
    frames, maps, writes = crowd(range(0, 12 * 512, 512), 512, 2)
    reads = [read(1, 512 * n) for n in (12, 11, 3, 2, 1, 12, 4, 5, 12)]
    return file(frames, maps + writes + reads)


def crowded_leaves_wired():
    """Leaves with wired mappings are passed over; two take turns."""
    frames, maps, _ = crowd(range(0, 13 * 512, 512), 510, 1)
    wires = [wire(1, 510 + 512 * n) for n in range(8)]
    touches = [read(1, 510 + 512 * n) for n in (8, 9, 10, 8, 9, 10, 10, 9, 11, 12, 11, 12, 0, 7, 3)]
    return file(frames, maps + wires + touches + [unwire(1, 510 + 512 * 3)] + [write(1, 510 + 512 * n, n) for n in (8, 3, 9, 10, 3, 8, 4)])


def mark_outlives():
    """A written page is forgotten by the boards, and stored all the same."""
    frames, maps, writes = crowd(range(0, 18 * 1024, 1024), 9, 1, frames=19)
    reads = [read(1, 9 + 1024 * n) for n in range(1, 18)]
    return file(frames, maps + writes[:1] + reads + [map(0, 0, 2, 0, 0), read(0, 0), read(0, 1), read(1, 9)])


def leaf_borders():
    """A region over the end of a leaf; the pile meets it elsewhere."""
    far = [map(0, 512 * n + 100, 1, 1, n) for n in range(2, 12)]
    return file(20, [map(0, 506, 12, 0, 0)] + [write(0, p, p) for p in (506, 508, 509, 511, 512, 517)] + far
                + [read(0, 512 * n + 100) for n in range(2, 11)] + [read(0, p) for p in (506, 508, 509, 511, 512, 517)]
                + [read(0, 512 * 11 + 100)] + [read(0, p) for p in (506, 508, 509, 511, 512, 517)])


def largest_count():
    """256 frames, a whole object, and an unmap of all of it."""
    return file(256, [map(2, 300, 256, 6, 0), write(2, 300, 1), write(2, 555, 2), read(2, 400), protect(2, 300, 1), read(2, 555),
                      write(2, 300, 3), unmap(2, 300), map(2, 301, 255, 6, 1), read(2, 555), read(2, 300), sync(6), write(2, 400, 4)])


def wired_then_lowered():
    """A wired place keeps its region as it is; unwired, it may be lowered."""
    return file(2, [map(3, 8, 2, 4, 4), wire(3, 8), write(3, 8, 1), protect(3, 8, 1), unmap(3, 8), unwire(3, 8), read(3, 8),
                    protect(3, 8, 1), read(3, 8), write(3, 8, 2), wire(3, 8), read(3, 8), write(3, 8, 2), unwire(3, 8), unmap(3, 8),
                    read(3, 8)])


def wired_twice_mapped():
    """A wire of a place that has an unwired mapping keeps its modified mark."""
    return file(2, [map(0, 3, 3, 0, 3), write(0, 3, 1), wire(0, 3), read(0, 4), read(0, 5), unwire(0, 3), read(0, 4), read(0, 5),
                    read(0, 3)])


WHOLE = [one_frame, oldest_load_goes, shared_pages, protections, come_and_go, syncs, wired_stay, ninth_wire, ranges, overlaps,
         regions_full, smallest_refusal, turned_away, ends_of_a_space, crowded_group, crowded_group_wired, groups_of_many_spaces,
         complement_group, halves_disagree, shifted_apart, shifted_together, crowded_leaves, crowded_leaves_wired, mark_outlives,
         leaf_borders, largest_count, wired_then_lowered, wired_twice_mapped]

DAMAGED = [
    b"",
    b"\x01",
    file(256, []),
    file(0, [map(0, 0, 1, 0, 0)]),
    file(257, [map(0, 0, 1, 0, 0)])[:-1],
    file(1, [map(0, 0, 1, 0, 0), read(0, 0)])[:-1],
    file(1, [map(0, 0, 1, 0, 0)]) + b"\x40",
]


def main():
    folder = sys.argv[1]
    os.makedirs(folder, exist_ok=True)
    reference = build.build()
    for number, trace in enumerate([make() for make in WHOLE] + DAMAGED, 1):
        with open(os.path.join(folder, f"{number:02}.trace"), "wb") as out:
            out.write(trace)
        with open(os.path.join(folder, f"{number:02}.listing"), "w") as out:
            out.write(build.listing(reference, trace))


if __name__ == "__main__":
    main()
