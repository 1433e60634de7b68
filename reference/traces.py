#!/usr/bin/env python3
"""Random traces, made anew from a seed.

    traces.py FOLDER COUNT [SEED]

writes COUNT traces to FOLDER. `make(seed, number)` gives one as bytes.

Together they bring every refusal from 1 to 14 but 5: a file has at most
5,461 records, and the memory refuses calls only after 1,000,000.
"""

import os
import random
import sys

MOST_BYTES = 65_534
MOST_RECORDS = 5_461
PAGES = 262_144
MOST_REGIONS = 64

MAP, UNMAP, PROTECT, READ, WRITE, WIRE, UNWIRE, SYNC = range(1, 9)


def record(operation, space=0, page=0, count=0, object=0, offset=0, protection=0, zero=0, word=0):
    """The twelve bytes of a record."""
    number = 0
    fields = [(operation, 4), (space, 4), (page, 18), (count, 9), (object, 4),
              (offset, 8), (protection, 2), (zero, 15), (word, 32)]
    for value, bits in fields:
        assert 0 <= value < 1 << bits
        number = (number << bits) | value
    return number.to_bytes(12, "big")


def file(frames, records):
    return frames.to_bytes(2, "big") + b"".join(records)


class Maker:
    """Writes records, and keeps in mind roughly what is mapped and wired, so
    that later calls have something to aim at."""

    def __init__(self, rng, frames, length):
        self.rng = rng
        self.frames = frames
        self.length = length
        self.records = []
        self.regions = []
        self.gone = []
        self.wired = []

    def full(self):
        return len(self.records) >= self.length

    def bytes(self):
        return file(self.frames, self.records[:self.length])

    def call(self, operation, **fields):
        self.records.append(record(operation, **fields))

    def map(self, space, page, count, object, offset, protection):
        self.call(MAP, space=space, page=page, count=count, object=object, offset=offset, protection=protection)
        in_range = (space < 4 and 0 < count and page + count <= PAGES and object < 8
                    and offset + count <= 256 and protection in (1, 3))
        apart = all(s != space or page + count <= p or p + c <= page for s, p, c in self.regions)
        if in_range and apart and len(self.regions) < MOST_REGIONS:
            self.regions.append((space, page, count))

    def unmap(self, region):
        self.call(UNMAP, space=region[0], page=region[1])
        wired = any(s == region[0] and region[1] <= p < region[1] + region[2] for s, p in self.wired)
        if region in self.regions and not wired:
            self.regions.remove(region)
            self.gone.append(region)

    def back(self):
        """Maps a region again that went, over other pages."""
        if self.gone:
            region = self.gone.pop(self.rng.randrange(len(self.gone)))
            offset = self.rng.randrange(min(12, 257 - region[2]))
            self.map(*region, self.rng.randrange(2), offset, self.rng.choice((1, 3, 3)))

    def come_and_go(self):
        if len(self.gone) < 3 and self.rng.random() < 0.5:
            self.unmap(self.region())
        else:
            self.back()

    def protect(self, region):
        self.call(PROTECT, space=region[0], page=region[1], protection=self.rng.choice((1, 3)))

    def wire(self, place):
        self.call(WIRE, space=place[0], page=place[1])
        if place not in self.wired and len(self.wired) < 8:
            self.wired.append(place)

    def unwire(self, place):
        self.call(UNWIRE, space=place[0], page=place[1])
        if place in self.wired:
            self.wired.remove(place)

    def touch(self, place, writes=0.4):
        if self.rng.random() < writes:
            self.call(WRITE, space=place[0], page=place[1], word=self.rng.getrandbits(32))
        else:
            self.call(READ, space=place[0], page=place[1])

    def region(self):
        return self.rng.choice(self.regions) if self.regions else (0, 0, 1)

    def place(self):
        space, page, count = self.region()
        return space, page + self.rng.randrange(count)

    def some_wired(self):
        return self.rng.choice(self.wired) if self.wired else self.place()

    def flaw(self):
        """A record that is refused whatever the memory holds."""
        rng = self.rng
        kind = rng.randrange(4)
        if kind == 0:
            self.call(rng.choice((0, 9, 12, 15)), space=rng.randrange(16), zero=rng.choice((0, 5)))
        elif kind == 1:
            self.unused_field()
        elif kind == 2:
            self.out_of_range()
        else:
            self.records.append(rng.randbytes(12))

    def unused_field(self):
        """A record with one bit on in a field that it does not use."""
        rng = self.rng
        used = {MAP: "spcofr", UNMAP: "sp", PROTECT: "spr", READ: "sp",
                WRITE: "spw", WIRE: "sp", UNWIRE: "sp", SYNC: "o"}
        spans = {"s": (88, 4), "p": (70, 18), "c": (61, 9), "o": (57, 4),
                 "f": (49, 8), "r": (47, 2), "z": (32, 15), "w": (0, 32)}
        operation = rng.choice(list(used))
        lowest, bits = spans[rng.choice([name for name in spans if name not in used[operation]])]
        whole = operation << 92 | 1 << (lowest + rng.randrange(bits))
        self.records.append(whole.to_bytes(12, "big"))

    def out_of_range(self):
        """A call with a number just outside its range."""
        rng = self.rng
        good = dict(space=1, page=100, count=2, object=1, offset=0, protection=3)
        bad = rng.choice([
            dict(space=4), dict(space=15), dict(count=0), dict(count=257), dict(count=511),
            dict(object=8), dict(object=15), dict(offset=255), dict(protection=0),
            dict(protection=2), dict(page=PAGES - 1)])
        kind = rng.randrange(4)
        if kind == 0:
            self.call(MAP, **{**good, **bad})
        elif kind == 1:
            self.call(rng.choice((UNMAP, READ, WRITE, WIRE, UNWIRE)), space=rng.randrange(4, 16), page=100)
        elif kind == 2:
            space, page, _ = self.region()
            self.call(PROTECT, space=space, page=page, protection=rng.choice((0, 2)))
        else:
            self.call(SYNC, object=rng.randrange(8, 16))


# Ways to fill a trace. Each maps something and then draws calls till the
# trace is full.

def draw(maker, weights, extra=None):
    """Draws calls by weight till the trace is full."""
    rng = maker.rng
    ways = {
        "touch": lambda: maker.touch(maker.place()),
        "read": lambda: maker.touch(maker.place(), writes=0),
        "wire": lambda: maker.wire(maker.place()),
        "unwire": lambda: maker.unwire(maker.some_wired()),
        "protect": lambda: maker.protect(maker.region()),
        "unmap": maker.come_and_go,
        "sync": lambda: maker.call(SYNC, object=rng.randrange(8)),
        "sync0": lambda: maker.call(SYNC, object=0),
        "flaw": maker.flaw,
    }
    ways.update(extra or {})
    names = list(weights)
    while not maker.full():
        ways[rng.choices(names, [weights[name] for name in names])[0]]()


def mixed(maker):
    """A small world with everything in it."""
    rng = maker.rng

    def add():
        count = rng.randrange(1, 7)
        maker.map(rng.randrange(4), rng.randrange(40), count, rng.randrange(3), rng.randrange(10), rng.choice((1, 3, 3)))

    def stray():
        place = rng.randrange(4), rng.randrange(45)
        rng.choice((maker.touch, maker.wire, maker.unwire, lambda p: maker.unmap((*p, 1)),
                    lambda p: maker.protect((*p, 1))))(place)

    for _ in range(6):
        add()
    draw(maker, dict(touch=50, add=8, stray=6, wire=5, unwire=5, protect=5, unmap=4, sync0=3, flaw=2),
         dict(add=add, stray=stray))


def crowded_groups(maker):
    """Pages of one hash group and its complement, from several spaces."""
    rng = maker.rng
    group = rng.randrange(1024)
    spread = rng.choice((18, 22, 30, 60))
    for _ in range(spread):
        space, segment = rng.choice((0, 1, 2, 3)), rng.choice((0, 0, 1, 3))
        wanted = group if rng.random() < 0.8 else 1023 - group
        low = wanted ^ (16 * space + segment)
        page = 65_536 * segment + 1024 * rng.randrange(64) + low
        count = min(rng.choice((1, 1, 1, 2)), PAGES - page)
        maker.map(space, page, count, rng.randrange(2), rng.randrange(200), rng.choice((1, 3, 3)))
    for _ in range(rng.choice((0, 2, 8, 9))):
        maker.wire(maker.place())
    draw(maker, dict(touch=80, wire=3, unwire=3, protect=3, sync0=2, unmap=1, flaw=0.3))


def half_wired_group(maker):
    """One hash group with some wired slots: the PowerPC board forgets places
    that the x86-64 board still holds."""
    rng = maker.rng
    maker.frames = max(maker.frames, rng.choice((24, 40)))
    space, low, wires = rng.randrange(4), rng.randrange(1024), rng.randrange(3, 9)
    pages = [low + 1024 * number for number in rng.sample(range(256 if low < 16 else 64), 26)]
    for number, page in enumerate(pages):
        maker.map(space, page, 1, 0, number, 3)
    for page in pages[:wires]:
        maker.wire((space, page))
    recent = pages[:4]

    def near():
        if rng.random() < 0.4:
            recent.pop(0)
            recent.append(rng.choice(pages))
        maker.touch((space, rng.choice(recent)))

    draw(maker, dict(near=90, wire=1, unwire=1, protect=2, sync0=1), dict(near=near))


def crowded_leaves(maker):
    """Pages of more directory entries than there are leaf tables."""
    rng = maker.rng
    for _ in range(rng.choice((11, 12, 16, 60))):
        page = 512 * rng.randrange(512) + rng.choice((0, 1, 255, 507, 508, 509, 510, 511))
        count = min(rng.choice((1, 2, 5, 8)), PAGES - page)
        maker.map(rng.randrange(4), page, count, rng.randrange(2), rng.randrange(240), rng.choice((1, 3, 3)))
    for _ in range(rng.choice((0, 2, 8, 9))):
        maker.wire(maker.place())
    draw(maker, dict(touch=80, wire=3, unwire=3, protect=3, sync0=2, unmap=1, flaw=0.3))


def many_frames(maker):
    """Many frames, and objects mapped whole."""
    rng = maker.rng
    maker.frames = rng.choice((200, 255, 256))
    for object in range(rng.choice((1, 2, 4))):
        maker.map(rng.randrange(4), 1000 * object + rng.randrange(500), 256, object, 0, 3)

    def run():
        space, page, count = maker.region()
        start = rng.randrange(count)
        for step in range(min(count - start, rng.randrange(1, 120))):
            maker.touch((space, page + start + step))

    draw(maker, dict(run=20, touch=20, wire=1, unwire=1, sync=0.2, flaw=0.2), dict(run=run))


def wiring(maker):
    """Wired places, up to eight and a ninth, with hardly more frames."""
    rng = maker.rng
    maker.frames = rng.choice((1, 2, 3, 5, 7, 8, 9, 10))
    for number in range(6):
        maker.map(number % 4, 10 * number, rng.randrange(1, 6), 0, rng.randrange(12), rng.choice((1, 3)))
    draw(maker, dict(touch=20, wire=20, unwire=6, protect=3, unmap=2, sync0=2, flaw=0.5))


def protections(maker):
    """Protections raised and lowered under pages in use."""
    for number in range(5):
        maker.map(number % 3, 30 * number, 4, 0, 2 * number, maker.rng.choice((1, 3)))
    draw(maker, dict(touch=40, read=10, protect=25, sync0=3, wire=1, unwire=2, flaw=0.5))


def sharing(maker):
    """The same object pages from several spaces and twice in one."""
    rng = maker.rng
    for number in range(10):
        maker.map(number % 4, 5000 * number + rng.randrange(500), 6, 3, rng.choice((0, 0, 3)), rng.choice((1, 3, 3)))
    draw(maker, dict(touch=60, wire=2, unwire=2, protect=5, sync=2, unmap=1, flaw=0.5))


def remapping(maker):
    """Regions that go and come back over other pages."""
    rng = maker.rng

    def again():
        region = maker.region()
        maker.unmap(region)
        maker.map(*region, rng.randrange(2), rng.randrange(4), rng.choice((1, 3)))

    for number in range(4):
        maker.map(number, 20 * number, 5, 0, 0, 3)
    draw(maker, dict(touch=50, again=12, wire=1, unwire=3, sync0=2, protect=3, flaw=0.5), dict(again=again))


def many_regions(maker):
    """64 regions, a 65th, and room for it again."""
    rng = maker.rng

    def another():
        page = rng.choice((700 * rng.randrange(300), 700 * rng.randrange(70)))
        maker.map(rng.randrange(2), page, rng.randrange(1, 4), rng.randrange(8), rng.randrange(100), 3)

    for _ in range(66):
        another()
    draw(maker, dict(touch=40, another=10, unmap=4, protect=2, wire=1, unwire=1, flaw=0.5), dict(another=another))


def edges(maker):
    """Numbers at the ends of their ranges."""
    rng = maker.rng
    pages = (0, 1, 65_535, 65_536, 131_071, 196_608, PAGES - 257, PAGES - 256, PAGES - 4, PAGES - 3, PAGES - 2, PAGES - 1)
    counts = (0, 1, 2, 3, 4, 255, 256, 257, 511)
    offsets = (0, 1, 127, 252, 253, 254, 255)

    def add():
        maker.map(rng.choice((0, 3, 3, 4)), rng.choice(pages), rng.choice(counts), rng.choice((0, 7, 7, 8)),
                  rng.choice(offsets), rng.choice((0, 1, 2, 3, 3)))

    def end():
        space, page, count = maker.region()
        maker.touch((space, rng.choice((page, page + count - 1, min(page + count, PAGES - 1), max(page - 1, 0)))))

    maker.map(3, PAGES - 4, 4, 7, 252, 3)
    maker.map(0, 0, 256, 0, 0, 3)
    draw(maker, dict(end=40, add=25, touch=15, wire=4, unwire=4, protect=2, unmap=4, sync=2, flaw=2),
         dict(add=add, end=end))


def noise(maker):
    """Records of any bits."""
    while not maker.full():
        maker.flaw()


def every_bit(maker):
    """Each operation with each single bit of the rest on, in any order."""
    maker.length = 16 * 92
    maker.records = [(operation << 92 | 1 << bit).to_bytes(12, "big") for operation in range(16) for bit in range(92)]
    maker.rng.shuffle(maker.records)


WAYS = [mixed, crowded_groups, half_wired_group, crowded_leaves, many_frames, wiring, protections,
        sharing, remapping, many_regions, edges, noise, every_bit]
WEIGHTS = [6, 8, 5, 8, 3, 5, 4, 4, 3, 3, 4, 1, 0.3]


def damaged(rng, trace):
    """A file that is turned away, or nearly."""
    kind = rng.randrange(8)
    if kind == 0:
        return trace[:rng.randrange(len(trace))]
    if kind == 1:
        return trace + bytes(rng.randrange(1, 12))
    if kind == 2:
        return rng.choice((0, 257, 258, 512, 65_535)).to_bytes(2, "big") + trace[2:]
    if kind == 3:  # a bad count, and a broken last record
        return rng.choice((0, 257, 40_000)).to_bytes(2, "big") + trace[2:-1]
    if kind == 4:  # too long, whatever else
        length = rng.choice((MOST_BYTES + 1, MOST_BYTES + 2, MOST_BYTES + 12, 70_000, 140_000))
        return (trace * (length // len(trace) + 1))[:length]
    if kind == 5:
        return b""
    if kind == 6:
        return rng.randbytes(rng.choice((1, 2, 3, 13, 14, 15)))
    return trace[:2]


def make(seed, number):
    """The name of the way a trace was made, and its bytes."""
    rng = random.Random(f"{seed}/{number}")
    way = rng.choices(WAYS, WEIGHTS)[0]
    frames = rng.choice((1, 2, 3, 4, 6, 9, 16, 24, 64, 200, 256))
    if way in (crowded_groups, crowded_leaves) and rng.random() < 0.7:
        frames = rng.choice((24, 40, 64, 256))
    whole = rng.random() < 0.02
    length = MOST_RECORDS if whole else rng.choice((20, 60, 120, 250, 500))
    maker = Maker(rng, frames, length)
    way(maker)
    trace = maker.bytes()
    if rng.random() < 0.06:
        return way.__name__ + ", damaged", damaged(rng, trace)
    return way.__name__ + (", full size" if whole else ""), trace


def main():
    folder, count = sys.argv[1], int(sys.argv[2])
    seed = sys.argv[3] if len(sys.argv) > 3 else "1"
    os.makedirs(folder, exist_ok=True)
    for number in range(count):
        with open(os.path.join(folder, f"{number}.trace"), "wb") as out:
            out.write(make(seed, number)[1])


if __name__ == "__main__":
    main()
