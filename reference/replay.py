#!/usr/bin/env python3
"""A replay, simple and slow: what the program `replay` prints of a trace.

It shares no code with the proved program, but whoever wrote the definitions in specs/ wrote it too, from the same reading of the
rules: a difference shows a slip in one of the two, and agreement does not show that the reading is right.

usage: replay.py < TRACE
"""
import sys

SPACES, PAGES, FRAMES, WIRED = 4, 262144, 256, 8


class Radix:
    """The x86-64 board: the four-level table as words."""

    def __init__(self):
        self.clear()

    def clear(self):
        self.words = [0] * 8192
        self.words[0] = 257 << 12 | 7
        for s in range(4):
            self.words[512 + s] = (258 + s) << 12 | 7
        self.marks = set()
        self.next = 6

    def path(self, s, p):
        """The positions of the four words, or None where the directory has no leaf."""
        d = 512 * (2 + s) + p // 512
        if not self.words[d] & 1:
            return None
        t = (self.words[d] >> 12) - 256
        return 0, 512 + s, d, 512 * t + p % 512

    def leaf(self, s, p):
        at = self.path(s, p)
        return at if at and self.words[at[3]] & 1 else None

    def merge(self, k):
        w = self.words[k]
        if w & 1 and w & 64:
            self.marks.add(w >> 12)

    def find(self, s, p):
        at = self.leaf(s, p)
        if not at:
            return None
        w = self.words[at[3]]
        return w >> 12, 3 if w & 2 else 1, bool(w & 512)

    def take(self):
        for i in range(10):
            t = 6 + (self.next - 6 + i) % 10
            if not any(w & 512 for w in self.words[512 * t:512 * t + 512]):
                break
        for k in range(512 * t, 512 * t + 512):
            self.merge(k)
            self.words[k] = 0
        for d in range(1024, 3072):
            if self.words[d] & 1 and (self.words[d] >> 12) == 256 + t:
                self.words[d] = 0
        self.next = 6 if t == 15 else t + 1
        return t

    def enter(self, s, p, f, q, wired):
        at = self.path(s, p)
        if not at:
            t = self.take()
            self.words[512 * (2 + s) + p // 512] = (256 + t) << 12 | 7
            at = self.path(s, p)
        self.merge(at[3])
        self.words[at[3]] = f << 12 | 5 | (2 if q == 3 else 0) | (512 if wired else 0)

    def remove(self, s, p):
        at = self.leaf(s, p)
        if at:
            self.merge(at[3])
            self.words[at[3]] = 0

    def lower(self, s, p):
        at = self.leaf(s, p)
        if at:
            self.words[at[3]] &= ~2

    def unwire(self, s, p):
        at = self.leaf(s, p)
        if at:
            self.words[at[3]] &= ~512

    def drop(self, f):
        for k in range(3072, 8192):
            if self.words[k] & 1 and self.words[k] >> 12 == f:
                self.merge(k)
                self.words[k] = 0

    def access(self, s, p, write):
        at = self.leaf(s, p)
        if not at or write and not self.words[at[3]] & 2:
            return None
        for k in at:
            self.words[k] |= 32
        if write:
            self.words[at[3]] |= 64
        return self.words[at[3]] >> 12

    def modified(self, f):
        return f in self.marks or any(w & 65 == 65 and w >> 12 == f for w in self.words[3072:])

    def clear_modified(self, f):
        self.marks.discard(f)
        for k in range(3072, 8192):
            if self.words[k] & 1 and self.words[k] >> 12 == f:
                self.words[k] &= ~64


class Hashed:
    """The PowerPC board: groups of eight entries of two words."""

    def __init__(self):
        self.clear()

    def clear(self):
        self.first = [0] * 8192
        self.second = [0] * 8192
        self.wired = [False] * 8192
        self.marks = set()
        self.next = 0

    def spots(self, s, p):
        vsid = 16 * s + p // 65536
        i = p % 65536
        group = (vsid ^ i) & 1023
        word = 0x80000000 | vsid << 7 | i >> 10
        return (group, word), (1023 - group, word | 64)

    def slot(self, s, p):
        for group, word in self.spots(s, p):
            for k in range(8 * group, 8 * group + 8):
                if self.first[k] == word:
                    return k
        return None

    def forget(self, k):
        if self.first[k] and self.second[k] & 128:
            self.marks.add(self.second[k] >> 12)
        self.first[k] = self.second[k] = 0
        self.wired[k] = False

    def find(self, s, p):
        k = self.slot(s, p)
        if k is None:
            return None
        return self.second[k] >> 12, 3 if self.second[k] & 3 == 2 else 1, self.wired[k]

    def enter(self, s, p, f, q, wired):
        self.remove(s, p)
        spots = self.spots(s, p)
        for group, word in spots:
            free = [k for k in range(8 * group, 8 * group + 8) if not self.first[k]]
            if free:
                k = free[0]
                break
        else:
            for group, word in spots:
                turn = [8 * group + (self.next + i) % 8 for i in range(8)]
                loose = [k for k in turn if not self.wired[k]]
                if loose:
                    k = loose[0]
                    break
            self.forget(k)
            self.next = (k % 8 + 1) % 8
        self.first[k] = word
        self.second[k] = f << 12 | (2 if q == 3 else 3)
        self.wired[k] = wired

    def remove(self, s, p):
        k = self.slot(s, p)
        if k is not None:
            self.forget(k)

    def lower(self, s, p):
        k = self.slot(s, p)
        if k is not None:
            self.second[k] |= 3

    def unwire(self, s, p):
        k = self.slot(s, p)
        if k is not None:
            self.wired[k] = False

    def drop(self, f):
        for k in range(8192):
            if self.first[k] and self.second[k] >> 12 == f:
                self.forget(k)

    def access(self, s, p, write):
        k = self.slot(s, p)
        if k is None or write and self.second[k] & 3 != 2:
            return None
        self.second[k] |= 256 | (128 if write else 0)
        return self.second[k] >> 12

    def modified(self, f):
        return f in self.marks or any(a and b & 128 and b >> 12 == f for a, b in zip(self.first, self.second))

    def clear_modified(self, f):
        self.marks.discard(f)
        for k in range(8192):
            if self.first[k] and self.second[k] >> 12 == f:
                self.second[k] &= ~128


class Replica:
    def __init__(self, first, second):
        self.halves = first, second
        self.clear()

    def clear(self):
        for h in self.halves:
            h.clear()

    def find(self, s, p):
        a, b = (h.find(s, p) for h in self.halves)
        return a if a == b else None

    def both(self, name, *args):
        for h in self.halves:
            getattr(h, name)(*args)

    def enter(self, *args):
        self.both('enter', *args)

    def remove(self, *args):
        self.both('remove', *args)

    def lower(self, *args):
        self.both('lower', *args)

    def drop(self, *args):
        self.both('drop', *args)

    def clear_modified(self, *args):
        self.both('clear_modified', *args)

    def unwire(self, s, p):
        if self.find(s, p):
            self.both('unwire', s, p)

    def access(self, s, p, write):
        held = self.find(s, p)
        if not held or write and held[1] != 3:
            return None
        return self.halves[s % 2].access(s, p, write)

    def modified(self, f):
        return any(h.modified(f) for h in self.halves)


class Offset:
    def __init__(self, below, by):
        self.below, self.by = below, by

    def __getattr__(self, name):
        call = getattr(self.below, name)
        if name in ('clear', 'drop', 'modified', 'clear_modified'):
            return call
        return lambda s, p, *rest: call(s, (p + self.by) % PAGES, *rest)


class Refused(Exception):
    pass


class Memory:
    def __init__(self, pmap, frames):
        self.pmap, self.frames = pmap, frames
        pmap.clear()
        self.regions, self.wired = [], []
        self.lies, self.owner, self.queue = {}, {}, []
        self.words, self.store = {}, list(range(2048))
        self.calls = self.refused = 0
        self.count = dict(hits=0, soft=0, hard=0, loads=0, evicted=0, written=0)

    def call(self, op, *args):
        if self.calls >= 1000000:
            raise Refused(5)
        self.calls += 1
        try:
            return getattr(self, op)(*args)
        except Refused:
            self.refused += 1
            raise

    def place(self, s, p):
        if s >= SPACES or p >= PAGES:
            raise Refused(6)

    def map(self, s, p, n, o, off, q):
        if s >= SPACES or p >= PAGES or o > 7 or q not in (1, 3) or n == 0 or p + n > PAGES or off + n > 256:
            raise Refused(6)
        if any(r[0] == s and r[1] < p + n and p < r[1] + r[2] for r in self.regions):
            raise Refused(7)
        if len(self.regions) >= 64:
            raise Refused(8)
        self.regions.append([s, p, n, o, off, q])

    def begins(self, s, p):
        for r in self.regions:
            if r[0] == s and r[1] == p:
                if any(w[0] == s and r[1] <= w[1] < r[1] + r[2] for w in self.wired):
                    raise Refused(11)
                return r
        raise Refused(9)

    def unmap(self, s, p):
        self.place(s, p)
        r = self.begins(s, p)
        for v in range(r[1], r[1] + r[2]):
            self.pmap.remove(s, v)
        self.regions.remove(r)

    def protect(self, s, p, q):
        if s >= SPACES or p >= PAGES or q not in (1, 3):
            raise Refused(6)
        r = self.begins(s, p)
        r[5] = q
        if q == 1:
            for v in range(r[1], r[1] + r[2]):
                self.pmap.lower(s, v)

    def covers(self, s, p):
        self.place(s, p)
        for r in self.regions:
            if r[0] == s and r[1] <= p < r[1] + r[2]:
                return r, 256 * r[3] + r[4] + p - r[1]
        raise Refused(9)

    def bring(self, x):
        """The frame of x, and whether it was loaded."""
        if x in self.lies:
            return self.lies[x], False
        if len(self.queue) < self.frames:
            f = len(self.queue)
        else:
            pinned = {w[2] for w in self.wired}
            loose = [f for f in self.queue if f not in pinned]
            if not loose:
                raise Refused(14)
            f = loose[0]
            self.queue.remove(f)
            y = self.owner[f]
            del self.lies[y]
            self.pmap.drop(f)
            self.count['evicted'] += 1
            if self.pmap.modified(f):
                self.store[y] = self.words[f]
                self.pmap.clear_modified(f)
                self.count['written'] += 1
        self.queue.append(f)
        self.lies[x], self.owner[f], self.words[f] = f, x, self.store[x]
        self.count['loads'] += 1
        return f, True

    def reach(self, s, p, write):
        r, x = self.covers(s, p)
        if write and r[5] == 1:
            raise Refused(10)
        f = self.pmap.access(s, p, write)
        if f is not None:
            self.count['hits'] += 1
            return f
        f, loaded = self.bring(x)
        self.count['hard' if loaded else 'soft'] += 1
        self.pmap.enter(s, p, f, r[5], False)
        return self.pmap.access(s, p, write)

    def read(self, s, p):
        return self.words[self.reach(s, p, False)]

    def write(self, s, p, word):
        self.words[self.reach(s, p, True)] = word

    def wire(self, s, p):
        r, x = self.covers(s, p)
        if any(w[:2] == (s, p) for w in self.wired):
            raise Refused(11)
        if len(self.wired) >= WIRED:
            raise Refused(13)
        f, _ = self.bring(x)
        self.pmap.enter(s, p, f, r[5], True)
        self.wired.append((s, p, f))

    def unwire(self, s, p):
        self.place(s, p)
        here = [w for w in self.wired if w[:2] == (s, p)]
        if not here:
            raise Refused(12)
        self.pmap.unwire(s, p)
        self.wired.remove(here[0])

    def sync(self, o):
        if o > 7:
            raise Refused(6)
        for x in range(256 * o, 256 * o + 256):
            f = self.lies.get(x)
            if f is not None and self.pmap.modified(f):
                self.store[x] = self.words[f]
                self.pmap.clear_modified(f)
                self.count['written'] += 1

    def dirty(self):
        return [x for x in range(2048) if x in self.lies and self.pmap.modified(self.lies[x])]


NAMES = [None, 'map', 'unmap', 'protect', 'read', 'write', 'wire', 'unwire', 'sync']
USES = [None, 'space page count object offset protection', 'space page', 'space page protection', 'space page', 'space page word',
        'space page', 'space page', 'object']
FIELDS = [('operation', 4), ('space', 4), ('page', 18), ('count', 9), ('object', 4), ('offset', 8), ('protection', 2), ('zero', 15), ('word', 32)]


def spell(bytes12):
    n, got = int.from_bytes(bytes12, 'big'), {}
    for name, width in reversed(FIELDS):
        got[name] = n & (1 << width) - 1
        n >>= width
    op = got.pop('operation')
    if not 1 <= op <= 8:
        return 3
    uses = USES[op].split()
    if any(v for k, v in got.items() if k not in uses):
        return 4
    return (NAMES[op], *(got[k] for k in uses))


def replay(data):
    if len(data) > 65534:
        return 'file 1\n'
    if len(data) < 2:
        return 'file 2\n'
    frames = int.from_bytes(data[:2], 'big')
    if not 1 <= frames <= 256:
        return 'file 1\n'
    if (len(data) - 2) % 12:
        return 'file 2\n'
    records = [spell(data[i:i + 12]) for i in range(2, len(data), 12)]
    out = []
    for name, pmap in (('x86-64', Radix()), ('powerpc', Hashed()), ('pile', Offset(Replica(Radix(), Hashed()), 3))):
        out.append(f'machine {name}')
        memory, accesses = Memory(pmap, frames), 0
        for number, r in enumerate(records):
            if isinstance(r, int):
                out.append(f'refused {number} {r} F')
                continue
            try:
                word = memory.call(*r)
                accesses += r[0] in ('read', 'write')
                if r[0] == 'read':
                    out.append(f'read {number} {word}')
            except Refused as e:
                out.append(f'refused {number} {e.args[0]} M')
        c = memory.count
        out.append(f"accesses {accesses} hits {c['hits']} soft {c['soft']} hard {c['hard']} loads {c['loads']} evicted {c['evicted']} written {c['written']}")
        out += [f'dirty {x // 256} {x % 256}' for x in memory.dirty()]
    return '\n'.join(out) + '\n'


if __name__ == '__main__':
    sys.stdout.write(replay(sys.stdin.buffer.read()))
