#!/usr/bin/env python3
"""Writes what the program boards has to print for its stored input.

It simulates both boards from their rules alone, as docs/boards-program.md and the boards' own documents tell them, apart
from the proved code, so that the stored output is a second opinion. Run it at the top of the repository.
"""
import sys

PAGES = 262144


class Radix:
    """x86-64: 16 tables of 512 words; the PML4, the PDPT, a page directory for each space, ten leaves."""

    def __init__(self):
        self.tables = [[0] * 512 for _ in range(16)]
        self.tables[0][0] = (256 + 1) << 12 | 7
        for space in range(4):
            self.tables[1][space] = (256 + 2 + space) << 12 | 7
        self.counter = 6
        self.marks = set()

    def leaf(self, space, page):
        word = self.tables[2 + space][page // 512]
        return (word >> 12) - 256 if word & 1 else None

    def take(self):
        leaf = self.counter
        while any(word >> 9 & 1 for word in self.tables[leaf]):
            leaf = 6 if leaf == 15 else leaf + 1
        self.counter = 6 if leaf == 15 else leaf + 1
        for word in self.tables[leaf]:
            if word >> 6 & 1:
                self.marks.add(word >> 12)
        self.tables[leaf] = [0] * 512
        for directory in self.tables[2:6]:
            for index, word in enumerate(directory):
                if word & 1 and word >> 12 == 256 + leaf:
                    directory[index] = 0
        return leaf

    def enter(self, space, page, frame, protection):
        leaf = self.leaf(space, page)
        if leaf is None:
            leaf = self.take()
            self.tables[2 + space][page // 512] = (256 + leaf) << 12 | 7
        old = self.tables[leaf][page % 512]
        if old >> 6 & 1:
            self.marks.add(old >> 12)
        self.tables[leaf][page % 512] = frame << 12 | 5 | (2 if protection == 3 else 0)

    def held(self, space, page):
        leaf = self.leaf(space, page)
        return leaf is not None and self.tables[leaf][page % 512] & 1 == 1

    def access(self, space, page, write):
        if not self.held(space, page):
            return None
        leaf = self.leaf(space, page)
        word = self.tables[leaf][page % 512]
        if write and not word >> 1 & 1:
            return None
        self.tables[0][0] |= 32
        self.tables[1][space] |= 32
        self.tables[2 + space][page // 512] |= 32
        self.tables[leaf][page % 512] |= 32 | (64 if write else 0)
        return word >> 12

    def modified(self, frame):
        return frame in self.marks or any(
            word & 1 and word >> 6 & 1 and word >> 12 == frame for table in self.tables[6:] for word in table)

    def title(self, space, page):
        return "x86-64: directory index %d, leaf index %d in table %d" % (page // 512, page % 512, self.leaf(space, page))

    def words(self, space, page):
        leaf = self.leaf(space, page)
        if leaf is None:
            return "  the walk comes to no leaf"
        return "  words: PML4 %#x, PDPT %#x, directory %#x, leaf %#x" % (
            self.tables[0][0], self.tables[1][space], self.tables[2 + space][page // 512], self.tables[leaf][page % 512])

    crowd_of = "pages of other directory indices"

    def crowd(self, space, page):
        return [512 * index for index in range(512) if index != page // 512]


class Hashed:
    """PowerPC: 1,024 groups of 8 entries of 2 words, found by a hash of segment and page."""

    def __init__(self):
        self.groups = [[[0, 0] for _ in range(8)] for _ in range(1024)]
        self.counter = 0
        self.marks = set()

    @staticmethod
    def places(space, page):
        vsid = 16 * space + page // 65536
        index = page % 65536
        primary = (vsid ^ index) & 1023
        first = 1 << 31 | vsid << 7 | index // 1024
        return vsid, [(primary, first), (primary ^ 1023, first | 64)]

    def slot(self, space, page):
        for group, first in self.places(space, page)[1]:
            for slot, entry in enumerate(self.groups[group]):
                if entry[0] == first:
                    return group, slot
        return None

    def forget(self, group, slot):
        second = self.groups[group][slot][1]
        if second & 128:
            self.marks.add(second >> 12)
        self.groups[group][slot] = [0, 0]

    def enter(self, space, page, frame, protection):
        old = self.slot(space, page)
        if old:
            self.forget(*old)
        candidates = self.places(space, page)[1]
        second = frame << 12 | (2 if protection == 3 else 3)
        for group, first in candidates:
            for slot in range(8):
                if not self.groups[group][slot][0] >> 31:
                    self.groups[group][slot] = [first, second]
                    return
        # nothing is wired here, so the slot at the counter is the first unwired one
        group, first = candidates[0]
        self.forget(group, self.counter)
        self.groups[group][self.counter] = [first, second]
        self.counter = (self.counter + 1) % 8

    def held(self, space, page):
        return self.slot(space, page) is not None

    def access(self, space, page, write):
        if not self.held(space, page):
            return None
        group, slot = self.slot(space, page)
        entry = self.groups[group][slot]
        if write and entry[1] & 3 != 2:
            return None
        entry[1] |= 256 | (128 if write else 0)
        return entry[1] >> 12

    def modified(self, frame):
        return frame in self.marks or any(
            entry[0] >> 31 and entry[1] & 128 and entry[1] >> 12 == frame for group in self.groups for entry in group)

    def title(self, space, page):
        vsid, ((primary, _), (secondary, _)) = self.places(space, page)
        return "PowerPC: VSID %d, groups %d and %d" % (vsid, primary, secondary)

    def words(self, space, page):
        at = self.slot(space, page)
        if at is None:
            return "  neither group has an entry"
        return "  words: %#x %#x in group %d, slot %d" % (*self.groups[at[0]][at[1]], *at)

    crowd_of = "pages of the same groups"

    def crowd(self, space, page):
        primary = self.places(space, page)[1][0][0]
        return [p for p in range(PAGES) if p != page and self.places(space, p)[1][0][0] == primary]


def yes(value):
    return "true" if value else "false"


def shown(board, space, page, frame, protection):
    board.enter(space, page, frame, protection)
    lines = [board.title(space, page), "  enter", board.words(space, page)]
    for name in ["read", "write"]:
        hit = board.access(space, page, name == "write")
        lines += ["  %s: %s" % (name, "miss" if hit is None else "hit, frame %d" % hit), board.words(space, page)]
    others = 0
    for other in board.crowd(space, page):
        if not board.held(space, page):
            break
        board.enter(space, other, frame ^ 1, 1)
        others += 1
    forgotten = not board.held(space, page)
    modified = board.modified(frame)
    lines += ["  crowd: %d %s; forgotten: %s" % (others, board.crowd_of, yes(forgotten)), board.words(space, page),
              "  frame %d modified: %s" % (frame, yes(modified))]
    return lines, forgotten, modified


def output(space, page, frame, protection):
    lines = ["space %d, page %d, frame %d, protection %d" % (space, page, frame, protection)]
    forgotten = modified = 0
    for board in [Radix(), Hashed()]:
        more, gone, told = shown(board, space, page, frame, protection)
        lines += more
        forgotten += gone
        modified += told
    lines.append("entered 1 place on 2 boards, crowded it out of %d, its frame is still modified on %d" % (forgotten, modified))
    return "".join(line + "\n" for line in lines)


if __name__ == "__main__":
    if len(sys.argv) == 5:
        print(output(*map(int, sys.argv[1:])), end="")
    else:
        with open("crates/boards/stdin") as given, open("crates/boards/stdout", "w") as wanted:
            wanted.write(output(*map(int, given.read().split())))
