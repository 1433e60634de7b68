#!/usr/bin/env python3
"""Writes what the program card has to print, from the listings of the reference program.

    card.py > crates/card/stdout

The calls of each check are written out below as traces. How an access went is read off the counts of two listings: that of the
trace up to the access, and that of the trace with it.
"""
import os
import sys

sys.dont_write_bytecode = True
HERE = os.path.dirname(os.path.abspath(__file__))
sys.path.insert(0, os.path.join(HERE, '..', 'reference'))

import build
import traces
from traces import file, record

FRAMES, PAGE, WORD, CROWD = 2, 16, 7, 24
MACHINES = ['x86-64', 'powerpc', 'pile']
REFERENCE = build.build()


def place(page, object, index):
    return record(traces.MAP, space=0, page=page, count=1, object=object, offset=index, protection=3)


def read(page):
    return record(traces.READ, space=0, page=page)


def write(page):
    return record(traces.WRITE, space=0, page=page, word=WORD)


CROWDING = [r for k in range(1, CROWD + 1) for r in (place(PAGE + 1024 * k, 1, 0), read(PAGE + 1024 * k))]
EVICTING = [place(0, 2, 0), place(1, 2, 1), read(0), read(1)]
WRITTEN = [place(PAGE, 0, 0), write(PAGE)] + CROWDING + [read(PAGE)] + EVICTING + [read(PAGE)]
WIRED = [place(PAGE, 0, 0), record(traces.WIRE, space=0, page=PAGE)] + CROWDING + [read(PAGE), write(PAGE)]


def evicted_at(position):
    steps = [write(PAGE), read(PAGE), record(traces.SYNC, object=0), read(PAGE)]
    return [place(PAGE, 0, 0)] + steps[:position] + EVICTING + steps[position:] + [read(PAGE)]


def block(records, machine):
    """The lines of one machine's block, and its counts by name."""
    listing = build.listing(REFERENCE, file(FRAMES, records))
    lines = listing.split('machine %s\n' % machine)[1].split('machine ')[0].splitlines()
    words = next(line for line in lines if line.startswith('accesses ')).split()
    return lines, dict(zip(words[::2], map(int, words[1::2])))


def way(records, machine, count):
    """How the last access of the first `count` records went."""
    before, after = block(records[:count - 1], machine)[1], block(records[:count], machine)[1]
    return next(said for name, said in [('hits', 'hit'), ('soft', 'soft fault'), ('hard', 'hard fault')] if after[name] > before[name])


def gives_word(records, machine, number):
    return 'read %d %d' % (number, WORD) in block(records, machine)[0]


def yes(test):
    return 'true' if test else 'false'


def check(machine):
    print(machine)
    crowded, last = len(WRITTEN) - 5, len(WRITTEN)
    print('  written, crowded by 24 places, read back:', way(WRITTEN, machine, crowded))
    print('  pushed out by two pages, read back:', way(WRITTEN, machine, last))
    kept = gives_word(WRITTEN, machine, crowded - 1) and gives_word(WRITTEN, machine, last - 1)
    print('  both times the word that was written:', yes(kept))
    touched = [way(WIRED, machine, len(WIRED) - 1), way(WIRED, machine, len(WIRED))]
    print('  wired, crowded by 24 places, read:', touched[0])
    print('  and written:', touched[1])
    runs = [evicted_at(position) for position in range(5)]
    times = sum(gives_word(run, machine, len(run) - 1) for run in runs)
    print('  pushed out at each of 5 positions around store and sync, word kept: %d times' % times)
    return kept and touched == ['hit', 'hit'] and times == 5


def main():
    good = all([check(machine) for machine in MACHINES])
    loads = [block(WRITTEN, machine)[1]['loads'] for machine in MACHINES]
    print('loads of one run on the three:', *loads)
    good = good and len(set(loads)) == 1
    print('carried out 4 checks on 3 machines: %s was lost' % ('nothing' if good else 'something'))


main()
