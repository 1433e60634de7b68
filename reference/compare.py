#!/usr/bin/env python3
"""Runs a replay program and the reference on random traces.

    compare.py PROGRAM [COUNT [SEED]]

Prints each trace on which they differ, a tally of what happened in all of
them, and a last line. Ends with status 1 if any differ. Traces that differ
are saved under target/differences.
"""

import collections
import os
import sys

sys.dont_write_bytecode = True

import build
import traces

SAVED = os.path.join(build.HERE, "target", "differences")


def show_difference(name, trace, seed, number, program, reference):
    os.makedirs(SAVED, exist_ok=True)
    path = os.path.join(SAVED, f"{seed}-{number}.trace")
    with open(path, "wb") as out:
        out.write(trace)
    ours, theirs = reference.splitlines(), program.splitlines()
    at = 0
    while at < len(ours) and at < len(theirs) and ours[at] == theirs[at]:
        at += 1
    machine = [line for line in ours[:at + 1] if line.startswith("machine")][-1:]
    print(f"{path} ({name}) differs at line {at + 1} {machine}")
    print("  program:   " + (theirs[at] if at < len(theirs) else "(ended)"))
    print("  reference: " + (ours[at] if at < len(ours) else "(ended)"))


class Tally:
    """What happened, read off the reference's listings."""

    def __init__(self):
        self.ways = collections.Counter()
        self.refusals = collections.Counter()
        self.outcomes = collections.defaultdict(collections.Counter)

    def add(self, name, text):
        self.ways[name] += 1
        machine = None
        for line in text.splitlines():
            words = line.split()
            if words[0] == "machine":
                machine = words[1]
            elif words[0] == "file":
                self.refusals[int(words[1])] += 1
            elif words[0] == "refused" and machine == "x86-64":
                self.refusals[int(words[2])] += 1
            elif words[0] == "accesses":
                for at in range(0, len(words), 2):
                    self.outcomes[machine][words[at]] += int(words[at + 1])
            elif words[0] in ("read", "dirty"):
                self.outcomes[machine][words[0] + " lines"] += 1

    def show(self):
        print("traces: " + ", ".join(f"{name} {count}" for name, count in sorted(self.ways.items())))
        print("refusals (once for all machines): "
              + ", ".join(f"{number}: {self.refusals[number]}" for number in range(1, 17)))
        for machine, counts in self.outcomes.items():
            print(f"{machine}: " + ", ".join(f"{name} {count}" for name, count in counts.items()))


def main():
    program = sys.argv[1]
    count = int(sys.argv[2]) if len(sys.argv) > 2 else 300
    seed = sys.argv[3] if len(sys.argv) > 3 else "1"
    reference = build.build()
    tally = Tally()
    differ = 0
    for number in range(count):
        name, trace = traces.make(seed, number)
        expected = build.listing(reference, trace)
        found = build.listing(program, trace)
        tally.add(name, expected)
        if found != expected:
            differ += 1
            show_difference(name, trace, seed, number, found, expected)
    tally.show()
    print(f"{count} traces, {differ} differ")
    sys.exit(1 if differ else 0)


if __name__ == "__main__":
    main()
