#!/usr/bin/env python3
"""Every cut of a small survey, found in another way than crates/cutter finds them: each set of places between units of 250 bytes is
a way to cut; those with a piece over 1,250 bytes fall out, and the rest is sorted.
Use: tools/cuts.py LENGTH    print a line for each cut; nothing for a length that has no list"""
import sys

UNIT, LARGEST, LONGEST = 250, 1250, 3000


def cuts(length):
    units = length // UNIT
    found = []
    for places in range(1 << (units - 1)):
        ends = [end for end in range(1, units) if places >> (end - 1) & 1] + [units]
        found.append([UNIT * (end - start) for start, end in zip([0] + ends, ends)])
    return sorted(sizes for sizes in found if max(sizes) <= LARGEST)


if __name__ == "__main__":
    asked = int(sys.argv[1])
    if asked % UNIT == 0 and UNIT <= asked <= LONGEST:
        for line in cuts(asked):
            print(*line)
