#!/usr/bin/env python3
"""What crates/soundness_values must write, by the model in soundness_model.py.
Use: tools/soundness_values.py > crates/soundness_values/stdout   (about a minute)"""
import sys

from soundness_model import *
out = []


def line(w, n):
    out.append('%s: %d' % (w, n))



def prefixes(b, role):
    return sum((sound(b[:k], role) for k in range(len(b) + 1)))

line('255s, role 1', sum((sound(b'\xff' * k, 1) for k in range(64742))))
for role in (1, 2, 3, 0):
    line('fresh stores of a length to 64741, role %d' % role, sum((1 for C in range(1, 46) if role in (1, 2) and sound(fresh(role, C), role))))
z = bytes(5400)
line('zeros, role 1', prefixes(z, 1))
line('zeros, role 0', prefixes(z, 0))
R1, R2, C1, C2 = (16, 344, 2640, 4020)


def received():
    b = fresh(1, 2)
    b[0:4] = bytes([3, 1, 2, 0])
    o = R1
    b[o] = 0
    b[o + 1] = 1
    b[o + 5] = 1
    b[o + 6] = 2
    b[o + 7] = 2
    b[o + 15] = 1
    b[o + 54] = 1
    b[o + 55] = 44
    b[o + 72] = 104
    b[o + 73] = 105
    o = R2
    b[o] = 0
    b[o + 1] = 2
    b[o + 5] = 2
    b[o + 7] = 1
    b[o + 15] = 2
    b[o + 55] = 250
    b[C1] = 0
    b[C1 + 1] = 1
    b[C1 + 2] = 1
    b[C1 + 3] = 44
    b[C2 + 3] = 250
    return b



def sent():
    b = fresh(2, 2)
    b[0] = 2
    b[1] = 1
    b[3] = 0
    o = R1
    b[o] = 0
    b[o + 1] = 3
    b[o + 2] = 1
    b[o + 3] = 1
    b[o + 5] = 1
    b[o + 7] = 2
    b[o + 54] = 5
    b[o + 55] = 21
    b[o + 63] = 9
    b[C1] = 2
    b[C1 + 2] = 5
    b[C1 + 3] = 20
    b[C1 + 11] = 9
    b[C1 + 12] = 1
    b[C2 + 1] = 1
    b[C2 + 3] = 1
    return b



def values(b, a, role):
    old = b[a]
    n = 0
    for v in range(256):
        b[a] = v
        n += sound(b, role)
    b[a] = old
    return n



def near(b, role):
    line('  sound', sound(b, role))
    line('  in the other role', sound(b, 3 - role))
    line('  prefixes', prefixes(b, role))
    out.append('  values of each head byte:' + ''.join((' %d' % values(b, k, role) for k in range(16))))
    line('  values of record 1', sum((values(b, k, role) for k in range(R1, R2))))
    line('  values of record 2', sum((values(b, k, role) for k in range(R2, 672))))
    line('  values of cell 1, its first 16 bytes', sum((values(b, k, role) for k in range(C1, C1 + 16))))
    line('  values of cell 2, its first 16 bytes', sum((values(b, k, role) for k in range(C2, C2 + 16))))

out.append('fresh, to receive')
near(fresh(1, 2), 1)
out.append('with an arriving and a whole record')
near(received(), 1)
out.append('with a leaving record')
near(sent(), 2)


def w(b, a, v, role):
    c = bytearray(b)
    c[a] = v
    return sound(c, role)

s = fresh(1, 2)
line('free record 8 leads to 1', w(s, 2312, 1, 1))
line('free record 1 leads to itself', w(s, R1, 1, 1))
line('free cell 2 leads to 1', w(s, C2, 1, 1))
s = received()
for t, a, v in [('a held record leads to itself', R1, 1), ('a whole record leads to itself', R2, 2), ('a held record leads to a whole one', R1, 2), ('a free record leads to a held one', 2312, 1), ('a piece leads to itself', C1, 1), ("a piece leads to another record's", C1, 2), ('two ids are one', R1 + 15, 2), ('a whole record is one slot larger', R2 + 7, 2), ('an arriving record is one slot larger', R1 + 7, 3), ('one byte of a free record is 1', 1000, 1), ('one byte past a piece is 1', C1 + 316, 1), ('one byte of a piece is 1', C1 + 315, 1)]:
    line(t, w(s, a, v, 1))


def store(role, C, records):
    """A store of records (kind, source, length, slots, sizes of the pieces), in the order of their places."""
    b = fresh(role, C)
    heads = {1: 1, 3: 1, 2: 2}
    used = 1
    last = {}
    for p, (kind, source, length, slots, sizes) in enumerate(records, 1):
        o = 16 + 328 * (p - 1)
        b[o:o + 328] = bytes(328)
        b[o + 1] = kind
        b[o + 7] = slots
        b[o + 15] = p
        b[o + 31] = source
        b[o + 48:o + 56] = length.to_bytes(8, 'big')
        b[last.get(kind, heads[kind])] = p
        last[kind] = o
        link = o + 5
        for index, n in enumerate(sizes):
            a = size(0) + 1380 * (used - 1)
            b[a:a + 4] = bytes([0, index]) + n.to_bytes(2, 'big')
            b[link] = used
            link = a
            used += 1
    b[0] = len(records) + 1
    b[3] = used if used <= C else 0
    return b


def arriving(source, n):
    return 1, source, 32500, 130, [0] * n


def splits(n, source):
    return sum(sound(store(1, 45, [arriving(1, k), arriving(source, n - k)]), 1) for k in range(n + 1))


def with_whole(n, source):
    return sound(store(1, 45, [arriving(1, n), arriving(1, 0), (2, source, 0, 1, [0])]), 1)


line('30 pieces of two records of a source', splits(30, 1))
line('31 pieces of two records of a source', splits(31, 1))
line('31 pieces of two sources', splits(31, 2))
line('45 pieces of two sources', splits(45, 2))
line("29 pieces, and a whole record's of the source", with_whole(29, 1))
line("30 pieces, and a whole record's of the source", with_whole(30, 1))
line("30 pieces, and a whole record's of another", with_whole(30, 2))
line('45 pieces of a source that leave', sound(store(2, 45, [(3, 1, 32500, 25, [1300] * 25), (3, 1, 26000, 20, [1300] * 20)]), 2))
sys.stdout.write('\n'.join(out) + '\n')
