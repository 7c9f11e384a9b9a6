"""The sound stores of docs/PROTOCOL.md, as an independent model in Python: sound(bytes, role) and fresh(role, cells)."""
HEAD, NREC, REC, CELL = (16, 8, 328, 1380)
MOST_OF_SOURCE = 30


def num(b):
    return int.from_bytes(b, 'big')



def size(C):
    return HEAD + NREC * REC + CELL * C



def fresh(role, C):
    b = bytearray(size(C))
    b[0] = 1
    b[3] = 1
    b[4] = 1
    b[5] = C
    b[6] = role
    for k in range(1, 9):
        b[HEAD + REC * (k - 1)] = k + 1 if k < 8 else 0
    for k in range(1, C + 1):
        b[size(0) + CELL * (k - 1)] = k + 1 if k < C else 0
    return b



def ceil(a, d):
    return -(-a // d)



def chain(b, p, row, n):
    out = []
    while p != 0:
        if not 1 <= p <= n or p in out:
            return None
        out.append(p)
        p = b[row(p)]
    return out



def sound(b, role):
    if len(b) < HEAD or role not in (1, 2):
        return False
    C = b[5]
    if not 1 <= C <= 45 or len(b) != size(C):
        return False
    if b[4] != 1 or b[6] != role or any(b[7:16]):
        return False
    rec = lambda p: HEAD + REC * (p - 1)
    cel = lambda p: size(0) + CELL * (p - 1)
    free = chain(b, b[0], rec, 8)
    held = chain(b, b[1], rec, 8)
    whole = chain(b, b[2], rec, 8)
    fc = chain(b, b[3], cel, C)
    if None in (free, held, whole, fc):
        return False
    if sorted(free + held + whole) != list(range(1, 9)):
        return False
    if role == 2 and whole:
        return False
    seen = list(fc)
    ids = []
    of_source = {}
    for p in free:
        if any(b[rec(p) + 1:rec(p) + REC]):
            return False
    for p in fc:
        if any(b[cel(p) + 1:cel(p) + CELL]):
            return False
    for kind, ps in ((1 if role == 1 else 3, held), (2, whole)):
        for p in ps:
            r = b[rec(p):rec(p) + REC]
            if r[1] != kind or r[2] > 1:
                return False
            if role == 1:
                if r[3] or r[4] or any(r[56:72]):
                    return False
            elif r[3] > 4 or r[4] > 1:
                return False
            if any(r[72 + r[6]:]):
                return False
            L = num(r[48:56])
            if L > 32500:
                return False
            slots = r[7]
            top = 0 if L == 0 else ceil(L, 250) - 1
            if not ceil(L, 1300) <= slots <= max(ceil(L, 1300), top + 1):
                return False
            ids.append(bytes(r[8:16]))
            cs = chain(b, r[5], cel, C)
            if cs is None:
                return False
            seen += cs
            source = bytes(r[16:32])
            of_source[source] = of_source.get(source, 0) + len(cs)
            last = -1
            tot = 0
            sizes = []
            for c in cs:
                w = b[cel(c):cel(c) + CELL]
                n = num(w[2:4])
                if n > 1364 or any(w[13:16]) or any(w[16 + n:]):
                    return False
                if not last < w[1] < slots:
                    return False
                last = w[1]
                tot += n
                sizes.append(n)
                if role == 1:
                    if any(w[4:12]) or w[12]:
                        return False
                elif w[12] > 2 or (w[12] != 1 and any(w[4:12])):
                    return False
            if kind != 1 and (len(cs) != slots or tot != L):
                return False
            if kind == 3 and sizes != [1300] * (L // 1300) + ([L % 1300] if L % 1300 else []):
                return False
    if role == 1 and any(n > MOST_OF_SOURCE for n in of_source.values()):
        return False
    return sorted(seen) == list(range(1, C + 1)) and len(set(ids)) == len(ids)



def record(b, p, kind, nxt, first, slots, ident, length, topic=b'', state=0, timed=0, reply=0, created=0, end=0):
    o = HEAD + REC * (p - 1)
    b[o:o + REC] = bytes([nxt, kind, reply, state, timed, first, len(topic), slots]) + ident.to_bytes(8, 'big') + bytes(range(1, 17)) + bytes(range(17, 33)) + length.to_bytes(8, 'big') + created.to_bytes(8, 'big') + end.to_bytes(8, 'big') + topic.ljust(256, b'\x00')



def cell(b, p, nxt, index, n, stamp=0, state=0, fill=7):
    o = size(0) + CELL * (p - 1)
    b[o:o + CELL] = bytes([nxt, index]) + n.to_bytes(2, 'big') + stamp.to_bytes(8, 'big') + bytes([state, 0, 0, 0]) + bytes([fill]) * n + bytes(1364 - n)
