#!/usr/bin/env python3
"""What crates/transfer and crates/message_values must write, computed by a model of the protocol (docs/PROTOCOL.md) that shares no
code with the library: dictionaries and lists, no byte stores; calendars are those of tools/calendar_model.py. Sums come from the b3sum program (Debian's package b3sum) where it is
installed, else from the short BLAKE3 below; `tools/message_model.py vectors crates/blake3_vectors/data/vectors.txt` checks both on
the published vectors.
Use: tools/message_model.py transfer > crates/transfer/stdout, and the same with message_values."""
import copy
import shutil
import struct
import subprocess
import sys

from calendar_model import daily, hours, weekly

ALWAYS = daily(0, 1440, 720)  # open all the time

# ---- sums

IV = (0x6A09E667, 0xBB67AE85, 0x3C6EF372, 0xA54FF53A, 0x510E527F, 0x9B05688C, 0x1F83D9AB, 0x5BE0CD19)
PLACES = (2, 6, 3, 10, 7, 0, 4, 13, 1, 11, 12, 5, 9, 14, 15, 8)
MIXES = ((0, 4, 8, 12), (1, 5, 9, 13), (2, 6, 10, 14), (3, 7, 11, 15), (0, 5, 10, 15), (1, 6, 11, 12), (2, 7, 8, 13), (3, 4, 9, 14))


def compress(chain, block, counter, size, flags):
    words = list(struct.unpack("<16I", block.ljust(64, b"\0")))
    v = list(chain) + list(IV[:4]) + [counter & 0xFFFFFFFF, counter >> 32, size, flags]
    for _ in range(7):
        for n, (a, b, c, d) in enumerate(MIXES):
            for word, right, left in ((words[2 * n], 16, 12), (words[2 * n + 1], 8, 7)):
                v[a] = (v[a] + v[b] + word) & 0xFFFFFFFF
                v[d] ^= v[a]
                v[d] = (v[d] >> right | v[d] << (32 - right)) & 0xFFFFFFFF
                v[c] = (v[c] + v[d]) & 0xFFFFFFFF
                v[b] ^= v[c]
                v[b] = (v[b] >> left | v[b] << (32 - left)) & 0xFFFFFFFF
        words = [words[p] for p in PLACES]
    return [v[i] ^ v[i + 8] for i in range(8)] + [v[i + 8] ^ chain[i] for i in range(8)]


def subtree(key, mode, data, counter):
    """The inputs of the last compression over the data: what the root's output and a chaining value are made of."""
    if len(data) <= 1024:
        blocks = [data[i:i + 64] for i in range(0, len(data), 64)] or [b""]
        chain, flags = key, mode | 1
        for block in blocks[:-1]:
            chain, flags = compress(chain, block, counter, 64, flags)[:8], mode
        return chain, blocks[-1], counter, len(blocks[-1]), flags | 2
    left = 1024
    while 2 * left < len(data):
        left *= 2
    parts = ((data[:left], counter), (data[left:], counter + left // 1024))
    both = [word for part, first in parts for word in compress(*subtree(key, mode, part, first))[:8]]
    return key, struct.pack("<16I", *both), 0, 64, mode | 4


def short_blake3(data, size=32, key=IV, mode=0):
    chain, block, _, length, flags = subtree(key, mode, data, 0)
    blocks = (compress(chain, block, i, length, flags | 8) for i in range(size // 64 + 1))
    return b"".join(struct.pack("<16I", *words) for words in blocks)[:size]


def keyed_hash(key, data, size=32):
    return short_blake3(data, size, struct.unpack("<8I", key), 16)


def derive_key(context, material, size=32):
    return short_blake3(material, size, struct.unpack("<8I", short_blake3(context, mode=32)), 64)


def blake3(data):
    if shutil.which("b3sum"):
        return bytes.fromhex(subprocess.run(["b3sum", "--no-names"], input=data, capture_output=True, check=True).stdout.decode().strip())
    return short_blake3(data)


# ---- packets

INIT, DONE, ABORTED, CHUNK, READ, REPLY, ACK = 0x80, 0x40, 0x20, 0x10, 0x08, 0x04, 0x01


def kind_of(flags):
    for mask in (INIT, CHUNK, DONE) if flags & ACK else (INIT, CHUNK, DONE, READ, ABORTED):
        if flags & mask:
            return mask
    return None


HEADER, INIT_FIELDS, CHUNK_FIELDS, DONE_BYTES = 12, 21, 36, 52
MOST_FRAME = 1400


def needed(frame):
    """How many bytes a packet needs, by those that came: no fewer than the bytes that say so."""
    if len(frame) < HEADER:
        return HEADER
    kind, is_ack = kind_of(frame[8]), frame[8] & ACK
    if kind == CHUNK:
        return CHUNK_FIELDS if is_ack or len(frame) < CHUNK_FIELDS else CHUNK_FIELDS + number(frame, 28)
    if is_ack or kind not in (INIT, DONE):
        return HEADER
    if kind == DONE:
        return DONE_BYTES
    return INIT_FIELDS if len(frame) < INIT_FIELDS else INIT_FIELDS + frame[20]


def header(key, flags):
    return key + bytes((flags, 0, 0, 0))


def init_packet(record):
    flags = INIT | (REPLY if record["reply"] else 0)
    return header(record["id"], flags) + struct.pack(">QB", record["length"], len(record["topic"])) + record["topic"]


def number(data, at):
    return int.from_bytes(data[at:at + 8], "big")


# ---- rules

def book(rules):
    """The first byte and the entries, or None where the rule book is malformed."""
    if not rules or rules[0] > 1:
        return None
    entries, rest = {}, rules[1:]
    while rest:
        size = rest[0]
        topic = rest[1:1 + size]
        if len(rest) < 2 + size or topic in entries:
            return None
        subnets, rest = rest[1 + size], rest[2 + size:]
        if len(rest) < 17 * subnets:
            return None
        entries[topic] = [(rest[17 * i:17 * i + 16], rest[17 * i + 16]) for i in range(subnets)]
        rest = rest[17 * subnets:]
        if any(bits > 128 for _, bits in entries[topic]):
            return None
    return rules[0], entries


def admitted(read, topic, source):
    first, entries = read
    if topic not in entries:
        return first == 0
    value = int.from_bytes(source, "big")
    return any(value >> (128 - bits) == int.from_bytes(address, "big") >> (128 - bits) for address, bits in entries[topic])


# ---- stores

def fresh(role, cells):
    return {"role": role, "cells": cells, "held": {}, "whole": []}


MOST_OF_SOURCE = 30


def records(store):
    return list(store["held"].values()) + store["whole"]


def cells_from(store, source):
    """The cells that arriving and whole records of a source hold."""
    return sum(len(r["pieces"]) for r in records(store) if r["source"] == source)


def sound(store, role):
    """Whether the store is one, in its role; and, where it is to receive, no source holds too many cells."""
    if store.get("role") != role:
        return False
    return role == 2 or all(cells_from(store, r["source"]) <= MOST_OF_SOURCE for r in records(store))


def free_records(store):
    return 8 - len(records(store))


def free_cells(store):
    return store["cells"] - sum(len(r["pieces"]) for r in records(store))


def setup(size, role):
    cells, rest = divmod(size - 16 - 8 * 328, 1380)
    if rest or not 1 <= cells <= 45 or role not in (1, 2):
        return 25, None
    return 0, fresh(role, cells)


def slots_of(length):
    return -(-length // 1300)


def top_of(length):
    return -(-length // 250) - 1 if length else 0


# ---- calls: each gives the answer's number, its run as a list of (from, to, packet), and the wake mark

def packet(recv, send, frame, source, to, rules, known, room=86):
    if not sound(recv, 1) or not sound(send, 2):
        return 25, [], 0
    if not 1 <= len(frame) <= MOST_FRAME:
        return 1, [], 0
    if len(frame) < needed(frame):
        return 27, [], 0
    key, flags = frame[:8], frame[8]
    kind = kind_of(flags)
    if kind is None:
        return 20, [], 0
    if room < 86:
        return 2, [], 0
    if flags & ACK:
        refusal = acknowledge(send, key, kind, frame)
    elif kind == INIT:
        refusal = init(recv, frame, source, to, rules)
    elif kind == CHUNK:
        refusal = chunk(recv, frame)
    elif kind == DONE:
        refusal = done(recv, frame, known)
    elif kind == READ:
        refusal = advance(send, key, 2, 3)
    else:
        refusal = 0 if recv["held"].pop(key, None) else 8
    if refusal:
        return refusal, [], 0
    if flags & ACK:
        return 0, [], int(kind in (INIT, CHUNK))
    kept = {INIT: INIT_FIELDS, CHUNK: CHUNK_FIELDS, DONE: DONE_BYTES}.get(kind)
    if not kept:
        return 0, [], 0
    return 0, [(to, source, frame[:8] + bytes((flags | ACK,)) + frame[9:kept])], 0


def init(recv, frame, source, to, rules):
    key, reply, length = frame[:8], frame[8] & REPLY, number(frame, 12)
    topic = frame[21:21 + frame[20]]
    if not reply:
        read = book(rules)
        if read is None:
            return 3
        if not admitted(read, topic, source):
            return 4
    if any(r["id"] == key for r in recv["whole"]):
        return 5
    if length > 32500:
        return 6
    if key not in recv["held"] and not free_records(recv):
        return 7
    said = {"source": source, "destination": to, "length": length, "topic": topic, "reply": bool(reply)}
    arriving = recv["held"].get(key)
    if arriving is None or any(arriving[five] != said[five] for five in said):
        recv["held"][key] = {"id": key, **said, "slots": slots_of(length), "pieces": {}}
    return 0


def chunk(recv, frame):
    record = recv["held"].get(frame[:8])
    if not record:
        return 8
    index, offset, size = number(frame, 12), number(frame, 20), min(number(frame, 28), 1364)
    if offset + size > record["length"]:
        return 9
    if index > top_of(record["length"]):
        return 10
    if size < 250 and index != top_of(record["length"]) and offset + size != record["length"]:
        return 11
    if index not in record["pieces"] and cells_from(recv, record["source"]) >= MOST_OF_SOURCE:
        return 28
    if index not in record["pieces"] and not free_cells(recv):
        return 12
    record["pieces"][index] = frame[36:36 + size]
    record["slots"] = max(record["slots"], index + 1)
    return 0


def done(recv, frame, known):
    record = recv["held"].get(frame[:8])
    if not record:
        return 8
    pieces = record["pieces"]
    if number(frame, 12) != record["slots"]:
        return 13
    if any(i not in pieces for i in range(record["slots"])):
        return 14
    if sum(map(len, pieces.values())) != record["length"]:
        return 15
    if blake3(b"".join(pieces[i] for i in sorted(pieces))) != frame[20:52]:
        return 16
    if not known:
        return 17
    recv["whole"].append(recv["held"].pop(frame[:8]))
    return 0


def advance(send, key, before, after):
    record = send["held"].get(key)
    if not record:
        return 8
    if record["state"] != before:
        return 18
    record["state"] = after
    return 0


def acknowledge(send, key, kind, frame):
    if kind == INIT:
        return advance(send, key, 0, 1)
    if kind == DONE:
        return advance(send, key, 1, 2)
    record = send["held"].get(key)
    if not record:
        return 8
    if record["state"] != 1:
        return 18
    index = number(frame, 12)
    if index >= len(record["pieces"]):
        return 19
    record["pieces"][index].update(mark="acked", stamp=0)
    return 0


def push(send, key, reply, source, to, topic, data, created, tries, room=310):
    if not sound(send, 2):
        return 25, [], 0
    if room < 310:
        return 2, [], 0
    if len(topic) > 255:
        return 21, [], 0
    if len(data) > 32500:
        return 6, [], 0
    if created + tries >= 2 ** 64:
        return 24, [], 0
    if key in send["held"]:
        return 22, [], 0
    if not free_records(send):
        return 7, [], 0
    pieces = [{"data": data[i:i + 1300], "mark": "started", "stamp": 0} for i in range(0, len(data), 1300)]
    if free_cells(send) < len(pieces):
        return 12, [], 0
    record = {"id": key, "reply": bool(reply), "source": source, "destination": to, "topic": topic, "length": len(data), "state": 0, "late": False,
              "created": created, "end": created + tries, "pieces": pieces}
    send["held"][key] = record
    return 0, [(source, to, init_packet(record))], 0


MOST = 8  # piece packets of a wake
SEND_ROOM = MOST * (2 + 32 + 36 + 1300)


def wake(send, kind, key, clock, calendar=ALWAYS, unix_ms=0, room=SEND_ROOM):
    """An answer, and how many piece packets were sent."""
    if not sound(send, 2):
        return 25, [], 0
    if kind not in (1, 2):
        return 20, [], 0
    if kind == 1 and hours(calendar, unix_ms) == "M":
        return 26, [], 0
    if room < (SEND_ROOM if kind == 1 else 46):
        return 2, [], 0
    record = send["held"].get(key)
    if not record:
        return 8, [], 0
    if kind == 1 and hours(calendar, unix_ms) == "S":
        return 0, [], 0
    packets, pieces = sent(record, clock) if kind == 1 else (deadline(send, record), 0)
    return 0, [(record["source"], record["destination"], p) for p in packets], 0, pieces


def sent(record, clock):
    """The packets of a send wake, and how many of them are pieces."""
    if record["late"]:
        return [], 0
    if record["state"] == 0:
        return [init_packet(record)], 0
    if record["state"] != 1:
        return [], 0
    pieces, out = record["pieces"], []
    if all(p["mark"] == "acked" for p in pieces):
        sum_of = blake3(b"".join(p["data"] for p in pieces))
        return [header(record["id"], DONE) + struct.pack(">Q", len(pieces)) + sum_of], 0
    started = [i for i, p in enumerate(pieces) if p["mark"] == "started"]
    due = [i for i, p in enumerate(pieces) if p["mark"] == "sent" and clock - p["stamp"] >= 100]
    for index in (started + sorted(due, key=lambda i: (pieces[i]["stamp"], i)))[:MOST]:
        piece = pieces[index]
        piece.update(mark="sent", stamp=clock)
        out.append(header(record["id"], CHUNK) + struct.pack(">QQQ", index, 1300 * index, len(piece["data"])) + piece["data"])
    return out, len(out)


def deadline(send, record):
    if record["late"]:
        del send["held"][record["id"]]
        return []
    record["late"] = True
    if record["state"] > 1:
        return []
    record["state"] = 4
    return [header(record["id"], ABORTED)]


def report(send, key, room=44):
    """The number and the report's fields."""
    if not sound(send, 2):
        return 25, None
    if room < 44:
        return 2, None
    record = send["held"].get(key)
    if not record:
        return 8, None
    counts = [sum(p["mark"] == mark for p in record["pieces"]) if record["state"] == 1 else 0 for mark in ("started", "sent", "acked")]
    return 0, (record["destination"], record["state"], *counts, record["created"] // 1000, record["end"] // 1000, record["length"])


def take(recv, data_room=32828, room=46):
    """An answer, and the record that was taken."""
    if not sound(recv, 1):
        return 25, [], 0, None
    if not recv["whole"]:
        return 23, [], 0, None
    record = recv["whole"][0]
    if data_room < 328 + record["length"] or room < 46:
        return 2, [], 0, None
    recv["whole"].pop(0)
    return 0, [(record["destination"], record["source"], header(record["id"], READ))], 0, record


def run_bytes(run):
    return sum(34 + len(p) for _, _, p in run)


def said(number, run, mark, pieces=0):
    return f": {number}, run {run_bytes(run)}, wake {mark}, pieces {pieces}"


# ---- crates/transfer

TABLET, OFFICE = bytes((4,)) + bytes(14) + bytes((1,)), bytes((5,)) + bytes(14) + bytes((2,))
NAMES = {TABLET: "tablet", OFFICE: "office"}
RULES = b"\x01\x05ducts\x01" + bytes((4,)) + bytes(15) + bytes((32,))


def fields(p):
    if p[8] & INIT:
        return f", length {number(p, 12)}, topic of {p[20]}"
    if p[8] & CHUNK:
        return f", index {number(p, 12)}, offset {number(p, 20)}, size {number(p, 28)}"
    if p[8] & DONE:
        return f", count {number(p, 12)}, sum {p[20:28].hex()}"
    return ""


def arrive(node, source, to, p):
    print(f"{NAMES[source]} to {NAMES[to]}: {len(p)} bytes, id {number(p, 0)}, flags {p[8]:02x}{fields(p)}")
    answer = packet(node["recv"], node["send"], p, source, to, RULES, 1)
    print("  packet" + said(*answer))
    return answer[1]


def deliver(nodes, run):
    for entry in run:
        for back in arrive(nodes[OFFICE], *entry):
            arrive(nodes[TABLET], *back)


def show_report(nodes, key):
    refusal, told = report(nodes[TABLET]["send"], key)
    line = "report" + said(refusal, [], 0)
    if told:
        names = ("state", "started", "sent", "acked", "created", "end", "length")
        line += f", to {NAMES[told[0]]}" + "".join(f", {name} {n}" for name, n in zip(names, told[1:]))
    print(line)


def wakes(nodes, key, start):
    for clock in range(start, start + 700, 100):
        answer = wake(nodes[TABLET]["send"], 1, key, clock)
        print(f"wake 1 at {clock}" + said(*answer))
        if not answer[1]:
            return
        deliver(nodes, answer[1])


def whole(nodes, n, reply, length):
    key, data = n.to_bytes(8, "big"), bytes((7 * i + n) % 251 for i in range(length))
    print(f"message {n} of {length} bytes")
    answer = push(nodes[TABLET]["send"], key, reply, TABLET, OFFICE, b"ducts", data, 5999, 30001)
    print("push" + said(*answer))
    deliver(nodes, answer[1])
    show_report(nodes, key)
    wakes(nodes, key, 6000)
    show_report(nodes, key)
    *answer, record = take(nodes[OFFICE]["recv"])
    line = "take" + said(*answer)
    if record:
        same = b"".join(record["pieces"][i] for i in sorted(record["pieces"])) == data
        line += f", id {number(record['id'], 0)}, reply {int(record['reply'])}, length {record['length']}, topic of {len(record['topic'])}"
        line += ", as pushed" if same else ", NOT as pushed"
    print(line)
    for entry in answer[1]:
        arrive(nodes[TABLET], *entry)
    show_report(nodes, key)


def deadline_at(nodes, key, clock):
    answer = wake(nodes[TABLET]["send"], 2, key, clock)
    print(f"wake 2 at {clock}" + said(*answer))
    deliver(nodes, answer[1])
    show_report(nodes, key)
    return answer[1]


def transfer():
    nodes = {}
    for address in (TABLET, OFFICE):
        nodes[address] = {}
        for role, name in ((1, "recv"), (2, "send")):
            refusal, nodes[address][name] = setup(64740, role)
            print(f"setup {role}" + said(refusal, [], 0))
    for n, length in enumerate((0, 1, 1300, 1550, 32500, 1301), 1):
        whole(nodes, n, n == 4, length)
    print("message 7 of 4 bytes, of which only the init comes")
    key = (7).to_bytes(8, "big")
    answer = push(nodes[TABLET]["send"], key, 0, TABLET, OFFICE, b"ducts", b"late", 5999, 30001)
    print("push" + said(*answer))
    deliver(nodes, answer[1])
    show_report(nodes, key)
    for entry in deadline_at(nodes, key, 305999):
        arrive(nodes[OFFICE], *entry)
    wakes(nodes, key, 305999)
    deadline_at(nodes, key, 605999)
    deadline_at(nodes, key, 605999)


# ---- crates/message_values: stores of 25 cells, and of 45 where cells are counted by source

NEAR, FAR, THIRD = b"\x11" * 16, b"\x22" * 16, b"\x33" * 16
OPEN = b"\0"


def keyed(n):
    return n.to_bytes(8, "big")


def frame(n, flags, first=0, second=0, third=0):
    return (header(keyed(n), flags) + struct.pack(">QQQ", first, second, third)).ljust(MOST_FRAME, b"\0")


def done_frame(n, data):
    return (header(keyed(n), DONE) + struct.pack(">Q", len(data)) + blake3(data)).ljust(MOST_FRAME, b"\0")


class Bench:
    """Two stores, and a line for each call on them."""

    def __init__(self, held=False, cells=25):
        self.recv, self.send = fresh(1, cells), fresh(2, cells)
        if held:
            self.quiet(frame(1, INIT, 300))
            self.pushed(1)
            self.quiet(frame(1, INIT | ACK))

    def line(self, what, call):
        before = copy.deepcopy((self.recv, self.send))
        answer = call()
        print(what + said(*answer) + ", store " + ("kept" if before == (self.recv, self.send) else "changed"))
        return answer[0]

    def arrives(self, f, rules=OPEN, known=1, room=86, sender=NEAR):
        return packet(self.recv, self.send, f, sender, FAR, rules, known, room)

    def quiet(self, f, sender=NEAR):
        self.arrives(f, sender=sender)

    def pushed(self, n):
        push(self.send, keyed(n), 0, FAR, NEAR, b"t", b"\x07" * 300, 0, 0)

    def packet(self, what, f, **others):
        self.line(what, lambda: self.arrives(f, **others))

    def push(self, what, n, topic, data, created=0, tries=0, room=310):
        self.line(what, lambda: push(self.send, keyed(n), 0, FAR, NEAR, topic, data, created, tries, room))

    def wake(self, what, kind, n, **others):
        self.line(what, lambda: wake(self.send, kind, keyed(n), 1000, **others))

    def report(self, what, n, room=44):
        self.line(what, lambda: (report(self.send, keyed(n), room)[0], [], 0))

    def take(self, what, data_room=400, room=46):
        self.line(what, lambda: take(self.recv, data_room, room)[:3])


def values():
    b = Bench()
    for n, length in ((1, 250), (2, 251)):
        b.packet(f"init of {length}", frame(n, INIT, length))
        b.packet("  index 0, offset 0, size 249", frame(n, CHUNK, 0, 0, 249))
    b = Bench()
    for length in (256, 255):
        b.push(f"push, topic of {length}", 1, b"t" * length, b"")


def cut(b, f, *lengths, **others):
    """Of a frame and a byte behind it, so many come in."""
    for n in lengths:
        b.packet(f"  frame of {n}", (f + b"\xee")[:n], **others)


def followed(f, n):
    """A frame whose bytes from n on are no part of its packet."""
    return f[:n].ljust(MOST_FRAME, b"\xee")


def ready():
    """Message 1 arrives with 300 bytes and leaves in state 1, 2 arrives with none, 3 leaves in state 0 and 4 in state 2."""
    b = Bench(True)
    b.quiet(frame(2, INIT))
    b.pushed(3)
    b.pushed(4)
    b.quiet(frame(4, INIT | ACK))
    b.quiet(frame(4, DONE | ACK))
    return b


def frames():
    """Every length near a bound; what each kind needs; size fields; the refusals before 1 and 27, and behind them."""
    most = 2 ** 64 - 1
    for what, f, n in (("init", frame(5, INIT, 300), 21), ("chunk, size 0", frame(1, CHUNK, 1, 300), 36), ("done", done_frame(2, b""), 52),
                       ("ack chunk", frame(1, CHUNK | ACK), 36), ("no kind", frame(1, 2), 12)):
        print(what)
        cut(ready(), followed(f, n), 0, 1, 11, 12, 20, 21, 35, 36, 51, 52, 1399, 1400, 1401)
    for what, f, n in (
            ("init, topic of 5", frame(5, INIT, 300, 0x0574 << 48), 26), ("chunk, size 250", frame(1, CHUNK, 0, 0, 250), 286),
            ("done", done_frame(2, b""), 52), ("read", frame(4, READ), 12), ("aborted", frame(1, ABORTED), 12), ("ack init", frame(3, INIT | ACK), 12),
            ("ack chunk, size 2^64 - 1", frame(1, CHUNK | ACK, 0, 0, most), 36), ("ack done", frame(1, DONE | ACK), 12),
            ("ack init and chunk", frame(3, INIT | CHUNK | ACK), 12), ("ack chunk and done", frame(1, CHUNK | DONE | ACK), 36),
            ("chunk and done, size 250", frame(1, CHUNK | DONE, 0, 0, 250), 286), ("init and chunk", frame(5, INIT | CHUNK), 21),
            ("read and aborted", frame(4, READ | ABORTED), 12)):
        print(what)
        cut(ready(), followed(f, n), n - 1, n)
        cut(ready(), followed(f, n), n + 1)
    b = Bench()
    b.quiet(frame(5, INIT, 1400))
    for what, size in (("2^64 - 1", most), ("2^64 - 36", 2 ** 64 - 36), ("2^64 - 37", 2 ** 64 - 37), ("1365", 1365), ("1364", 1364), ("1363", 1363)):
        print(f"chunk, size {what}")
        cut(b, followed(frame(5, CHUNK, 0, 0, size), 36), 36, 1399, 1400)
    for store in ("receive", "send"):
        print(f"init, bad {store} store")
        b = Bench()
        b.recv, b.send = ({}, b.send) if store == "receive" else (b.recv, {})
        cut(b, frame(1, INIT, 1), 0, 11, 1401)
    b = Bench()
    print("chunk, size 2^64 - 1")
    cut(b, frame(1, CHUNK, 0, 0, most), 0, 11, 1401)
    print("init, run of 85")
    cut(b, frame(1, INIT, 1), 0, 1, 20, 21, room=85)
    print("no kind, run of 85")
    cut(b, frame(1, 0), 11, 12, room=85)
    print("init, malformed rules")
    cut(b, frame(1, INIT, 1), 20, 21, rules=b"\x02")
    print("chunk of an unknown id, size 250")
    cut(b, frame(1, CHUNK, 0, 0, 250), 285, 286)


def flags(what, held, length=MOST_FRAME):
    counts = {}
    for f in range(256):
        refusal = Bench(held).arrives(frame(1, f)[:length])[0]
        counts[refusal] = counts.get(refusal, 0) + 1
    print(what + "".join(f" {counts[n]} x {n}" for n in sorted(counts)))


def rooms():
    b = Bench()
    for room in (85, 86):
        b.packet(f"packet, run of {room}", frame(1, INIT, 1), room=room)
    for room in (309, 310):
        b.push(f"push, run of {room}", 1, b"t", b"x", room=room)
    b = Bench(True)
    for kind, room in ((1, SEND_ROOM - 1), (1, SEND_ROOM), (2, 45), (2, 46)):
        b.wake(f"wake {kind}, run of {room}", kind, 1, room=room)
    b = Bench(True)
    for room in (43, 44, 60):
        b.report(f"report of {room}", 1, room)
    b.report("report on an unknown id", 2, 60)
    b = Bench()
    for f in (frame(1, INIT, 1), frame(1, CHUNK, 0, 0, 1), done_frame(1, b"\0")):
        b.quiet(f)
    b.take("take, data of 328", 328)
    b.take("take, run of 45", 329, 45)
    b.take("take, data of 329, run of 46", 329)
    b.take("take, none whole", 329)


def stores():
    for what in ("of zeros", "of 255s", "in each other's place"):
        print("stores " + what)
        b = Bench()
        b.recv, b.send = (b.send, b.recv) if what.startswith("in") else ({}, {})
        b.packet("  packet", frame(1, INIT, 1))
        b.push("  push", 1, b"t", b"x")
        b.wake("  wake 1", 1, 1)
        b.wake("  wake 1, no calendar", 1, 1, calendar=b"")
        b.wake("  wake 2", 2, 1)
        b.report("  report", 1)
        b.take("  take")
    b = Bench()
    b.send = {}
    b.packet("packet, bad send store", frame(1, INIT, 1))
    b = Bench()
    b.recv = {}
    b.packet("packet, bad receive store", frame(1, INIT, 1))
    for size, role in ((37140, 0), (37140, 3), (37140, 1), (37140, 2), (2640, 1), (4019, 1), (4021, 1), (4020, 1)):
        refusal, made = setup(size, role)
        print(f"setup {role} of {size}" + said(refusal, [], 0) + ", store " + ("changed" if made else "kept"))


def sends():
    b = Bench()
    b.push("push of 32501", 1, b"t", b"\x07" * 32501)
    b.push("push of 32500", 1, b"t", b"\x07" * 32500)
    b.push("push of 1, no cell free", 2, b"t", b"x")
    b.push("push of 0, no cell free", 3, b"t", b"")
    b.push("push of an id in use", 1, b"t", b"")
    b, most = Bench(), 2 ** 64 - 1
    b.push("push, created + try is 2^64", 1, b"t", b"x", most, 1)
    b.push("push, created and try are 2^64 - 1", 1, b"t", b"x", most, most)
    b.push("push, created + try is 2^64 - 1", 1, b"t", b"x", most - 1, 1)
    b.report("report on it", 1)
    b = Bench()
    for n in range(8):
        b.pushed(n)
    b.push("push of a ninth message", 9, b"t", b"")
    b = Bench()
    b.pushed(1)
    for what, kind, n in (("0", 0, 1), ("3", 3, 1), ("1 of an unknown id", 1, 2), ("2 of an unknown id", 2, 2), ("1, state 0", 1, 1),
                          ("2, the first", 2, 1), ("1, timed out", 1, 1), ("2, the second", 2, 1), ("2, the third", 2, 1)):
        b.wake("wake " + what, kind, n)


def eight():
    """Of ten whole pieces: which go, in which order, and when they want sending again."""
    def ten():
        b = Bench()
        push(b.send, keyed(1), 0, FAR, NEAR, b"t", b"\x07" * 13000, 0, 0)
        b.quiet(frame(1, INIT | ACK))
        return b

    def wakes_at(b, what, clock):
        refusal, run, _, pieces = wake(b.send, 1, keyed(1), clock)
        indices = "".join(f" {number(p, 12)}" for _, _, p in run)
        print(f"{what}, wake at {clock}: {refusal}, run {run_bytes(run)}, pieces {pieces}{indices}")

    b, last = ten(), 2 ** 64 - 1
    for what, clock in (("ten Started", 1000), ("two Started", 1000), ("none due", 1099), ("ten due", 1100), ("two due", 1100)):
        wakes_at(b, what, clock)
    b.quiet(frame(1, CHUNK | ACK, 0))
    for what, clock in (("nine due", 1200), ("nine due, piece 9 the oldest", 1300), ("one due", 1300), ("none due", 1399), ("nine due", last),
                        ("one due", last), ("none due", last), ("none due, the clock gone back", 0)):
        wakes_at(b, what, clock)
    b = ten()
    for what, clock in (("ten Started", 0), ("two Started, eight due", 100), ("two due", 100), ("none due", 199), ("ten due", 200)):
        wakes_at(b, what, clock)


def sending_hours():
    ten, hour = 36_000_000, 3_600_000  # of Thursday 1 January 1970
    thursdays = weekly(3, 600, 660, 720)
    b = Bench(True)
    for what, kind, n, calendar, room in (
            ("wake 1, no calendar", 1, 1, b"", SEND_ROOM), ("wake 1, calendar of 30", 1, 1, thursdays[:30], SEND_ROOM),
            ("wake 0, no calendar", 0, 1, b"", SEND_ROOM), ("wake 1, no calendar, run of 10959", 1, 1, b"", 10959),
            ("wake 1, no calendar, unknown id", 1, 2, b"", SEND_ROOM)):
        b.wake(what, kind, n, calendar=calendar, unix_ms=ten, room=room)
    b.wake("wake 1, shut, run of 10959", 1, 1, calendar=thursdays, room=10959)
    b.wake("wake 1, shut, unknown id", 1, 2, calendar=thursdays)
    b.wake("wake 2, no calendar, run of 45", 2, 1, calendar=b"", room=45)
    b.wake("wake 2, no calendar, unknown id", 2, 2, calendar=b"")
    b.wake("wake 2, no calendar", 2, 1, calendar=b"")
    b = Bench(True)
    for what, ms in (("before 10", ten - 1), ("from 11 on", ten + hour), ("on Friday", ten + 24 * hour), ("until 11", ten + hour - 1)):
        b.wake("wake 1 " + what, 1, 1, calendar=thursdays, unix_ms=ms)
    Bench(True).wake("wake 1 at 10", 1, 1, calendar=thursdays, unix_ms=ten)
    b = Bench(True)
    b.wake("wake 1 at 2^64 - 1", 1, 1, unix_ms=2 ** 64 - 1)
    b.wake("wake 2 from 11 on", 2, 1, calendar=thursdays, unix_ms=ten + hour)


def inits():
    b = Bench()
    for what, rules in (("malformed rules", b"\x02"), ("no rules", b""), ("closed topic", b"\x01")):
        b.packet("init, " + what, frame(1, INIT, 1), rules=rules)
    for what, rules in (("malformed rules", b"\x02"), ("closed topic", b"\x01")):
        b.packet("reply init, " + what, frame(1, INIT | REPLY, 1), rules=rules)
    b.packet("init of 32501", frame(2, INIT, 32501))
    b.packet("init of 32500", frame(2, INIT, 32500))
    b = Bench()
    for n in range(8):
        b.quiet(frame(n, INIT, 1))
    b.packet("init of a ninth message", frame(8, INIT, 1))
    b.packet("the same init of a held id", frame(7, INIT, 1))
    b.packet("another init of a held id", frame(7, INIT, 2))


def repeats():
    """Inits behind piece 1 of a message of 500 bytes, which has two slots then: a done that counts 2 tells."""
    def started():
        b = Bench()
        b.quiet(frame(1, INIT, 500))
        b.quiet(frame(1, CHUNK, 1, 250, 250))
        return b

    def slots(b):
        b.packet("  done, count 2", frame(1, DONE, 2))

    b = started()
    b.packet("init again behind a piece", frame(1, INIT, 500))
    slots(b)
    odd = bytearray(frame(1, 0xFA, 500))
    odd[9:12] = 1, 2, 3
    b.packet("  other flags, bytes 9 to 11", bytes(odd))
    slots(b)
    for what, rules in (("malformed rules", b"\x02"), ("closed topic", b"\x01")):
        b.packet("  " + what, frame(1, INIT, 500), rules=rules)
    slots(b)
    for what, other in (("another length", frame(1, INIT, 501)), ("another topic", frame(1, INIT, 500, 0x0174 << 48)),
                        ("a reply", frame(1, INIT | REPLY, 500))):
        b = started()
        b.packet("init of " + what, other)
        slots(b)


def chunks():
    b = Bench()
    b.quiet(frame(1, INIT, 1300))
    b.packet("chunk of an unknown id", frame(2, CHUNK, 0, 0, 250))
    b.packet("chunk, offset 1, size 1300", frame(1, CHUNK, 0, 1, 1300))
    b.packet("chunk, offset 2^64 - 1, size 1", frame(1, CHUNK, 0, 2 ** 64 - 1, 1))
    b.packet("chunk, index 6", frame(1, CHUNK, 6, 0, 250))
    b.packet("chunk, index 4, size 249", frame(1, CHUNK, 4, 0, 249))
    b.packet("chunk, index 5, offset 1300, size 0", frame(1, CHUNK, 5, 1300, 0))
    b.packet("the same again", frame(1, CHUNK, 5, 1300, 0))
    b = Bench()
    b.quiet(frame(1, INIT, 1300))
    for index, offset, size in ((4, 1050, 249), (4, 1051, 249), (4, 1052, 249), (6, 1051, 249), (3, 1300, 0), (3, 1299, 0)):
        b.packet(f"chunk, index {index}, offset {offset}, size {size}", frame(1, CHUNK, index, offset, size))
    b = Bench()
    b.quiet(frame(1, INIT, 32500))
    for i in range(25):
        b.quiet(frame(1, CHUNK, i, 0, 250))
    b.packet("chunk at a new index, no cell free", frame(1, CHUNK, 25, 0, 250))
    b.packet("chunk that ends the message, no cell free", frame(1, CHUNK, 25, 32499, 1))
    b.packet("chunk at a held index, no cell free", frame(1, CHUNK, 24, 0, 251))
    b.packet("init again, no cell free", frame(1, INIT, 32500))
    b.packet("init of 32499", frame(1, INIT, 32499))
    b.packet("chunk at a new index", frame(1, CHUNK, 25, 0, 250))


def full_source(n=30):
    """A message of 32,500 bytes from NEAR with n pieces, and one without."""
    b = Bench(cells=45)
    for key, pieces in ((1, n), (2, 0)):
        b.quiet(frame(key, INIT, 32500))
        for i in range(pieces):
            b.quiet(frame(key, CHUNK, i, 0, 250))
    return b


def sources():
    """At the limit of a source and below it; the row's place; two sources; whole records; cells given back; the store unsound."""
    def chunk_of(b, what, key, index, offset=0, size=250, **others):
        b.packet(what, frame(key, CHUNK, index, offset, size), **others)

    b = full_source(29)
    chunk_of(b, "chunk, 29 cells of its source", 1, 29)
    chunk_of(b, "chunk, 30 cells of its source", 1, 30)
    chunk_of(b, "  of another id", 2, 0)
    chunk_of(b, "  of no bytes", 1, 129, 32500, 0)
    chunk_of(b, "  at a held index", 1, 29, 0, 251)
    b = full_source(29)
    chunk_of(b, "chunk of no bytes, 29 cells of its source", 1, 129, 32500, 0)
    chunk_of(b, "chunk, one of 30 cells without bytes", 1, 30)
    for what, key, index, offset, size in (("of an unknown id", 3, 30, 0, 250), ("past the end", 1, 30, 32500, 250), ("at a high index", 1, 130, 0, 250),
                                           ("of 249 bytes", 1, 30, 0, 249)):
        chunk_of(b, f"  {what}", key, index, offset, size)
    b = full_source()
    chunk_of(b, "chunk from another sender, 30 cells of its source", 1, 30, sender=THIRD)
    b.packet("init from another source", frame(3, INIT, 32500), sender=THIRD)
    chunk_of(b, "  its chunk from a sender with 30 cells", 3, 0)
    for i in range(1, 14):
        b.quiet(frame(3, CHUNK, i, 0, 250))
    chunk_of(b, "  the last free cell", 3, 14)
    chunk_of(b, "  no cell free", 3, 15)
    chunk_of(b, "  no cell free, 30 cells of its source", 1, 30)
    chunk_of(b, "  the same at a held index", 1, 0, 0, 251)
    b = full_source(28)
    for key in (3, 4):
        b.quiet(frame(key, INIT, 1))
        b.quiet(frame(key, CHUNK, 0, 0, 1))
        b.quiet(done_frame(key, b"\0"))
    chunk_of(b, "chunk, 30 cells of its source, 2 of them whole", 1, 28)
    b.take("  take")
    chunk_of(b, "  29 cells, 1 of them whole", 1, 28)
    chunk_of(b, "  30 cells, 1 of them whole", 1, 29)
    b = full_source()
    chunk_of(b, "chunk, before an aborted", 2, 0)
    b.packet("  aborted", frame(1, ABORTED))
    chunk_of(b, "  chunk", 2, 0)
    b = full_source()
    b.packet("init again, 30 cells of its source", frame(1, INIT, 32500))
    chunk_of(b, "  chunk", 2, 0)
    b.packet("  init of 32499", frame(1, INIT, 32499))
    chunk_of(b, "  chunk", 2, 0)
    b = full_source()
    b.quiet(frame(2, INIT, 32500), sender=THIRD)
    b.quiet(frame(2, CHUNK, 0, 0, 250))
    b.recv["held"][keyed(2)]["source"] = NEAR
    b.packet("packet, 31 cells of a source", frame(1, INIT, 32500))
    b.take("  take")
    b = Bench(cells=45)
    b.push("push of 25 cells", 1, b"t", b"\x07" * 32500)
    b.push("push of 20 more", 2, b"t", b"\x07" * 26000)
    b.push("push of one more", 3, b"t", b"x")


def dones():
    b = Bench()
    b.packet("done of an unknown id", frame(1, DONE, 2))
    b.quiet(frame(1, INIT, 1550))
    b.quiet(frame(1, CHUNK, 1, 1300, 250))
    b.packet("done, count 1 of 2", frame(1, DONE, 1))
    b.packet("done, piece 0 is missing", frame(1, DONE, 2))
    b.quiet(frame(1, CHUNK, 0, 0, 1299))
    b.packet("done, piece 0 is a byte too short", frame(1, DONE, 2))
    b.quiet(frame(1, CHUNK, 0, 0, 1300))
    b.packet("done, another sum", frame(1, DONE, 2))
    b = Bench()
    b.quiet(frame(1, INIT, 0))
    b.packet("done, no key", done_frame(1, b""), known=0)
    b.packet("done", done_frame(1, b""))
    b.packet("done of a whole id", done_frame(1, b""))
    b.packet("init of a whole id", frame(1, INIT, 0))
    b.packet("chunk of a whole id", frame(1, CHUNK))
    b.packet("aborted of a whole id", frame(1, ABORTED))


def acks():
    b = Bench()
    for what in ("unknown id", "state 0 and then 1", "state 1 and then 2", "state 2 and then 3", "state 3"):
        print("acknowledgements, " + what)
        b.packet("  read", frame(1, READ))
        b.packet("  ack chunk 1", frame(1, CHUNK | ACK, 1))
        b.packet("  ack chunk 0", frame(1, CHUNK | ACK, 0))
        b.packet("  ack done", frame(1, DONE | ACK))
        b.packet("  ack init", frame(1, INIT | ACK))
        if what == "unknown id":
            b.pushed(1)


def message_values():
    values()
    frames()
    flags("flags, fresh stores:", False)
    flags("flags, arriving, and leaving in state 1:", True)
    for length in (11, 12, 20, 21, 35, 36, 51, 52):
        flags(f"  frames of {length}:", True, length)
    for group in (rooms, stores, sends, eight, sending_hours, inits, repeats, chunks, sources, dones, acks):
        group()


VECTOR_KEY = b"whats the Elvish word for friend"
VECTOR_CONTEXT = b"BLAKE3 2019-12-27 16:29:52 test vectors context"


def vectors(path):
    """The published vectors, 131 bytes of output in each mode: plain, keyed, derived."""
    modes = {
        "p": short_blake3,
        "k": lambda data, size: keyed_hash(VECTOR_KEY, data, size),
        "d": lambda data, size: derive_key(VECTOR_CONTEXT, data, size),
    }
    for line in open(path):
        mode, length, digest = line.split()
        data = bytes(i % 251 for i in range(int(length)))
        assert modes[mode](data, len(digest) // 2).hex() == digest, line
        assert mode != "p" or blake3(data).hex() == digest[:64], line
    print("all vectors are right")


if __name__ == "__main__":
    globals()[sys.argv[1]](*sys.argv[2:])
