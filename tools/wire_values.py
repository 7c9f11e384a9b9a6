#!/usr/bin/env python3
"""What crates/wire_values must write, computed without the library: flags by the rule of docs/PROTOCOL.md, packets by struct, addresses by the
b3sum program (Debian's package b3sum). Use: tools/wire_values.py > crates/wire_values/stdout"""
import struct
import subprocess


def kind(f):
    if f & 0x01:
        return "i" if f & 0x80 else "c" if f & 0x10 else "d" if f & 0x40 else "."
    for mask, letter in ((0x80, "I"), (0x10, "C"), (0x40, "D"), (0x08, "R"), (0x20, "A")):
        if f & mask:
            return letter
    return "."


def key(k):
    return bytes((37 * k + 11 * j) % 256 for j in range(32))


def address(data):
    digest = bytearray(bytes.fromhex(subprocess.run(["b3sum", "--no-names"], input=data, capture_output=True, check=True).stdout.decode().strip())[:16])
    digest[0] = 4 | bin(digest[0]).count("1") % 2
    return bytes(digest)


def show(packet, room=100):
    entry = struct.pack(">H", len(packet)) + b"\xaa" * 16 + b"\xbb" * 16 + packet
    run = bytearray(b"\xee" * room)
    run[3:3 + len(entry)] = entry
    print(run.hex())


def header(flags):
    return bytes(range(1, 9)) + bytes((flags, 0, 0, 0))


for row in range(8):
    print("".join(kind(32 * row + i) for i in range(32)))
for k in range(12):
    print(address(key(k)).hex())
show(header(0x84) + struct.pack(">QB", 32500, 4) + b"duct")
show(header(0x10) + struct.pack(">QQQ", 24, 31200, 7) + b"airflow")
show(header(0x40) + struct.pack(">Q", 25) + key(1))
show(header(0x20))
show(header(0x08))
show(header(0x80) + struct.pack(">QB", 0, 255) + b"t" * 255, 320)
frame = bytes((7 * i + 3) % 256 for i in range(1400))
for n in (21, 36, 52):
    show(frame[:8] + bytes((frame[8] | 1,)) + frame[9:n])
print(frame[:8].hex())
print(struct.unpack_from(">Q", frame, 12)[0])
print(frame[21:21 + frame[20]].hex())
print(struct.unpack_from(">Q", frame, 12)[0])
print(struct.unpack_from(">Q", frame, 20)[0])
print(min(struct.unpack_from(">Q", frame, 28)[0], 1364))
print(frame[20:52].hex())
