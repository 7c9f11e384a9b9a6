#!/usr/bin/env python3
"""What crates/classroom must write for an input, computed by a model that shares no code with the library: one survey, its pieces
as marks, and packets as names. The rules are those of docs/PROTOCOL.md that a survey under way can meet.
Use: tools/classroom_model.py < input
     tools/classroom_model.py --compare PROGRAM COUNT   run a program on random inputs, and fail where it writes anything else"""
import collections
import random
import re
import subprocess
import sys

LONGEST = 32500
PIECE = 1300  # a survey is cut by 1,300 bytes
A_WAKE = 8  # the most pieces that a wake sends
RESEND = 100  # a piece is due again after so many milliseconds
ROUNDS = 50
INPUT = re.compile(rb"(0|[1-9][0-9]{0,4})(?:\n([DLR]{0,2000})\n?)?")  # 32,500 has five digits


class Tablet:
    """The survey that is sent: 0 announced, 1 under way, 2 received; of each piece its mark and when it was sent."""

    def __init__(self, pieces):
        self.state = 0
        self.marks = ["started"] * pieces
        self.stamps = [0] * pieces

    def wake(self, clock):
        """What a wake sends: the init until it is acknowledged, then pieces, and the done when all are acknowledged."""
        if self.state == 0:
            return [("init",)]
        if self.state == 2:
            return []
        if all(mark == "acked" for mark in self.marks):
            return [("done",)]
        started = [i for i, mark in enumerate(self.marks) if mark == "started"]
        again = [i for i, mark in enumerate(self.marks) if mark == "sent" and self.stamps[i] + RESEND <= clock]
        chosen = (started + sorted(again, key=lambda i: (self.stamps[i], i)))[:A_WAKE]
        for i in chosen:
            self.marks[i], self.stamps[i] = "sent", clock
        return [("piece", i) for i in chosen]

    def hear(self, packet):
        """An acknowledgement. Nothing is sent for one."""
        if packet == ("ack", "init") and self.state == 0:
            self.state = 1
        elif packet == ("ack", "done") and self.state == 1:
            self.state = 2
        elif packet[:2] == ("ack", "piece") and self.state == 1:
            self.marks[packet[2]] = "acked"
        return []

    def row(self):
        counts = [self.marks.count(mark) if self.state == 1 else 0 for mark in ("started", "sent", "acked")]
        return [self.state, *counts]


class Office:
    """The survey that comes in: None before its init, "arriving" with the pieces it has, then "whole"."""

    def __init__(self, pieces):
        self.state = None
        self.missing = set(range(pieces))

    def hear(self, packet):
        """The reply: none where the packet is refused."""
        if packet[0] == "init":
            if self.state == "whole":
                return []
            self.state = "arriving"
        elif self.state != "arriving":
            return []
        elif packet[0] == "piece":
            self.missing.discard(packet[1])
        else:
            if self.missing:
                return []
            self.state = "whole"
        return [("ack", *packet)]


def run(length, letters):
    """The rows: after the push, and after each round."""
    pieces = -(-length // PIECE)
    tablet, office = Tablet(pieces), Office(pieces)
    left = collections.deque(letters)
    queue = collections.deque()

    def put_out(packets):
        for packet in packets:
            letter = left.popleft() if left else "D"
            queue.extend([packet] * {"D": 1, "L": 0, "R": 2}[letter])

    def settle():
        while queue:
            packet = queue.popleft()
            put_out((tablet if packet[0] == "ack" else office).hear(packet))

    put_out([("init",)])
    settle()
    yield [0, *tablet.row()]
    for k in range(1, ROUNDS + 1):
        put_out(tablet.wake(100 * k))
        settle()
        yield [k, *tablet.row()]


def shown(given):
    """The text for an input: nothing where it is none."""
    read = INPUT.fullmatch(given)
    if not read or int(read.group(1)) > LONGEST:
        return ""
    letters = (read.group(2) or b"").decode()
    return "".join(" ".join(map(str, row)) + "\n" for row in run(int(read.group(1)), letters))


def random_input(chance):
    """A length at or near a piece's end, or any; letters of which some share is lost and some repeated."""
    pieces = chance.randrange(26)
    length = chance.choice([chance.randrange(LONGEST + 1), PIECE * pieces, min(LONGEST, PIECE * pieces + 1)])
    lost, repeated = chance.choice([0, 0.1, 0.4, 0.7]), chance.choice([0, 0.1, 0.3])
    letters = chance.choices("LRD", (lost, repeated, 1 - lost * (1 - repeated)), k=chance.randrange(chance.choice([1, 30, 2001])))
    return f"{length}\n{''.join(letters)}\n".encode()


def compare(program, count):
    """Whether the program writes the same for so many inputs, the same ones each time."""
    chance, different = random.Random(16), 0
    for _ in range(count):
        given = random_input(chance)
        if subprocess.run([program], input=given, capture_output=True, check=True).stdout.decode() != shown(given):
            print(f"different: {given[:60]!r}")
            different += 1
    print(f"{count} random inputs, {different or 'no'} difference{'s' if different > 1 else ''}")
    return different == 0


if __name__ == "__main__":
    if sys.argv[1:2] == ["--compare"]:
        sys.exit(not compare(sys.argv[2], int(sys.argv[3])))
    sys.stdout.write(shown(sys.stdin.buffer.read()))
