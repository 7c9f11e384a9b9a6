#!/usr/bin/env python3
"""Writes the page docs/BENCHMARKS.md from the estimates that the benchmarks left in a folder: ./bench runs it. Times are in nanoseconds."""
import datetime
import json
import os
import pathlib
import subprocess
import sys

LONGEST = 32500
LONGEST_SUM = 65536
# bars, each with what it should reach (or None): of BLAKE3 our speed by the portable crate's, by length;
# of keyed and derived sums their speed by the plain one's; of the longest output ours by that crate's;
# of packet calls their time in scans, by what the stores hold; of a transfer our time by the original's;
# of asking whether a calendar is open its share of a wake
SUM_BARS = {64: (0.8, None), 1300: (0.85, None), 4096: (1.8, 2.1), LONGEST: (1.8, 2.1)}
WAY_BARS = {"keyed": 0.98, "derived": 0.98}
OUTPUT_BAR = 0.8
CALL_BARS = {"full": 1.3, "empty": 1.6}
TRANSFER_BAR, TRANSFER_REACH = 3.0, 2.5
HOURS_BAR = 0.1  # of a wake
DATES = (0, 32)
CELLS = (1, 5, 15, 45)
CELL_CALLS = {"full-read": "full: read", "full-chunk": "full: chunk", "empty-read": "empty: read", "empty-chunk": "empty: chunk"}
KINDS = {
    "init-new": "init, new id",
    "init-again": "init, again",
    "init-restart": "init, held id",
    "chunk-new": "chunk, new index",
    "chunk-held": "chunk, held index",
    "done": "done, sum of 32,500 bytes",
    "read-unknown": "read, unknown id (8)",
    "aborted": "aborted",
    "ack-init": "ack of an init",
    "ack-chunk": "ack of a chunk",
    "ack-done": "ack of a done",
}
SUMMED = "done"
# the calls of a transfer in their order, whose they are, and how many stores each reads
TRANSFER = {
    "push": ("push", "tablet", 1),
    "init": ("init", "office", 2),
    "ack-init": ("ack of an init", "tablet", 2),
    "wake-chunks": ("wake, sends up to 8 chunks", "tablet", 1),
    "chunk": ("chunk", "office", 2),
    "ack-chunk": ("ack of a chunk", "tablet", 2),
    "wake-done": ("wake, sends the done: a sum", "tablet", 1),
    "done": ("done: a sum", "office", 2),
    "ack-done": ("ack of a done", "tablet", 2),
    "take": ("take", "office", 1),
    "read": ("read", "tablet", 2),
}
SUMS = 2  # of them


class Figures:
    """The estimates in a folder, by group, function and value as criterion lays them out."""

    def __init__(self, folder):
        self.folder = pathlib.Path(folder)

    def find(self, *place, estimate="median"):
        file = self.folder.joinpath(*map(str, place), "new", "estimates.json")
        return json.loads(file.read_text())[estimate]["point_estimate"] if file.is_file() else None

    def get(self, *place, estimate="median"):
        figure = self.find(*place, estimate=estimate)
        if figure is None:
            sys.exit(f"benchmarks.py: no estimate of {'/'.join(map(str, place))} in {self.folder}")
        return figure

    def by(self, group, one, other, value):
        """The time of one by the other's: the median over the turns in which both were measured."""
        return self.get(group, f"{one}-by-{other}", value)

    def counted(self, function):
        """Of the calls of this name in a transfer how many they are, which is their value, and the mean of all of them together."""
        group = "transfer-calls"
        counts = [int(folder.name) for folder in self.folder.joinpath(group, function).glob("*")]
        if len(counts) != 1:
            sys.exit(f"benchmarks.py: {group}/{function} has {len(counts)} values")
        return counts[0], self.get(group, function, counts[0], estimate="mean")

    def platforms(self):
        return sorted(group.name.removeprefix("sums-") for group in self.folder.glob("sums-*"))

    def rounds(self):
        """The rounds of the portable sums."""
        return [Figures(folder) for folder in sorted(self.folder.glob("rounds/*"))]

    def processes(self):
        """The processes that ran the calls and their scans."""
        return [self, *map(Figures, sorted(self.folder.glob("again/*")))]

    def scans(self, fill, kind):
        """A call's time in scans, both of this process."""
        return self.by(f"calls-{fill}", "ours", "scan", kind)


def ns(figure):
    return f"{figure:,.0f}"


def ratio(figure, digits=2):
    return f"{figure:.{digits}f}"


def percent(figure):
    return f"{100 * figure:.1f} %"


def speed(figures, platform, length):
    """The library's speed by the crate's."""
    return figures.by(f"sums-{platform}", "crate", "ours", length)


def by_plain(figures, platform, way):
    """The speed of a keyed or derived sum by the plain one's."""
    return figures.by(f"ways-{platform}", "plain", way, LONGEST)


def output_speed(figures, platform):
    """The library's speed by the crate's, in filling the longest output."""
    return figures.by(f"outputs-{platform}", "crate", "ours", LONGEST_SUM)


def original(figures):
    """Whether the original was measured too."""
    return figures.find("transfer", "original", LONGEST) is not None


def table(head, rows):
    lines = [head, ["---"] * len(head), *rows]
    return "\n".join("| " + " | ".join(line) + " |" for line in lines) + "\n"


def said(*words):
    return subprocess.run(words, capture_output=True, text=True, check=True).stdout.strip()


def store_bytes(cells):
    return 16 + 8 * 328 + 1380 * cells


def cpu():
    """What the system tells of the CPU; not every one tells all."""
    facts = {}
    for line in pathlib.Path("/proc/cpuinfo").read_text().splitlines():
        name, _, value = line.partition(":")
        facts.setdefault(name.strip(), value.strip())
    kind = [f"{word} {facts[name]}" for word, name in (("family", "cpu family"), ("model", "model")) if name in facts]
    words = [facts.get("model name", os.uname().machine) + (f" ({', '.join(kind)})" if kind else ""), f"{os.cpu_count()} cores"]
    if "hypervisor" in facts.get("flags", "").split():
        words.append("virtual")
    if "cache size" in facts:
        words.append(f"{facts['cache size']} cache")
    return ", ".join(words)


def machine():
    rows = [
        ["CPU", cpu()],
        ["kernel", f"{os.uname().sysname} {os.uname().release}"],
        ["compilers", f"{said('rustc', '--version')}; {said('rt', 'version')}"],
        ["date", f"{datetime.datetime.now(datetime.timezone.utc):%Y-%m-%d}"],
        ["load", f"{os.getloadavg()[1]:.1f} over the last five minutes, of which the benchmarks are 1"],
    ]
    return table(["", ""], rows)


def bar(text, reach, measured, met, reached):
    """A row of the table of bars; one without a reach is met or missed."""
    return [text, "" if reach is None else str(reach), measured, "reached" if reach is not None and reached else "met" if met else "MISSED"]


def speed_bar(what, whose, least, reach, speeds):
    """A bar on the speed of something by another's, measured in each round; the worst counts."""
    text, measured = f"{what}: at least {least} of {whose} speed", ", ".join(ratio(one, 3) for one in speeds)
    return bar(text, reach, measured, min(speeds) >= least, reach is not None and min(speeds) >= reach)


def sum_bars(figures):
    rounds = figures.rounds()
    for length, (least, reach) in SUM_BARS.items():
        yield speed_bar(f"BLAKE3 of {length:,} bytes", "the portable crate's", least, reach,
                        [speed(one, "Portable", length) for one in rounds])
    for way, least in WAY_BARS.items():
        yield speed_bar(f"a {way} sum of {LONGEST:,} bytes", "the plain one's", least, None,
                        [by_plain(one, "Portable", way) for one in rounds])
    yield speed_bar(f"an output of {LONGEST_SUM:,} bytes", "the portable crate's", OUTPUT_BAR, None,
                    [output_speed(one, "Portable") for one in rounds])


def call_bars(figures):
    for fill, most in CALL_BARS.items():
        ratios = {kind: max(one.scans(fill, kind) for one in figures.processes()) for kind in KINDS if kind != SUMMED}
        worst = max(ratios, key=ratios.get)
        over = sum(r > most for r in ratios.values())
        measured = f"at most {ratio(ratios[worst])} ({KINDS[worst]}), at least {ratio(min(ratios.values()))}; {over} of {len(ratios)} above {most}"
        yield bar(f"a packet call without a sum, {fill} stores of 45 cells: at most {most} scans of both", None, measured, not over, False)


def transfer_bars(figures):
    if original(figures):
        times = figures.by("transfer", "ours", "original", LONGEST)
        yield bar(f"a transfer of 32,500 bytes: at most {TRANSFER_BAR} times the original's", TRANSFER_REACH, ratio(times),
                  times <= TRANSFER_BAR, times <= TRANSFER_REACH)


def more(figures, one, other, dates):
    """By how much one wake takes longer than the other, in nanoseconds."""
    return (figures.by("hours", one, other, dates) - 1) * figures.get("hours", other, dates)


def asked(figures, dates):
    """What it takes to look at a calendar's form, and to ask whether it is open, on stores of one cell; and the wakes of 45 cells, by what they hold."""
    wakes_of = {fill: figures.get("hours", fill, dates) for fill in CALL_BARS}
    return more(figures, "form", "deadline", dates), more(figures, "open", "form", dates), wakes_of


def hours_bars(figures):
    shares = [opened / wake for _, opened, wakes in (asked(figures, dates) for dates in DATES) for wake in wakes.values()]
    measured = f"{ratio(min(shares), 3)} to {ratio(max(shares), 3)}"
    yield bar(f"whether a calendar is open: at most {HOURS_BAR} of a wake, 45 cells", None, measured, max(shares) <= HOURS_BAR, False)


def bars(figures):
    rows = [*sum_bars(figures), *call_bars(figures), *transfer_bars(figures), *hours_bars(figures)]
    return table(["bar", "reach", "measured", ""], rows)


def hours(figures):
    rows = []
    for dates in DATES:
        form, opened, wakes = asked(figures, dates)
        rows += [[str(dates), fill, ns(wake), ns(form), percent(form / wake), ns(opened), percent(opened / wake)] for fill, wake in wakes.items()]
    return table(["closed dates", "stores", "wake, ns", "its form, ns", "share", "whether open, ns", "share"], rows)


def sum_runs(figures):
    """The processes that ran sums: what each is called, the crate's implementation there, and its figures."""
    runs = [(f"Portable, round {n}", "Portable", one) for n, one in enumerate(figures.rounds(), 1)]
    return runs + [(platform, platform, figures) for platform in figures.platforms()]


def sums(figures):
    rows = []
    for name, platform, run in sum_runs(figures):
        for length in SUM_BARS:
            ours, crate = (run.get(f"sums-{platform}", who, length) for who in ("ours", "crate"))
            rows.append([name, f"{length:,}", ns(ours), ns(crate), f"{1000 * length / ours:,.0f}", ratio(speed(run, platform, length), 3)])
    return table(["the crate's implementation", "bytes", "ours, ns", "crate, ns", "ours, MB/s", "our speed / the crate's"], rows)


def ways(figures):
    rows = []
    for name, platform, run in sum_runs(figures):
        times = [ns(run.get(f"ways-{platform}", way, LONGEST)) for way in ("plain", *WAY_BARS)]
        rows.append([name, *times, *(ratio(by_plain(run, platform, way), 3) for way in WAY_BARS)])
    times, speeds = [f"{way}, ns" for way in WAY_BARS], [f"{way} speed / plain" for way in WAY_BARS]
    return table(["run", "plain, ns", *times, *speeds], rows)


def outputs(figures):
    rows = []
    for name, platform, run in sum_runs(figures):
        times = [ns(run.get(f"outputs-{platform}", who, LONGEST_SUM)) for who in ("ours", "crate")]
        rows.append([name, *times, ratio(output_speed(run, platform), 3)])
    return table(["the crate's implementation", "ours, ns", "crate, ns", "our speed / the crate's"], rows)


def calls(figures, fill):
    group, rows = f"calls-{fill}", []
    for kind, name in KINDS.items():
        times = [ns(figures.get(group, who, kind)) for who in ("ours", "scan")]
        row = [name, *times, ", ".join(ratio(one.scans(fill, kind)) for one in figures.processes())]
        if original(figures):
            row += [ns(figures.get(group, "original", kind)), ratio(figures.by(group, "ours", "original", kind))]
        rows.append(row)
    head = ["packet", "ours, ns", "scan, ns", "ours / scan, by process"]
    return table(head + ["original, ns", "ours / original"] if original(figures) else head, rows)


def cells(figures):
    rows = []
    for count in CELLS:
        times = [ns(figures.get("cells", name, count)) for name in ("joined", "all", *CELL_CALLS)]
        slowest = max(figures.by("cells", name, "joined", count) for name in CELL_CALLS)
        rows.append([str(count), f"{2 * store_bytes(count):,}", *times, ratio(slowest)])
    return table(["cells", "bytes of both stores", "scan, joined", "scan, byte by byte", *CELL_CALLS.values(), "slowest / joined"], rows)


def wakes(figures):
    labels = {
        "none": "none",
        "new": "25, never sent",
        "due": "25, sent at one time",
        "stamps": "25, sent at four times, the first ones not first",
    }
    return table(["pieces that want sending", "wake, ns"], [[label, ns(figures.get("wakes", name, 25))] for name, label in labels.items()])


def transfer(figures):
    ours = ns(figures.get("transfer", "ours", LONGEST))
    if not original(figures):
        return table(["ours, ns"], [[ours]])
    row = [ours, ns(figures.get("transfer", "original", LONGEST)), ratio(figures.by("transfer", "ours", "original", LONGEST))]
    return table(["ours, ns", "original, ns", "ours / original"], [row])


def by_call(figures):
    every, whole = figures.counted("all")
    rows, left = [], whole
    for name, (label, side, _) in TRANSFER.items():
        count, spent = figures.counted(name)
        left -= spent
        rows.append([label, side, str(count), ns(spent / count), ns(spent), percent(spent / whole)])
    rows.append(["packets copied out of runs", "host", "", "", ns(left), percent(left / whole)])
    rows.append(["all of a transfer", "", str(every), "", ns(whole), percent(1)])
    return table(["call", "node", "calls", "ns each", "ns in all", "share"], rows)


def floor(figures):
    """What reading the stores takes at least, once in each call, and the sums with it."""
    counts = {name: figures.counted(name)[0] for name in TRANSFER}
    both = sum(count for name, count in counts.items() if TRANSFER[name][2] == 2)
    one = sum(count for name, count in counts.items() if TRANSFER[name][2] == 1)
    parts = {
        f"both stores read in each of {both} packet calls, one in each of {one} others": {"scan": both + one / 2},
        f"{SUMS} sums of 32,500 bytes": {"sum": SUMS},
        "together": {"scan": both + one / 2, "sum": SUMS},
    }
    whose = {"ours": "share of ours"} | ({"original": "/ the original's transfer"} if original(figures) else {})
    rows = []
    for label, part in parts.items():
        spent = sum(times * figures.get("transfer", name, LONGEST) for name, times in part.items())
        shares = [sum(times * figures.by("transfer", name, who, LONGEST) for name, times in part.items()) for who in whose]
        rows.append([label, ns(spent), percent(shares[0]), *map(ratio, shares[1:])])
    return table(["at least", "ns", *whose.values()], rows)


def page(figures):
    scans = [2 * store_bytes(CELLS[-1]) / figures.get("cells", form, CELLS[-1]) for form in ("all", "joined")]
    theirs = (
        """\
The original's handler is measured by the stream that it takes packets from,
from handing a packet out to being asked for the next.
Its data plane only keeps what it is given.
A node is made anew for each call and holds the same messages;
it checks no store, which is most of what a call costs here.
Its sums are the blake3 crate's with SIMD."""
        if original(figures)
        else "The original was not available: its columns are left out."
    )
    runtime = "; the original runs with its runtime" if original(figures) else ""
    return f"""# Benchmarks

Written by `./bench` from the estimates of [host/benches](../host/benches): medians, in nanoseconds,
of samples so short that other work on the machine interrupts few of them.
What is compared is measured in turns, one sample of each in every turn,
so that a machine that is slower for a while is slower for all of them.
A ratio is the median of the turns' ratios, and a time the median of its samples:
the quotient of two times shown can differ a little from the ratio beside them.
Only what stands under Wakes, and the clock, is measured one after the other.

{machine()}
## Bars

{bars(figures)}
## BLAKE3

Compared with the blake3 crate, by the implementation that it picks:
the portable one where SIMD is left out of its build.
That is run in three rounds, and the worst of them has to meet the bar.

{sums(figures)}
A keyed and a derived sum of {LONGEST:,} bytes, each in 32 bytes, in turns with the plain one.
All three are the library's, the plain one by itself and the others as they are exported.
The derived one has its context to hash too, which fits in a block.
The runs are those of the table above, and again the worst of the three rounds has to meet the bar.

{ways(figures)}
An output of {LONGEST_SUM:,} bytes: the keyed hash of 64 bytes, beside the crate's.

{outputs(figures)}
## Packet calls

Stores of 45 cells.
Full: every record and cell is held, but for the one that the call takes.
Empty: nothing is held but what the call is about (for a done, its 25 pieces).
An init again is equal to the one that opened its message and changes nothing;
that of a held id has another length and starts its message again.
Every call first checks that both stores are sound; a free cell has to be zero in all its bytes,
a held one past its piece, so an empty store costs more than a full one.

The scan asks whether as many bytes as both stores have are all zero, by joining them,
64 bytes in a step: {scans[1]:.0f} bytes per ns, with SIMD.
A loop of shorter steps takes 0.9 or 1.8 times as long, by where the compiler happens to put it.
Stopping at the first byte that is not zero reads {scans[0]:.1f} bytes per ns, one at a time;
the bar is about the quicker one.
Stores are copied anew before each call, outside the measured time.
Calls and scans are run by three processes, as a call can be slower in one than in another,
and the worst of them has to meet the bar.
The times in nanoseconds are the first one's.
Other work on the machine can slow a scan more than a call; then the ratios are lower.
The clock adds {ns(figures.get("clock", "nothing", 0))} ns to every figure of this part.

{theirs}

Full stores:

{calls(figures, "full")}
Empty stores:

{calls(figures, "empty")}
## Number of cells

Calls without a sum: a read of an unknown id, and a chunk at a held index. In nanoseconds.

{cells(figures)}
## Sending hours

A send wake of a message that has timed out: the store is checked, the calendar's form is looked at,
the message is found, the calendar is asked whether it is open, and nothing more happens.
What the two cost is measured on a store of one cell, by differences:
a deadline wake of an id that nobody has looks at no calendar, and a send wake of it only at the form.
A difference is what the ratio of two wakes has above 1, times the wake that does less.
It may be off by some 10 ns, and so below 0; the bar is about the second.
The wakes beside them have 45 cells: full has 8 messages in 43 of them, empty the one.

{hours(figures)}
## Wakes

A send wake of a message of 25 pieces, on a store of 45 cells that are all held.
A wake sends at most eight pieces, 10,960 bytes with their addresses and headers.

{wakes(figures)}
## A whole transfer

32,500 bytes from one node to another in memory: push, init, 25 chunks, done, each acknowledged, take, read.
Packets are copied on the way, on both sides alike{runtime}.

{transfer(figures)}
By call, each timed in the course of further transfers, and each of these as a whole;
the clock adds its {ns(figures.get("clock", "nothing", 0))} ns to every call.
All rows are means of the same transfers, the half of them that took neither longest nor shortest:

{by_call(figures)}
Every call checks the stores that it is given before it touches them.
If all their bytes are read in every call, a scan is the least that this takes.
A scan of both stores and a sum are measured in turns with the transfers above:

{floor(figures)}"""


if __name__ == "__main__":
    print(page(Figures(sys.argv[1])), end="")
