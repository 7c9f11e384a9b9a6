#!/usr/bin/env python3
"""The must-fail edits: wrong programs, and what the checker must refuse each for.

An edit file, crates/NAME/must-fail/LABEL.edit, holds one block for each wrong program. A block has six kinds of lines:

    wrong: the name of the wrong program
    because: the fact that it breaks
    refused: the functions, or the law of the definitions, that must be refused for it (several: with commas)
    file: src/lib.rt
    old: text that stands once in that file
    new: what the edit puts there

A block may have several pairs of old: and new:, and several file: lines. `rt ci` and `rt must-fail` apply all blocks of a file at once and ask only that
the crate is refused. This tool asks what each block is refused for. It applies them in a copy of the crates and reads what `rt check` says
there; a block that the others of its file hide is tried alone. Definitions rest on each other: an edit of definitions has a file of its own.

A function is refused by itself if it is not proved, and has an error in its own proof or a goal that nothing closes. What only follows from another
refusal does not count: a caller of a function that is not proved, and an error that blames a name ('was not admitted', 'has no field', 'can be named').

    tools/edits.py            try every block of every edit file; the last line is 'N passed, M failed'
    tools/edits.py NAME..     the same for these crates alone
    tools/edits.py --errors   the same as the first, and print the first error of each wrong program (names of crates may follow)
    tools/edits.py --table    print the table of docs/PROOFS.md
    tools/edits.py --write    write it there, between the two marks
    tools/edits.py --check    whether it stands there as it would be written
    tools/edits.py --lint     check the blocks alone: every line there, every name once
"""
import concurrent.futures
import os
import re
import shutil
import subprocess
import sys
import tempfile
import threading

ROOT = os.path.dirname(os.path.dirname(os.path.abspath(__file__)))
PAPER = os.path.join(ROOT, "docs", "PROOFS.md")
START = "<!-- edits: made by tools/edits.py -->"
END = "<!-- edits: end -->"
LINES = ("wrong", "because", "refused", "file", "old", "new")
# what the checker says where a declaration is refused for another's sake, or for a name that the edit took away
FOLLOWS = ("was not admitted", "was rejected", "has no field", "can be named", "not in scope", "unknown name")


class Block:
    """One wrong program."""

    def __init__(self, crate, label, number):
        self.crate, self.label, self.number = crate, label, number
        self.lines = {kind: [] for kind in LINES}
        self.places, self.changes = [], []

    def one(self, kind):
        return self.lines[kind][0] if self.lines[kind] else ""

    def name(self):
        return self.one("wrong") or f"block {self.number}"

    def refused(self):
        return [name.strip() for name in self.one("refused").split(",") if name.strip()]

    def faults(self):
        """What the block lacks."""
        found = [f"no '{kind}:' line" for kind in LINES if not any(text.strip() for text in self.lines[kind])]
        found += [f"{len(self.lines[kind])} '{kind}:' lines" for kind in LINES[:3] if len(self.lines[kind]) > 1]
        if len(self.lines["old"]) != len(self.lines["new"]):
            found.append("as many 'old:' as 'new:' lines are asked for")
        return found or self.misplaced()

    def misplaced(self):
        """Whether no change lies in a function that the block names. A changed constant or definition is in none."""
        inside = set()
        for path, old in self.places:
            with open(os.path.join(ROOT, "crates", self.crate, path), encoding="utf-8") as text:
                whole = text.read()
            at = whole.find(old)
            if at < 0:
                return [f"'{old}' is not in {path}"]
            functions = re.findall(r"\bfn (\w+)", whole[: at + len(old)])
            if path.startswith("src/") and functions and not re.match(r"\s*(pub )?const ", old):
                inside.add(functions[-1])
        named = {name.split("::")[-1] for name in self.refused()}
        return [f"it changes {', '.join(sorted(inside))} and names none of them"] if inside and not inside & named else []


def crates():
    """The crates, in the order of crates.txt."""
    with open(os.path.join(ROOT, "crates.txt"), encoding="utf-8") as text:
        return [line.split(":")[0].split()[0] for line in text if ":" in line.split("#")[0]]


def blocks_of(crate, label):
    """The blocks of an edit file. A line in front of the first block is a comment, unless rt would read it as part of an edit."""
    found = []
    with open(os.path.join(ROOT, "crates", crate, "must-fail", label + ".edit"), encoding="utf-8") as text:
        for line in text.read().splitlines():
            kind, colon, rest = line.partition(":")
            if not colon or kind not in LINES:
                continue
            if kind == "wrong" or not found:
                found.append(Block(crate, label, len(found) + 1))
            block, rest = found[-1], rest[1:] if rest.startswith(" ") else rest
            block.lines[kind].append(rest)
            if kind == "old" and block.lines["file"]:
                block.places.append((block.lines["file"][-1], rest))
            if kind == "new" and block.places:
                block.changes.append((*block.places[-1], rest))
    return found


def files():
    """Every edit file with its blocks: (crate, label, blocks)."""
    found = []
    for crate in crates():
        folder = os.path.join(ROOT, "crates", crate, "must-fail")
        if os.path.isdir(folder):
            for name in sorted(os.listdir(folder)):
                if name.endswith(".edit"):
                    label = name[: -len(".edit")]
                    found.append((crate, label, blocks_of(crate, label)))
    return found


class Log:
    """What the checker said of one edit file, or of one block."""

    def __init__(self, text):
        # the functions that are not proved, and of these the ones with a goal that nothing closes, with what is said of it
        self.unproved, self.open = set(), {}
        # the errors of a file: (declaration, what is said, the lines behind it)
        self.errors = {}
        behind = []
        for line in text.splitlines():
            state = re.match(r"fn (\S+): (not proved|no proof)(.*)", line)
            error = re.match(r"(?:\./)?(\S+?):\d+:\d+: error: (?:`([^`]*)`: )?(.*)", line)
            if line.startswith("  "):
                behind.append(line.strip())
                continue
            behind = []
            if state:
                self.unproved.add(state[1])
                if "did not prove" in state[3]:
                    self.open[state[1]] = state[3].partition("; ")[2]
            elif error:
                self.errors.setdefault(error[1], []).append((error[2] or "", error[3], behind))

    def own(self, name):
        """The first error that a function, or 'FILE LAW', has by itself; None where it has none."""
        if " " in name:
            path, law = name.split(None, 1)
            return self.first(path, lambda found: found == law)
        if name not in self.unproved:
            return None
        parts = name.split("::")[1:]
        for last in (parts[-1], "+" + parts[-1]):
            for file in ("Answers.antt", "Invariants.antt"):
                said = self.first("/".join(["proofs", *parts[:-1], last, file]), lambda _: True)
                if said:
                    return said
        return self.open.get(name)

    def first(self, path, wanted):
        for law, said, behind in self.errors.get(path, []):
            if wanted(law) and not any(words in said for words in FOLLOWS):
                return "\n".join([f"`{law}`: {said}", *behind])
        return None

    def by_themselves(self):
        """Everything that is refused by itself: functions, and laws of the definitions."""
        found = {name for name in self.unproved if self.own(name)}
        for path, errors in self.errors.items():
            if path.startswith("specs/") or (path.startswith("proofs/") and not path.endswith(("/Answers.antt", "/Invariants.antt"))):
                found |= {f"{path} {law}" for law, said, _ in errors if not any(words in said for words in FOLLOWS)}
        return found


def short(line):
    """A line of an error, which can run to thousands of characters: its start and its end."""
    return line if len(line) <= 300 else f"{line[:200]} .. {line[-96:]}"


def read(path):
    with open(path, encoding="utf-8") as text:
        return text.read()


class Trial:
    """A copy of the crates, in which edits are tried, one after the other."""

    def __init__(self, place):
        self.crates = os.path.join(place, "crates")
        shutil.copytree(os.path.join(ROOT, "crates"), self.crates, ignore=shutil.ignore_patterns("out", "must-fail"))
        shutil.copy(os.path.join(ROOT, "crates.txt"), place)

    def check(self, crate):
        """What `rt check` says of a crate as it stands in the copy: its exit status and its words."""
        words = ["rt", "check", "--jobs", "1"]
        ran = subprocess.run(words, cwd=os.path.join(self.crates, crate), stdin=subprocess.DEVNULL, capture_output=True, text=True)
        return ran.returncode, ran.stdout + ran.stderr

    def tried(self, crate, blocks):
        """The log of a crate with these blocks, and why it cannot be had; the crate is put back afterwards."""
        folder, before = os.path.join(self.crates, crate), {}
        try:
            for block in blocks:
                for path, old, new in block.changes:
                    whole = os.path.join(folder, path)
                    text = read(whole)
                    before.setdefault(whole, text)
                    if text.count(old) != 1:
                        return None, f"'{old}' stands {text.count(old)} times in {path}"
                    with open(whole, "w", encoding="utf-8") as out:
                        out.write(text.replace(old, new))
            status, said = self.check(crate)
            return (Log(said), "") if status == 1 else (None, f"rt check ended with {status}")
        finally:
            for path, text in before.items():
                with open(path, "w", encoding="utf-8") as out:
                    out.write(text)


def faults_of(blocks, block, log, alone):
    """What is wrong with a block, by the log of its file; `alone` tries it by itself."""
    shared = [name for name in block.refused() if any(name in other.refused() for other in blocks if other is not block)]
    if block.faults() or shared:
        return block.faults() or ["another block of the file names it too: " + ", ".join(shared)], log
    missing = [name for name in block.refused() if not log.own(name)]
    if missing and len(blocks) > 1:
        single, why = alone(block)
        if single is None:
            return [why], log
        log, missing = single, [name for name in block.refused() if not single.own(name)]
    return (["not refused by itself: " + ", ".join(missing)] if missing else []), log


def told(one, block, log):
    """The first error of each function or law that a block is refused for."""
    lines = [f"{one}: {block.one('because')}"]
    for name in block.refused():
        first, *behind = log.own(name).splitlines()
        lines += [f"    {name}: {short(first)}", *(f"        {short(line)}" for line in behind[:4])]
    return lines


def verdicts(trial, crate, label, blocks):
    """What is to be said of an edit file, and of how many blocks: (passed, failed, lines)."""
    what = f"{crate}/{label}"
    if not blocks:
        return 0, 1, [f"{what}: FAILED: it has no block"]
    log, why = trial.tried(crate, blocks)
    if log is None:
        return 0, len(blocks), [f"{what}: FAILED: {why}"]
    passed, failed, lines = 0, 0, []
    for block in blocks:
        one = f"{crate}/{block.name()}"
        faults, own = faults_of(blocks, block, log, lambda it: trial.tried(crate, [it]))
        if faults:
            failed += 1
            lines.append(f"{one}: FAILED: {'; '.join(faults)}")
        else:
            passed += 1
            lines += told(one, block, own)
    meant = {name for block in blocks for name in block.refused()}
    if not any(" " in name for name in meant):
        for name in sorted(log.by_themselves() - meant):
            failed += 1
            lines.append(f"{what}: FAILED: {name} is refused by itself, and no block names it")
    return passed, failed, lines


def check(show, only):
    """Every block of these crates (of all, where none is named), tried, in as many copies as there are processors; the tally."""
    todo = {}
    for crate, label, blocks in files():
        if not only or crate in only:
            todo.setdefault(crate, []).append((label, blocks))
    passed = failed = 0
    with tempfile.TemporaryDirectory() as place, concurrent.futures.ThreadPoolExecutor(os.cpu_count()) as pool:
        mine = threading.local()

        def crate_of(crate):
            if not hasattr(mine, "trial"):
                mine.trial = Trial(tempfile.mkdtemp(dir=place))
            status, said = mine.trial.check(crate)
            if status != 0:
                return 0, 1, [f"{crate}: FAILED: it is not proved without edits: {said.splitlines()[-1:]}"]
            parts = [verdicts(mine.trial, crate, label, blocks) for label, blocks in todo[crate]]
            return sum(part[0] for part in parts), sum(part[1] for part in parts), [line for part in parts for line in part[2]]

        # those with the most edits first
        for good, bad, lines in pool.map(crate_of, sorted(todo, key=lambda crate: -len(todo[crate]))):
            passed, failed = passed + good, failed + bad
            for line in lines:
                if show or ": FAILED: " in line:
                    print(line, flush=True)
    print(f"{passed} passed, {failed} failed")
    return failed == 0 and passed > 0


def lint():
    """The blocks by themselves: what each lacks, and names that stand twice."""
    fine, seen = True, set()
    for crate, label, blocks in files():
        for block in blocks:
            one = f"{crate}/{block.name()}"
            for fault in block.faults() + (["the name stands twice"] if one in seen else []):
                print(f"{crate}/{label}.edit, {block.name()}: {fault}")
                fine = False
            seen.add(one)
    return fine


def table():
    """The table of docs/PROOFS.md: each crate is named on its first line; what refuses an edit stands in its file."""
    rows = ["| crate | wrong program | refused because |", "|---|---|---|"]
    last = None
    for crate, _, blocks in files():
        for block in blocks:
            rows.append(f"|{'' if crate == last else f' {crate}'} | `{block.name()}` | {block.one('because')} |")
            last = crate
    return "\n".join(rows) + "\n"


def paper():
    """The paper around the table: what stands before and behind the two marks."""
    with open(PAPER, encoding="utf-8") as text:
        whole = text.read()
    before, start, rest = whole.partition(START + "\n")
    there, end, behind = rest.partition(END)
    if not start or not end:
        print(f"docs/PROOFS.md has not the lines '{START}' and '{END}'")
        return None
    return before + start, there, end + behind


def main(words):
    if words == ["--table"]:
        print(table(), end="")
        return lint()
    if words in (["--write"], ["--check"]):
        parts = paper()
        if parts is None:
            return False
        before, there, behind = parts
        if words == ["--write"]:
            with open(PAPER, "w", encoding="utf-8") as text:
                text.write(before + table() + behind)
            return lint()
        if there != table():
            print("docs/PROOFS.md: the table of edits is not what tools/edits.py --write makes")
            return False
        return lint()
    if words == ["--lint"]:
        return lint()
    show, names = words[:1] == ["--errors"], [word for word in words if not word.startswith("-")]
    if len(words) == show + len(names) and set(names) <= set(crates()):
        return check(show, set(names))
    print(__doc__)
    return False


if __name__ == "__main__":
    sys.exit(0 if main(sys.argv[1:]) else 1)
