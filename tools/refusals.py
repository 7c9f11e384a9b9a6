#!/usr/bin/env python3
"""Compares the list of refusals wherever it stands: docs/PROTOCOL.md's table, which has number and trade word, is the list, and the
others must have the same numbers and words, no more and no fewer. tests/papers runs it; the last line is 'N passed, M failed'.
Use: tools/refusals.py"""
import pathlib
import re
import sys

ROOT = pathlib.Path(__file__).resolve().parent.parent

# trade words of one bare word have a qualifier in the definitions, where the bare word means something else
IN_DEFINITIONS = {"count": "wrong count", "total": "wrong total", "sum": "wrong sum", "clock": "bad clock"}

# names of crates/machine/specs/Codes.antt that are no refusals start with one of these words
OTHER_CODES = ("role", "kind", "state", "piece", "wake", "form")


def text(name):
    return (ROOT / name).read_text()


def snake(words):
    return words.replace(" ", "_")


def pascal(words):
    return "".join(word.capitalize() for word in words.split())


def upper(words):
    return words.upper().replace(" ", "_")


def numbered(pairs):
    return [(int(number), word) for number, word in pairs]


def protocol():
    """The table of refusals: rows of number, trade word and condition."""
    body = re.search(r"^\| no \| name \| when \|\n(.*?)^$", text("docs/PROTOCOL.md"), re.M | re.S).group(1)
    return numbered(re.findall(r"^\| (\d+) \| ([a-z ]+) \| .* \|$", body, re.M))


def answer():
    body = re.search(r"^pub enum Refusal \{\n(.*?)^\}", text("crates/answer/src/lib.rt"), re.M | re.S).group(1)
    return numbered((number, name) for name, number in re.findall(r"^    (\w+) = (\d+),$", body, re.M))


def answer_numbers():
    """The numbers that its contracts mean by the variants."""
    found = re.findall(r"^number (\w+) = (\d+)$", text("crates/answer/specs/Answers.antt"), re.M)
    return numbered((number, name) for name, number in found)


def codes():
    found = re.findall(r"^abbrev pub (\w+) : ℕ\n\1 = (\d+)$", text("crates/machine/specs/Codes.antt"), re.M)
    other = re.compile(f"({'|'.join(OTHER_CODES)})_")
    return numbered((number, name) for name, number in found if not other.match(name) and number != "0")


RUST = "host/socketlemon/src/refusal.rs"


def rust_enum():
    body = re.search(r"^pub enum Refusal \{\n(.*?)^\}", text(RUST), re.M | re.S).group(1)
    return numbered(re.findall(r"/// (\d+): .*\n\s+(\w+),", body))


def rust_table():
    """Rows of variant and trade word; the first is number 1."""
    size, body = re.search(r"^const TABLE: \[\(Refusal, &str\); (\d+)\] = \[\n(.*?)^\];", text(RUST), re.M | re.S).groups()
    rows = re.findall(r'\(Refusal::(\w+), "([a-z ]+)"\),', body)
    assert len(rows) == int(size)
    return [(number, f"{variant}, {word}") for number, (variant, word) in enumerate(rows, 1)]


HEADER = "include/socketlemon.h"


def header():
    """The names from the comment on refusals up to their count."""
    body = re.search(r"/\* The refusals.*?(?=^#define SOCKETLEMON_REFUSALS )", text(HEADER), re.M | re.S).group(0)
    return numbered((number, name) for name, number in re.findall(r"^#define SOCKETLEMON_(\w+) (\d+)$", body, re.M))


def header_count():
    return re.findall(r"^#define SOCKETLEMON_REFUSALS (\d+)$", text(HEADER), re.M)


def bare_numbers():
    """Lines of the C tests that name a refusal, or how many there are, by a bare number."""
    fuzz = [line for line in text("tests/fuzz.c").splitlines() if re.search(r"number (==|<=|!=|>|<) [1-9]|REFUSALS = |met\[\d", line)]
    exports = [line for line in text("tests/exports.c").splitlines() if re.search(r"\), [1-9]\d*, 0, 0\)", line)]
    used = "met[SOCKETLEMON_REFUSALS + 1]" in text("tests/fuzz.c")
    return fuzz + exports + ([] if used else ["tests/fuzz.c does not count by SOCKETLEMON_REFUSALS"])


def oracle(table):
    """Numbers that the oracle's constants have, and the list has not."""
    found = re.findall(r"^pub const (\w+): u64 = (\d+);$", text("host/oracle/src/call.rs"), re.M)
    return [f"{name} = {number}" for name, number in found if (int(number), name) not in [(n, upper(word)) for n, word in table]]


def counts_said(name):
    return re.findall(r"\b(\d+) refusals", text(name))


def main():
    table = protocol()
    count = len(table)
    passed = failed = 0

    def check(what, difference):
        nonlocal passed, failed
        if difference:
            failed += 1
            print(f"refusals: {what}: FAILED, {difference}")
        else:
            passed += 1
            print(f"refusals: {what}: ok")

    def compare(what, get, name):
        wanted = [(number, name(word)) for number, word in table]
        try:
            found = get()
        except (AttributeError, AssertionError, OSError) as why:
            return check(what, f"no list there ({why})")
        missing = [f"{number} {word}" for number, word in wanted if (number, word) not in found]
        extra = [f"{number} {word}" for number, word in found if (number, word) not in wanted]
        lists = [f"{side} {', '.join(rows)}" for side, rows in (("without", missing), ("with", extra)) if rows]
        check(what, "; ".join(lists) or ("" if sorted(found) == wanted else "something stands twice"))

    check("docs/PROTOCOL.md", "" if count and [number for number, _ in table] == list(range(1, count + 1)) else "numbers do not rise from 1")
    compare("crates/answer/src/lib.rt", answer, pascal)
    compare("crates/answer/specs/Answers.antt", answer_numbers, pascal)
    compare("crates/machine/specs/Codes.antt", codes, lambda word: snake(IN_DEFINITIONS.get(word, word)))
    compare(f"{RUST}, the enum", rust_enum, pascal)
    compare(f"{RUST}, the table", rust_table, lambda word: f"{pascal(word)}, {word}")
    compare(HEADER, header, upper)
    check(f"{HEADER}, how many", "" if header_count() == [str(count)] else f"it says {header_count()}, not {count}")
    check("host/oracle/src/call.rs", "; ".join(oracle(table)))
    check("tests/exports.c and tests/fuzz.c", "; ".join(line.strip() for line in bare_numbers()))
    for page in ("README.md", "docs/PROTOCOL.md"):
        wrong = [number for number in counts_said(page) if int(number) != count]
        check(f"{page}, how many", f"it says {', '.join(wrong)}, not {count}" if wrong else "")
    print(f"{passed} passed, {failed} failed")
    return failed != 0


if __name__ == "__main__":
    sys.exit(main())
