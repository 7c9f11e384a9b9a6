#!/usr/bin/env python3
"""Checks the papers, every *.md of the repository: no line over 110 columns outside tables and code; every relative link leads to a
file or folder of the repository, and its #anchor to a heading. And the crates: no line of code over 130 columns, of a proof over 160, of a
definition or law over 200. tests/papers runs it; the last line is 'N passed, M failed'.
Use: tools/papers.py"""
import pathlib
import re
import sys

ROOT = pathlib.Path(__file__).resolve().parent.parent
COLUMNS = 110
# the folders of a crate, the files there that are written by hand, and their columns
CRATE_COLUMNS = (("src", ".rt", 130), ("proofs", ".antt", 160), ("specs", ".antt", 200))
NOT_OURS = {"target", ".git"}


def papers():
    return sorted(p for p in ROOT.rglob("*.md") if not NOT_OURS & set(p.relative_to(ROOT).parts))


def prose(paper):
    """The lines that are no code, with their numbers. Code is fenced, or indented behind an empty line or other code."""
    fenced, code_may_start = False, True
    for number, line in enumerate(paper.read_text().splitlines(), 1):
        if line.lstrip().startswith("```"):
            fenced = not fenced
        elif not fenced and not (code_may_start and line.startswith("    ")):
            yield number, line
            code_may_start = not line.strip()


def anchors(paper):
    """The anchors of a paper's headings, as the usual renderers make them."""
    found = []
    for _, line in prose(paper):
        if heading := re.match(r"#+ (.*)", line):
            words = re.sub(r"\[([^]]*)\]\([^)]*\)", r"\1", heading.group(1)).strip().lower()
            anchor = re.sub(r"[^\w\- ]", "", words).replace(" ", "-")
            again = found.count(anchor)
            found.append(f"{anchor}-{again}" if again else anchor)
    return found


def long_lines(paper):
    for number, line in prose(paper):
        if len(line) > COLUMNS and not line.lstrip().startswith("|"):
            yield f"{paper.relative_to(ROOT)}:{number}: {len(line)} columns"


def long_code():
    for folder, suffix, columns in CRATE_COLUMNS:
        for file in sorted(ROOT.glob(f"crates/*/{folder}/**/*{suffix}")):
            for number, line in enumerate(file.read_text().splitlines(), 1):
                if len(line) > columns:
                    yield f"{file.relative_to(ROOT)}:{number}: {len(line)} columns"


def dead_links(paper):
    for number, line in prose(paper):
        for link in re.findall(r"\]\(([^)\s]+)\)", re.sub(r"`[^`]*`", "", line)):
            if re.match(r"[a-z]+:", link):
                continue
            name, _, anchor = link.partition("#")
            place = f"{paper.relative_to(ROOT)}:{number}: {link}"
            to = (paper.parent / name).resolve() if name else paper
            if not to.exists() or not to.is_relative_to(ROOT):
                yield f"{place} leads to no file"
            elif anchor and (to.suffix != ".md" or anchor not in anchors(to)):
                yield f"{place} leads to no heading"


def main():
    passed = failed = 0
    checks = (
        (f"papers: no line over {COLUMNS} columns", (fault for paper in papers() for fault in long_lines(paper))),
        ("papers: links", (fault for paper in papers() for fault in dead_links(paper))),
        ("crates: columns", long_code()),
    )
    for what, find in checks:
        faults = list(find)
        print("".join(fault + "\n" for fault in faults), end="")
        failed += bool(faults)
        passed += not faults
        print(f"{what}: {'FAILED' if faults else 'ok'}")
    print(f"{passed} passed, {failed} failed")
    return failed != 0


if __name__ == "__main__":
    sys.exit(main())
