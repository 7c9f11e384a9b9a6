#!/usr/bin/env python3
"""Spells the definitions, fields and laws of specs/ and proofs/ in snake case: freeCells becomes free_cells.

usage: tools/respell.py [FOLDER]           respell the repository in FOLDER (this one, if left out), once
       tools/respell.py --names [FOLDER]   print each name with its new spelling
       tools/respell.py --meets [FOLDER]   print each new spelling that a file has already, for another thing

Run after the toolchain's port.py, on a tree that is committed. A name is respelled where a file of specs/ or proofs/ declares it, it begins with a
lowercase letter and has a capital behind one. Types, modules and constructors in upper camel case stay, as do the functions, constants and
strings of src/. BESIDE has the laws that would share a file with a definition of their name, and get `_lem` there.
"""
import glob
import os
import re
import sys

NAME = r"[A-Za-zΑ-ω][\w'₀-₉-]*"
MARKS = r"(?:abbrev|unfoldable|opaque|pub|record|data|private|ruleset)"
# a declaration: its marks, its name, its parameters, a colon
DECLARED = re.compile(rf"(?m)^\s*(?:{MARKS}\s+)*({NAME})(?:\s*(?:\([^)\n]*\)|\{{[^}}\n]*\}}))*\s*:\s")
WORD = re.compile(rf"(?<![\w'₀-₉-]){NAME}")
STRING = re.compile(r'"(?:[^"\\\n]|\\.)*"')
HUMP = re.compile(r"(?<=[a-z0-9])[A-Z]")
# a law whose name a definition takes: its name, and the files that declare or import it
BESIDE = {
    "cell_row": ("machine_laws/specs/CellRow.antt", "machine_laws/specs/Reads.antt"),
    "chunk_row": ("machine_steps/specs/Valid.antt",),
    "head_bytes": ("machine_laws/specs/ValidBytes.antt",),
    "is_digit": ("script/specs/DecimalLaws.antt",),
    "row_fits": ("soundness/proofs/Walking.antt", "soundness/proofs/chain/marked/Proof.antt"),
    "send_at": ("lesson/proofs/Sends.antt",),
}


def files(root, *patterns):
    for pattern in patterns:
        for path in sorted(glob.glob(os.path.join(root, pattern), recursive=True)):
            if "/out/" not in path:
                yield path


def read(path):
    with open(path, encoding="utf-8") as text:
        return text.read()


def is_humped(part):
    return part[:1].islower() and HUMP.search(part)


def respelled(name):
    """The name with each of its parts in snake case, but those that are types."""
    parts = name.replace("getD", "get_or").replace("get_d_", "get_or-").split("-")
    return "-".join(HUMP.sub(lambda hump: "_" + hump.group().lower(), part) if is_humped(part) else part for part in parts)


def proof_files(root):
    return list(files(root, "crates/*/specs/**/*.antt", "crates/*/proofs/**/*.antt"))


def names(root):
    """Each name that changes, with its new spelling."""
    declared = {name for path in proof_files(root) for name in DECLARED.findall(read(path))}
    return {name: respelled(name) for name in sorted(declared) if respelled(name) != name}


def beside(root, path):
    """The laws that get another name in a file."""
    inside = os.path.relpath(path, os.path.join(root, "crates"))
    return {law: law + "_lem" for law, places in BESIDE.items() if inside in places}


def turned(text, new, is_code):
    """The text with its words respelled, but for what stands in the strings of code."""
    swap = lambda found: new.get(found.group(), found.group())
    if not is_code:
        return WORD.sub(swap, text)
    pieces, end = [], 0
    for string in STRING.finditer(text):
        pieces += [WORD.sub(swap, text[end : string.start()]), string.group()]
        end = string.end()
    return "".join(pieces) + WORD.sub(swap, text[end:])


def all_files(root):
    edits = files(root, "crates/*/must-fail/*.edit")
    return proof_files(root) + list(files(root, "crates/*/src/**/*.rt")) + list(edits)


def meets(root):
    """Each file with the new spellings that it has before it is respelled."""
    new = names(root)
    taken = {spelling for spelling in new.values()}
    declared = {name for path in proof_files(root) for name in DECLARED.findall(read(path))}
    for spelling in sorted(taken & declared):
        print(f"declared already: {spelling}")
    doubled = sorted({spelling for spelling in taken if sum(1 for s in new.values() if s == spelling) > 1})
    for spelling in doubled:
        print(f"two names: {spelling}")
    for path in all_files(root):
        words = set(WORD.findall(STRING.sub('""', read(path)))) - set(beside(root, path))
        both = sorted(f"{old} {new[old]}" for old in words & set(new) if new[old] in words)
        if both:
            print(f"{os.path.relpath(path, root)}: {', '.join(both)}")


def main(words):
    flags = [word for word in words if word.startswith("--")]
    places = [word for word in words if not word.startswith("--")]
    root = places[0] if places else os.path.dirname(os.path.dirname(os.path.abspath(__file__)))
    if flags == ["--meets"]:
        return meets(root)
    new = names(root)
    if flags == ["--names"]:
        for name, spelling in new.items():
            print(f"{name}\t{spelling}")
        return None
    if flags:
        sys.exit(__doc__)
    for path in all_files(root):
        before = read(path)
        after = turned(before, new | beside(root, path), path.endswith(".rt"))
        if after != before:
            with open(path, "w", encoding="utf-8") as text:
                text.write(after)
    return None


if __name__ == "__main__":
    main(sys.argv[1:])
