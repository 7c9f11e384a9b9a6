#!/usr/bin/env python3
"""Which files of definitions have to be believed: those that the contracts of the exports, of the programs' texts and the statements of the
top theorems rest on, and what these rest on in turn. Makes docs/TRUSTED.md.

Use: tools/trusted.py           print the page
     tools/trusted.py --write   write docs/TRUSTED.md
     tools/trusted.py --check   compare it with docs/TRUSTED.md, and fail where a file that has to be believed states a law, is named as one, or has a
                                definition that nothing on the page needs
"""
import glob
import os
import re
import sys

ROOT = os.path.join(os.path.dirname(os.path.abspath(__file__)), "..")
PAGE = "docs/TRUSTED.md"

# what the customer's demands are met by: the contracts of the exports, of what the programs plain_sum, classroom and cuts write, and theorems by the crate and file that prove them
CONTRACTS = ("crates/socketlemon/src/lib.rt", "crates/sums/src/line.rt", "crates/lesson/src/show.rt", "crates/cutter/src/lib.rt")
CONTRACTS += tuple(f"crates/{program}/src/main.rt" for program in ("plain_sum", "classroom", "cuts"))
THEOREMS = {
    ("ledger", "DemandLaws"): ["demand3"],
    ("ledger", "InOrderLaws"): ["takes-give"],
    ("ledger", "OwnLaws"): ["since-init", "since-init-made", "own-page", "own-made"],
    ("ledger", "RepeatedLaws"): ["equal-init-row", "equal-init"],
    ("ledger", "BetweenLaws"): ["between-inits"],
    ("ledger", "RefusedLaws"): ["setup-refused", "packet-refused", "push-refused", "wake-refused", "report-refused", "take-refused"],
    ("ledger", "CameLaws"): ["kept"],
    ("ledger", "UntouchedLaws"): ["send-untouched", "recv-untouched"],
    ("address", "AddressLaws"): ["address-refused"],
    ("sums", "SumsLaws"): ["keyed-hash-refused", "derive-key-refused"],
    ("kept", "ExactlyLaws"): ["kept-exactly", "made-whole", "joined-cells"],
    ("planner", "PlanLaws"): ["plan-whole", "plan-greatest", "plan-none"],
    ("planner", "AnswerLaws"): ["plan-short", "plan-long", "plan-number", "plan-refused"],
    ("cutter", "CutsLaws"): ["each-once", "rises-cuts"],
    ("cutter", "WholeLaws"): ["cuts-whole"],
    ("cutter", "TextLaws"): ["cuts-refused"],
    ("machine", "StarredLaws"): ["starred-hold"],
    ("lesson", "SettledLaws"): ["settled-empty", "pushed-empty", "round-empty"],
}

USE = re.compile(r"^(?:ghost )?use Rattle\.(?!std\.)(\w+)\.(?:specs|proofs)\.([\w.-]+)\.\{([^}]*)\}", re.M)
START = re.compile(r"^( *)(?:(abbrev|unfoldable) )?(?:pub )?(?:(record|data) )?([^\s(){}:=]+)(?=[ :])")
WORD = re.compile(r"[^\s()\[\]{};,.]+")


def read(path):
    with open(os.path.join(ROOT, path), encoding="utf-8") as f:
        return f.read()


class Module:
    """A file of specs/, or of laws in proofs/: what it imports, and its declarations with their texts."""

    def __init__(self, crate, folder, name):
        self.crate, self.name = crate, name
        self.path = f"crates/{crate}/{folder}/{name}.antt"
        text = read(self.path)
        self.lines = text.count("\n")
        text = re.sub(r"^use [^{}\n]*\{[^}]*\}", lambda use: " ".join(use.group(0).split()), text, flags=re.M)  # each on one line
        self.about = re.match(r"-- (.*)", text).group(1)
        self.imports = {}
        for use in USE.finditer(text):
            for word in use.group(3).split(","):
                self.imports[word.strip()] = (use.group(1), use.group(2))
        self.signatures, self.bodies, self.kinds = {}, {}, {}
        self.parse([line for line in text.split("\n") if not line.lstrip().startswith(("--", "use ", "infix"))])

    def parse(self, lines):
        at, fields = None, None  # the declaration that is read, and the indent of a record whose fields follow
        around = []  # the modules around it: indent and parameters
        for line in lines:
            if not line.strip():
                continue
            indent = len(line) - len(line.lstrip())
            if fields is not None and indent > fields:
                self.bodies[at] += " " + line
                continue
            fields = None
            if line.lstrip().startswith("module "):
                around = [m for m in around if m[0] < indent] + [(indent, line)]
                at = None
                continue
            kind, data, name = START.match(line).groups()[1:] if START.match(line) else (None, None, None)
            declares = data or name and re.match(rf" *(?:(?:abbrev|unfoldable) )?(?:pub )?{re.escape(name)}(?: \{{[^}}]*\}})? : ", line)
            if declares and name not in ("where", "unfolding", "let"):
                around = [m for m in around if m[0] < indent]
                at, fields = name, indent if data else None
                self.kinds[name] = "definition" if data or kind else "law"
                self.signatures[name], self.bodies[name] = " ".join(m[1] for m in around) + " " + line, ""
            elif at is None:  # a module's parameters go on
                around[-1] = (around[-1][0], around[-1][1] + " " + line)
            elif line.split()[0] == at or self.bodies[at]:
                self.bodies[at] += " " + line
            elif line.split()[0] != "unfolding":
                self.signatures[at] += " " + line

    def needs(self, name, statement_only=False):
        """The declarations that one rests on, as (crate, module, name)."""
        text = self.signatures[name] + ("" if statement_only else " " + self.bodies[name])
        found = set()
        for word in set(WORD.findall(text)):
            for form in (word, f"◌{word}◌"):
                if form in self.kinds and form != name:
                    found.add((self.crate, self.name, form))
                elif form in self.imports:
                    found.add((*self.imports[form], form))
        return found


def modules():
    found = {}
    for path in sorted(glob.glob(os.path.join(ROOT, "crates/*/specs/*.antt")) + glob.glob(os.path.join(ROOT, "crates/*/proofs/*.antt"))):
        crate, folder, name = re.search(r"crates/(\w+)/(specs|proofs)/(\w+)\.antt$", path).groups()
        if name != "Lib" and (folder == "specs" or (crate, name) in THEOREMS):
            found[crate, name] = Module(crate, folder, name)
    return found


def reached(found):
    """Every definition that has to be believed, and the enums of the code that definitions speak of."""
    uses = [use for path in CONTRACTS for use in USE.finditer(read(path))]
    todo = [(use.group(1), use.group(2), word.strip()) for use in uses for word in use.group(3).split(",")]
    for (crate, name), theorems in THEOREMS.items():
        for theorem in theorems:
            todo += found[crate, name].needs(theorem, statement_only=True)
    done, enums = set(), set()
    while todo:
        crate, name, word = item = todo.pop()
        if item in done:
            continue
        done.add(item)
        if name.startswith("declared."):
            path = name.split(".")[1:]
            enums.add((crate, *(path if path[0][0].islower() else ["lib"] + path)[:2]))  # a type of the crate's root has no module
            continue
        module = found[crate, name]
        if word not in module.kinds:  # a constructor or a field: its type is what is needed
            owner = [n for n in module.kinds if re.search(rf"(?<!\S){re.escape(word)}(?!\S)", module.bodies[n])]
            todo += [(crate, name, n) for n in owner if module.kinds[n] == "definition"]
            continue
        todo += module.needs(word)
    return done, enums


ORDER = ["octets", "answer", "blake3", "packet", "topic", "calendar", "address", "sums", "machine", "ledger", "kept", "planner", "script", "link", "lesson", "cutter", "cuts"]


def page(found, done, enums):
    files = sorted({(c, n) for c, n, _ in done if not n.startswith("declared.")}, key=lambda f: (ORDER.index(f[0]), f[1]))
    lines = sum(found[f].lines for f in files)
    text = ["# What has to be believed", "",
            "Made by `tools/trusted.py`; the gate compares it with the sources.",
            "The contracts of the exports (`crates/socketlemon/src/lib.rt`) and of what the programs `plain_sum`,",
            "`classroom` and `cuts` write (`crates/{sums/src/line,lesson/src/show,cutter/src/lib}.rt`, and `run` of each),",
            "and the top theorems that [PROOFS](PROOFS.md) names,",
            "rest on the definitions of these files and on no others.",
            "None of them states a law: laws stand in files whose names end in `Laws`, in crates of laws and in `proofs/`.",
            "The checker has proved that the code and the theorems meet these definitions;",
            "that they say what [PROTOCOL](PROTOCOL.md) says is for a reader to see.", "",
            f"{len(files)} files, {lines:,} lines.", "", "| file | lines | about |", "|---|---|---|"]
    for f in files:
        about = re.split(r"(?<=[.:]) ", found[f].about)[0].rstrip(".:")
        text.append(f"| `{found[f].path}` | {found[f].lines} | {about} |")
    text += ["", "Definitions also speak of types that the code declares:", ""]
    text += [f"- `{enum}` in `crates/{crate}/src/{file}.rt`" for crate, file, enum in sorted(enums)] + [""]
    return "\n".join(text)


def faults(found, done):
    """What keeps the list from being exactly what has to be believed."""
    for f in sorted({(c, n) for c, n, _ in done if not n.startswith("declared.")}):
        module = found[f]
        if module.name.endswith("Laws"):
            yield f"{module.path} is a file of laws, and a statement rests on a definition in it: " + ", ".join(sorted(w for c, n, w in done if (c, n) == f))
        for name, kind in module.kinds.items():
            if kind == "law":
                yield f"{module.path} has to be believed and states the law {name}"
            elif (*f, name) not in done:
                yield f"{module.path}: nothing that has to be believed needs {name}"


def main():
    found = modules()
    done, enums = reached(found)
    text, wrong = page(found, done, enums), list(faults(found, done))
    if sys.argv[1:] == ["--write"]:
        with open(os.path.join(ROOT, PAGE), "w", encoding="utf-8") as f:
            f.write(text)
    elif sys.argv[1:] == ["--check"]:
        if not os.path.exists(os.path.join(ROOT, PAGE)) or read(PAGE) != text:
            wrong.append(f"{PAGE} is not what tools/trusted.py makes: run it with --write")
        print("\n".join(wrong) if wrong else f"{PAGE}: {len(found)} files of specs looked through, nothing else has to be believed")
        sys.exit(1 if wrong else 0)
    else:
        print(text)


main()
