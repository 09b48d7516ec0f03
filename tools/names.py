#!/usr/bin/env python3
"""Brings the repository's own names of specs/ and proofs/ to one spelling: snake case, after port.py.

usage: python3 tools/names.py        at the top of a repository that port.py has just turned

A definition `mayGo` becomes `may_go`, a lemma `open-iff` becomes `open_iff`. A lemma that would so get the name of a
definition gets `_lem` after it. Types keep their capitals, functions of src/ and names that Rattle makes keep theirs.
"""

import os
import re
import sys

TOKEN = re.compile(r"(?<![\w'-])[A-Za-z][\w']*(?:-[\w']+)*")
SIGNED = re.compile(r"^ {0,4}(?:(?:abbrev|unfoldable|pub) )*([a-z][^\s:(){}\[\],;.]*) ?(?:\([^)]*\) ?|\{[^}]*\} ?)*: ")
OWN = re.compile(r"^use Rattle\.\w+\.(?:specs|proofs)\.[\w.+]+\.\{([^}]*)\}")
WALKS = ("Proof.antt", "Invariants.antt", "Answers.antt")

# Record fields keep the plain word, also beside a definition of that name: a field is told by its place.
FIELDS = {"all-confirmed": "all_confirmed"}

# std has the name without the dash.
LIBRARY = {"ones-in"}

# port.py gave a lemma the name that a definition beside it gets here.
BESIDE = {
    "crates/decision/proofs/Order.antt": [(r"(?<![\w'.-])is_open(?![\w'-])", "is_open_lem")],
    "crates/effects/proofs/Remove.antt": [(r"(?<![\w'.-])is_open(?![\w'-])", "is_open_lem"), (r"(?<![\w'.-])moved_up(?![\w'-])", "moved_up_lem")],
    "crates/effects/proofs/Strike.antt": [(r"(?<![\w'.-])moved_up(?![\w'-])", "moved_up_lem")],
    "crates/promises/proofs/Sheet.antt": [(r"(?<![\w'.-])one_left(?![\w'-])", "one_left_lem")],
    "crates/promises/proofs/Cycles.antt": [(r"(?<![\w'.-])is_open(?= :| j o| x\.job)", "is_open_lem")],
}


def snake(name):
    return re.sub(r"(?<=[a-z0-9])([A-Z])", lambda m: "_" + m.group(1).lower(), name).replace("-", "_")


def files(root):
    for folder, dirs, names in os.walk(os.path.join(root, "crates")):
        dirs[:] = sorted(d for d in dirs if d not in ("out", "target"))
        for n in sorted(names):
            if n.endswith((".antt", ".rt")):
                yield os.path.join(folder, n)


def read(path):
    with open(path, encoding="utf-8") as f:
        return f.read()


def declared(root):
    found = set()
    for path in files(root):
        if path.endswith(".antt") and os.path.basename(path) not in WALKS + ("Lib.antt",):
            for line in read(path).splitlines():
                m = SIGNED.match(line)
                if m and not line.lstrip().startswith("--"):
                    found.add(m.group(1))
    return found


def table(names):
    defined = {snake(n) for n in names if "-" not in n and snake(n) != n}
    out = {}
    for n in names:
        s = FIELDS.get(n) or snake(n)
        if s != n:
            out[n] = s + "_lem" if "-" in n and n not in FIELDS and (s in defined | names or n in LIBRARY) else s
    return out


def turned(path, text, names):
    own = None
    if os.path.basename(path) in WALKS:
        own = {w.split(" as ")[0].strip() for line in text.splitlines() for m in [OWN.match(line)] if m for w in m.group(1).split(",")}

    def one(m):
        t = m.group(0)
        if t not in names or (path.endswith(".rt") and "-" in t) or (own is not None and "-" in t and t not in own):
            return t
        return names[t]

    return TOKEN.sub(one, text)


def main():
    root = os.getcwd()
    for path, pairs in BESIDE.items():
        full = os.path.join(root, path)
        text = read(full)
        for old, new in pairs:
            text = re.sub(old, new, text)
        with open(full, "w", encoding="utf-8") as f:
            f.write(text)
    names = table(declared(root))
    fallen = 0
    for path in files(root):
        text = read(path)
        new = turned(path, text, names)
        before, after = set(TOKEN.findall(text)), set(TOKEN.findall(new))
        together = sorted(s for s in before & {names[t] for t in before if t in names})
        if together and os.path.basename(path) not in WALKS:
            fallen += 1
            print("look:", os.path.relpath(path, root), " ".join(together))
        if new != text:
            with open(path, "w", encoding="utf-8") as f:
                f.write(new)
    lem = sorted(n for n in names if names[n].endswith("_lem"))
    print(len(names), "names;", "with _lem:", " ".join(lem))


if __name__ == "__main__":
    sys.exit(main())
