#!/usr/bin/env python3
"""Brings this repository's own definitions and lemmas to snake case: dashes between words become underscores.

usage: python3 tools/spell_names.py    at the top, once, right after the kit's port.py

Names that the toolchain makes (goals, steps of a proof) and names of the library keep their spelling.
Stops, and writes nothing, where two names would fall together.
"""

import glob
import re
import sys

NAME = r"[A-Za-z0-9_'\-+∷ℕℤ≡≤<]+"
SIGNATURE = re.compile(r"^(\s*)((?:abbrev |pub |unfoldable )*)(" + NAME + r")((?:\s*(?:\([^)]*\)|\{[^}]*\}))*)\s*:\s(.*)$")
TOKEN = re.compile(r"(?<![A-Za-z0-9_'\-])([a-zA-Z_][A-Za-z0-9_']*(?:-(?:\+\+|[A-Za-z0-9_']+))+)(?![A-Za-z0-9_'\-])")
LEAVE = {"let"}
# a lemma that would have the name of a function beside it, or of the library
LEMMAS = {"histories-stand", "next-version", "put-mid", "serial-law", "writes-stand"}


def proof_files():
    return sorted(glob.glob("crates/*/specs/**/*.antt", recursive=True) + glob.glob("crates/*/proofs/**/*.antt", recursive=True))


def snake(name):
    if name in LEMMAS:
        name += "_lem"
    name = name.replace("getD", "get_or")
    return re.sub(r"-(?=[A-Za-z0-9_'])", "_", name)


def imported(text):
    """The names that a file takes from the library."""
    taken = set()
    for line in re.findall(r"^\s*(?:ghost )?use (?:Rattle\.std|borrow|Prim)\.[^{;\n]*\{([^}]*)\}", text, re.M):
        for item in line.split(","):
            taken.update(item.split())
    return taken


def own_names():
    names, fields = {}, set()
    for path in proof_files():
        in_record = None
        for line in open(path):
            bare = line.strip()
            if not bare or bare.startswith("--"):
                continue
            indent = len(line) - len(line.lstrip())
            if re.match(r"\s*(pub )?(record|data) ", line):
                in_record = indent
                continue
            if in_record is not None and indent <= in_record:
                in_record = None
            it = SIGNATURE.match(line.rstrip("\n"))
            if not it or it.group(3) in LEAVE or it.group(5).startswith("goal."):
                continue
            name = it.group(3)
            if in_record is not None:
                fields.add(name)
            if "-" in name and re.match(r"[a-zA-Z]", name):
                names.setdefault(name, path)
    return names, fields


def mirrors(path, name):
    """A definition may have the name of the function that it is cited for."""
    return path.endswith(".rt") or f"/{name}/" in path


def main():
    names, fields = own_names()
    turned = {n: snake(n) for n in names}
    bad = []
    seen = {}
    for old, new in turned.items():
        if new in seen:
            bad.append(f"{old} and {seen[new]} would both be {new}")
        seen[new] = old
    paths = proof_files() + sorted(glob.glob("crates/*/src/**/*.rt", recursive=True))
    texts = {p: open(p).read() for p in paths}
    words = {p: set(re.findall(r"(?<![A-Za-z0-9_'\-])[A-Za-z_][A-Za-z0-9_'\-]*", t)) for p, t in texts.items()}
    out = {}
    for path, text in texts.items():
        lib = imported(text)

        def turn(m):
            name = m.group(1)
            before = text[: m.start()]
            if name not in turned or name in lib:
                return name
            if before.endswith(".") and name not in fields:
                return name
            if turned[name] in words[path] and not mirrors(path, turned[name]):
                bad.append(f"{path}: {name} falls together with {turned[name]}")
            return turned[name]

        out[path] = TOKEN.sub(turn, text)
    if bad:
        print("\n".join(sorted(set(bad))), file=sys.stderr)
        return 1
    for path, text in out.items():
        if text != texts[path]:
            open(path, "w").write(text)
    print(f"{len(turned)} names")
    return 0


if __name__ == "__main__":
    raise SystemExit(main())
