#!/usr/bin/env python3
"""Spells the repository's own definitions, lemmas, record fields and constructors in snake case, in specs/, proofs/, clauses and docs/.

Run once, at the top, on a tree that has the new toolchain's spelling otherwise. The first dash of a lemma stays where std's word for a list
comes before it, as in length-upward, and a name that begins with a type's name stays. Names that the toolchain makes, and names of std, are
not touched.
"""
import pathlib
import re

SIGNATURE = re.compile(r"^\s*(?:(?:abbrev|unfoldable|pub|data|record)\s+)*([^\s(){}:;,]+)\s+:\s*(.*)")
NAME = re.compile(r"[A-Za-z][\w']*(?:-[\w']+)+")
IMPORT = re.compile(r"use ([\w.+'-]+)\.\{([^}]*)\}")
LIST_WORDS = ("length", "take", "drop", "map", "sum")


def antt():
    return sorted(p for layer in ("specs", "proofs") for p in pathlib.Path("crates").glob(f"*/{layer}/**/*.antt"))


def sources():
    return sorted(pathlib.Path("crates").glob("*/src/**/*.rt"))


def defined():
    """Names with a dash that the repository defines, and whether each is one of specs/."""
    dashed = {}
    for path in antt():
        for line in path.read_text().splitlines():
            m = SIGNATURE.match(line)
            if not m or line.lstrip().startswith("--") or re.match(r"(goal|given)\w*\.", m.group(2)):
                continue
            if NAME.fullmatch(m.group(1)):
                dashed[m.group(1)] = dashed.get(m.group(1), False) or "specs" in path.parts
    return dashed


def imported():
    found = set()
    for path in antt() + sources():
        for m in IMPORT.finditer(path.read_text()):
            if not re.match(r"Rattle\.(?!std\.)", m.group(1)):
                found.update(re.split(r"[\s,]+", m.group(2)))
    return found


def spelled(name):
    left, _, right = name.partition("-")
    if name[0].isupper():
        return name
    return (left + "-" if left in LIST_WORDS else left + "_") + right.replace("-", "_")


def main():
    dashed = defined()
    clash = set(dashed) & imported()
    assert not clash, f"defined here and in std: {clash}"
    table = {n: spelled(n) for n in dashed if spelled(n) != n}
    assert len(set(table.values())) == len(table), "two names fall together"

    def turned(text):
        return NAME.sub(lambda m: table.get(m.group(0), m.group(0)), text)

    for path in antt() + sources():
        old = path.read_text()
        if turned(old) != old:
            path.write_text(turned(old))
    for path in sorted(pathlib.Path("docs").glob("*.md")):
        old = path.read_text()
        new = re.sub(r"`[^`\n]+`", lambda m: turned(m.group(0)), old)
        if new != old:
            path.write_text(new)
    print(len(table), "names;", "kept:", " ".join(sorted(n for n in dashed if n not in table)))


main()
