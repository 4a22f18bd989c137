#!/usr/bin/env python3
"""Respells the repository's own definitions and lemmas: words in snake case, as the library's are.

usage: python3 tools/respell.py        at the top of the repository, once, right after the toolchain's own upgrade script

A name is respelled if a file of specs/ or proofs/ declares it, it begins with a small letter, and it has a capital
or a dash inside: `boundsAt` becomes `bounds_at`, `digit-byte` becomes `digit_byte`. A lemma that would then have the
name of a definition gets `_lem` at its end. Types, facts and modules keep their names, and so does everything that
the toolchain makes (goals, steps, arms) and every name of src/. Pages and must-fail edits are respelled with the rest:
in a page, what stands between backticks.
"""
import glob
import re

PARTS = r"[A-Za-z0-9_'\-]"
DECLARED = re.compile(r"^[ ]*(?:(?:pub|abbrev|unfoldable|data|record)[ ]+)*([a-z]%s*)(?=[ :])(?:[ ][^:=\n]*)?:(?=[ \n])" % PARTS, re.M)
# lemmas that the upgrade gave the name of a definition of ours
ASIDE = ["all_ones", "has_room", "held_by", "stores_at", "with_call"]
MADE = re.compile(r"/(?:Answers|Invariants|Choices|Proof)\.antt$")
GOALS = re.compile(r"^(?:returns|invariant|loop|decreases|bounds|overflow|slice-bounds|c|l)(?:-|$)")


def texts(kind):
    found = []
    for pattern in kind:
        found += glob.glob(pattern, recursive=True)
    return sorted(p for p in found if "/out/" not in p)


def snake(name):
    name = re.sub(r"(?<=[a-z0-9])(?=[A-Z])", "_", name).lower()
    return name.replace("-", "_")


def read(path):
    with open(path, encoding="utf-8") as f:
        return f.read()


def declared(paths):
    """The names that are respelled: definitions, and lemmas, which are cited with a dash."""
    names = set()
    for path in paths:
        made = MADE.search(path)
        for m in DECLARED.finditer(read(path)):
            name = m[1]
            if made and GOALS.match(name) or made and name.endswith("-requires"):
                continue
            if re.search(r"[A-Z]", name) or "-" in name:
                names.add(name)
    return names


def words(paths):
    """The words that stand bare in the files: not those behind a dot, which are fields, steps and parts of paths."""
    return {w for p in paths for w in re.findall(r"(?<![\w'.\-])[a-z]%s*(?![\w'\-])" % PARTS, read(p))}


def spellings(names, taken):
    """Definitions are respelled first, so that a lemma is the one to step aside."""
    to = {name: name + "_lem" for name in ASIDE if name in taken}
    used = set(taken) - set(to) | set(to.values())
    for name in sorted(names, key=lambda n: ("-" in n, n)):
        new = snake(name)
        if new in used:
            new += "_lem"
        if new in used or "-" not in name and new.endswith("_lem"):
            raise SystemExit(f"{name}: {new} is taken")
        to[name] = new
        used.add(new)
    return to


def main():
    ghost = texts(["crates/*/specs/**/*.antt", "crates/*/proofs/**/*.antt"])
    code = texts(["crates/*/src/**/*.rt"])
    edits = texts(["crates/*/must-fail/*.edit"])
    pages = texts(["README.md", "docs/*.md"])
    names = declared(ghost)
    to = spellings(names, words(ghost))
    one = re.compile(r"(?<![\w'\-])(\.?)(%s)(?![\w'\-])" % "|".join(sorted(map(re.escape, to), key=len, reverse=True)))

    def turned(text):
        # behind a dot a name with a dash is a step of a proof, which the toolchain names
        return one.sub(lambda m: m[0] if m[1] and "-" in m[2] else m[1] + to[m[2]], text)

    for path in ghost + code + edits + pages:
        old = read(path)
        if path.endswith(".md"):
            new = re.sub(r"`[^`\n]*`", lambda m: turned(m[0]), old)
        else:
            new = turned(old)
        if new != old:
            with open(path, "w", encoding="utf-8") as f:
                f.write(new)
    for old in sorted(to):
        print(old, to[old])


main()
