#!/usr/bin/env python3
"""Brings the repository's own names in specs/ and proofs/ to the spelling of today's Rattle.

usage: respell.py [--dry]     at the top of the repository, once, after port.py

Definitions, fields, constructors and variables are in snake case, facts and types in camel case. In the name of a lemma a
dash stays where it joins two names (`length-little`). A name of a library, of src/ and of C stays as it is. What is
turned: specs/, proofs/, the clauses and `ghost use` lines of src/, must-fail edits, and names between backticks in
comments and in pages. It prints names that fall together; none may.
"""
import collections
import glob
import itertools
import re
import sys

WORD = re.compile(r"[^\s(){}\[\];,.\"«»λ:`]+")
DASHED = re.compile(r"[A-Za-z0-9₀-₉]-[A-Za-z0-9]")
USE = re.compile(r"^(?:pub )?(?:ghost )?use (\S+?)(?:\.\{([^}]*)\})?(?: as \S+?)?;?$", re.M)
DECLARED = re.compile(r"^\s*(?:abbrev )?(?:unfoldable )?(?:pub )?([^\s(){}]+) : ", re.M)


def read(path):
    with open(path, encoding="utf-8") as f:
        return f.read()


def own(path):
    return path.startswith("Rattle.") and not path.startswith("Rattle.std")


def files(*patterns):
    return sorted(f for p in patterns for f in glob.glob(p, recursive=True) if "/out/" not in f)


def no_comments(text):
    return re.sub(r"--[^\n]*", "", text)


SPECS = files("crates/*/specs/**/*.antt")
LAWS = [f for f in files("crates/*/proofs/**/*.antt") if not f.endswith("/Proof.antt")]
WALKS = files("crates/*/proofs/**/Proof.antt")
SOURCES = files("crates/*/src/**/*.rt")
EDITS = files("crates/*/must-fail/*.edit")
PAGES = files("README.md", "docs/*.md", "oracle/**/*.md")


def library():
    out = set()
    for f in SPECS + LAWS + WALKS + SOURCES:
        for m in USE.finditer(read(f)):
            if not own(m[1]):
                out.update(n.strip().split(" as ")[0] for n in (m[2] or "").split(","))
    return out - {""}


def names():
    """The dashed words of specs/ and proofs/ that no library has, and those that specs/ declares."""
    lib, words, of_specs, plain = library(), set(), set(), set()
    for f in SPECS + LAWS:
        text = USE.sub("", no_comments(read(f)))
        words.update(w for w in WORD.findall(text) if DASHED.search(w) and w not in lib)
        for n in DECLARED.findall(text):
            if f in SPECS:
                of_specs.add(n)
            plain.add(n)
    return lib, words, of_specs, plain


def camel(word):
    return "".join(p[:1].upper() + p[1:] for p in word.split("-"))


# A lemma on what one of these gives of another function keeps its dash.
LEADS = {"length", "take", "drop", "append", "get_or", "set", "replicate", "map", "reverse", "swap"}


def joined(word, known):
    """The word with a dash between the names that it is made of, the fewest; None where it is not made of names."""
    parts = word.split("-")
    for n in range(2, len(parts) + 1):
        for cuts in itertools.combinations(range(1, len(parts)), n - 1):
            ends = (0, *cuts, len(parts))
            groups = ["_".join(parts[a:b]) for a, b in zip(ends, ends[1:])]
            if groups[0] in LEADS and all(g in known for g in groups):
                return "-".join(groups)
    return None


def table():
    lib, words, of_specs, plain = names()
    snake = lambda w: w.replace("getD", "get_or").replace("-", "_")  # getD is get_or today
    known = {snake(n) for n in of_specs if not n[0].isupper()} | {n for n in lib if "-" not in n and n[:1].islower()}
    out = {}
    for w in sorted(words):
        if w[0].isupper() and w in plain:
            out[w] = camel(w)
        elif w[0].isupper():
            out[w] = camel(w) if len(w.split("-")[0]) > 1 else snake(w)
        elif w in of_specs or w not in plain:
            out[w] = snake(w)
        else:
            out[w] = joined(w, known) or snake(w)
    return {a: b for a, b in out.items() if a != b}, lib


# Where a path begins in a library.
ROOTS = {"native", "Prim", "mathlib", "borrow", "lib", "denote", "contract", "seplogic", "types", "std", "Memᴰ"}
PATH = re.compile(r"[^\s(){}\[\];,\"«»λ:`]+")


def turned(text, names):
    def path(m):
        if m[0].split(".")[0] in ROOTS:
            return m[0]
        return WORD.sub(lambda w: names.get(w[0], w[0]), m[0])

    return PATH.sub(path, text)


def in_backticks(text, names):
    return re.sub(r"`[^`\n]*`", lambda m: turned(m[0], names), text)


def antt(text, names):
    out = []
    for line in text.split("\n"):
        at = line.find("--")
        while at > 0 and line[at - 1] not in " (":
            at = line.find("--", at + 2)
        code, comment = (line, "") if at < 0 else (line[:at], line[at:])
        out.append(turned(code, names) + in_backticks(comment, names))
    return "\n".join(out)


def rust(text, names):
    out = []
    for line in text.split("\n"):
        at = line.find("//")
        code, comment = (line, "") if at < 0 else (line[:at], line[at:])
        out.append(turned(code, names) + in_backticks(comment, names))
    return "\n".join(out)


def clashes(path, before, names, lib):
    """Words of a file that fall together, and a parameter that a word of its clauses would hide behind."""
    by_new = collections.defaultdict(set)
    for w in WORD.findall(before if path.endswith(".rt") else no_comments(before)):
        by_new[names.get(w, w)].add(w)
    for new, olds in sorted(by_new.items()):
        if len(olds) > 1:
            yield f"{path}: {', '.join(sorted(olds))} -> {new}"


def main(argv):
    names_, lib = table()
    taken = collections.defaultdict(list)
    for a, b in names_.items():
        taken[b].append(a)
    for b, olds in sorted(taken.items()):
        if len(olds) > 1 or b in lib:
            print(f"two names: {', '.join(olds)} -> {b}{' (a library has it)' if b in lib else ''}")
    for f in SPECS + LAWS + WALKS + SOURCES + EDITS + PAGES:
        before = read(f)
        if f.endswith(".antt"):
            after = antt(before, names_)
        elif f.endswith(".rt"):
            after = rust(before, names_)
        elif f.endswith(".edit"):
            after = turned(before, names_)
        else:
            after = in_backticks(before, names_)
        if f.endswith((".antt", ".rt")):
            for line in clashes(f, before, names_, lib):
                print(line)
        if after != before and "--dry" not in argv:
            with open(f, "w", encoding="utf-8") as out:
                out.write(after)
    print(f"{len(names_)} names")


main(sys.argv[1:])
