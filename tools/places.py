#!/usr/bin/env python3
"""The places of src/ that docs/DESIGN-PASS.md counts, point by point.

    tools/places.py [TOP]              how many places each point has below TOP (the repository's top; this one by default)
    tools/places.py [TOP] --list WORD  and which, for the points that begin with WORD

A place to look, not a verdict: the page says of each what became of it.
"""
import collections, glob, os, re, sys

TOKEN = re.compile(r"//[^\n]*|b?'(?:\\.|[^'\\])+'|b?\"[^\"]*\"|[A-Za-z_]\w*|\d\w*|::|->|=>|\.\.=|\.\.|&&|\|\||\S")
KEYWORDS = set("""fn pub let mut if else match while for loop in return as break continue true false self Self struct enum impl
use const ref move""".split())
LISTS = ("words", "map", "bytes", "elems")

# One pattern a line.
LINES = [
    ("1 enums", r"^(pub )?enum \w+"),
    ("1 flags beside a value", r"^ *(pub )?(over|early): bool"),
    ("1 numbers for kinds", r"\b(\w+\.)?(kind|k)\b (==|!=|<|<=|>|>=) \d+|\b\d+ (<|<=) (kind|k)\b|match (\w+\.kind|kind|k|datum\[0\]) \{"),
    ("1 numbers for nothing", r"== (16|256)\b"),
    ("3 loops by hand", r"^ *('\w+: )?(while|loop)\b|=> loop \{"),
    ("4 by hand", r"^ *(pub )?fn (same|compare\w*|then|least|wide|goes|alike|swap|write_bytes|write_words|clear_\w+|put_little"
                  r"|write_little|u32_at|u64_at|hex_digit|is_scalar_value|number|digit|print|unhex)\b"),
    ("6 rooms of fixed size", r"\[\w+; [\w *]+\]"),
]


def closing(text, at, opens, closes):
    """the place of the bracket that closes the one at a place"""
    depth = 0
    for i in range(at, len(text)):
        if text[i] == opens:
            depth += 1
        elif text[i] == closes:
            depth -= 1
            if depth == 0:
                return i
    raise ValueError("a bracket is not closed")


def functions(text):
    """each function's name, line, parameters, clauses and body"""
    for m in re.finditer(r"^ *(?:pub )?(?:extern \"C\" )?fn (\w+)", text, re.M):
        start = text.index("(", m.end())
        end = closing(text, start, "(", ")")
        clauses, at = [], end
        while True:
            brace = text.index("{", at)
            line = text[text.rindex("\n", 0, brace) + 1:brace].split()
            if not line or line[0] not in ("requires", "ensures"):
                break
            at = closing(text, brace, "{", "}")
            clauses.append((line[0], text[brace + 1:at].strip()))
        body = text[brace:closing(text, brace, "{", "}") + 1]
        yield m.group(1), text[:m.start()].count("\n") + 1, text[start + 1:end], clauses, body


def shape(code):
    """the code with its names, types and numbers replaced by the order in which they come"""
    seen, out = {}, []
    for t in TOKEN.findall(code):
        if t.startswith("//"):
            continue
        plain = t in KEYWORDS or not re.match(r"\w|b?['\"]", t)
        out.append(t if plain else str(seen.setdefault(t, len(seen))))
    return tuple(out)


def places(top):
    found = collections.defaultdict(list)
    shapes, facts = collections.defaultdict(list), collections.defaultdict(set)
    for path in sorted(glob.glob(os.path.join(top, "crates", "*", "src", "**", "*.rt"), recursive=True)):
        crate = os.path.relpath(path, os.path.join(top, "crates")).split(os.sep)[0]
        text = open(path, encoding="utf-8").read()
        for n, line in enumerate(text.split("\n"), 1):
            for point, pattern in LINES:
                if not line.lstrip().startswith("//") and re.search(pattern, line):
                    found[point].append((crate, n, line.strip()))
            if line.lstrip().startswith("// Kept:"):
                found["kept, with its reason"].append((crate, n, line.strip()))
        for name, n, params, clauses, body in functions(text):
            if len(shape(params + body)) >= 45:
                shapes[shape(params + body)].append((crate, n, name))
            given = [p.split(":")[0].replace("mut ", "").strip() for p in re.split(r",\s*", params)]
            if sum(x in given for x in LISTS) >= 3:
                found["5 lists that travel"].append((crate, n, name))
            for kind, clause in clauses:
                if kind == "requires":
                    facts[clause].add((crate, n, name))
    for same in shapes.values():
        for crate, n, name in same if len(same) > 1 else []:
            found["2 twins"].append((crate, n, name + ", of " + " ".join(q[2] for q in same)))
    for clause, where in facts.items():
        for crate, n, name in sorted(where) if len(where) >= 3 else []:
            found["5 facts in three contracts"].append((crate, n, name + ": " + clause))
    return found


def main():
    args = sys.argv[1:]
    word = None
    if "--list" in args:
        at = args.index("--list")
        word = args[at + 1]
        del args[at:at + 2]
    found = places(args[0] if args else os.path.join(os.path.dirname(os.path.abspath(__file__)), ".."))
    for point in sorted(found):
        print(len(found[point]), point)
        if word is not None and point.startswith(word):
            for crate, n, what in sorted(found[point]):
                print("    %s:%d  %s" % (crate, n, what))


main()
