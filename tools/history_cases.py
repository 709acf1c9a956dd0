#!/usr/bin/env python3
"""Writes the stored histories of the program run_histories, with their answers. Run at the root of the repository, with the
oracle built from the original that MARWOOD_SRC names (oracle/README.md). The gate runs the program and not this.

The answers come from the original Rust (oracle/), except for refusals that the Rust does not have: there the number is document
01's, written here beside the call. A refused call leaves the heap as it stood, so the Rust is not asked it at all.
How a line of the program's input stands for a call is said at the head of crates/run_histories/src/main.rt."""
import importlib.machinery
import os
import subprocess
import sys

sys.dont_write_bytecode = True
compare = importlib.machinery.SourceFileLoader("compare", os.path.join("oracle", "compare-histories")).load_module()
SEED, COUNT = 20261115, 60
LONGEST = 16384
# the commands whose calls the program has, each with the letter of its line
LETTERS = {"setup": "s", "put": "p", "cellstore": "c", "elemstore": "e", "collect": "g", "read": "r", "eqv": "v", "equal": "q", "dump": "d"}


def oracle(words, text):
    return subprocess.run([compare.ORACLE] + words, input=text.encode(), stdout=subprocess.PIPE, check=True).stdout.decode()


def datum(nodes):
    return b"".join(compare.node(line) for line in nodes)


def line(words, nodes, length):
    """The program's line for a command; `length` is what a read's output is lent."""
    if words[0] == "put":
        return "p " + datum(nodes).hex()
    numbers = {
        "setup": lambda: words[1:],
        "cellstore": lambda: [words[1], *compare.given(words[2])],
        "elemstore": lambda: [words[1], words[2], *compare.given(words[3])[:2]],
        "collect": lambda: words[1].split(",") if len(words) > 1 else [],
        "read": lambda: [length, *compare.given(words[1])[:2]],
        "eqv": lambda: [*compare.given(words[1])[:2], *compare.given(words[2])[:2]],
        "equal": lambda: [*compare.given(words[1])[:2], *compare.given(words[2])[:2]],
        "dump": lambda: [],
    }[words[0]]()
    return " ".join([LETTERS[words[0]]] + [str(number) for number in numbers])


def command(words, nodes):
    return "".join(text + "\n" for text in [" ".join(words)] + nodes)


def answer(lines, words):
    """The next command's answer, taken off the Rust's lines; a datum in hex."""
    taken = [lines.pop(0)]
    while words[0] == "dump" and not taken[-1].startswith("states="):
        taken.append(lines.pop(0))
    if taken[0].startswith("datum="):
        taken[0] = "datum=" + datum(taken[0][6:].split(";")).hex()
    return "".join(text + "\n" for text in taken)


def fitting(told):
    """The shortest output for what a read told."""
    return len(told[6:].strip()) // 2 if told.startswith("datum=") else LONGEST


ASKED, TOLD = [], []


def case(text, told):
    ASKED.append(text + "\n")
    TOLD.append(told)


class History:
    """A history by hand: each call's answer is the Rust's, or a refusal that is given with it."""

    def __init__(self, remark, chunk):
        case("# " + remark, "# " + remark + "\n")
        self.before = ""
        self.call("setup %d" % chunk)

    def call(self, text, nodes=(), length=LONGEST):
        words = text.split()
        self.before += command(words, list(nodes))
        told = answer(oracle(["commands"], self.before).splitlines()[-1:] if words[0] != "dump" else self.dump_lines(), words)
        assert not told.startswith("datum=") or fitting(told) <= length, text
        case(line(words, nodes, length), told)
        return told.strip()

    def dump_lines(self):
        lines = oracle(["commands"], self.before).splitlines()
        return lines[max(at for at, text in enumerate(lines) if text.startswith("capacity=")):]

    def put(self, *nodes):
        return int(self.call("put %d" % len(nodes), nodes)[5:])

    def dump(self):
        return self.call("dump")

    def read(self, slot):
        """A read into the shortest output that takes it; one byte less is 18."""
        told = answer(oracle(["commands"], self.before + "read @%d\n" % slot).splitlines()[-1:], ["read"])
        size = fitting(told)
        assert told.startswith("datum=")
        self.refused(18, "r %d 15 %d" % (size - 1, slot))
        return bytes.fromhex(self.call("read @%d" % slot, length=size)[6:])

    def refused(self, number, *lines):
        for text in lines:
            case(text, "refused=%d\n" % number)

    def nothing_changes(self, number, *lines):
        """Refused calls between two dumps of the same heap."""
        held = self.dump()
        self.refused(number, *lines)
        assert self.dump() == held


def symbol(text):
    return "sym=" + text.encode().hex()


def string(text):
    return "str=" + text.encode().hex()


def listed(*items):
    """A proper list of these nodes."""
    return [text for item in items for text in ["pair="] + item] + ["nil="]


def template(crane, parts):
    return listed([symbol(crane)], [string("lift " + crane)], ["vec=%d" % len(parts)] + [symbol(part) for part in parts])


# ---- the incident: a terminal's handle outlives what it named


def lapsed_and_free():
    """The handle is the lowest slot of its template, which is given again last: it stays Free, and is told so."""
    history = History("the incident: a lapsed handle whose slot stays free: 14, nothing changes, and the neighbours' templates stand", 16)
    first = history.put("def=0", "pair=", symbol("first"), *listed([string("hook")], ["vec=2", "ref=0", "num=4"]))
    neighbour = template("second", ["beam", "winch"])
    second = history.put(*neighbour)
    history.read(first)
    history.call("collect %d" % second)
    history.nothing_changes(14, "g %d %d" % (second, first), "g %d" % first, "r 16384 15 %d" % first)
    next_one = listed([symbol("third")], [string("lift third")])
    third = history.put(*next_one)
    history.nothing_changes(14, "g %d %d %d" % (second, third, first), "g %d %d" % (first, first), "r 16384 15 %d" % first, "c %d 1 0 0" % first)
    assert "slot%d=free" % first in history.dump().split("\n")
    assert history.read(second) == datum(neighbour)
    assert history.read(third) == datum(next_one)
    history.call("collect %d,%d" % (second, third))
    assert history.read(second) == datum(neighbour)
    assert history.read(third) == datum(next_one)


def lapsed_and_taken():
    """The handle is the highest slot of its template, which is given again first: it names a part of the next template."""
    history = History("the incident: a lapsed handle whose slot the next template took: it names what is there now, and that stands", 16)
    first = history.put(*template("first", ["hook", "beam"]))
    second = history.put(*template("second", ["winch"]))
    history.call("collect %d" % second)
    history.nothing_changes(14, "g %d %d" % (second, first))
    taker = template("third", ["hook", "cab", "rail"])
    third = history.put(*taker)
    assert "slot%d=free" % first not in history.dump().split("\n")
    history.read(first)
    history.call("collect %d,%d,%d" % (second, third, first))
    history.dump()
    assert history.read(third) == datum(taker)
    assert history.read(second) == datum(template("second", ["winch"]))


# ---- refusals that the Rust does not have


def refusals():
    history = History("refusals of the stores, of eqv, equal and read: 11 before 14 before 15, and the heap stands", 16)
    name = history.put(symbol("name"))
    vector = history.put("vec=2", "num=1", string("two"))
    pair = history.put("pair=", "nil=", "bool=1")
    free = 15
    assert "slot%d=free" % free in history.dump().split("\n")
    far = 16, 255, 256, 4096, 2**32, 2**64 - 1
    history.nothing_changes(
        11,
        # a cell store of no kind, of a string, symbol, vector, identifier or slot; Bool and Char out of their numbers
        *["c %d %d 0 0" % (pair, kind) for kind in (7, 8, 10, 11, 12, 13, 14, 15, 16, 255, 2**64 - 1)],
        "c %d 4 2 0" % pair, "c %d 5 55296 0" % pair, "c %d 5 57343 0" % pair, "c %d 5 1114112 0" % pair,
        *["e %d 0 %d 0" % (vector, kind) for kind in (7, 8, 9, 10, 11, 12, 13, 14, 16, 255, 2**64 - 1)],
        "e %d 0 4 2" % vector, "e %d 0 5 55296" % vector,
        *[letter + rest for letter in "vq" for rest in (" 9 0 1 0", " 1 0 7 0", " 4 2 1 0", " 1 0 5 55296")], "r 16384 9 0", "r 16384 4 2", "r 16384 16 0",
        # before 14 and 15
        "c %d 7 0 0" % free, "c %d 4 2 0" % name, "e %d 0 9 0" % free, "e %d 9 4 2" % pair, "v 15 %d 7 0" % free, "v 7 0 15 %d" % free,
        "q 15 %d 7 0" % free, "q 7 0 15 %d" % free)
    history.nothing_changes(
        14,
        *[text for slot in (free, *far) for text in (
            "c %d 1 0 0" % slot, "c %d 9 %d %d" % (pair, slot, pair), "c %d 9 %d %d" % (pair, pair, slot), "e %d 0 1 0" % slot,
            "e %d 0 15 %d" % (vector, slot), "v 15 %d 1 0" % slot, "v 1 0 15 %d" % slot, "v 15 %d 15 %d" % (slot, slot),
            "q 15 %d 1 0" % slot, "q 1 0 15 %d" % slot, "q 15 %d 15 %d" % (slot, slot),
            "r 16384 15 %d" % slot, "g %d" % slot, "g %d %d" % (pair, slot))],
        # before 15 and 18
        "c %d 9 %d %d" % (name, free, free), "e %d 2 15 %d" % (vector, free), "e %d 0 15 %d" % (pair, free), "r 0 15 %d" % free)
    history.nothing_changes(
        15,
        "c %d 1 0 0" % name, "c %d 9 %d %d" % (name, pair, pair),
        *["e %d 0 1 0" % slot for slot in (name, pair)], "e %d 2 1 0" % vector, "e %d %d 1 0" % (vector, 2**64 - 1))
    history.nothing_changes(18, *["r 0 15 %d" % slot for slot in (name, vector, pair)], "r 0 1 0", "r 4 4 1", "r 8 6 7")
    for text in ("read nil", "read bool:1", "read num:-7", "eqv num:1 num:1", "eqv void void", "equal void void", "equal num:1 @%d" % pair, "cellstore %d pair:%d,%d" % (pair, pair, name),
                 "elemstore %d 1 @%d" % (vector, name), "cellstore %d void" % vector):
        history.call(text)
    for slot in name, pair, vector:
        history.read(slot)
    history.dump()


# a call of each kind; all but setup look whether the lists are sound, and those of the second list take scratch
CALLS = ["c 0 1 0 0", "e 0 0 1 0", "v 1 0 1 0"]
WITH_SCRATCH = ["p 01", "g", "g 0", "r 16384 15 0", "r 16384 1 0", "q 1 0 1 0", "q 15 0 15 0"]


def damaged():
    history = History("lists that are no sound heap: 20 of every call, before 19, 11 and 14; repaired they are one again", 8)
    slot = history.put("vec=2", "num=1", string("two"))
    held = history.dump()
    for index, wrong, right in ((7, 1, 0), (1, 9, 8), (2, 0, 6), (8 + 8 * slot + 3, 5, 0)):
        case("w %d %d" % (index, wrong), "")
        history.refused(20, *CALLS, *WITH_SCRATCH, "c 99 77 0 0", "q 77 0 15 99", "r 0 77 0", "g 99")
        case("w %d %d" % (index, right), "")
        assert history.dump() == held
    history.read(slot)


def short_scratch():
    """260 slots want more scratch than is lent, 256 do not."""
    history = History("a capacity past what the scratch is long enough for: 19 of every call that takes it, before 11 and 14", 260)
    history.refused(19, *WITH_SCRATCH, "p 63", "g 99", "r 0 77 0", "r 0 15 99", "q 77 0 15 99")
    history.refused(14, *CALLS[:2], "v 15 0 15 0")
    assert "free=260" in history.dump()
    history = History("a capacity for which the scratch is just long enough", 256)
    slot = history.put("vec=2", "num=1", string("two"))
    history.read(slot)
    history.call("equal @%d @%d" % (slot, slot))
    history.call("collect %d" % slot)
    history.dump()


def unfolding():
    """Each pair names the next twice: one more doubles what is read. 4,096 nodes are read, 4,097 are 12."""
    history = History("a reading that unfolds: 4,096 nodes are read, one more is 12; 12 comes before 18", 16)
    below = history.put("nil=")
    one = history.put("vec=1", "nil=")
    two = history.put("vec=2", "nil=", "nil=")
    for _ in range(11):
        slot = history.put("pair=", "nil=", "nil=")
        history.call("cellstore %d pair:%d,%d" % (slot, below, below))
        below = slot
    assert len(history.read(below)) == 4095
    history.call("elemstore %d 0 @%d" % (one, below))
    history.call("elemstore %d 0 @%d" % (two, below))
    assert len(history.read(one)) == 4095 + 5
    for _ in range(2):
        above = history.put("pair=", "nil=", "nil=")
        history.call("cellstore %d pair:%d,%d" % (above, below, below))
        below = above
        assert history.call("read @%d" % above) == "refused=12"
        history.refused(12, "r 0 15 %d" % above)
    assert history.call("read @%d" % two) == "refused=12"
    history.call("collect %d,%d" % (one, above))
    history.dump()
    history.read(one)
    assert history.call("read @%d" % above) == "refused=12"


def labels():
    history = History("a reading of 64 labels, and of one more: 12", 4)
    loops = [history.put("def=0", "pair=", "ref=0", "nil=") for _ in range(65)]
    many = [history.put("vec=%d" % count, *["nil="] * count) for count in (64, 65)]
    for vector, count in zip(many, (64, 65)):
        for at in range(count):
            history.call("elemstore %d %d @%d" % (vector, at, loops[at]))
    history.read(many[0])
    assert history.call("read @%d" % many[1]) == "refused=12"
    history.call("elemstore %d 0 nil" % many[1])
    history.read(many[1])
    history.call("collect %d" % many[1])
    history.dump()


# ---- room that a collection gives back


def full():
    history = History("no slot left: 16, and after a collection the same datum is put", 256)
    kept = history.put(*listed(*[["num=%d" % n] for n in range(60)]))
    lapsed = history.put(*listed(*[["num=%d" % n] for n in range(64)]))
    refused = "p " + datum(["pair=", "pair=", "nil=", "nil=", "pair=", "nil=", "nil="]).hex()
    history.nothing_changes(16, refused)
    for _ in range(6):
        history.put("nil=")
    history.refused(16, "p 01", refused)
    history.call("collect %d" % kept)
    history.nothing_changes(14, "g %d %d" % (kept, lapsed))
    history.put("pair=", "pair=", "nil=", "nil=", "pair=", "nil=", "nil=")
    history.read(kept)
    history.dump()


def packed():
    history = History("no room for a text or for elements: 17, and put after a collection has packed the blocks", 16)
    parts = [history.put(string(letter * 2730)) for letter in "abc"]
    last = history.put(string("zz"))
    history.refused(17, "p " + datum([string("x")]).hex(), "p " + datum([symbol("x")]).hex())
    history.put(string(""))
    history.call("collect %d,%d" % (parts[1], last))
    third = history.put(string("d" * 2731))
    for slot in parts[1], last, third:
        history.read(slot)
    vectors = [history.put("vec=1024", *[leaf] * 1024) for leaf in ("nil=", "eof=", "void=", "undef=")]
    history.refused(17, "p " + datum(["vec=1", "nil="]).hex())
    history.put("vec=0")
    history.call("elemstore %d 1023 @%d" % (vectors[2], last))
    history.call("collect %d,%d" % (vectors[2], vectors[0]))
    fourth = history.put("vec=3", "nil=", string("e"), "void=")
    history.read(fourth)
    history.read(last)
    history.call("elemstore %d 1023 @%d" % (vectors[0], vectors[2]))
    history.call("collect %d" % fourth)
    history.dump()


# ---- sharing


def shared():
    history = History("an element store shows through every slot that shows the block, and a collection keeps the block once", 4)
    label = history.put("def=0", "vec=3", "num=1", "num=2", "ref=0")
    inner = [at for at in range(8) if "slot%d=vec:num:1,num:2,@%d" % (at, label) in history.dump().split("\n") and at != label]
    assert len(inner) == 1
    other = history.put("vec=3", "num=1", "num=2", "nil=")
    history.call("elemstore %d 0 char:97" % label)
    history.call("elemstore %d 1 @%d" % (inner[0], other))
    for slot in label, inner[0], other:
        history.read(slot)
    history.call("eqv @%d @%d" % (label, inner[0]))
    history.dump()
    history.call("collect %d,%d" % (inner[0], label))
    history.dump()
    history.call("elemstore %d 2 num:-1" % label)
    for slot in label, inner[0]:
        history.read(slot)
    history.call("collect %d" % inner[0])
    history.refused(14, "e %d 0 1 0" % label)
    history.call("elemstore %d 0 eof" % inner[0])
    history.read(inner[0])
    history.dump()


def comparing():
    history = History("equal: lists, vectors, walks that end in symbols, rings of unlike periods, and what is shared without end", 8)
    both = lambda *nodes: (history.put(*nodes), history.put(*nodes))
    ring = lambda n: ["def=0"] + ["pair=", "num=1"] * n + ["ref=0"]
    pairs = [
        both("pair=", "num=1", symbol("foo")),  # reading 11
        both("pair=", "num=1", "pair=", "num=2", "nil="),  # reading 12
        both("vec=2", symbol("a"), "vec=1", string("x")), both("vec=1", "void="), both(string("ab")), both(symbol("ab")),
        (history.put("vec=1", "num=1"), history.put("vec=2", "num=1", "num=1")),
        (history.put("pair=", "void=", "nil="), history.put("pair=", "void=", "nil=")),
        (history.put(*ring(2)), history.put(*ring(3))), (history.put(*ring(3)), history.put(*ring(4)[:-1], "nil=")),
    ]
    history.dump()
    for left, right in pairs:
        for one, two in ((left, right), (right, left), (left, left)):
            history.call("equal @%d @%d" % (one, two))
            history.call("eqv @%d @%d" % (one, two))
    # a pair that ends in a symbol is equal to itself and, by its fields, to a pair of the same slots; to no other
    first, second = pairs[0]
    car, cdr = history.put("num=1"), history.put(symbol("foo"))
    for slot in first, second:
        history.call("cellstore %d pair:%d,%d" % (slot, car, cdr))
    history.call("equal @%d @%d" % (first, second))
    history.call("equal @%d @%d" % (cdr, cdr))
    outer = [history.put("pair=", "nil=", "nil=") for _ in range(2)]
    for slot, inner in zip(outer, (first, second)):
        history.call("cellstore %d pair:%d,%d" % (slot, car, inner))
    history.call("equal @%d @%d" % tuple(outer))
    history.call("equal @%d @%d" % (outer[0], outer[0]))
    # each pair names the next one twice
    below = both("nil=")
    for _ in range(12):
        above = both("pair=", "nil=", "nil=")
        for slot, inner in zip(above, below):
            history.call("cellstore %d pair:%d,%d" % (slot, inner, inner))
        below = above
    history.call("equal @%d @%d" % below)
    history.call("collect %d,%d" % below)
    history.call("equal @%d @%d" % below)
    history.dump()


def cycles():
    history = History("cycles go when no root reaches them; their symbols leave the table and are made anew", 8)
    ring = history.put("def=0", "pair=", symbol("ring"), "pair=", "vec=2", "ref=0", "ident=7:" + "ring".encode().hex(), "ref=0")
    kept = history.put("def=5", symbol("kept"))
    copy = history.put(symbol("kept"))
    history.read(ring)
    history.call("collect %d,%d" % (ring, ring))
    history.dump()
    history.put(symbol("ring"))
    history.put("ident=7:" + "ring".encode().hex())
    history.call("collect")
    history.dump()
    history.nothing_changes(14, *["g %d" % slot for slot in (ring, kept, copy)])
    again = history.put(symbol("ring"))
    history.put(*listed([symbol("ring")], ["ident=0:" + "ring".encode().hex()], ["ident=7:" + "ring".encode().hex()]))
    history.call("collect %d" % again)
    history.dump()


for one in lapsed_and_free, lapsed_and_taken, refusals, damaged, short_scratch, unfolding, labels, full, packed, shared, comparing, cycles:
    one()
BY_HAND = len(ASKED)

# ---- random ones: the heap is dumped after the last collection and at the end

text = oracle(["random", str(SEED), str(COUNT), "commands"], "")
COUNTS = {}
for number, one in enumerate(text.split("---\n")):
    history = [(words, nodes) for words, nodes in compare.commands(one.splitlines()) if words[0] in LETTERS and words[0] != "dump"]
    last = max([at for at, (words, _) in enumerate(history) if words[0] == "collect"], default=0)
    history[last + 1:last + 1] = [(["dump"], [])]
    history.append((["dump"], []))
    lines = oracle(["commands"], "".join(command(words, nodes) for words, nodes in history)).splitlines()
    case("# random %d" % number, "# random %d\n" % number)
    for words, nodes in history:
        told = answer(lines, words)
        case(line(words, nodes, fitting(told)), told)
        COUNTS[words[0]] = COUNTS.get(words[0], 0) + 1
    assert not lines

for file, parts in ("stdin", ASKED), ("stdout", TOLD):
    with open("crates/run_histories/" + file, "w") as out:
        out.writelines(parts)
print("%d lines by hand; %d random histories: %s" % (BY_HAND, COUNT, ", ".join("%d %s" % (n, word) for word, n in sorted(COUNTS.items()))))
