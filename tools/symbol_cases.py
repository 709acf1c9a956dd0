#!/usr/bin/env python3
"""Writes the stored cases of the program run_symbols, with answers that are computed here in another way: the table as a
list of pairs and names as slices of one byte string, laid out anew for each answer. Run at the root of the repository."""

SLOTS, ROOM, BIG = 8, 64, 2**64 - 1
SYMBOL = 8


def add(slot, name, scope=0):
    return "a", slot, scope, len(name), name


def find(name, scope=0):
    return "f", 0, scope, len(name), name


def name_is(slot, name):
    return "n", slot, 0, len(name), name


def cell(slot, kind, place, size):
    return "c", slot, place, kind, "%08x" % size


def free(slot):
    return "x", slot, 0, 0, ""


DROP = "d", 0, 0, 0, ""


def used(n):
    return "u", 0, n, 0, ""


NAMES = ["", "a", "aa", "ab", "abc", "abcd", "b", "abcdefgh"]


def emptied():
    """No slot in use, no entry, no byte."""
    yield from map(free, range(SLOTS))
    yield DROP
    yield used(0)


def full(order):
    """Eight entries: one name under several scopes, names that begin with others, the empty name; some twice."""
    keys = [("a", 0), ("a", 1), ("", 0), ("ab", 0), ("a", BIG), ("abc", 7), ("a", 1), ("", BIG)]
    for slot, (name, scope) in zip(order, keys):
        yield add(slot, name, scope)


def cases():
    for scope in 0, 1:
        yield from [find(name, scope) for name in NAMES[:3]]
    yield DROP
    # each name after each entry was made
    for entry in full([3, 0, 1, 7, 2, 6, 4, 5]):
        yield entry
        yield find(entry[4], entry[2])
    for scope in 0, 1, 2, 7, BIG - 1, BIG:
        yield from [find(name, scope) for name in NAMES]
    for slot in range(SLOTS):
        yield from [name_is(slot, name) for name in NAMES[:5]]
    # the table is full: no entry more
    yield add(0, "", 3)
    # entries leave: none, the first, the last, neighbours, every other, all but one, all
    for freed in [], [3], [5], [0, 1], [3, 1, 2, 4], [0, 7, 6, 5], [3, 0, 1, 7, 2, 6, 4], list(range(SLOTS)):
        yield from emptied()
        yield from full([3, 0, 1, 7, 2, 6, 4, 5])
        yield from map(free, freed)
        yield DROP
        yield from [find(name, scope) for name in ("a", "") for scope in (0, 1, BIG)]
        # the table goes on from where it ends now
        yield add(freed[0] if freed else 0, "b")
        yield find("b")
        yield DROP
    # a name is what its block has of the bytes in use, and only a symbol has one
    yield from emptied()
    yield add(0, "abcdefgh")
    yield add(1, "bcd", 1)
    for place, size in (0, 0), (0, 1), (0, 8), (0, 11), (0, 12), (8, 3), (8, 9), (10, 5), (11, 0), (11, 1), (BIG, 2**32 - 1):
        yield cell(0, SYMBOL, place, size)
        for name in "", "a", "bcd", "d", "abcdefgh", "dd":
            yield name_is(0, name)
            yield find(name)
    yield cell(0, SYMBOL, 0, 8)
    for n in 0, 1, 3, 8, 64:
        yield used(n)
        for name in "", "a", "abc", "abcdefgh":
            yield name_is(0, name)
            yield find(name)
    for kind in range(16):
        yield cell(0, kind, 8, 3)
        yield from [name_is(0, name) for name in ("", "bcd")]
        yield from [find("bcd"), find(""), find("bcd", 1)]


def line_of(case):
    op, slot, number, digit, text = case
    return "%s %02x %016x %x %s" % (op, slot, number, digit, text.ljust(8, "-"))


def answers():
    arena, end = bytearray(ROOM), 0
    cells, in_use, table = [(0, 0, 0)] * SLOTS, [False] * SLOTS, []

    def name_at(slot):
        kind, place, size = cells[slot]
        return bytes(arena[:end][place : place + size]) if kind == SYMBOL else b""

    for op, slot, number, digit, text in cases():
        out = []
        name = text.encode()
        if op == "a":
            if len(name) <= ROOM - end:
                arena[end : end + len(name)] = name
                cells[slot] = SYMBOL, end if name else 0, len(name)
                end += len(name)
            in_use[slot] = True
            if len(table) < SLOTS:
                table.append((slot, number))
        elif op == "x":
            in_use[slot], cells[slot] = False, (0, 0, 0)
        elif op == "c":
            size = int(text, 16)
            if digit in (5, 6):
                cells[slot] = digit, number, 0
            elif digit == 4:
                cells[slot] = digit, int(number == 1), 0
            elif digit in (7, 8, 9, 10):
                cells[slot] = digit, number, size
            else:
                cells[slot] = (digit if digit < 4 else 0), 0, 0
        elif op == "d":
            table = [entry for entry in table if in_use[entry[0]]]
        elif op == "u":
            end = number
        elif op == "f":
            out = [s for s, scope in table if (name_at(s), scope) == (name, number)][:1] or ["missing"]
        elif op == "n":
            out = [int(name_at(slot) == name)]
        header = [0, 0, 0, len(table), end, 0, 0, 0]
        entries = table + [(0, 0)] * (SLOTS - len(table))
        rows = [word for c, e in zip(cells, entries) for word in [*c, 0, 0, *e, 0]]
        yield " ".join(map(str, [*out, "|", *header, *rows])) + " "


for file, lines in ("stdin", map(line_of, cases())), ("stdout", answers()):
    with open("crates/run_symbols/" + file, "w") as f:
        f.write("".join(line + "\n" for line in lines))
