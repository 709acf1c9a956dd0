#!/usr/bin/env python3
"""Writes the stored cases of the programs run_map, run_utf8 and run_cells, with answers that are computed here in another
way: the map as a list of states, UTF-8 by Python's strict decoder, cells as named tuples that are laid out anew for each
answer. Run at the root of the repository."""
import itertools


def store(crate, cases, answers):
    for name, lines in ("stdin", cases), ("stdout", answers):
        with open("crates/%s/%s" % (crate, name), "w") as f:
            f.write("".join(line + "\n" for line in lines))


def map_cases():
    """Document 01's reading 10 first; then each state at each slot over each state of all the others."""
    yield from [(0, 1), (1, 2), (2, 0), (3, 1)]
    for ground in range(4):
        yield from [(slot, ground) for slot in range(8)]
        for slot in range(8):
            yield from [(slot, state) for state in (0, 1, 2, 3, ground)]


def map_answers():
    states = [0] * 8
    for slot, state in map_cases():
        states[slot] = state
        low, high = (int("".join(map(str, reversed(four))), 4) for four in (states[:4], states[4:]))
        ones = sum(s in (1, 3) for s in states)
        yield " ".join(map(str, [low, high, *states, ones, int(state == 2)]))


def utf8_cases():
    """Every byte alone; then the bytes at and beside the ends of the table's ranges, at each place of a sequence, cut off
    at each length; then two values in a row."""
    ends = [0x00, 0x7F, 0x80, 0x8F, 0x90, 0x9F, 0xA0, 0xBF, 0xC0, 0xC1, 0xC2, 0xDF, 0xE0, 0xE1, 0xEC, 0xED, 0xEE, 0xEF]
    ends += [0xF0, 0xF1, 0xF3, 0xF4, 0xF5, 0xFF]
    second = [0x7F, 0x80, 0x8F, 0x90, 0x9F, 0xA0, 0xBF, 0xC0]
    later = [0x7F, 0x80, 0xBF, 0xC0]
    yield b""
    yield from (bytes([b]) for b in range(256))
    yield from map(bytes, itertools.product(ends, ends))
    yield from map(bytes, itertools.product([b for b in ends if b >= 0xDF], second, later))
    yield from map(bytes, itertools.product([b for b in ends if b >= 0xEF], second, later, later))
    good = ["a", "\u0080", "\u07ff", "\u0800", "\ud7ff", "\ue000", "\uffff", "\U00010000", "\U0010ffff"]
    for x, y in itertools.product(good, good):
        whole = (x + y).encode()
        yield from (whole, whole[:-1], whole[1:], whole + b"\x80")


def is_utf8(case):
    try:
        case.decode("utf-8", "strict")
        return 1
    except UnicodeDecodeError:
        return 0


POINTS = [0, 0x7F, 0x80, 0xD7FE, 0xD7FF, 0xD800, 0xDBFF, 0xDC00, 0xDFFF, 0xE000, 0xFFFF, 0x10000, 0x10FFFE, 0x10FFFF]
POINTS += [0x110000, 0xFFFFFFFF]


def is_scalar(n):
    try:
        chr(n).encode("utf-8", "strict")
        return 1
    except (ValueError, OverflowError):
        return 0


KINDS = ["undefined", "nil", "eof", "void", "bool", "char", "number", "string", "symbol", "pair", "vector"]
BIG = 2**64 - 1


def cell_cases():
    """Every kind, known or not, with small and largest fields, at the first and the last slot and between; lookups below
    and past the capacity in every state; every kind of element; texts and blocks up to the rooms' ends."""
    for kind in range(16):
        for slot, a, b in (0, 1, 2), (3, BIG, BIG), (1, 0, 0), (2, 1, BIG):
            yield "c", slot, kind, a, b
    for capacity in 0, 3, 4:
        yield "h", 1, 0, capacity, 0
        for state in 0, 1, 2, 3:
            for slot in range(4):
                yield "m", slot, state, 0, 0
                yield "l", slot, 0, 0, 0
            yield "l", 4, 0, 0, 0
            yield "l", 255, 0, 0, 0
    for kind in range(16):
        for at, a in (0, 1), (3, BIG), (1, 0), (2, 2):
            yield "e", at, kind, a, 0
    for n in 0, 1, 0, 7, 9, 8, 0, 1:
        yield "a", n, 0, 0x6162636465666768 + n, 0
    for place, size in (0, 0), (0, 1), (0, 16), (1, 7), (15, 1), (15, 0), (16, 0), (16, 1), (0, 17), (BIG, 1), (1, BIG):
        yield "t", 0, 0, place, size
    for n in 0, 1, 0, 4, 3, 0, 1:
        yield "r", n, 0, 0, 0


def line_of(case):
    return "%s %02x %x %016x %016x" % case


def three(kind, a=0, b=0):
    """A cell or value by name, as what is kept of it."""
    if kind == "bool":
        return kind, int(a == 1), 0
    if kind in ("char", "number", "slot"):
        return kind, a, 0
    if kind in ("string", "symbol", "pair", "vector"):
        return kind, a, b
    return kind, 0, 0


def numbered(cell):
    return [15 if cell[0] == "slot" else KINDS.index(cell[0]), *cell[1:]]


def cell_answers():
    header = [0] * 8
    cells, states, elements = [three("undefined")] * 4, [0] * 4, [three("undefined")] * 4
    arena = b""
    for case in cell_cases():
        op, x, kind, a, b = case
        out = []
        if op == "c":
            new = three(KINDS[kind] if kind < 11 else "undefined", a, b)
            out = numbered(cells[x]) + numbered(new)
            cells[x] = new
        elif op == "e":
            new = three(KINDS[kind] if kind < 7 else "slot" if kind == 15 else "undefined", a)
            out = numbered(elements[x]) + numbered(new)
            elements[x] = new
        elif op == "h":
            header[x] = a
        elif op == "m":
            states[x] = kind
        elif op == "l":
            out = numbered(cells[x]) if x < header[1] and states[x] == 1 else ["not in use"]
        elif op == "t":
            out = list(arena.ljust(16, b"\0")[a : a + b]) if a + b <= 16 else []
        elif op == "a":
            text = line_of(case)[7 : 7 + x].encode()
            if len(arena + text) > 16:
                out = ["no room"]
            else:
                out = [len(arena) if text else 0]
                arena += text
        elif op == "r":
            if header[5] + x > 4:
                out = ["no room"]
            else:
                out = [header[5] if x else 0]
                header[5] += x
        header[4] = len(arena)
        rows = [word for cell in cells for word in numbered(cell) + [0] * 5]
        laid = [word for element in elements for word in numbered(element)]
        yield " ".join(map(str, [*out, "|", *header, *rows, *arena.ljust(16, b"\0"), *laid])) + " "


store("run_map", ["%d %d" % case for case in map_cases()], list(map_answers()))
store(
    "run_utf8",
    [case.hex() for case in utf8_cases()] + ["u%08x" % n for n in POINTS],
    [str(is_utf8(case)) for case in utf8_cases()] + [str(is_scalar(n)) for n in POINTS],
)
store("run_cells", [line_of(case) for case in cell_cases()], list(cell_answers()))
