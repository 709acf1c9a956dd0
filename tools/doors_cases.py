#!/usr/bin/env python3
"""Writes the stored cases of the program run_doors, with answers that are computed here in another way: a heap of Python lists,
laid out anew after each put, and soundness clause by clause over the lent lists. Each damaged state is held to break the one
clause of document 01 that it is filed under, and to be sound when repaired. Run at the root of the repository."""
import random
import sys
from math import ceil

sys.setrecursionlimit(20000)
BIG = 2**64 - 1
UNDEFINED, NIL, BOOL, CHAR, NUMBER, STRING, SYMBOL, PAIR, VECTOR, IDENT, DEF, REF, SLOT = 0, 1, 4, 5, 6, 7, 8, 9, 10, 11, 12, 13, 15
FIELDS = {0: 0, 1: 0, 2: 0, 3: 0, BOOL: 1, CHAR: 1, NUMBER: 1, STRING: 2, SYMBOL: 2, PAIR: 2, VECTOR: 2, SLOT: 1}
WORDS, MAP, BYTES, ELEMENTS, SCRATCH = range(5)
ROOM = 32784, 1026, 65537, 49156, 32896
STORES = "wmbex"


# ---- data


def u32(n):
    return n.to_bytes(4, "little")


def text(kind, raw, scope=None):
    raw = raw.encode() if isinstance(raw, str) else raw
    return bytes([kind]) + (b"" if scope is None else u32(scope)) + u32(len(raw)) + raw


def string(raw):
    return text(STRING, raw)


def symbol(raw):
    return text(SYMBOL, raw)


def ident(scope, raw):
    return text(IDENT, raw, scope)


def bool_(n):
    return bytes([BOOL]) + u32(n)


def char(n):
    return bytes([CHAR]) + u32(n)


def num(n):
    return bytes([NUMBER]) + n.to_bytes(8, "little")


def pair(car, cdr):
    return bytes([PAIR]) + car + cdr


def vec(*data):
    return bytes([VECTOR]) + u32(len(data)) + b"".join(data)


def def_(label, datum):
    return bytes([DEF]) + u32(label) + datum


def ref(label):
    return bytes([REF]) + u32(label)


nil = bytes([NIL])


class Refused(Exception):
    pass


class Source:
    def __init__(self, data):
        self.data, self.at = data, 0

    def take(self, n):
        if len(self.data) - self.at < n:
            raise Refused(11)
        self.at += n
        return self.data[self.at - n : self.at]

    def field(self):
        return int.from_bytes(self.take(4), "little")

    def text(self):
        raw = self.take(self.field())
        try:
            raw.decode()
        except UnicodeDecodeError:
            raise Refused(11)
        return raw

    def tree(self):
        """A datum as a list: its kind, its fields, and the data in it."""
        kind = self.take(1)[0]
        if kind < BOOL:
            return [kind, ()]
        if kind in (BOOL, CHAR):
            n = self.field()
            if n > 1 if kind == BOOL else not scalar_value(n):
                raise Refused(11)
            return [kind, (n,)]
        if kind == NUMBER:
            return [kind, (int.from_bytes(self.take(8), "little"),)]
        if kind in (STRING, SYMBOL):
            return [kind, (self.text(),)]
        if kind == IDENT:
            scope = self.field()
            return [kind, (self.text(), scope)]
        if kind == PAIR:
            return [kind, (), self.tree(), self.tree()]
        if kind == VECTOR:
            return [kind, (), *[self.tree() for _ in range(self.field())]]
        if kind == DEF:
            return [kind, (self.field(),), self.tree()]
        if kind == REF:
            return [kind, (self.field(),)]
        raise Refused(11)


def scalar_value(n):
    return n < 0xD800 or 0xE000 <= n < 0x110000


def nodes(tree):
    yield tree
    for inner in tree[2:]:
        yield from nodes(inner)


def checked(data):
    """The tree of a datum, or 11, 12 or 13."""
    source = Source(data)
    tree = source.tree()
    if source.at < len(data):
        raise Refused(11)
    all_nodes = list(nodes(tree))
    begun, early = set(), False
    for kind, fields, *inner in all_nodes:
        if kind == DEF:
            begun.add(fields[0])
        early |= kind == REF and fields[0] not in begun
    labels = {n[1][0] for n in all_nodes if n[0] in (DEF, REF)}
    if (
        len(all_nodes) > 4096
        or len(labels) > 64
        or any(n[0] == VECTOR and len(n) - 2 > 1024 for n in all_nodes)
        or any(n[0] == STRING and len(n[1][0]) > 4096 for n in all_nodes)
        or any(n[0] in (SYMBOL, IDENT) and len(n[1][0]) > 255 for n in all_nodes)
    ):
        raise Refused(12)
    if early:
        raise Refused(13)
    return tree


# ---- a heap, its lists, and the put


def sizes(chunk):
    chunks = 1
    while True:
        yield chunks * chunk
        chunks = ceil(chunks * 3 / 2)


class Heap:
    def __init__(self, rooms, chunk):
        self.rooms, self.chunk = rooms, chunk
        self.cells, self.free, self.table = [(UNDEFINED,)] * chunk, list(range(chunk))[::-1], []
        self.bytes, self.elements, self.labels = b"", [], {}

    def lists(self):
        slots, room, elements = self.rooms
        column = lambda values, n: (list(values) + [0] * n)[:n]
        words = [self.chunk, len(self.cells), len(self.free), len(self.table), len(self.bytes), len(self.elements), 1, 0]
        free, table = column(self.free, slots), self.table + [(0, 0)] * (slots - len(self.table))
        cells = self.cells + [(UNDEFINED,)] * (slots - len(self.cells))
        for cell, place, entry in zip(cells, free, table):
            words += [*column(cell, 3), 0, place, *entry, 0]
        states = [int(s not in set(self.free)) for s in range(len(self.cells))] + [0] * (slots - len(self.cells) + 3)
        quads = [states[i : i + 4] for i in range(0, slots, 4)]
        map_ = [a + 4 * b + 16 * c + 64 * d for a, b, c, d in quads]
        flat = [word for element in self.elements for word in column(element, 3)]
        return words, map_, column(self.bytes, room), column(flat, 3 * elements)

    def new(self, cell):
        if not self.free:
            grown = next(n for n in sizes(self.chunk) if n > len(self.cells))
            if grown > self.rooms[0]:
                raise Refused(16)
            self.free = list(range(len(self.cells), grown))
            self.cells += [(UNDEFINED,)] * (grown - len(self.cells))
        slot = self.free.pop()
        self.cells[slot] = cell
        return slot

    def block(self, raw):
        place = len(self.bytes) if raw else 0
        self.bytes += raw
        return place, len(raw)

    def name_of(self, slot):
        kind, place, size = self.cells[slot]
        return self.bytes[place : place + size]

    def symbol(self, raw, scope):
        for slot, under in self.table:
            if (self.name_of(slot), under) == (raw, scope):
                return slot
        slot = self.new((SYMBOL, *self.block(raw)))
        self.table.append((slot, scope))
        return slot

    def value(self, tree):
        """A datum's value: a scalar, or a slot."""
        kind, fields, *inner = tree
        if kind <= NUMBER:
            return kind, *fields
        if kind == REF:
            return SLOT, self.labels[fields[0]]
        if kind == DEF:
            slot = self.new((UNDEFINED,))
            self.labels[fields[0]] = slot
            found = self.value(inner[0])
            self.cells[slot] = self.cells[found[1]] if found[0] == SLOT else found
            return SLOT, slot
        if kind == STRING:
            return SLOT, self.new((STRING, *self.block(fields[0])))
        if kind in (SYMBOL, IDENT):
            return SLOT, self.symbol(fields[0], fields[1] if kind == IDENT else 0)
        if kind == PAIR:
            car = self.slot(inner[0])
            return SLOT, self.new((PAIR, car, self.slot(inner[1])))
        place = len(self.elements) if inner else 0
        self.elements += [(UNDEFINED,)] * len(inner)
        for i, element in enumerate(inner):
            self.elements[place + i] = self.value(element)
        return SLOT, self.new((VECTOR, place, len(inner)))

    def slot(self, tree):
        found = self.value(tree)
        return found[1] if found[0] == SLOT else self.new(found)

    def put(self, data):
        slot = self.slot(checked(data))
        self.labels = {}
        if len(self.bytes) > self.rooms[1] or len(self.elements) > self.rooms[2]:
            raise Refused(17)
        return slot


def heap_in(words, map_, room, elems):
    """The heap that sound lists hold."""
    heap = Heap(((len(words) - 8) // 8, len(room), len(elems) // 3), words[0])
    row = lambda i, a, b: words[8 + 8 * i + a : 8 + 8 * i + b]
    cell = lambda three: (three[0], *three[1 : 1 + FIELDS[three[0]]])
    heap.cells = [cell(row(i, 0, 3)) for i in range(words[1])]
    heap.free = [row(i, 4, 5)[0] for i in range(words[2])]
    heap.table = [tuple(row(i, 5, 7)) for i in range(words[3])]
    heap.bytes = bytes(room[: words[4]])
    heap.elements = [cell(elems[3 * i : 3 * i + 3]) for i in range(words[5])]
    return heap


# ---- soundness, clause by clause

# in the order of document 01's sentence; counts are the header's, and growth on is a word of it
CLAUSES = (
    "numbers", "counts", "scope", "lengths", "kinds", "bool", "char", "utf8", "growth", "growth on", "states", "free list",
    "free cells", "named", "in the room", "same or disjoint", "empty at 0", "one a name", "entry", "two to one slot", "spare",
)


def setup_allowed(words, map_, room, elems, chunk):
    slots, odd = divmod(len(words) - 8, 8)
    whole = odd == 0 and len(map_) == (slots + 3) // 4 and len(elems) % 3 == 0
    sizes_good = 4 <= slots <= 4096 and len(room) <= 65536 and len(elems) // 3 <= 16384
    return whole, whole and sizes_good and chunk % 4 == 0 and 4 <= chunk <= slots


def broken(words, map_, room, elems):
    """The clauses of "A heap is sound when" that the lists break."""
    bad = set()
    fails = lambda clause, fault: fault and bad.add(clause)
    whole, allowed = setup_allowed(words, map_, room, elems, words[0] if words else 0)
    fails("numbers", not allowed)
    if not whole or len(words) < 8:
        return bad
    slots = (len(words) - 8) // 8
    chunk, capacity, free_count, entry_count, used, element_count, growth, zero = words[:8]
    if (
        capacity > slots
        or max(free_count, entry_count) > capacity
        or used > len(room)
        or element_count > len(elems) // 3
    ):
        return bad | {"counts"}
    rows = [words[8 + 8 * i : 16 + 8 * i] for i in range(slots)]
    states = [byte >> shift & 3 for byte in map_ for shift in (0, 2, 4, 6)]
    in_use = lambda slot: slot < capacity and states[slot] == 1
    elements = [elems[i : i + 3] for i in range(0, len(elems), 3)]
    lies = bytes(room[:used])

    fails("growth", chunk == 0 or capacity != next(n for n in sizes(chunk) if n >= capacity))
    fails("states", max(states[:capacity], default=0) > 1)
    free = [i for i in range(capacity) if states[i] == 0]
    fails("free list", sorted(row[4] for row in rows[:free_count]) != free)
    fails("free cells", any(rows[i][0] != UNDEFINED for i in free))
    for kinds, shown in (range(11), rows[:capacity]), ([*range(7), SLOT], elements[:element_count]):
        for kind, a, b, *_ in shown:
            fails("kinds", kind not in kinds)
            fails("bool", kind == BOOL and a > 1)
            fails("char", kind == CHAR and not scalar_value(a))
            fails("spare", kind in kinds and any([a, b][FIELDS[kind] :]))
    blocks = {"text": set(), "vector": set()}
    for kind, a, b, *_ in rows[:capacity]:
        fails("named", kind == PAIR and not (in_use(a) and in_use(b)))
        if kind in (STRING, SYMBOL):
            fails("lengths", b > (4096 if kind == STRING else 255))
            try:
                lies[a : a + b].decode()
            except UnicodeDecodeError:
                bad.add("utf8")
        if kind == VECTOR:
            fails("lengths", b > 1024)
            fails("named", any(v[0] == SLOT and not in_use(v[1]) for v in elements[:element_count][a : a + b]))
        if kind in (STRING, SYMBOL, VECTOR):
            fails("in the room", a + b > (element_count if kind == VECTOR else used))
            fails("empty at 0", b == 0 and a != 0)
            if b > 0:
                blocks["vector" if kind == VECTOR else "text"].add((a, b))
    for shown in map(sorted, blocks.values()):
        fails("same or disjoint", any(a + n > b for (a, n), (b, _) in zip(shown, shown[1:])))
    table = [row[5:7] for row in rows[:entry_count]]
    named = [(s, scope) for s, scope in table if in_use(s) and rows[s][0] == SYMBOL]
    fails("entry", len(named) < len(table))
    fails("scope", any(scope >= 2**32 for _, scope in table))
    fails("two to one slot", len({s for s, _ in table}) < len(table))
    keys = {s: lies[rows[s][1] : rows[s][1] + rows[s][2]] for s, _ in named}
    distinct = {(s, scope) for s, scope in named}
    fails("one a name", len({(keys[s], scope) for s, scope in distinct}) < len(distinct))
    fails("growth on", growth != 1)
    spare = [zero, *room[used:], *states[capacity:]]
    spare += [word for element in elements[element_count:] for word in element]
    for i, row in enumerate(rows):
        spare += [row[3], row[7], *row[0:3] * (i >= capacity), *row[4:5] * (i >= free_count), *row[5:7] * (i >= entry_count)]
    fails("spare", any(spare))
    return bad


# ---- the program's lines and answers


class Run:
    def __init__(self):
        self.lines, self.answers = [], []
        self.full = [[0] * n for n in ROOM]
        self.lens = [0] * 5
        self.filed = []

    def lists(self):
        return [full[:n] for full, n in zip(self.full, self.lens)]

    def line(self, op, index=0, value=0, datum=b"", told=()):
        self.lines.append("%s %05x %016x%s" % (op, index, value, datum.hex()))
        total = 0
        for values in self.lists():
            for n in values:
                total = ((total << 7 | total >> 57) + n) & BIG
        self.answers.append(" ".join(map(str, [*told, "|", total])))

    def lend(self, which, n):
        self.lens[which] = n
        self.line("l", which, n)

    def lend_for(self, slots, room, elements, scratch=None):
        lens = 8 + 8 * slots, (slots + 3) // 4, room, 3 * elements, 8 * slots + 128 if scratch is None else scratch
        for which, n in enumerate(lens):
            self.lend(which, n)

    def write(self, lists):
        for full, values in zip(self.full, lists):
            full[: len(values)] = values

    def setup(self, chunk):
        words, map_, room, elems, _ = self.lists()
        told = 10
        if setup_allowed(words, map_, room, elems, chunk)[1]:
            self.write(Heap(((len(words) - 8) // 8, len(room), len(elems) // 3), chunk).lists())
            told = 0
        self.line("s", 0, chunk, told=[told])
        return told

    def put_told(self, datum):
        """The number and the slot, with the lists changed."""
        *lists, scratch = self.lists()
        if broken(*lists):
            return [20, 777]
        if len(scratch) < 8 * lists[0][1] + 128:
            return [19, 777]
        self.full[SCRATCH][: len(scratch)] = [0] * len(scratch)
        heap = heap_in(*lists)
        try:
            slot = heap.put(datum)
        except Refused as refusal:
            return [refusal.args[0], 777]
        self.write(heap.lists())
        return [0, slot]

    def put(self, datum):
        told = self.put_told(datum)
        self.line("p", 0, 0, datum, told)
        return told[1]

    def ask(self, slot=0):
        words, map_, room, elems, _ = self.lists()
        if broken(words, map_, room, elems):
            told = [20, 777] * 3 + [20, 777, 777]
        else:
            told = [0, words[1], 0, words[2], 0, words[1] - words[2]]
            if slot >= words[1] or not map_[slot // 4] >> 2 * (slot % 4) & 1:
                told += [14, 777, 777]
            elif words[8 + 8 * slot] not in (STRING, SYMBOL):
                told += [15, 777, 777]
            else:
                place, size = words[9 + 8 * slot : 11 + 8 * slot]
                told += [0, place, size, *room[place : place + size]]
        told += self.put_told(b"")
        self.line("q", 0, slot, told=told)

    def store(self, which, at, value):
        """One value changed; what stood there."""
        stood = self.full[which][at]
        self.full[which][at] = value
        self.line(STORES[which], at, value)
        return which, at, stood

    def file(self, clause):
        found = broken(*self.lists()[:4])
        assert found == ({clause} if clause else set()), (clause, found, self.lines[-1])
        self.filed.append(clause)

    def damage(self, clause, *stores):
        """Breaks this clause alone (none: another sound heap), asks, repairs, asks again."""
        old = [self.store(*store) for store in stores]
        self.file(clause)
        self.ask()
        for back in reversed(old):
            self.store(*back)
        self.ask()

    def shorten(self, clause, *lens):
        """The same by lengths of what is lent."""
        old = [(which, self.lens[which]) for which, _ in lens]
        for which, n in lens:
            self.lend(which, n)
        self.file(clause)
        self.ask()
        for back in old:
            self.lend(*back)
        self.ask()


def row(slot, k):
    return 8 + 8 * slot + k


# ---- a heap with a cell of every kind

DATA = dict(
    foo=symbol("foo"),
    foo1=ident(1, "foo"),
    bar=symbol("bar"),
    ab=string("ab"),
    cd=string("cd"),
    pair=pair(num(BIG), bool_(1)),
    vector=vec(num(1), char(97), bool_(0), pair(nil, nil), nil),
    two=vec(num(7), num(8)),
    empty=string(""),
    none=vec(),
    char=char(0x10FFFF),
    eof=b"\x02",
    void=b"\x03",
    unnamed=symbol(""),
    copy=def_(0, string("xyz")),
    accent=symbol("\u00e9"),
)


def base(run):
    """Capacity 32 of 36 slots, 64 bytes, 16 elements, some of each free; the slots by name."""
    run.lend_for(36, 64, 16)
    assert run.setup(4) == 0
    slots = {name: run.put(datum) for name, datum in DATA.items()}
    for slot in range(38):
        run.ask(slot)
    for slot in 2**32, 2**63, BIG:
        run.ask(slot)
    return slots


def state(run, slot, value):
    """The store that gives a slot this state."""
    at, shift = slot // 4, 2 * (slot % 4)
    return MAP, at, run.full[MAP][at] & ~(3 << shift) | value << shift


def damages(run):
    at = base(run)
    words = run.full[WORDS]
    capacity, free_count, entries, used, element_count = words[1:6]
    free = [words[row(i, 4)] for i in range(free_count)]
    cell = lambda name: words[row(at[name], 0) : row(at[name], 3)]
    field = lambda name, k, value: (WORDS, row(at[name], k), value)
    in_pair, elements = cell("pair")[1:], cell("vector")[1]
    element = lambda i, k, value: (ELEMENTS, 3 * (elements + i) + k, value)
    word = lambda i, value: (WORDS, i, value)

    # "the numbers above": lists that are no whole rows, bytes and elements; counts past their rooms
    for which, more in (WORDS, 1), (WORDS, 7), (MAP, 1), (MAP, -1), (ELEMENTS, 1), (ELEMENTS, 2):
        run.shorten("numbers", (which, run.lens[which] + more))
    for which in WORDS, MAP:
        run.shorten("numbers", (which, 0))
    for at_word, most in (1, 36), (2, capacity), (3, capacity), (4, 64), (5, 16):
        for value in most + 1, 2**32, BIG:
            run.damage("counts", word(at_word, value))
    run.damage("scope", word(row(0, 6), 2**32))
    run.damage("scope", word(row(1, 6), BIG))

    # 11's rules on kinds, Bool, Char and UTF-8
    for kind in 11, 14, 15, 2**32, BIG:
        run.damage("kinds", field("empty", 0, kind))
    for kind in STRING, PAIR, VECTOR, IDENT, 14, 16:
        run.damage("kinds", element(4, 0, kind))
    for value in 2, 256, 2**32, BIG:
        run.damage("bool", word(row(in_pair[1], 1), value))
        run.damage("bool", element(2, 1, value))
    for value in 0xD800, 0xDFFF, 0x110000, BIG:
        run.damage("char", field("char", 1, value))
        run.damage("char", element(1, 1, value))
    for name, value in ("ab", 0x80), ("cd", 0xFF), ("bar", 0xC0), ("accent", 0xC1), ("copy", 0xF5):
        run.damage("utf8", (BYTES, cell(name)[1], value))
    run.damage("utf8", (BYTES, cell("accent")[1] + 1, 0x41))

    # "growth reaches the capacity"
    for chunk in 8, 12, 20:
        run.damage("growth", word(0, chunk))

    # "no state is Used or 3"
    for name in "ab", "copy", "two":
        for value in 2, 3:
            run.damage("states", state(run, at[name], value))

    # "the free list holds each Free slot once and Free slots hold Undefined"
    last = row(free_count - 1, 4)
    for value in free[0], at["ab"], capacity, 36, BIG:
        run.damage("free list", word(last, value))
    run.damage("free list", word(2, free_count - 1), word(last, 0))
    run.damage("free list", state(run, at["ab"], 0), field("ab", 0, 0), field("ab", 1, 0), field("ab", 2, 0))
    run.damage("free list", state(run, free[0], 1))
    for value in NIL, 3:
        run.damage("free cells", word(row(free[0], 0), value))
    run.damage("free cells", word(row(free[-1], 0), NUMBER), word(row(free[-1], 1), 5))
    run.damage("free cells", word(row(free[-1], 0), STRING))

    # "every slot that an Allocated cell or its elements name is Allocated"
    for slot in free[0], capacity, 36, 2**32, BIG:
        run.damage("named", field("pair", 1, slot))
        run.damage("named", field("pair", 2, slot))
        run.damage("named", element(3, 1, slot))
    run.damage(
        "named", state(run, in_pair[1], 0), *[word(row(in_pair[1], k), 0) for k in (0, 1)],
        word(2, free_count + 1), word(row(free_count, 4), in_pair[1]),
    )

    # "blocks lie in the room in use and are either the same or disjoint, an empty one at place 0"
    run.damage("in the room", field("accent", 2, cell("accent")[2] + 1))
    for value in used, 63, 64, 2**32, BIG - 1, BIG:
        run.damage("in the room", field("cd", 1, value))
    run.damage("in the room", field("two", 1, cell("two")[1] + 1))
    for value in 2**32, BIG - 1, BIG:
        run.damage("in the room", field("two", 1, value))
    run.damage("in the room", word(4, used - 1), (BYTES, used - 1, 0), (BYTES, used - 2, 0x41))
    run.damage("same or disjoint", field("cd", 1, cell("cd")[1] - 1))
    run.damage("same or disjoint", field("cd", 1, cell("ab")[1]), field("cd", 2, 1))
    run.damage("same or disjoint", field("ab", 1, cell("foo")[1]))
    run.damage("same or disjoint", field("two", 1, cell("two")[1] - 1))
    run.damage("same or disjoint", field("vector", 2, cell("vector")[2] + 1))
    run.damage("same or disjoint", field("copy", 2, 2))
    for value in 1, used:
        for name in "empty", "unnamed":
            run.damage("empty at 0", field(name, 1, value))
    for value in 1, element_count:
        run.damage("empty at 0", field("none", 1, value))

    # the symbol table: entries stand in order of making, foo, foo under 1, bar, the empty name, the accent
    for value in at["ab"], at["pair"], free[0], capacity, BIG:
        run.damage("entry", word(row(2, 5), value))
    run.damage("entry", field("bar", 0, STRING))
    run.damage("two to one slot", word(row(1, 5), at["foo"]))
    run.damage("two to one slot", word(row(2, 5), at["foo"]), word(row(2, 6), 9))
    run.damage("one a name", word(row(1, 6), 0))
    run.damage("one a name", word(row(0, 6), 1))
    run.damage("one a name", *[(BYTES, cell("bar")[1] + i, b) for i, b in enumerate(b"foo")])
    run.damage("one a name", *[(BYTES, cell("foo1")[1] + i, b) for i, b in enumerate(b"bar")], word(row(1, 6), 0))

    # "spare room is zero"; "Growth is on"
    for value in 0, 2, BIG:
        run.damage("growth on", word(6, value))
    for slot in 0, free[0], capacity - 1, capacity, 35:
        for k in 3, 7:
            run.damage("spare", word(row(slot, k), 1))
    for value in 1, BIG:
        run.damage("spare", word(7, value))
        run.damage("spare", word(row(in_pair[0], 2), value))
        run.damage("spare", field("char", 2, value))
        run.damage("spare", word(row(free[0], 1), value))
        run.damage("spare", word(row(free_count, 4), value))
        run.damage("spare", word(row(entries, 5), value))
        run.damage("spare", word(row(entries, 6), value))
        run.damage("spare", word(row(capacity, 0), value))
        run.damage("spare", word(row(35, 2), value))
        run.damage("spare", element(4, 1, value))
        run.damage("spare", element(0, 2, value))
        run.damage("spare", (ELEMENTS, 3 * element_count, value))
        run.damage("spare", (ELEMENTS, 47, value))
    for value in 1, 0x80:
        run.damage("spare", (BYTES, used, value))
        run.damage("spare", (BYTES, 63, value))
        run.damage("spare", (MAP, 8, value))

    # other heaps that are sound: nothing is refused
    run.damage(None, word(0, 32))
    run.damage(None, word(row(0, 4), free[1]), word(row(1, 4), free[0]))
    run.damage(None, (BYTES, cell("ab")[1], 0x41))
    run.damage(None, field("cd", 1, cell("ab")[1]))
    run.damage(None, field("pair", 1, at["pair"]))
    run.damage(None, element(3, 1, at["vector"]))
    run.damage(None, word(row(1, 6), 2**32 - 1))
    run.damage(None, word(row(0, 5), at["foo1"]), word(row(1, 5), at["foo"]))
    run.damage(None, word(row(in_pair[0], 1), 0))

    # any one value changed, sound or not as the clauses say
    pick = random.Random(1)
    values = [0, 1, 2, 3, 5, 7, 8, 9, 10, 15, 16, 20, 31, 32, 33, 36, 255, 2**32, BIG]
    for _ in range(300):
        which = pick.choice([WORDS, WORDS, WORDS, WORDS, MAP, BYTES, ELEMENTS])
        place = pick.randrange(run.lens[which])
        value = pick.choice(values) if which in (WORDS, ELEMENTS) else pick.randrange(256)
        back = run.store(which, place, value)
        run.ask(pick.randrange(36))
        run.store(*back)
    run.ask()

    # 20 before 19 before 11
    run.store(SCRATCH, 0, 5)
    run.lend(SCRATCH, 0)
    run.damage("spare", word(7, 1))
    run.lend(SCRATCH, 8 * capacity + 127)
    run.ask()
    run.put(DATA["ab"])
    run.lend(SCRATCH, 8 * capacity + 128)
    run.store(SCRATCH, 8 * capacity + 127, 6)
    run.ask()
    run.put(string("at the edge"))


def fresh_damages(run):
    """Capacities that no growth reaches, and chunks that are none, in heaps that are else in order."""
    run.lend_for(24, 8, 2)
    assert run.setup(4) == 0
    run.ask()

    def grown_to(chunk, capacity):
        listed = [(WORDS, row(i, 4), i if i < capacity else 0) for i in range(max(capacity, 4))]
        return (WORDS, 0, chunk), (WORDS, 1, capacity), (WORDS, 2, capacity), *listed

    for capacity in 0, 1, 5, 6, 7, 9, 10, 16, 19, 21, 24:
        run.damage("growth", *grown_to(4, capacity))
    for chunk, capacity in (2, 4), (6, 6), (6, 12), (5, 10), (21, 21), (1, 1):
        run.damage("numbers", *grown_to(chunk, capacity))
    for chunk, capacity in (4, 8), (4, 12), (4, 20), (8, 8), (8, 16), (8, 24), (12, 12), (12, 24), (20, 20), (24, 24):
        run.damage(None, *grown_to(chunk, capacity))


def long_damages(run):
    """Lengths of vectors, strings and names; the largest rooms."""
    run.lend_for(8, 5120, 1040)
    for datum, store, most, kind in (
        (string("x" * 4096), BYTES, 4096, 4),
        (symbol("n" * 255), BYTES, 255, 4),
        (vec(*[nil] * 1024), ELEMENTS, 1024, 5),
    ):
        assert run.setup(4) == 0
        slot = run.put(datum)
        for more in 1, 2, 16:
            width, kept = (3, NIL) if store == ELEMENTS else (1, 0x61)
            places = [(store, width * (most + i), kept) for i in range(more)]
            run.damage("lengths", (WORDS, kind, most + more), (WORDS, row(slot, 2), most + more), *places)
    run.lend_for(4096, 65536, 16384, 160)
    assert run.setup(4) == 0
    run.ask()
    run.shorten("numbers", (WORDS, 8 + 8 * 4097), (MAP, 1025))
    run.shorten("numbers", (BYTES, 65537))
    run.shorten("numbers", (ELEMENTS, 49155))


# ---- refusals at the boundary, on both sides


def setups(run):
    for slots, chunks in (
        (3, [4]), (4, [0, 3, 4, 5, 8]), (7, [4, 8]), (8, [2, 4, 6, 8, 12, 2**32 + 4, BIG - 3]), (4095, [4092, 4096]),
        (4096, [4, 4092, 4096, 4100]), (4097, [4, 4096]),
    ):
        run.lend_for(slots, 4, 1, 0)
        for chunk in chunks:
            run.setup(chunk)
    for room, elements in (0, 0), (65536, 0), (65537, 0), (0, 16384), (0, 16385):
        run.lend_for(4, room, elements, 0)
        run.setup(4)
    for which, n in (WORDS, 39), (WORDS, 41), (WORDS, 0), (MAP, 0), (MAP, 2), (ELEMENTS, 1), (ELEMENTS, 2):
        run.lend_for(4, 4, 1, 0)
        run.lend(which, n)
        run.setup(4)


def data(run):
    """11, 12 and 13: each datum on both sides of what is refused."""
    spread = lambda n: vec(*[vec(*[nil] * (1023 - (i == 0) * (4097 - n))) for i in range(4)])
    run.lend_for(80, 4200, 4100)
    for datum in (
        b"", nil, nil + nil, b"\x0d", b"\x0e", b"\x0f", b"\xff", b"\x09", pair(nil, b""), pair(nil, nil),
        bool_(0), bool_(1), bool_(2), bool_(2**32 - 1), bool_(1)[:4], char(0xD7FF), char(0xD800), char(0xDFFF), char(0xE000),
        char(0x10FFFF), char(0x110000), num(BIG), num(BIG)[:8], string(b"\x7f"), string(b"\x80"), string(b"\xc2\x80"),
        string(b"\xc1\xbf"), symbol(b"\xf4\x8f\xbf\xbf"), symbol(b"\xf4\x90\x80\x80"), ident(2**32 - 1, "\u00e9"),
        ident(0, b"\xc3"), string("abc")[:7], vec(nil)[:5], vec(nil), vec(), def_(0, b""), def_(0, nil), ref(0),
        def_(0, ref(0)), def_(0, ref(1)), pair(ref(0), def_(0, nil)), pair(def_(0, nil), ref(0)), vec(def_(1, nil), ref(1), ref(2)),
        def_(0, def_(1, pair(ref(0), ref(1)))), pair(def_(0, nil), pair(def_(0, num(3)), ref(0))),
        spread(4096), spread(4097), vec(*[nil] * 1024), vec(*[nil] * 1025), string("s" * 4096), string("s" * 4097),
        symbol("n" * 255), symbol("n" * 256), ident(3, "n" * 255), ident(3, "n" * 256),
        vec(*[def_(i, nil) for i in range(64)]), vec(*[def_(i, nil) for i in range(65)]),
        vec(*[def_(i, nil) for i in range(64)], ref(64)), vec(*[def_(i, nil) for i in range(64)], def_(3, nil), ref(3)),
        # the first in table order
        spread(4097) + nil, pair(string("s" * 4097), bool_(2)), pair(ref(0), symbol("n" * 256)), pair(ref(0), b"\x0e"),
    ):
        assert run.setup(4) == 0
        run.store(SCRATCH, 17, 9)
        run.put(datum)
        run.ask()


def room(run):
    """16 and 17: the last that is there, and one more; 16 before 17; what is refused leaves all as it was."""
    for lent in 4, 5, 7, 8, 11, 12, 19, 20, 24:
        run.lend_for(lent, 4, 2)
        assert run.setup(4) == 0
        while run.put(nil) != 777:
            pass
        run.ask()
    for lent, free in (8, 3), (8, 2), (12, 5), (12, 4):
        run.lend_for(lent, 4, 2)
        assert run.setup(4) == 0
        for _ in range(lent - free):
            run.put(nil)
        run.put(pair(nil, pair(nil, nil)))
        run.put(pair(nil, nil))
        run.put(symbol("a"))
        run.put(pair(symbol("a"), symbol("a")))
        run.put(def_(0, ref(0)))
        run.ask()
    run.lend_for(8, 8, 4)
    for puts in (
        [string("12345678"), string(""), string("x")],
        [string("123456789")],
        [string("1234567"), symbol("a"), symbol("a"), symbol("b")],
        [symbol("abcd"), pair(symbol("abcd"), string("efgh")), string("i")],
        [symbol("abcd"), vec(symbol("abcd"), string("efghi"))],
        [ident(1, "abcd"), ident(2, "abcd"), ident(3, "abcd"), ident(1, "abcd")],
        [vec(nil, nil, nil, nil), vec(), vec(nil)],
        [vec(nil, nil, nil, nil, nil)],
        [vec(vec(nil), vec(nil))],
        [vec(vec(nil), vec(nil, nil))],
        [def_(0, vec(ref(0), nil, nil, nil))],
        [vec(nil, nil, nil, string("123456789"))],
        [pair(vec(nil, nil, nil), string("12345678"))],
        # no slot and no room: 16 wins
        [vec(*[string(c) for c in "abcd"]), vec(), vec(), vec(), string("123456789")],
        [pair(string("123456789"), pair(pair(nil, nil), pair(nil, nil)))],
        [pair(vec(nil, nil, nil, nil, nil), pair(pair(nil, nil), pair(nil, nil)))],
    ):
        assert run.setup(4) == 0
        for datum in puts:
            run.store(SCRATCH, 3, 1)
            run.put(datum)
            run.ask()


run = Run()
for part in setups, damages, fresh_damages, long_damages, data, room:
    part(run)
assert all(run.filed.count(clause) > 1 for clause in CLAUSES), run.filed
for file, lines in ("stdin", run.lines), ("stdout", run.answers):
    with open("crates/run_doors/" + file, "w") as f:
        f.writelines(line + "\n" for line in lines)
