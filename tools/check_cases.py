#!/usr/bin/env python3
"""Writes the stored cases of the program run_check, with answers that are computed here in another way: the datum is
built as a tree, and the numbers and labels are looked at on the tree. Run at the root of the repository."""
import random

BARE = {0: "undef", 1: "nil", 2: "eof", 3: "void"}
NAMES = {7: "str", 8: "sym", 11: "ident"}


class Fault(Exception):
    pass


def u32(n):
    return n.to_bytes(4, "little")


def text(kind, raw, scope=None):
    return bytes([kind]) + (b"" if scope is None else u32(scope)) + u32(len(raw)) + raw


def bool_(n):
    return b"\x04" + u32(n)


def char(n):
    return b"\x05" + u32(n)


def num(n):
    return b"\x06" + n.to_bytes(8, "little")


def vec(n, *data):
    return b"\x0a" + u32(n) + b"".join(data)


def def_(label, datum):
    return b"\x0c" + u32(label) + datum


def ref(label):
    return b"\x0d" + u32(label)


def pair(car, cdr):
    return b"\x09" + car + cdr


NIL = b"\x01"


class Source:
    def __init__(self, data):
        self.data, self.at, self.node = data, 0, 0

    def take(self, n):
        if len(self.data) - self.at < n:
            raise Fault("cut-short")
        self.at += n
        return self.data[self.at - n : self.at]

    def field(self):
        return int.from_bytes(self.take(4), "little")


def one_node(src):
    """A node as a list: its kind, its field, and how many children are to come."""
    kind = src.take(1)[0]
    if kind in BARE:
        return [BARE[kind], None, 0]
    if kind == 4:
        value = src.field()
        if value not in (0, 1):
            raise Fault("bad-bool")
        return ["bool", value, 0]
    if kind == 5:
        value = src.field()
        try:
            chr(value).encode("utf-8")
        except (ValueError, OverflowError):
            raise Fault("bad-char")
        return ["char", value, 0]
    if kind == 6:
        return ["num", src.take(8), 0]
    if kind in NAMES:
        if kind == 11:
            src.field()
        raw = src.take(src.field())
        try:
            raw.decode("utf-8", "strict")
        except UnicodeDecodeError:
            raise Fault("bad-utf8")
        return [NAMES[kind], raw, 0]
    if kind == 9:
        return ["pair", None, 2]
    if kind == 10:
        count = src.field()
        return ["vec", count, count]
    if kind == 12:
        return ["def", src.field(), 1]
    if kind == 13:
        return ["ref", src.field(), 0]
    raise Fault("unknown-kind")


def tree(src):
    """The tree, by a stack of nodes that wait for children: each is (node, children, how many are to come)."""
    waiting = []
    while True:
        node = one_node(src)
        src.node += 1
        done = (node[0], node[1], [])
        waiting.append((done, node[2]))
        while waiting and len(waiting[-1][0][2]) == waiting[-1][1]:
            whole = waiting.pop()[0]
            if not waiting:
                return whole
            waiting[-1][0][2].append(whole)


def prefix(root):
    todo, out = [root], []
    while todo:
        node = todo.pop()
        out.append(node)
        todo.extend(reversed(node[2]))
    return out


def over(nodes):
    most = {"str": 4096, "sym": 255, "ident": 255}
    if len(nodes) > 4096:
        return True
    if len({n[1] for n in nodes if n[0] in ("def", "ref")}) > 64:
        return True
    if any(n[0] == "vec" and len(n[2]) > 1024 for n in nodes):
        return True
    return any(n[0] in most and len(n[1]) > most[n[0]] for n in nodes)


def early(nodes):
    places = {}
    for place, n in enumerate(nodes):
        if n[0] == "def":
            places.setdefault(n[1], place)
    return any(n[0] == "ref" and places.get(n[1], len(nodes)) > place for place, n in enumerate(nodes))


def answer(data):
    src = Source(data)
    try:
        root = tree(src)
        if src.at < len(data):
            raise Fault("left-over")
    except Fault as fault:
        return "refused=11 %s %d" % (fault, src.node)
    nodes = prefix(root)
    if over(nodes):
        return "refused=12"
    return "refused=13" if early(nodes) else "ok"


def chain(nodes):
    """A datum of so many nodes: pairs with Nil in the car, and a label before them where the number is even."""
    odd = nodes if nodes % 2 else nodes - 1
    data = (b"\x09" + NIL) * (odd // 2) + NIL
    return data if nodes % 2 else def_(7, data)


def labels(n, inner):
    for label in range(n):
        inner = def_(label * 65537, inner)
    return inner


def listed(*data):
    out = NIL
    for datum in reversed(data):
        out = pair(datum, out)
    return out


def each_kind():
    yield from (bytes([k]) for k in BARE)
    yield from (bool_(0), bool_(1), char(0x20AC), num(2**64 - 1), num(0))
    yield from (text(7, b"abc"), text(8, "é".encode()), text(11, b"x", 5), text(7, b""), text(8, b""), text(11, b"", 0))
    yield from (pair(NIL, NIL), vec(0), vec(2, NIL, bool_(1)), def_(0, NIL), def_(2**32 - 1, ref(2**32 - 1)))
    yield pair(def_(3, vec(1, ref(3))), ref(3))


def faults():
    yield b""
    for whole in each_kind():
        yield from (whole[:n] for n in range(1, len(whole)))
        yield from (whole + b"\x00", whole + b"\xff", pair(NIL, whole) + whole)
    for kind in (14, 15, 127, 255):
        yield from (bytes([kind]), pair(bytes([kind]), NIL), pair(NIL, bytes([kind])), vec(2, NIL, bytes([kind])))
    for n in (2, 3, 256, 2**24, 2**24 + 1, 2**32 - 1):
        yield from (bool_(n), pair(NIL, bool_(n)))
    for n in (0, 55295, 55296, 57343, 57344, 1114111, 1114112, 2**32 - 1):
        yield from (char(n), vec(1, char(n)))
    for raw in (b"\xff", b"\xc0\x80", b"\xed\xa0\x80", b"\xf4\x90\x80\x80", b"\xf4\x8f\xbf\xbf", b"a\x80", b"\xe2\x82"):
        yield from (text(7, raw), text(8, raw), text(11, raw, 9), pair(text(7, raw), NIL))
    for kind in (7, 8):
        for n in (0, 1, 2, 4, 2**31, 2**32 - 1):
            yield bytes([kind]) + u32(n) + b"abc"
    for n in (0, 1, 2, 4, 2**32 - 1):
        yield b"\x0b" + u32(3) + u32(n) + b"abc"
    for depth in (1, 2, 3, 20):
        yield from (vec(2**32 - 1) * depth, vec(2**32 - 1) * depth + NIL * 3, vec(2**32 - 1) * depth + NIL + b"\x0e")
    yield from (vec(3, NIL, NIL), vec(1, NIL, NIL), vec(2, vec(2**32 - 1), NIL))


def limits():
    for n in (4096, 4097):
        yield text(7, b"a" * n)
    yield pair(text(7, b"b" * 4097), b"")
    for n in (255, 256):
        yield from (text(8, b"a" * n), text(11, b"a" * n, 1))
    for n in (1024, 1025):
        yield vec(n, NIL * n)
    yield vec(1025, NIL * 1024)
    for n in (4095, 4096, 4097):
        yield chain(n)
    yield chain(4097)[:-1]
    for n in (63, 64, 65, 66):
        yield from (labels(n, NIL), labels(n, ref(0)), labels(n, ref(65537 * n)), labels(n, bool_(2)))
    yield listed(*(ref(n) for n in range(64)))
    yield listed(*(ref(n) for n in range(65)))
    yield listed(*(ref(n % 64) for n in range(80)))
    yield labels(64, listed(*(ref(65537 * n) for n in range(64))))
    yield labels(64, listed(*(def_(65537 * n, NIL) for n in range(64))))


def order():
    yield from (ref(0), pair(ref(0), def_(0, NIL)), pair(def_(0, NIL), ref(0)), def_(0, ref(0)), def_(0, ref(1)))
    yield from (def_(0, pair(ref(0), ref(1))), def_(0, pair(def_(1, NIL), ref(1))), pair(def_(0, def_(0, NIL)), ref(0)))
    yield from (pair(ref(0), b"\x0e"), pair(ref(0), NIL) + NIL, pair(ref(0), text(8, b"a" * 256)))
    yield from (pair(text(8, b"a" * 256), ref(4)), pair(text(8, b"a" * 256), bool_(2)), pair(ref(9), labels(64, NIL)))
    yield from (pair(ref(0), labels(63, NIL)), pair(labels(64, NIL), ref(1)), pair(labels(65, NIL), ref(1)))


def chance(count):
    pick = random.Random(1)

    def datum(depth):
        kind = pick.choice([0, 1, 2, 3, 4, 5, 6, 7, 8, 9, 9, 10, 10, 11, 12, 12, 13, 13, 14])
        if kind in BARE or kind == 14:
            return bytes([kind])
        if kind == 4:
            return bool_(pick.choice([0, 1, 1, 2]))
        if kind == 5:
            return char(pick.choice([65, 55295, 55296, 57344]))
        if kind == 6:
            return num(pick.getrandbits(64))
        if kind in NAMES:
            return text(kind, pick.choice([b"", b"ab", b"\xc3\xa9", b"\xc3"]), 1 if kind == 11 else None)
        if kind == 13:
            return ref(pick.randrange(3))
        if depth == 0:
            return NIL
        if kind == 9:
            return pair(datum(depth - 1), datum(depth - 1))
        if kind == 12:
            return def_(pick.randrange(3), datum(depth - 1))
        n = pick.randrange(4)
        return vec(n, *(datum(depth - 1) for _ in range(n)))

    for _ in range(count):
        data = datum(4)
        if len(data) < 80:
            yield data
            yield data[: pick.randrange(len(data) + 1)] + bytes(pick.randrange(2))


def main():
    cases = [*each_kind(), *faults(), *limits(), *order(), *chance(120)]
    with open("crates/run_check/stdin", "w") as f:
        f.write("".join(case.hex() + "\n" for case in cases))
    with open("crates/run_check/stdout", "w") as f:
        f.write("".join(answer(case) + "\n" for case in cases))


main()
