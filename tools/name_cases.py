#!/usr/bin/env python3
"""Writes the stored cases of the program run_names, with answers that are computed here in another way: by Python's own order
of byte strings and of pairs. Run at the root of the repository."""
import random


def small_cases():
    """One entry or none; each pair of a few names, of which some are empty, begin one another, or have bytes from 0x80 on."""
    yield []
    yield [(b"", 0)]
    names = [b"", b"a", b"ab", b"abc", b"b", b"\x00", b"a\x00", "é".encode(), "\u20ac".encode(), b"\x7f", b"z\xf0\x9f\x98\x80"]
    for first in names:
        yield [entry for second in names for entry in ((first, 0), (second, 0))]
    for first in names[:5]:
        for second in names[:5]:
            yield [(first, 0), (second, 0)]
    yield [(b"x", scope) for scope in (3, 0, 1, 0xFFFFFFFF, 256, 2)]
    yield [(b"x", 1), (b"y", 0), (b"x", 0), (b"y", 1)]
    yield [(b"x", 1), (b"y", 0), (b"x", 1)]
    yield [(b"", 7), (b"", 7)]
    yield [(b"same", 5)] * 9


def long_cases():
    """Three hundred entries, distinct; then fewer: one key twice, at the two ends and in the middle; few keys, often; in order; turned."""
    draw = random.Random(12)
    alphabet = [b"a", b"b", b"\x00", b"\xc3\xa9", b"\xf0\x9f\x98\x80", b"z"]

    def some():
        return b"".join(draw.choice(alphabet) for _ in range(draw.randrange(6))), draw.choice([0, 0, 1, 2, 0xFFFFFFFF])

    distinct = sorted({some() for _ in range(600)})[:300]
    draw.shuffle(distinct)
    yield distinct
    yield distinct[:60] + [distinct[0]]
    yield distinct[:30] + [distinct[7]] + distinct[30:60]
    yield [draw.choice(distinct[:20]) for _ in range(60)]
    yield sorted(distinct)[:65]
    yield sorted(distinct, reverse=True)[:64]
    yield [(b"k" * (n % 10), n // 10) for n in range(50)]


def text(case):
    return "".join("".join("%02x " % byte for byte in name) + "%x;\n" % scope for name, scope in case) + ".\n"


def answer(case):
    names = [name for name, _ in case]
    pairs = ["<0" if a < b else "=1" if a == b else ">0" for a, b in zip(names, names[1:])]
    lines = ["".join(pairs)] + ["%s %d" % (name.hex(), scope) for name, scope in sorted(case)]
    return "".join(line + "\n" for line in lines + [str(int(len(set(case)) == len(case)))])


cases = list(small_cases()) + list(long_cases())
for name, told in ("stdin", text), ("stdout", answer):
    with open("crates/run_names/" + name, "w") as f:
        f.write("".join(map(told, cases)))
