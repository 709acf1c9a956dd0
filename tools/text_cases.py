#!/usr/bin/env python3
"""Writes the stored cases of the program run_text, with answers that are computed here in another way: by patterns over
whole lines. Run at the root of the repository."""
import random
import re

DECIMAL = re.compile(r"(0|[1-9][0-9]*)\Z")
SIGNED = re.compile(r"(0|-?[1-9][0-9]*)\Z")
HEX = re.compile(r"([0-9a-f]{2})*\Z")
BARE = {"nil": (1, 0), "eof": (2, 0), "undef": (0, 0), "void": (3, 0), "pair": (9, 2)}
NUMBERED = {"bool": 4, "char": 5, "vec": 10, "def": 12, "ref": 13}
TEXTS = {"str": 7, "sym": 8}


def unsigned(t):
    return int(t) if DECIMAL.match(t) and int(t) < 2**32 else None


def signed(t):
    return int(t) if SIGNED.match(t) and -(2**63) <= int(t) < 2**63 else None


def unhex(t):
    return bytes.fromhex(t) if HEX.match(t) else None


def u32(n):
    return n.to_bytes(4, "little")


def text_node(front, t):
    raw = unhex(t)
    return None if raw is None else (front + u32(len(raw)) + raw, 0)


def node(line):
    key, eq, value = line.partition("=")
    if not eq:
        return None
    if key in BARE:
        kind, follow = BARE[key]
        return (bytes([kind]), follow) if value == "" else None
    if key in NUMBERED:
        n = unsigned(value)
        if n is None:
            return None
        return bytes([NUMBERED[key]]) + u32(n), {"vec": n, "def": 1}.get(key, 0)
    if key == "num":
        n = signed(value)
        return None if n is None else (b"\x06" + (n % 2**64).to_bytes(8, "little"), 0)
    if key in TEXTS:
        return text_node(bytes([TEXTS[key]]), value)
    if key == "ident":
        scope, colon, name = value.partition(":")
        n = unsigned(scope)
        return text_node(b"\x0b" + u32(n), name) if colon and n is not None else None
    return None


def shown(x):
    return "bad" if x is None else str(x)


def answer(line):
    chunk = unsigned(line[6:]) if line.startswith("chunk=") else None
    raw = unhex(line)
    n = node(line)
    return (
        f"unsigned={shown(unsigned(line))} signed={shown(signed(line))} chunk={shown(chunk)} end={int(line == 'end=')}"
        f" hex={'bad' if raw is None else raw.hex()} node={'bad' if n is None else f'{n[0].hex()},{n[1]}'}"
    )


def cases():
    numbers = ["", "0", "00", "01", "1", "9", "10", "4294967295", "4294967296", "42949672950", "04294967295", "-0", "-", "--1",
               "-1", "+1", " 1", "1 ", "1x", "-01", "9223372036854775807", "9223372036854775808", "-9223372036854775808",
               "-9223372036854775809", "18446744073709551616", "99999999999999999999999999999999", "184467440737095516160"]
    hexes = ["", "0", "00", "ff", "FF", "fF", "0g", "a", "abc", "61626364", "e282ac", "/0", ":0", "`0", "0123456789abcdef"]
    yield from numbers
    yield from hexes
    for key in ["bool", "char", "vec", "def", "ref", "num", "chunk"]:
        yield from (f"{key}={n}" for n in numbers)
    for key in ["str", "sym"]:
        yield from (f"{key}={h}" for h in hexes)
    for scope in ["0", "1", "01", "4294967295", "4294967296", "", "-1"]:
        yield from (f"ident={scope}:{h}" for h in ["", "61", "6", "6G", "00:11", ":"])
        yield f"ident={scope}"
    for key in ["nil", "eof", "undef", "void", "pair", "end", "nul", "Nil", "pai", "slots"]:
        yield from (key, f"{key}=", f"{key}=0", f"{key}= ", f" {key}=")
    yield "str=" + "61" * 1000
    yield "ident=7:" + "c3a9" * 300
    r = random.Random(1)
    keys = [*BARE, *NUMBERED, *TEXTS, "num", "ident", "end", "chunk"]
    for _ in range(200):
        value = "".join(r.choice("0123456789abcdefg-:=") for _ in range(r.randrange(8)))
        yield f"{r.choice(keys)}={value}"
    for _ in range(60):
        n = r.choice([r.randrange(2**64), r.randrange(2**33), r.randrange(1000)])
        yield from (str(n), f"-{n}", f"num={n}", f"num=-{n}", f"vec={n}")


def main():
    lines = list(cases())
    with open("crates/run_text/stdin", "w") as f:
        f.writelines(line + "\n" for line in lines)
    with open("crates/run_text/stdout", "w") as f:
        f.writelines(answer(line) + "\n" for line in lines)


main()
