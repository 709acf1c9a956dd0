#!/usr/bin/env python3
"""Writes the stored sheets of the program run_sheets, with their answers. Run at the root of the repository, with the oracle
built (oracle/README.md).

The answers come from the original Rust (oracle/), except for refusals, which the Rust does not have: there the number is
document 01's, written here beside the sheet. Each boundary is there on both sides."""
import os
import subprocess

ORACLE = os.path.join("oracle", "target", "release", "oracle")
SEED, COUNT = 20261115, 360


def oracle(words, given):
    return subprocess.run([ORACLE] + words, input=given, stdout=subprocess.PIPE, check=True).stdout


def sheet(nodes, chunk=4, slots=192):
    lines = ["chunk=%s" % chunk, "slots=%s" % slots] + list(nodes) + ["end="]
    return "".join(line + "\n" for line in lines).encode()


def hexed(raw):
    return (raw if isinstance(raw, bytes) else raw.encode()).hex()


def string(raw):
    return "str=" + hexed(raw)


def symbol(raw):
    return "sym=" + hexed(raw)


def listed(items):
    """A proper list of these nodes."""
    return [line for item in items for line in ["pair="] + item] + ["nil="]


CASES = []


def refused(number, text):
    CASES.append((text, b"refused=%d\n" % number))


def accepted(text):
    CASES.append((text, oracle(["sheet"], text)))
    assert not CASES[-1][1].startswith(b"refused="), text


def one(line):
    return sheet([line])


# ---- bad text: no line of the grammar, in its order

for text in (
    b"", b"\n", b"end=\n", b"chunk=4\n", b"chunk=4\nslots=4\n", b"chunk=4\nslots=4\nend=", b"chunk=4\nslots=4\nend=\n\n",
    b"chunk=4\nslots=4\nend=\nend=\n", b"chunk=4\nslots=4\nend=\nnil=\n", b"chunk=4\nslots=4\nend=\n\0", b"chunk=4\r\nslots=4\r\nend=\r\n",
    b"chunk=4\nslots=4\nnil=\r\nend=\n", b"\nchunk=4\nslots=4\nend=\n", b"chunk=4\n\nslots=4\nend=\n", b"chunk=4\nslots=4\n\nend=\n",
    b"slots=4\nchunk=4\nend=\n", b"chunk=4\nchunk=4\nslots=4\nend=\n", b"chunk=4\nslots=4\nslots=4\nend=\n", b"chunk=4\nslots=4\nend=1\n",
    b"chunk=4\nslots=4\nend=\n ", b" chunk=4\nslots=4\nend=\n", b"chunk =4\nslots=4\nend=\n", b"Chunk=4\nslots=4\nend=\n",
    b"chunk=4\nslots=4\nEND=\n", b"\xef\xbb\xbfchunk=4\nslots=4\nend=\n", b"chunk=4\nslots=4\nnil\nend=\n", b"chunk=4\nslots=4\n=\nend=\n",
):
    refused(11, text)
for bad in ("", "+4", "-4", "04", "00", "4 ", " 4", "0x4", "4.", "4294967296", "99999999999999999999", "४"):
    refused(11, sheet([], chunk=bad))
    refused(11, sheet([], slots=bad))
for key in ("char", "vec", "def", "ref", "bool"):
    for bad in ("", "-1", "+1", "01", "1 ", "4294967296", "18446744073709551616", "a"):
        refused(11, one("%s=%s" % (key, bad)))
for bad in ("", "-", "+1", "-0", "00", "01", "-01", "--1", "1-", "9223372036854775808", "-9223372036854775809",
            "18446744073709551616", "99999999999999999999", "0x1", "1.0", " 1"):
    refused(11, one("num=" + bad))
for key in ("str", "sym"):
    for bad in ("A0", "a", "6", "0g", " 61", "61 ", "616", "6_1"):
        refused(11, one("%s=%s" % (key, bad)))
for bad in ("", ":", "1", "1:6", ":61", "01:61", "-1:61", "1:A1", "1:61:62", "4294967296:61", "1 :61"):
    refused(11, one("ident=" + bad))
for key in ("nil", "eof", "undef", "void", "pair"):
    for bad in ("0", " ", "="):
        refused(11, one("%s=%s" % (key, bad)))
for bad in ("nill=", "pairs=", "symbol=61", "number=1", "vector=0", "label=0", "#", "slot0=nil", "root=0"):
    refused(11, one(bad))

# ---- good text, and a bad datum: 11 by the put

for bad in ("bool=2", "bool=4294967295", "char=55296", "char=57343", "char=1114112", "char=4294967295"):
    refused(11, one(bad))
for raw in (b"\xff", b"\x80", b"\xc0\xaf", b"\xc1\xbf", b"\xe0\x80\xaf", b"\xed\xa0\x80", b"\xed\xbf\xbf", b"\xf0\x80\x80\xaf",
            b"\xf4\x90\x80\x80", b"\xf5\x80\x80\x80", b"a\xc3", b"\xe2\x82", b"\xf0\x9d\x84"):
    refused(11, one(string(raw)))
    refused(11, one(symbol(raw)))
    refused(11, one("ident=1:" + raw.hex()))
for cut in (["pair="], ["pair=", "nil="], ["vec=1"], ["vec=2", "nil="], ["def=0"], ["vec=4294967295"], ["vec=4294967295", "nil="],
            ["pair=", "pair=", "nil=", "nil="], ["nil=", "pair=", "nil="]):
    refused(11, sheet(cut))
accepted(sheet(["bool=0", "bool=1", "char=0", "char=55295", "char=57344", "char=1114111"]))
accepted(sheet(["num=0", "num=-1", "num=9223372036854775807", "num=-9223372036854775808", "num=1", "num=10"]))
accepted(sheet([string(raw) for raw in ("", "a", "\0", "\x7f", "\x80", "\u07ff", "\u0800", "\ud7ff", "\ue000", "\uffff", "\U00010000", "\U0010ffff")]))
accepted(sheet(["ident=0:61", "sym=61", "ident=1:61", "ident=4294967295:61", "ident=1:61", "ident=1:", "sym="]))
accepted(sheet(["def=4294967295", "pair=", "ref=4294967295", "nil="]))
accepted(sheet(["nil=", "eof=", "undef=", "void="]))
accepted(sheet([]))
accepted(sheet(["vec=0", "vec=0", string("")]))

# ---- 12: the datum's numbers, at both sides

def labels(count):
    return [line for n in range(count) for line in ("def=%d" % n, "nil=")]


def nils(count):
    return ["vec=%d" % count] + ["nil="] * count


accepted(sheet(["vec=64"] + labels(64)))
refused(12, sheet(["vec=65"] + labels(65)))
accepted(sheet(["vec=128"] + labels(64) + ["ref=%d" % n for n in range(64)]))
accepted(sheet(["vec=65"] + labels(64) + ["def=0", "nil="]))
refused(12, sheet(["vec=65"] + labels(64) + ["ref=64"]))
accepted(sheet(nils(1024)))
refused(12, sheet(nils(1025)))
accepted(one(symbol("n" * 255)))
refused(12, one(symbol("n" * 256)))
accepted(one("ident=7:" + hexed("n" * 255)))
refused(12, one("ident=7:" + hexed("n" * 256)))
accepted(one(string("s" * 4096)))
refused(12, one(string("s" * 4097)))
# 4,096 nodes are within the number, and not within the room: every node but a repeated symbol takes a slot or an element
refused(17, sheet(["vec=4"] + nils(1023) * 3 + nils(1022)))
refused(12, sheet(["vec=4"] + nils(1023) * 4))

# ---- 13: a reference before its definition has begun

refused(13, one("ref=0"))
refused(13, sheet(["pair=", "ref=0", "def=0", "nil="]))
refused(13, sheet(["def=0", "nil=", "ref=0"]))
refused(13, sheet(["vec=2", "ref=1", "def=1", "nil="]))
accepted(sheet(["def=0", "ref=0"]))
accepted(sheet(["pair=", "def=0", "nil=", "ref=0"]))

# ---- 10: setup's numbers, and more than 192 slots

for chunk, slots in ((4, 193), (4, 4294967295), (4, 3), (4, 0), (0, 4), (1, 4), (2, 4), (5, 8), (6, 8), (8, 4), (12, 11), (196, 192), (4096, 192), (4294967295, 192)):
    refused(10, sheet(["nil="], chunk, slots))
for chunk, slots in ((4, 192), (4, 4), (4, 5), (8, 8), (12, 12), (12, 13), (192, 192), (188, 192), (96, 192)):
    accepted(sheet(["nil="], chunk, slots))

# ---- which comes first

refused(12, b"x" * 32769)
refused(12, sheet(["nil="] * 6551, 4, 193) + b"nil=\n" * 10)
refused(11, sheet(["nil=0"], 4, 193))
refused(10, sheet(["bool=2"], 4, 193))
refused(10, sheet(["ref=0"], 5, 192))
refused(11, sheet(["bool=2"] + ["nil="] * 5, 4, 4))
refused(11, sheet(["vec=1025"] + ["nil="] * 1024 + ["bool=2"]))
refused(12, sheet(["vec=1025", "ref=0"] + ["nil="] * 1024))
refused(13, sheet(["pair=", "ref=0", "pair=", "nil=", "pair=", "nil=", "pair=", "nil=", "nil="], 4, 4))
refused(16, sheet(["nil="] * 4 + [string("s" * 4096)], 4, 4))
refused(16, sheet([string("s" * 4096), string("s" * 4096), "nil=", "nil=", string("s")], 4, 4))
refused(11, sheet(["nil="] * 4 + ["bool=2"], 4, 4))

# ---- 32 KiB, exactly and one more

full = sheet(["sym=61"] * 4674 + ["sym=6162"] * 3)
assert len(full) == 32768
accepted(full)
refused(12, full[:-5] + b"\n" + full[-5:])

# ---- 16: the last slot and one more, at several growths

for chunk, slots, most in ((4, 4, 4), (4, 7, 4), (4, 8, 8), (4, 11, 8), (4, 12, 12), (4, 24, 20), (8, 20, 16), (8, 24, 24), (4, 192, 164), (12, 192, 144), (64, 192, 192), (192, 192, 192)):
    answer = oracle(["sheet"], sheet(["nil="] * most, chunk, slots))
    assert b"free=0\n" in answer, (chunk, slots, most)
    accepted(sheet(["nil="] * most, chunk, slots))
    refused(16, sheet(["nil="] * (most + 1), chunk, slots))
accepted(sheet(listed([["num=%d" % n] for n in range(1, 4)]), 4, 192))
refused(16, sheet(["pair=", "pair=", "nil=", "nil=", "nil="], 4, 4))
accepted(sheet(["pair=", "def=0", "nil=", "def=1", "nil="], 4, 4))
accepted(sheet(["sym=61", "sym=61", "nil=", "nil=", "nil=", "sym=61"], 4, 4))
refused(16, sheet(["sym=61", "sym=61", "nil=", "nil=", "nil=", "sym=62"], 4, 4))

# ---- 17: a room exactly full and one over

accepted(sheet([string("s" * 4096), string("t" * 4096)]))
refused(17, sheet([string("s" * 4096), string("t" * 4096), string("u")]))
accepted(sheet([string("s" * 4096), string("t" * 4096), string(""), "sym="]))
accepted(sheet([string("s" * 4096), string("t" * 4095), "sym=61", "sym=61", "vec=1", "sym=61"]))
refused(17, sheet([string("s" * 4096), string("t" * 4095), "sym=61", "sym=62"]))
accepted(sheet(nils(1024) * 2))
refused(17, sheet(nils(1024) * 2 + nils(1)))
accepted(sheet(nils(1024) * 2 + nils(0)))
refused(17, sheet(["vec=2", string("s" * 4096), string("t" * 4096), string("u")]))

# ---- the label cases of the reading notes, and other places where a port goes wrong easily

for nodes in (
    ["def=0", "pair=", "num=1", "ref=0"],
    ["def=0", "pair=", "num=1", "def=1", "ref=0"],
    ["def=0", "pair=", "def=0", "num=5", "ref=0"],
    ["def=0", "def=1", "def=2", "num=7"],
    ["vec=3", "def=0", "num=5", "ref=0", "num=5"],
    ["def=0", "sym=61", "sym=61", "def=0", "sym=61"],
    ["def=0", "vec=2", "num=1", "ref=0"],
    ["def=0", string("ab"), "def=0", "ident=3:61", "ident=3:61"],
    ["vec=2", "vec=1", "num=7", string("ab")],
    ["pair=", "def=0", "pair=", "num=1", "ref=0", "ref=0"],
    ["def=0", "pair=", "def=1", "pair=", "num=1", "ref=1", "ref=0"],
    ["pair=", "def=0", "vec=2", "ref=0", "def=1", "num=1", "pair=", "ref=1", "ref=0"],
    ["def=0", "ref=0"], ["def=0", "def=1", "ref=0"], ["def=0", "def=0", "ref=0"],
    ["vec=3", "sym=61", "sym=62", "sym=61"], ["vec=2", "void=", "undef="],
    ["pair=", "num=1", "num=2"], ["vec=2", "num=1", "num=2"],
    listed([["sym=" + hexed("crane")], [string("STS-04")], ["vec=2", "num=1", "num=2"]]),
):
    accepted(sheet(nodes))
    accepted(sheet(nodes + nodes, 8, 160))
accepted(sheet(["def=0", "vec=1024"] + ["num=-9223372036854775808"] * 1024))
accepted(sheet(["def=%d" % n for n in range(60)] + ["vec=20"] + ["num=%d" % n for n in range(20)]))

# ---- the examples, which stand beside their listings

for name in sorted(os.listdir("examples")):
    if name.endswith(".sheet"):
        with open("examples/" + name, "rb") as given, open("examples/" + name[:-5] + "listing", "rb") as answer:
            CASES.append((given.read(), answer.read()))
        if not CASES[-1][1].startswith(b"refused="):
            assert CASES[-1][1] == oracle(["sheet"], CASES[-1][0]), name

BY_HAND = len(CASES)
text = oracle(["random", str(SEED), str(COUNT), "sheets"], b"")
CASES += list(zip(text.split(b"---\n"), oracle(["sheets"], text).split(b"---\n")))
assert len(CASES) == BY_HAND + COUNT

with open("crates/run_sheets/stdin", "wb") as out:
    for given, _ in CASES:
        out.write(b"%05d\n" % len(given) + given)
with open("crates/run_sheets/stdout", "wb") as out:
    for _, answer in CASES:
        out.write(answer + b"---\n")
print("%d sheets by hand, %d of them refused; %d random ones, %d of them refused" % (
    BY_HAND, sum(a.startswith(b"refused=") for _, a in CASES[:BY_HAND]), COUNT, sum(a.startswith(b"refused=") for _, a in CASES[BY_HAND:])))
