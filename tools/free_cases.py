#!/usr/bin/env python3
"""Writes the stored cases of the program run_free, with answers that are computed here in another way: a heap as a list of
free slots, next slot last, that grows by half its chunks, counted in fractions. Run at the root of the repository."""
from fractions import Fraction
from math import ceil


def sizes(chunk, lent):
    """The capacities that a heap comes to."""
    chunks = 1
    while chunks * chunk <= lent:
        yield chunks * chunk
        chunks = ceil(chunks * Fraction(3, 2))


def slots(chunk, lent):
    """The slots in the order in which they are given until none is left."""
    capacities = list(sizes(chunk, lent))
    free = list(range(chunk))[::-1]
    for capacity, grown in zip(capacities, capacities[1:] + [None]):
        while free:
            yield free.pop()
        if grown:
            free.extend(range(capacity, grown))


def cases():
    """Document 01's readings 1, 2 and 3 first; every chunk that 24 slots or fewer allow; then larger heaps."""
    yield from [(4, 8), (4, 7), (4, 24), (8, 20)]
    for lent in range(4, 25):
        yield from [(chunk, lent) for chunk in range(4, lent + 1, 4)]
    for chunk in (4, 8, 12, 16, 64, 100, 1000, 1364, 1368, 2044, 2048, 2052, 4092, 4096):
        yield from [(chunk, lent) for lent in (chunk, chunk + 1, 2 * chunk, 192, 2839, 2840, 4095, 4096) if chunk <= lent <= 4096]


def answers():
    for chunk, lent in cases():
        reached = list(sizes(chunk, lent))
        yield "%s ends %d 1 %d " % (" ".join(map(str, reached)), reached[-1], lent in reached)
        if lent <= 24:
            yield "".join("%d " % slot for slot in slots(chunk, lent))


for name, lines in ("stdin", ("%04d %04d" % case for case in cases())), ("stdout", answers()):
    with open("crates/run_free/" + name, "w") as f:
        f.write("".join(line + "\n" for line in lines))
