"""Writes what the program block_edges must write, by long division over bits, without the bench's code.

    python3 compare/block_edges.py > crates/block_edges/stdout

What source document 001, B.1, gives for two words, and the seven patterns, are written out by hand and compared.
"""
from itertools import combinations

DIVISOR = 0b10110111001
OFFSETS = {"A": 0x0FC, "B": 0x198, "C": 0x168, "C'": 0x350, "D": 0x1B4}


def left(bits):
    """What is left of 26 bits, divided from the highest down."""
    for place in range(25, 9, -1):
        if bits >> place & 1:
            bits ^= DIVISOR << (place - 10)
    return bits


def check(word, kind):
    return left(word << 10) ^ OFFSETS[kind]


def read(bits):
    if bits >= 1 << 26:
        return "answer 12"
    for offset in OFFSETS.values():
        if left(bits) == offset:
            return f"word {bits >> 10:04x} offset {offset:03x}"
    return "none"


assert (left(0x0001 << 10), check(0x0001, "B")) == (0x1B9, 0x021)
assert (left(0xFFFF << 10), check(0xFFFF, "B")) == (0x0CD, 0x155)

print("offsets", *(f"{offset:03x}" for offset in OFFSETS.values()))
for word in (0x0001, 0xFFFF, 0x0000, 0x1234, 0x54A8):
    print(f"checks of {word:04x}:", *(f"{check(word, kind):03x}" for kind in OFFSETS))
for bits in (0x0000198, 0, 0x0000145, 0x0000545, 0x3FFFC31, 0x3FFFFFF, 0x4000000, 0xFFFFFFFF):
    print(f"read {bits:07x}: {read(bits)}")
patterns = sorted(sum(1 << place for place in places) for places in combinations(range(26), 3))
shown = [pattern for pattern in patterns if left(pattern) == 0]
assert len(patterns) == 2600 and shown == [0x0080401 << shift for shift in range(7)]
for pattern in shown:
    print(f"three bits {pattern:07x}")
