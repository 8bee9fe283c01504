"""Damage to a file, by chance: flips of a bit, cuts, zeroed and doubled blocks. Standard library only."""

BLOCK = 512


def damaged(good, count, chance):
    """So many files with one bit flipped, and a fifth as many that are cut, have a zeroed block, and have a doubled one; none is as it was."""
    for _ in range(count):
        data = bytearray(good)
        data[chance.randrange(len(data))] ^= 1 << chance.randrange(8)
        yield "flip", bytes(data)
    for _ in range(count // 5):
        yield "cut", good[:chance.randrange(1, len(good))]
        at, size = chance.randrange(len(good)), chance.randrange(1, BLOCK)
        yield "zeroed", good[:at] + bytes(len(good[at:at + size])) + good[at + size:]
        yield "doubled", good[:at + size] + good[at:]
