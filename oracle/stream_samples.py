#!/usr/bin/env python3
"""Makes the streams of crates/test_streams, and foretells what the program prints of each.

    python3 oracle/stream_samples.py crates/test_streams

writes DIR/data/NAME for each sample, and DIR/stdout. A sample is recorded by one call and block by block, each into a capacity
of 8,000 nodes and 2,000 entries. What is answered is found here by reading the stream in layout order, charging its
blocks, as document 01 has it, and looking for conflicts, as document 02 does; how long the image is, by the saving of
image_vectors.py.
"""
import os, random, struct, sys

sys.dont_write_bytecode = True
from image_vectors import TOP, image, trie

NODES, ENTRIES = 8000, 2000
MEMORY = 1


def stream(blocks):
    return b"".join(bytes([kind]) + struct.pack("<4Q", address, len(data), created, destroyed) + data for kind, address, created, destroyed, data in blocks)


def shares(held, data, address, created, destroyed):
    """Whether bytes share an address and a tick with bytes that are held."""
    return any(max(created, c) < min(destroyed, d) and set(range(a, a + len(x))) & set(range(address, address + len(data))) for x, a, c, d in held)


def block_cause(held, data, address, created, destroyed, nodes, entries):
    """The number of what a Memory block is refused for, 0 where it is taken."""
    checks = [(4, len(data) > 4096), (5, created >= destroyed), (6, address + len(data) > TOP), (18, shares(held, data, address, created, destroyed)), (7, nodes > NODES), (8, entries > ENTRIES)]
    return next((number for number, applies in checks if applies), 0)


def foretell(s):
    """How many blocks are taken, the number of what stops it (0 at the end), and the Memory blocks among them."""
    at, taken, held, nodes, entries = 0, 0, [], 1, 0
    while at < len(s):
        if s[at] > 4:
            return taken, 14, held
        if at + 33 > len(s):
            return taken, 13, held
        address, n, created, destroyed = struct.unpack_from("<4Q", s, at + 1)
        if at + 33 + n > len(s):
            return taken, 13, held
        data = s[at + 33:at + 33 + n]
        if s[at] == MEMORY:
            pieces = [len(data[i:i + 16]) for i in range(0, n, 16)] or [0]
            nodes += sum(m * (m + 1) // 2 for m in pieces)
            entries += sum(2 * m or 1 for m in pieces)
            number = block_cause(held, data, address, created, destroyed, nodes, entries)
            if number:
                return taken, number, held
            held.append((data, address, created, destroyed))
        at, taken = at + 33 + n, taken + 1
    return taken, 0, held


def shift(rng):
    """60 blocks of all kinds: 0 to 64 bytes over three characters, the same bytes at several addresses, an empty block twice, and the
    bytes of one block in its place again when its life ends. None conflicts with another."""
    texts = [bytes(rng.choice(b"abc") for _ in range(n)) for n in (0, 1, 2, 3, 5, 8, 15, 16, 17, 20, 31, 32, 33, 48, 63, 64)]
    kinds = [MEMORY] * 30 + [0, 2, 3, 4] * 3 + [0, 4]
    rng.shuffle(kinds)
    blocks, held = [], []
    for tick, kind in enumerate([MEMORY] * len(texts) + kinds):
        data = texts[tick] if tick < len(texts) else rng.choice(texts[:13])
        place = None
        while place is None or shares(held, data, *place):
            place = rng.choice([64 * rng.randrange(40), 4096 + rng.randrange(64), TOP - len(data)]), tick, tick + rng.randrange(1, 30)
        blocks.append((kind, *place, data))
        if kind == MEMORY:
            held.append((data, *place))
    *_, before, last = (i for i, b in enumerate(blocks) if b[0] == MEMORY)
    blocks[before] = next(b for b in blocks if b[0] == MEMORY and not b[4])
    blocks[last] = next((MEMORY, a, d, d + 1, x) for x, a, c, d in held if len(x) > 16 and not shares(held, x, a, d, d + 1))
    other = next(i for i, b in enumerate(blocks) if b[0] == 2)
    blocks[other] = (2, TOP, 9, 9, b"its life and its place are not looked at")
    return blocks


def with_fault(blocks, wanted, change):
    """The blocks with one changed, and which: the first Memory block from the middle on that has the wanted length or more."""
    i = next(i for i in range(len(blocks) // 2, len(blocks)) if blocks[i][0] == MEMORY and len(blocks[i][4]) >= wanted)
    return blocks[:i] + [change(*blocks[i])] + blocks[i + 1:], i


def samples(rng):
    blocks = shift(rng)
    assert len(blocks) == 60 and {b[0] for b in blocks} == {0, 1, 2, 3, 4}
    whole = stream(blocks)
    no_life, i = with_fault(blocks, 3, lambda k, a, c, d, x: (k, a, d, d, x))
    middle = len(stream(blocks[:i]))
    yield "whole", whole
    yield "no_life", stream(no_life)
    yield "too_high", stream(with_fault(blocks, 3, lambda k, a, c, d, x: (k, TOP - len(x) + 1, c, d, x))[0])
    # the last byte of an early block at its last tick; and a block twice, one behind the other
    _, address, _, destroyed, data = next(b for b in blocks if b[0] == MEMORY and len(b[4]) > 16)
    yield "conflict", stream(with_fault(blocks, 3, lambda *b: (MEMORY, address + len(data) - 1, destroyed - 1, destroyed + 1, b"xyz"))[0])
    yield "conflict_with_the_one_before", stream(blocks[:i] + [blocks[i], (MEMORY, *blocks[i][1:])] + blocks[i + 1:])
    yield "too_long", stream(with_fault(blocks, 3, lambda k, a, c, d, x: (k, a, c, d, bytes(4097)))[0])
    yield "cut_in_data", whole[:middle + 33 + 2]
    yield "cut_in_head", whole[:middle + 20]
    yield "unknown_kind", stream(with_fault(blocks, 3, lambda k, a, c, d, x: (5, a, c, d, x))[0])
    yield "length_past_the_end", whole[:middle + 9] + struct.pack("<Q", TOP) + whole[middle + 17:]
    yield "too_many_nodes", stream([(MEMORY, 64 * i, i, i + 5, bytes(rng.choice(b"ab") for _ in range(64))) for i in range(20)])
    yield "too_many_entries", stream([(MEMORY, 12 * i, i, i + 5, bytes(rng.choice(b"ab") for _ in range(12))) for i in range(90)])
    yield "conflict_and_too_many", stream([(MEMORY, 64 * i, i, i + 20, bytes(64)) for i in range(14)] + [(MEMORY, 64 * 13 + 63, 14, 15, bytes(64))])
    yield "empty", b""


def lines(name, taken, number, size):
    return f"{name}\n  taken: {taken} and {taken}\n  stopped by: {number} and {number}\n  memories: the same\n  image bytes: {size} and {size}\n  images: the same\n"


def main():
    where = sys.argv[1]
    os.makedirs(os.path.join(where, "data"), exist_ok=True)
    said, numbers = "", set()
    for name, s in samples(random.Random(1)):
        taken, number, held = foretell(s)
        numbers.add(number)
        size = len(image(trie(held))) if held else 25
        said += lines(name, taken, number, size)
        with open(os.path.join(where, "data", name), "wb") as f:
            f.write(s)
        print(name, len(s), "bytes,", len(held), "Memory blocks,", sum(len(b[0]) for b in held), "bytes in them")
    assert numbers == {0, 4, 5, 6, 7, 8, 13, 14, 18}
    with open(os.path.join(where, "stdout"), "w") as f:
        f.write(said)


if __name__ == "__main__":
    main()
