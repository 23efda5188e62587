#!/usr/bin/env python3
"""Makes the vectors of crates/test_image_vectors: images, sound, damaged and with conflicting pieces, and what documents 01 and 02
say of each.

    oracle/image_vectors.py DIR     writes DIR/data/images and DIR/stdout

This is a reader of its own, written from the documents and from nothing else: it builds tries by inserting pieces one by one,
saves them, and judges bytes in layout order, then by the index rule in the document's words, then (request 2) for two pieces that
share a byte address and a live tick.

A vector is a mode byte, a number (8 bytes, lowest first) and more. Mode 0: a length and an image, which is judged. Mode 1:
the same, and every part of the image from its start is judged, from 0 bytes to all of them. Mode 2: an index and a byte; the
last image is judged with that byte there. A line of the answer is a number of times and what was said as often in a row.
"""
import os, random, struct, sys

TOP = 2**64 - 1


class Node:
    def __init__(self):
        self.prefixes, self.chunks, self.suffixes, self.children = [], [], [], {}


def insert(node, path, loc, part):
    for b in path:
        if not part:
            node.suffixes.append(loc)
        node = node.children.setdefault(b, Node())
    (node.prefixes if part else node.chunks).append(loc)


def record(root, data, loc):
    a, c, d = loc
    if len(data) > 16:
        record(root, data[16:], (a + 16, c, d))
        data = data[:16]
    for i in range(1, len(data)):
        insert(root, data[i:], (a + i, c, d), True)
    insert(root, data, loc, False)


def finish(node):
    node.prefixes, node.chunks, node.suffixes = (sorted(set(x)) for x in (node.prefixes, node.chunks, node.suffixes))
    for c in node.children.values():
        finish(c)


def trie(blocks):
    root = Node()
    for data, a, c, d in blocks:
        record(root, bytes(data), (a, c, d))
    finish(root)
    return root


def u64(n):
    return struct.pack("<Q", n)


def head(node, kind):
    out = bytes([kind])
    for ls in (node.prefixes, node.chunks, node.suffixes):
        out += u64(len(ls)) + b"".join(u64(x) for l in ls for x in l)
    return out


def image(node, at=0):
    n = len(node.children)
    kind = 3 if n <= 8 else 2 if n <= 96 else 1
    out = head(node, kind)
    if kind == 1:
        offsets, body, here = b"", b"", at + len(out) + 2048
        for b in range(256):
            offsets += u64(here + len(body))
            c = node.children.get(b)
            body += b"\0" if c is None else b"\1" + image(c, here + len(body) + 1)
        return out + offsets + body
    out += u64(n)
    here = at + len(out) + 9 * n
    where, body = {}, b""
    for b in node.children if kind == 3 else sorted(node.children):
        where[b] = here + len(body)
        body += b"\1" + image(node.children[b], where[b] + 1)
    return out + b"".join(bytes([b]) + u64(where[b]) for b in node.children) + body


class Refused(Exception):
    pass


class Reader:
    def __init__(self, s):
        self.s, self.nodes, self.entries = s, 0, 0

    def byte(self, at):
        if at >= len(self.s):
            raise Refused(13)
        return self.s[at]

    def number(self, at):
        if at + 8 > len(self.s):
            raise Refused(13)
        return struct.unpack_from("<Q", self.s, at)[0]

    def lists(self, at):
        out = []
        for _ in range(3):
            n = self.number(at)
            if at + 8 + 24 * n > len(self.s):
                raise Refused(13)
            out.append([struct.unpack_from("<QQQ", self.s, at + 8 + 24 * i) for i in range(n)])
            at += 8 + 24 * n
        return out, at

    def child(self, offset, at, depth, gaps):
        if offset != at:
            raise Refused(15)
        flag = self.byte(at)
        if flag == 1:
            if depth == 16:
                raise Refused(15)
            return self.node(at + 1, depth + 1)
        if flag == 0 and gaps:
            return None, at + 1
        raise Refused(15)

    def node(self, at, depth):
        kind = self.byte(at)
        if kind not in (1, 2, 3):
            raise Refused(14)
        node = Node()
        (node.prefixes, node.chunks, node.suffixes), at = self.lists(at + 1)
        self.nodes += 1
        self.entries += len(node.prefixes) + len(node.chunks) + len(node.suffixes)
        if kind == 1:
            if at + 2048 > len(self.s):
                raise Refused(13)
            offsets, at = [self.number(at + 8 * b) for b in range(256)], at + 2048
            for b in range(256):
                c, at = self.child(offsets[b], at, depth, True)
                if c is not None:
                    node.children[b] = c
            if len(node.children) < 97:
                raise Refused(15)
            return node, at
        n = self.number(at)
        if not (0 <= n <= 8 if kind == 3 else 9 <= n <= 96):
            raise Refused(15)
        at += 8
        table = {}
        for _ in range(n):
            b = self.byte(at)
            if b in table:
                raise Refused(15)
            table[b] = self.number(at + 1)
            at += 9
        found = {}
        for b in table if kind == 3 else sorted(table):
            found[b], at = self.child(table[b], at, depth, False)
        node.children = {b: found[b] for b in table}
        return node, at

    def root(self):
        if self.byte(0) == 0:
            for at in (1, 9, 17):
                if self.number(at) != 0:
                    raise Refused(15)
            self.nodes = 1
            return None, 25
        return self.node(0, 0)


def walk(node, path=b""):
    yield path, node
    for b, c in node.children.items():
        yield from walk(c, path + bytes([b]))


def meets_rule(root):
    nodes = dict(walk(root))
    prefixes, suffixes, owed = {}, {}, {b""}
    for path, n in nodes.items():
        if any(ls != sorted(set(ls)) for ls in (n.prefixes, n.chunks, n.suffixes)):
            return False
        for a, c, d in n.chunks:
            if c >= d or a + len(path) > TOP:
                return False
            for i in range(1, len(path)):
                prefixes.setdefault(path[i:], set()).add((a + i, c, d))
            for i in range(len(path)):
                suffixes.setdefault(path[:i], set()).add((a, c, d))
            owed |= {path[i:j] for i in range(len(path)) for j in range(i, len(path) + 1)}
    if any(p not in nodes for p in list(prefixes) + list(suffixes)):
        return False
    return all(set(n.prefixes) == prefixes.get(p, set()) and set(n.suffixes) == suffixes.get(p, set()) and p in owed for p, n in nodes.items())


def conflicting(root):
    """Whether two pieces share a byte address and a live tick: looked for in the bytes of one after the other."""
    lives = {}
    for path, n in walk(root):
        for a, c, d in n.chunks:
            for i in range(len(path)):
                held = lives.setdefault(a + i, [])
                if any(max(c, x) < min(d, y) for x, y in held):
                    return True
                held.append((c, d))
    return False


def judge(s):
    r = Reader(s)
    try:
        root, end = r.root()
    except Refused as e:
        return f"(refused {e.args[0]})"
    if end != len(s) or (root is not None and not meets_rule(root)):
        return "(refused 15)"
    if root is not None and conflicting(root):
        return "(refused 18)"
    return f"(right {r.nodes} {r.entries})"


def orders(bytes_, rng):
    yield list(bytes_)
    yield list(reversed(bytes_))
    mixed = list(bytes_)
    rng.shuffle(mixed)
    yield mixed


def vectors(rng):
    out = []
    add = lambda s, mode=0: out.append((mode, bytes(s), 0))
    damage = lambda at, v: out.append((2, at, v))
    empty = bytes(25)
    add(empty, 1)
    add(empty + b"\0")
    add(empty)
    for at in range(25):
        damage(at, 1)
    add(head(Node(), 3) + u64(0), 1)                       # a root with nothing: sound
    sound = []
    for n in (0, 1, 8, 9, 96, 97, 256):                    # children of the root, in several arrival orders
        for order in orders(range(n) if n == 256 else rng.sample(range(256), n), rng):
            s = image(trie([([b], 10 * i, 1, 2) for i, b in enumerate(order)])) if n else empty
            add(s)
            sound.append(s)
            if n:
                add(s + b"\0")
    deep = image(trie([(range(16), 7, 1, 9), (b"abcabc", 100, 3, 5), (b"", 5, 1, 2), (b"bca", 2**64 - 4, 1, 2)]))
    one = image(trie([(b"a", 5, 1, 2)]))
    two = image(trie([(b"ab", 5, 1, 3), (b"b", 7, 3, 4), (b"ab", 5, 3, 4)]))
    nine = next(s for s in sound if s[0] == 2)
    dense = next(s for s in sound if s[0] == 1)
    for s in (one, two, deep, nine):
        add(s, 1)
    for cut in (1, 24, 25, 57, 2072, 2073, 2081, 2105, 2106, len(dense) - 34, len(dense) - 1):
        add(dense[:cut])
    for s in (one, two):                                    # every byte of two small images, damaged in three ways
        add(s)
        for at in range(len(s)):
            for v in (s[at] ^ 1, s[at] ^ 128, (s[at] + 3) % 256):
                damage(at, v)
    for s in (deep, nine, dense):                           # some bytes of larger ones
        add(s)
        for _ in range(300):
            damage(rng.randrange(min(len(s), 2600)), rng.randrange(256))
    for count in (2**61, 2**62, 2**63, TOP, TOP // 24, TOP // 24 + 1, 6, 7):   # counts that run past the image
        for at in (1, 9, 17, 49):
            add(one[:at] + u64(count) + one[at + 8:])
    for offset in (0, 65, 67, 2**32 + 66, TOP):             # wrong offsets, also where the flag is missing
        add(one[:58] + u64(offset) + one[66:])
        add(one[:58] + u64(offset))
    lists = 1 + 24 + 24 * 9                                 # a sibling's byte again, also with its offset cut off
    again = bytearray(nine)
    again[lists + 8 + 9] = again[lists + 8]
    add(again)
    add(again[:lists + 8 + 10])
    for n in (16, 17, 18):                                  # a path of n nodes below the root
        s = b""
        for d in range(n + 1):
            last = d == n
            s += head(Node(), 3) + u64(0 if last else 1)
            if not last:
                s += b"\7" + u64(len(s) + 9) + b"\1"
        add(s)
        add(s[:-33])
    add(b"\3" + dense[1:])                                  # kinds that do not fit the count
    add(b"\2" + dense[1:])
    add(b"\1" + nine[1:])
    add(b"\3" + nine[1:])
    add(b"\2" + one[1:])
    for k in (0, 4, 255):
        add(one[:67] + bytes([k]) + one[68:])
    conflicts(rng, add, damage)
    return out


def conflicts(rng, add, damage):
    """Images whose pieces conflict, and some in which they nearly do; damaged, and small ones cut and with a byte behind them."""
    up = range(16)
    for blocks in (
        [(b"a", 5, 1, 3), (b"a", 5, 2, 4)],                 # one string in its own life, begun with it, and within it
        [(b"a", 5, 1, 3), (b"a", 5, 1, 4)],
        [(b"a", 5, 1, 9), (b"a", 5, 3, 4)],
        [(b"a", 5, 1, 3), (b"b", 5, 2, 4)],                 # two strings at one address, and at one location
        [(b"a", 5, 1, 3), (b"b", 5, 1, 3)],
        [(b"ab", 5, 1, 3), (b"a", 5, 1, 3)],
        [(b"ab", 5, 1, 3), (b"b", 6, 1, 3)],                # at another's last byte, its own suffix or not
        [(b"ab", 5, 1, 3), (b"c", 6, 2, 4)],
        [(b"ab", 5, 1, 3), (b"bc", 6, 2, 4)],
        [(up, 0, 1, 3), (b"x", 15, 2, 3)],
        [(up, TOP - 16, 1, 3), (b"x", TOP - 1, 0, 2)],
        [(bytes(40), 0, 1, 3), (b"x", 33, 2, 3)],           # in the third piece of a block
        [(b"a", 6, t, t + 1) for t in range(9)] + [(b"xy", 5, 4, 5)],
        [(b"a", 6, 2 * t, 2 * t + 1) for t in range(9)] + [(b"xy", 5, 5, 7)],
        [([b], 100, b, b + 2) for b in range(0, 200, 2)] + [(b"zz", 99, 7, 8)],
        [(b"a", 5, 1, 3), (b"a", 5, 3, 4), (b"b", 5, 4, 5)],                          # these touch, and are sound
        [(b"ab", 5, 1, 3), (b"b", 6, 3, 4), (b"b", 7, 1, 3), (b"c", 4, 1, 3)],
        [(b"abc", 5, 1, 3), (b"", 6, 1, 3), (b"", 6, 2, 9), (b"a", 5, 3, 9)],
        [(up, 0, 1, 3), (b"x", 15, 0, 1), (b"x", 15, 3, 4), (b"x", 16, 1, 3)],
        [(b"a", 6, 2 * t, 2 * t + 1) for t in range(9)] + [(b"xy", 5, 5, 6)],
        [([b], 100, b, b + 2) for b in range(0, 200, 2)] + [(b"z", 99, 7, 8)],
        [(b"a", 5, 1, 3), (b"a", 5, 1, 3)],                 # a block twice stands once in an image
    ):
        s = image(trie(blocks))
        if len(s) < 3000:
            add(s + b"\0")
            add(s[:-1])
        add(s)
        for _ in range(20):
            damage(rng.randrange(len(s)), rng.randrange(256))
    two = image(trie([(b"ab", 5, 1, 3), (b"b", 6, 2, 4)]))
    add(two, 1)
    for at in range(len(two)):                              # 13, 14 or 15 wherever a byte breaks more than that
        for v in (two[at] ^ 1, two[at] ^ 128, (two[at] + 3) % 256):
            damage(at, v)


def main():
    where = sys.argv[1]
    os.makedirs(os.path.join(where, "data"), exist_ok=True)
    answer, data = [], b""
    def say(line):
        if answer and answer[-1][1] == line:
            answer[-1][0] += 1
        else:
            answer.append([1, line])
    last = b""
    for mode, s, v in vectors(random.Random(1)):
        if mode == 2:
            data += bytes([2]) + u64(s) + bytes([v])
            say(judge(last[:s] + bytes([v]) + last[s + 1:]))
            continue
        data += bytes([mode]) + u64(len(s)) + s
        last = s
        for n in range(len(s) + 1) if mode else [len(s)]:
            say(judge(s[:n]))
    with open(os.path.join(where, "data", "images"), "wb") as f:
        f.write(data)
    with open(os.path.join(where, "stdout"), "w") as f:
        f.writelines(f"{n} {line}\n" for n, line in answer)
    print(len(data), "bytes,", sum(n for n, _ in answer), "judgements,", len(answer), "lines")


if __name__ == "__main__":
    main()
