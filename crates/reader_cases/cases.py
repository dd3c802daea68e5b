#!/usr/bin/env python3
"""Writes the file `stdin` of this program: cases, and what document 01 says of each, read anew here."""
import random
import struct

OPERATORS = {3: 3, 4: 6, 5: 6, 6: 2, 7: 16, 8: 1}
COUNTS = {3: 1, 4: 2, 5: 2, 8: 3}


def node(kind, operator=0, children=0, symbol=0, value=0):
    return struct.pack("<BBHIQ", kind, operator, children, symbol, value)


def is_node(b):
    kind, operator, children, symbol, value = struct.unpack("<BBHIQ", b)
    if kind == 0:
        return operator == children == symbol == 0
    if kind == 1:
        return operator == children == symbol == 0 and value in (0, 1)
    if kind == 2:
        return operator == children == value == 0
    if kind not in OPERATORS:
        return False
    return operator < OPERATORS[kind] and children == COUNTS.get(kind, children) and symbol == value == 0


def marks(b):
    """Whether a formula is within a formula's and a derivative's limits, or the number and node of the first fault."""
    at, open_counts, deepest = 0, [1], 0
    while open_counts:
        if open_counts[-1] == 0:
            open_counts.pop()
            continue
        if at + 16 > len(b):
            return "12:%d" % (at // 16)
        if not is_node(b[at:at + 16]):
            return "2:%d" % (at // 16)
        open_counts[-1] -= 1
        deepest = max(deepest, len(open_counts))
        open_counts.append(struct.unpack("<H", b[at + 2:at + 4])[0])
        at += 16
    if at < len(b):
        return "13:%d" % (at // 16)
    n = at // 16
    return "1" + "01"[n <= 256 and deepest <= 32] + "01"[n <= 16384 and deepest <= 128]


lines = []


def formula(b, told=None):
    """A case of its own; where its number and node are told, they have to be those found here."""
    assert told in (None, marks(b)), (b.hex(), told)
    lines.append("f%s %s" % (marks(b), b.hex()))


def repeated(b, first, last, told=None):
    whole = b[:16] * first + b[16:-16] + b[-16:] * last
    assert told in (None, marks(whole)), (b.hex(), first, last, told)
    lines.append("g%s %d %d %s" % (marks(whole), first, last, b.hex()))


def changed(b, at, new):
    return b[:at] + new + b[at + len(new):]


def kinds_of(line):
    """The kinds as digits, or None."""
    if line == "":
        return ""
    seen, kinds = set(), ""
    for entry in line.split(","):
        name, colon, kind = entry.partition(":")
        first = "abcdefghijklmnopqrstuvwxyz_"
        if not (1 <= len(name) <= 64 and name[0] in first and all(c in first + "0123456789" for c in name)):
            return None
        if colon == "" or kind not in ("p", "s", "t", "i") or name in seen:
            return None
        seen.add(name)
        kinds += str("psti".index(kind))
    return kinds if len(kinds) <= 256 else None


def names(line):
    k = kinds_of(line)
    lines.append("n0 " + line if k is None else "n1" + k + " " + line)


def digits(text):
    lines.append("h%d %s" % (all(c in "0123456789abcdef" for c in text), text))


def step(n):
    lines.append("s%d %s" % (n, [".condition", ".then", ".else"][n] if n < 3 else ".arguments[%d]" % (n - 3)))


number = node(0, value=0x4059000000000000)
symbol = node(2, symbol=3)
leaf = node(1, value=1)
flights = (node(4, 0, 2) + node(2, symbol=0) + node(4, 3, 2) + node(4, 2, 2) + node(2, symbol=1) + node(2, symbol=2)
           + node(4, 0, 2) + node(2, symbol=3) + node(2, symbol=4))

# one of each kind, and each byte of its first node changed in turn
for head, count in [(number, 0), (leaf, 0), (symbol, 0), (node(3, 2, 1), 1), (node(4, 5, 2), 2), (node(5, 5, 2), 2),
                    (node(6, 1, 2), 2), (node(7, 15, 3), 3), (node(8, 0, 3), 3)]:
    b = head + leaf * count
    formula(b)
    for i in range(16):
        for v in {b[i] ^ 1, b[i] ^ 128, (b[i] + 1) % 256} if i < 4 else {b[i] ^ 1}:
            formula(b[:i] + bytes([v]) + b[i + 1:])
# every kind with every operator to one past the last, and every count to four
for kind in range(11):
    for operator in range(OPERATORS.get(kind, 1) + 1):
        formula(node(kind, operator, COUNTS.get(kind, 0)) + leaf * COUNTS.get(kind, 0))
    for count in range(5):
        formula(node(kind, 0, count) + leaf * count)
# cut at every byte, and bytes left over
for n in range(len(flights) + 1):
    formula(flights[:n])
for extra in (b"\0", leaf[:15], leaf, leaf + b"\0", node(9), b"\x09"):
    formula(flights + extra, "13:9")
repeated(flights + symbol, 1, 1, "13:9")
repeated(flights + symbol, 1, 5, "13:9")
# the same cut and changed, with number and node
kind_9 = changed(flights, 48, b"\x09")
for b, told in [(b"", "12:0"), (flights[:5], "12:0"), (flights[:16], "12:1"), (flights[:40], "12:2"), (flights[:128], "12:8"),
                (flights[:143], "12:8"), (kind_9, "2:3"), (kind_9[:70], "2:3"), (kind_9[:50], "12:3"),
                (changed(flights, 2, b"\x03"), "2:0")]:
    formula(b, told)
# a count that may be anything is never wrong by itself; size and depth come later
most, three = node(7, 11, 65535), symbol * 3
for b, told in [(node(7, 11, 2) + three, "13:3"), (node(7, 11, 4) + three, "12:4"), (most + three, "12:4"),
                (most + symbol * 2 + node(9) + symbol, "2:3"), (node(6, 0, 65535) + three, "12:4"), (most * 256 + b"\0", "12:256"),
                ((node(3, 1, 1) * 200 + symbol)[:-1], "12:200"), (node(3, 1, 1) * 200 + symbol + b"\0", "13:201")]:
    formula(b, told)
repeated(most * 2, 255, 1, "12:256")
repeated(most + node(9), 255, 1, "2:255")
repeated(most + node(9), 16391, 1, "2:16391")
repeated(most + symbol, 16391, 1, "12:16392")
repeated(most + node(9) + symbol, 1, 16390, "2:1")
# a wrong field in each node, alone and with a cut or a second wrong node
for k in range(9):
    at, kind = 16 * k, flights[16 * k]
    wrong = [(0, 9), (1, OPERATORS.get(kind, 1)), (2, COUNTS.get(kind, 0) + 1), (3, 1), (8, 1), (15, 128)]
    for place, byte in wrong + ([(4, 1), (7, 128)] if kind != 2 else []):
        b = changed(flights, at + place, bytes([byte]))
        formula(b, "2:%d" % k)
        formula(b[:at + 16], "2:%d" % k)
        formula(b[:at + 15], "12:%d" % k)
    both = changed(changed(flights, at, b"\x09"), 128, b"\xff")
    formula(both, "2:%d" % k)
    formula(both + leaf, "2:%d" % k)
# the limits at their edges
unary = node(3, 1, 1)
for levels in (1, 2, 31, 32, 33, 127, 128, 129, 255, 256, 257, 16383, 16384, 16385, 16392):
    repeated(unary + symbol, levels - 1, 1)
for count in (0, 1, 254, 255, 256, 257, 16382, 16383, 16384, 16385):
    repeated(node(7, 11, count) + symbol, 1, count)
    repeated(node(6, 0, count) + symbol, 1, count + 1)
repeated(node(7, 12, 65535) + symbol, 1, 16383)
for levels in (31, 32):
    repeated(unary + node(4, 0, 2) + symbol, levels, 2)
# nodes by chance, one byte of some changed
rng = random.Random(1)


def some_formula(depth):
    kind = rng.choice([0, 1, 2]) if depth == 0 else rng.choice([0, 2, 3, 4, 5, 6, 7, 8])
    if kind < 3:
        return node(kind, symbol=rng.randrange(300) if kind == 2 else 0,
                    value=rng.getrandbits(64) if kind == 0 else rng.randrange(2) if kind == 1 else 0)
    count = COUNTS.get(kind, rng.randrange(4))
    return node(kind, rng.randrange(OPERATORS[kind]), count) + b"".join(some_formula(depth - 1) for _ in range(count))


for _ in range(150):
    b = some_formula(rng.randrange(4))
    if len(b) > 400:
        continue
    formula(b)
    i = rng.randrange(len(b))
    formula(b[:i] + bytes([rng.choice([0, 1, 2, 3, 255, rng.randrange(256)])]) + b[i + 1:])

# the same damaged once or more: a byte changed, cut, lengthened, a list that claims more
for _ in range(120):
    b = some_formula(rng.randrange(3))[:300]
    for _ in range(rng.choice([1, 2, 2, 3])):
        i = rng.randrange(len(b) + 1)
        b = rng.choice([changed(b, i, bytes([rng.choice([0, 1, 9, rng.randrange(256)])])), b[:i], b + b[:i], b + bytes(i % 33),
                         node(rng.choice([6, 7]), 0, rng.choice([1, 2, 65535, rng.randrange(65536)])) + b])
    formula(b[:640])

# name lines
for line in ["", "a:p", "a:s", "a:t", "a:i", "climb:p,burn:p,distance:i,tas:i,wind:i", "_:t", "_9:t", "a_b:s,ab_:s", "a:x", "a:P", "a", "a:",
             ":p", "a:pp", "a::p", "a:p:", "9a:p", "A:p", "a-b:p", "a:p,", ",a:p", "a:p,,b:p", ",", ":", "a:p\r", "a:p ", " a:p", "a:p,a:p",
             "a:p,b:s,a:i", "ab:p,a:s,b:t", "a:p,aa:p,aaa:p", "a{:p", "a`:p", "z:i", "a/:p", "a0:p,a9:s", "p:p,s:s,t:t,i:i", "a;p", "a:p;b:p"]:
    names(line)
for n in (63, 64, 65):
    names("x" * n + ":p")
    names("y:s," + "x" * n + ":t")
for n in (255, 256, 257):
    names(",".join("n%d:%s" % (i, "psti"[i % 4]) for i in range(n)))
names(",".join("n%d:p" % (i % 255) for i in range(256)))
names("x" * 63 + "a:p," + "x" * 63 + "b:p")
names("x" * 63 + "a:p," + "x" * 63 + "a:p")

# hexadecimal digits: every byte but a newline as the first and as the last, each digit and the bytes beside the digits in each place, then values
for b in range(256):
    if b != 10:
        digits("0" * 15 + chr(b))
        digits(chr(b) + "0" * 15)
for place in range(16):
    for c in "0123456789abcdef/:?@AFW`g":
        digits("9" * place + c + "a" * (15 - place))
for text in ["0123456789abcdef", "fedcba9876543210", "f" * 16, "0" * 16, "7ff0000000000000", "4056800000000000", "405680000000000A", "g" + "0" * 15]:
    digits(text)
for _ in range(20):
    digits("%016x" % rng.getrandbits(64))

# steps of paths
for n in (0, 1, 2, 3, 4, 5, 12, 13, 102, 103, 255, 1002, 1003, 65538, 65539, 10002, 10003, 999999, 4294967294, 4294967295):
    step(n)

# numbers in decimal
for n in (0, 1, 9, 10, 11, 99, 100, 101, 255, 256, 999, 1000, 65535, 1000000, 4294967295, 4294967296, 9999999999):
    lines.append("d%d" % n)

with open(__file__.rsplit("/", 1)[0] + "/stdin", "w", newline="", encoding="latin-1") as f:
    f.write("\n".join(lines) + "\n")
with open(__file__.rsplit("/", 1)[0] + "/stdout", "w") as f:
    f.write("%d cases\nok\n" % len(lines))
