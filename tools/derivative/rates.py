#!/usr/bin/env python3
"""Works out the exact rates of plain formulas (docs/DERIVATIVE.md) with Python's whole numbers, on the tree bytes that the library writes.

    tools/derivative/rates.py [COUNT [SEED]]     # from the repository's root, after tools/library/build.sh; 10,000 formulas, seed 13

Of each formula, derived by each of its symbols: every node of the tree is plain; at each setting and each h the formula with h added to the symbol, less the formula, less h times the
tree's value, is a multiple of h squared, and zero at h = 0; the tree keeps its bounds, and zeros follow it. A plain formula is refused by nothing. The last line says how many were wrong."""
import os
import random
import struct
import sys

ROOT = os.path.dirname(os.path.dirname(os.path.dirname(os.path.abspath(__file__))))
sys.path.insert(0, os.path.join(ROOT, "tools", "shared"))
from library import Library  # noqa: E402
from nodes import BINARY, NODE_SIZE, NUMBER, SYMBOL, UNARY, fields, node, number, symbol  # noqa: E402

POSITIVE, NEGATIVE = 0, 1
ADD, SUBTRACT, MULTIPLY = 0, 1, 2
MOST_NODES, MOST_LEVELS, TREE_NODES = 256, 32, 8963
NAMES = b"a:p,b:s,c:t,d:i"
SYMBOLS = 4


# ---- trees, by Python's whole numbers

class NotPlain(Exception):
    pass


def read(b, at=0):
    """The tree at a byte, and the byte after it: ('literal', n), ('symbol', i), or an operator's sign with one tree or two."""
    kind, operator, children, which, value = fields(b[at:at + NODE_SIZE])
    at += NODE_SIZE
    if kind == NUMBER:
        exact = struct.unpack("<d", struct.pack("<Q", value))[0]
        if exact != exact or exact in (float("inf"), float("-inf")) or exact != int(exact):
            raise NotPlain("literal %r" % exact)
        return ("literal", int(exact)), at
    if kind == SYMBOL:
        return ("symbol", which), at
    if (kind, operator, children) not in {(UNARY, POSITIVE, 1), (UNARY, NEGATIVE, 1), (BINARY, ADD, 2), (BINARY, SUBTRACT, 2), (BINARY, MULTIPLY, 2)}:
        raise NotPlain("node %d.%d" % (kind, operator))
    parts = []
    for _ in range(children):
        part, at = read(b, at)
        parts.append(part)
    return (("positive", "negative")[operator] if kind == UNARY else "+-*"[operator], *parts), at


def value(tree, setting):
    head, parts = tree[0], tree[1:]
    if head == "literal":
        return parts[0]
    if head == "symbol":
        return setting[parts[0]]
    values = [value(p, setting) for p in parts]
    if head == "positive":
        return values[0]
    if head == "negative":
        return -values[0]
    a, b = values
    return a + b if head == "+" else a - b if head == "-" else a * b


def depth(tree):
    return 1 + max([0] + [depth(p) for p in tree[1:] if isinstance(p, tuple)])


# ---- formulas

def literals(r):
    """Whole f64, of either sign and any size, both zeros among them."""
    return r.choice((
        lambda: float(r.randrange(-3, 4)),
        lambda: r.choice((0.0, -0.0, 1.0, -1.0, 1e300, -1e300, 2.0 ** 53, 1.7976931348623157e308)),
        lambda: float(r.randrange(-10 ** 6, 10 ** 6)),
        lambda: float(r.randrange(2 ** 53) << r.randrange(971)),
    ))()


def grown(r, nodes, levels):
    """A random formula of at most so many nodes and levels."""
    if nodes == 1 or levels == 1 or r.random() < 0.04:
        return symbol(r.randrange(SYMBOLS)) if r.random() < 0.7 else number(literals(r))
    if nodes == 2 or r.random() < 0.15:
        return node(UNARY, r.choice((POSITIVE, NEGATIVE)), [grown(r, nodes - 1, levels - 1)])
    left = r.randrange(1, nodes - 1)
    return node(BINARY, r.choice((ADD, SUBTRACT, MULTIPLY, MULTIPLY)), [grown(r, left, levels - 1), grown(r, nodes - 1 - left, levels - 1)])


def fixed():
    """The worked formula of docs/DERIVATIVE.md, those that go through every simplification, and the largest."""
    def times(a, b):
        return node(BINARY, MULTIPLY, [a, b])

    def minus(a):
        return node(UNARY, NEGATIVE, [a])

    def balanced(leaves):
        return x if leaves == 1 else times(balanced(leaves // 2), balanced(leaves - leaves // 2))

    x, y = symbol(0), symbol(1)
    yield node(BINARY, SUBTRACT, [times(x, times(x, y)), minus(times(number(3.0), x))])
    yield times(number(0.0), x)
    yield times(number(-0.0), x)
    yield node(BINARY, ADD, [x, number(-0.0)])
    yield node(BINARY, SUBTRACT, [y, minus(x)])
    yield times(number(1e300), times(x, x))
    yield number(7.0)
    yield x
    yield minus(minus(number(-0.0)))
    deep = x
    for _ in range(MOST_LEVELS - 1):
        deep = times(x, deep)
    yield deep
    yield balanced(MOST_NODES // 2)
    # the largest tree: each of the 24 products copies all that is below it
    heavy = balanced(104)
    for _ in range(24):
        heavy = times(x, heavy)
    yield heavy


# ---- the claim

def settings(r):
    """A whole number for each symbol, small or of up to 200 bits."""
    return [r.choice((r.randrange(-9, 10), r.getrandbits(200) - 2 ** 199)) for _ in range(SYMBOLS)]


def wrong(library, r, formula):
    """What is wrong with the derivatives of one formula, each by each symbol; and the largest tree."""
    f, end = read(formula)
    most = 0
    for by in range(SYMBOLS):
        answer, slice_, _ = library.derive(formula, NAMES, by)
        if answer != 0:
            return "refused by %d" % answer, most
        try:
            d, end = read(slice_)
        except NotPlain as e:
            return "not plain: %s" % e, most
        nodes, levels = end // NODE_SIZE, depth(f)
        most = max(most, nodes)
        if any(slice_[end:]):
            return "bytes after the tree", most
        if nodes > 3 + 3 * (len(formula) // NODE_SIZE) + len(formula) // NODE_SIZE * levels or depth(d) > max(3, 2 * levels):
            return "%d nodes at depth %d" % (nodes, depth(d)), most
        for h in (0, 1, -1, 2, r.randrange(-50, 50), r.getrandbits(200) - 2 ** 199):
            setting = settings(r)
            moved = list(setting)
            moved[by] += h
            left = value(f, moved) - value(f, setting) - h * value(d, setting)
            if left % (h * h) if h else left:
                return "by %d at %r with h = %d: what is left is no multiple of h squared" % (by, setting, h), most
    return None, most


def main():
    count, seed = int(sys.argv[1]) if len(sys.argv) > 1 else 10000, int(sys.argv[2]) if len(sys.argv) > 2 else 13
    r, library = random.Random(seed), Library(TREE_NODES)
    formulas = list(fixed())
    while len(formulas) < count:
        formulas.append(grown(r, r.choice((3, 8, 20, 60, MOST_NODES)), r.choice((4, 8, MOST_LEVELS))))
    bad, largest = 0, 0
    for formula in formulas:
        what, most = wrong(library, r, formula)
        largest = max(largest, most)
        if what:
            bad += 1
            print("%s: %s" % (formula.hex(), what))
    print("%d formulas, each by %d symbols with 6 settings; largest tree %d nodes; %d wrong" % (len(formulas), SYMBOLS, largest, bad))
    sys.exit(1 if bad else 0)


if __name__ == "__main__":
    main()
