#!/usr/bin/env python3
"""Derivatives worked out by hand, each node with the record that it has to have: rule, formula node. docs/DERIVATIVE.md numbers the rules.

    tools/derivative/worked.py [ORACLE]     # holds them beside the labelled reference; reference/build.sh builds the oracle"""
import os
import subprocess
import sys

ROOT = os.path.dirname(os.path.dirname(os.path.dirname(os.path.abspath(__file__))))
sys.path.insert(0, os.path.join(ROOT, "tools", "shared"))
from nodes import BINARY, CALL, COMPARE, CONDITIONAL, NODE_SIZE, UNARY, node, number, read_records, record, symbol  # noqa: E402

NEGATIVE = 1
ADD, SUBTRACT, MULTIPLY, DIVIDE, POWER = range(5)
LT, GT, EQ = 0, 2, 4
LOG, ABS, MIN, HILL, IFELSE, DENSITY = 1, 8, 11, 13, 14, 15
HEADS = {
    "Add": (BINARY, ADD), "Multiply": (BINARY, MULTIPLY), "Divide": (BINARY, DIVIDE), "Power": (BINARY, POWER), "Lt": (COMPARE, LT), "Gt": (COMPARE, GT),
    "Eq": (COMPARE, EQ), "Conditional": (CONDITIONAL, 0), "Min": (CALL, MIN), "Hill": (CALL, HILL), "Density": (CALL, DENSITY), "Log": (CALL, LOG),
}
A, B, C = symbol(0), symbol(1), symbol(2)
TRIP = node(BINARY, ADD, [A, node(BINARY, DIVIDE, [node(BINARY, MULTIPLY, [B, C]), node(BINARY, ADD, [symbol(3), symbol(4)])])])
TRIP_NAMES = "climb:p,burn:p,distance:i,tas:i,wind:i"
THREE = "a:p,b:p,c:p"
STATE = "a:s,b:p,c:p"
NO_A = node(BINARY, MULTIPLY, [number(0.0), A])

TRIP_OUTER = """Add 27,0 · Multiply 27,0 · 0 27,0 · Add 0,0 · climb 0,1 · Divide 0,2 · Multiply 0,3 · burn 0,4 · distance 0,5 · Add 0,6 · tas 0,7 · wind 0,8"""
W = "Density 0,0 · a 0,1 · b 0,2 · c 0,3"
EPS = "Multiply 15,0 · 1e-8 15,0 · c 0,3"
HILL_OUT = """Conditional 15,0 · Gt 15,0 · a 0,1 · 0 15,0 · Multiply 15,0 · Multiply 15,0 · Divide 15,0 · Hill 15,0 · a 0,1 · b 0,2 · c 0,3 · a 0,1 · Hill 15,0
    · c 0,3 · b 0,2 · a 0,1 · b 0,2 · Conditional 15,0 · Lt 15,0 · a 0,1 · 0 15,0 · 0 15,0 · Conditional 15,0 · Gt 15,0 · b 0,2 · 1 15,0 · 0 15,0"""

# formula, name line, symbol, and the list; the first three records and the formula's copy are left out but for the trip's
WORKED = [
    ("trip by distance", TRIP, TRIP_NAMES, 2, TRIP_OUTER + """ · Divide 7,2 · Multiply 7,2 · burn 0,4 · Add 0,6 · tas 0,7 · wind 0,8 · Power 7,2 · Add 0,6 · tas 0,7
        · wind 0,8 · 2 7,2"""),
    ("trip by tas", TRIP, TRIP_NAMES, 3, TRIP_OUTER + """ · Divide 7,2 · Multiply 7,2 · -1 7,2 · Multiply 0,3 · burn 0,4 · distance 0,5 · Power 7,2 · Add 0,6 · tas 0,7
        · wind 0,8 · 2 7,2"""),
    ("Power(a, 3)", node(BINARY, POWER, [A, number(3.0)]), THREE, 0, "Multiply 8,0 · 3 8,0 · Power 8,0 · a 0,1 · 2 8,0"),
    ("Power(a, b)", node(BINARY, POWER, [A, B]), THREE, 0, """Conditional 8,0 · Eq 8,0 · b 0,2 · 0 8,0 · 0 8,0 · Conditional 8,0 · Eq 8,0 · b 0,2 · 1 8,0 · 1 1,1 · Multiply 8,0
        · b 0,2 · Power 8,0 · a 0,1 · Add 8,0 · b 0,2 · -1 8,0"""),
    ("Min(a, b)", node(CALL, MIN, [A, B]), THREE, 0, "Conditional 12,0 · Eq 12,0 · a 0,1 · Min 0,0 · a 0,1 · b 0,2 · 1 1,1 · 0 26,2"),
    ("Hill(a, b, c)", node(CALL, HILL, [A, B, C]), THREE, 0, HILL_OUT + " · Divide 15,0 · 1 15,0 · 0 15,0"),
    ("Hill(a, b, c) by a state", node(CALL, HILL, [A, B, C]), STATE, 0, HILL_OUT + f""" · Conditional 15,0 · Eq 15,0 · b 0,2 · 1 15,0 · Divide 15,0 · 1 1,1 · c 0,3
        · Multiply 15,0 · Multiply 15,0 · Divide 15,0 · Hill 15,0 · {EPS} · b 0,2 · c 0,3 · {EPS} · Hill 15,0 · c 0,3 · b 0,2 · {EPS} · b 0,2"""),
    ("InverseGaussianDensity(a, b, c)", node(CALL, DENSITY, [A, B, C]), THREE, 0, f"""Conditional 14,0 · Gt 14,0 · {W} · 0 14,0 · Multiply 14,0 · {W} · Add 14,0 · Multiply 14,0 · -1 14,0
        · Divide 14,0 · 1.5 14,0 · a 0,1 · Multiply 14,0 · 0.5 14,0 · Add 14,0 · Divide 14,0 · c 0,3 · Power 14,0 · a 0,1 · 2 14,0 · Multiply 14,0 · -1 14,0 · Divide 14,0
        · c 0,3 · Power 14,0 · b 0,2 · 2 14,0 · 0 14,0"""),
    ("Abs(Multiply(0, a))", node(CALL, ABS, [NO_A]), THREE, 0, """Conditional 13,0 · Gt 13,0 · Multiply 0,1 · 0 0,2 · a 0,3 · 0 13,0 · 0 24,1 · Conditional 13,0 · Lt 13,0
        · Multiply 0,1 · 0 0,2 · a 0,3 · 0 13,0 · 0 24,0 · 0 13,0"""),
    ("Subtract(b, Negative(a))", node(BINARY, SUBTRACT, [B, node(UNARY, NEGATIVE, [A])]), THREE, 0, "Multiply 5,0 · -1 5,0 · -1 3,2"),
    ("Ifelse(Lt(b, 1), a, b)", node(CALL, IFELSE, [node(COMPARE, LT, [B, number(1.0)]), A, B]), THREE, 0,
     "Conditional 11,0 · Lt 0,1 · b 0,2 · 1 0,3 · 1 1,4 · 0 26,5"),
    ("Power(Multiply(0, a), b)", node(BINARY, POWER, [NO_A, B]), THREE, 0, "0 8,0"),
    ("Add(b, Multiply(0, a))", node(BINARY, ADD, [B, NO_A]), THREE, 0, "0 24,2"),
    ("Add(Multiply(0, a), b)", node(BINARY, ADD, [NO_A, B]), THREE, 0, "0 26,4"),
]


def parsed(text, names):
    """The first 16 bytes of each node, without its count of children, and the records."""
    symbols = [name.split(":")[0] for name in names.split(",")]
    heads, records = [], []
    for entry in text.split("·"):
        word, pair = entry.split()
        if word in symbols:
            heads.append(symbol(symbols.index(word)))
        elif word in HEADS:
            heads.append(node(*HEADS[word]))
        else:
            heads.append(number(float(word)))
        records.append(tuple(map(int, pair.split(","))))
    return heads, records


def worked():
    """Name, formula, name line, symbol, the heads of the tree's nodes and their records, all of them."""
    for name, formula, names, by, text in WORKED:
        heads, records = parsed(text, names)
        if names != TRIP_NAMES:
            size = len(formula) // NODE_SIZE
            outer = [node(BINARY, ADD), node(BINARY, MULTIPLY), number(0.0)]
            heads = outer + [bare(formula, k) for k in range(size)] + heads
            records = [(27, 0)] * 3 + [(0, k) for k in range(size)] + records
        yield name, formula, names, by, heads, records


def bare(tree, k):
    """Node k without its count of children, which the texts above leave out."""
    b = tree[NODE_SIZE * k:NODE_SIZE * (k + 1)]
    return b[:2] + b"\0\0" + b[4:]


def differs(tree, records, heads, wanted):
    """What is wrong with tree bytes and a list beside a worked one, or nothing."""
    if [bare(tree, k) for k in range(len(tree) // NODE_SIZE)] != heads:
        return "the tree differs"
    if records != b"".join(record(*pair) for pair in wanted):
        return "records %s, not %s" % (read_records(records), wanted)
    return None


def main(oracle="/tmp/oracle/oracle"):
    lists = list(worked())
    commands = "".join("records %s %s %d\n" % (formula.hex(), names.encode().hex(), by) for _, formula, names, by, _, _ in lists)
    said = subprocess.run([oracle], input=commands, text=True, capture_output=True, check=True).stdout.splitlines()
    bad = 0
    for (name, _, _, _, heads, wanted), line in zip(lists, said, strict=True):
        words = line.split()
        what = differs(bytes.fromhex(words[1]), bytes.fromhex(words[3]), heads, wanted) if words[0] == "tree" else line
        if what:
            bad += 1
            print("%s: %s" % (name, what))
    print("%d worked lists of %d records, %d wrong" % (len(lists), sum(len(wanted) for *_, wanted in lists), bad))
    sys.exit(1 if bad else 0)


if __name__ == "__main__":
    main(*sys.argv[1:])
