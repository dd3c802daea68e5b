#!/usr/bin/env python3
"""What each record of a derivative says (docs/DERIVATIVE.md, 'Which rule made each node'), looked at on formula, tree and list bytes alone: no rule is applied here.

    tools/derivative/records.py [COUNT [SEED]]              # the library's lists, from the repository's root after tools/library/build.sh
    tools/derivative/records.py oracle [COUNT [SEED]]       # the labelled reference's (/tmp/oracle/oracle, or what ORACLE names)

The formulas are those of worked.py and make_cases.py and COUNT random commands of reference/generate.py, each by every symbol that it has. The last line says how many were wrong."""
import os
import struct
import subprocess
import sys

ROOT = os.path.dirname(os.path.dirname(os.path.dirname(os.path.abspath(__file__))))
sys.path.insert(0, os.path.join(ROOT, "tools", "shared"))
import make_cases  # noqa: E402
from nodes import BINARY, CALL, COMPARE, CONDITIONAL, NODE_SIZE, NUMBER, RECORD_SIZE, SYMBOL, UNARY, fields, node, read_records  # noqa: E402
from worked import worked  # noqa: E402

MOST_NODES = 16384
COPIED, MUL_ZERO, WITHOUT, OUTER, ARMS = 0, 24, 26, 27, range(1, 24)

ADD, MULTIPLY, DIVIDE, POWER = (BINARY, 0), (BINARY, 2), (BINARY, 3), (BINARY, 4)
LT, GT, EQ = (COMPARE, 0), (COMPARE, 2), (COMPARE, 4)
BRANCH = (CONDITIONAL, 0)
LOG, SIN, COS, FLOOR, HILL = (CALL, 1), (CALL, 4), (CALL, 5), (CALL, 9), (CALL, 13)
LN_10 = 2.302585092994046
ANY = None

# an arm's number: the heads that it takes, the heads that it may write, and the literals; 2, Positive, writes nothing
ARM = {
    1: ([(SYMBOL, 0)], [], [1.0]),
    3: ([(UNARY, 1)], [MULTIPLY], [-1.0]),
    4: ([(BINARY, 0)], [ADD], []),
    5: ([(BINARY, 1)], [ADD, MULTIPLY], [-1.0]),
    6: ([(BINARY, 2)], [ADD, MULTIPLY], []),
    7: ([(BINARY, 3)], [DIVIDE, ADD, MULTIPLY, POWER], [-1.0, 2.0]),
    8: ([(BINARY, 4)], [MULTIPLY, POWER, BRANCH, EQ, ADD, LOG], ANY),
    9: ([(BINARY, 5)], [ADD, DIVIDE, MULTIPLY, FLOOR], [0.0, -1.0]),
    10: ([(CONDITIONAL, 0)], [BRANCH], []),
    11: ([(CALL, 14)], [BRANCH], []),
    12: ([(CALL, 11), (CALL, 12)], [BRANCH, EQ], []),
    13: ([(CALL, 8)], [BRANCH, GT, LT, MULTIPLY], [0.0, -1.0]),
    14: ([(CALL, 15)], [BRANCH, GT, MULTIPLY, ADD, DIVIDE, POWER], [0.0, 0.5, -1.0, 1.5, 2.0, 3.0]),
    15: ([(CALL, 13)], [BRANCH, GT, LT, EQ, MULTIPLY, ADD, DIVIDE, HILL, LOG], [0.0, 1.0, -1.0, 1e-8]),
    16: ([(CALL, 0)], [MULTIPLY], []),
    17: ([(CALL, 1)], [MULTIPLY, DIVIDE], [1.0]),
    18: ([(CALL, 2)], [MULTIPLY, DIVIDE], [1.0, LN_10]),
    19: ([(CALL, 3)], [MULTIPLY, DIVIDE], [1.0, 2.0]),
    20: ([(CALL, 4)], [MULTIPLY, COS], []),
    21: ([(CALL, 5)], [MULTIPLY, SIN], [-1.0]),
    22: ([(CALL, 6)], [MULTIPLY, DIVIDE, POWER, COS], [1.0, 2.0]),
    23: ([(CALL, 7)], [MULTIPLY, ADD, POWER], [1.0, -1.0, 2.0]),
}
ZERO = node(NUMBER)


class Tree:
    """A tree's bytes, node by node: its heads, and how many nodes each node's part has."""

    def __init__(self, b):
        self.nodes = []
        owed = 1
        while owed:
            at = NODE_SIZE * len(self.nodes)
            self.nodes.append(b[at:at + NODE_SIZE])
            owed += fields(self.nodes[-1])[2] - 1
        self.sizes = [1] * len(self.nodes)
        stack = []
        for k in reversed(range(len(self.nodes))):
            for _ in range(fields(self.nodes[k])[2]):
                self.sizes[k] += stack.pop()
            stack.append(self.sizes[k])

    def head(self, k):
        return fields(self.nodes[k])[:2]

    def part(self, k):
        return self.nodes[k:k + self.sizes[k]]

    def has(self, k, by):
        """Whether the part at node k has the symbol."""
        return any(fields(b)[0] == SYMBOL and fields(b)[3] == by for b in self.part(k))


def is_literal(b, values):
    kind, _, _, _, bits = fields(b)
    return kind == NUMBER and (values is ANY or struct.unpack("<d", struct.pack("<Q", bits))[0] in values)


def of_arm(formula, rule, k, b, by):
    """What is wrong with a node that an arm is said to have written."""
    if rule not in ARM:
        return "no arm writes by that number"
    takes, heads, literals = ARM[rule]
    if not formula.has(k, by):
        return "the part has no such symbol"
    if formula.head(k) not in takes:
        return "the arm doesn't take that node"
    if not is_literal(b, literals) and fields(b)[:2] not in heads:
        return "the arm writes no such node"
    return None


def copied(formula, tree, records, j, k):
    """What is wrong with a copy: node for node it has to be all of node k's part."""
    size = formula.sizes[k]
    if tree.nodes[j:j + size] != formula.part(k):
        return "not the formula's bytes"
    if records[j:j + size] != [(COPIED, k + i) for i in range(size)]:
        return "the records after it are not those of the part"
    return None


def wrong(formula, tree, records, j, by):
    """What is wrong with record j."""
    (rule, k), b = records[j], tree.nodes[j]
    if k >= len(formula.nodes):
        return "no such formula node"
    if (rule == OUTER) != (j < 3) or (rule == OUTER and k != 0):
        return "the outer nodes are the first three, at node 0"
    if rule == OUTER:
        return None
    if rule == COPIED:
        return copied(formula, tree, records, j, k)
    if rule in ARMS:
        return of_arm(formula, rule, k, b, by)
    if rule not in (MUL_ZERO, WITHOUT):
        return "no such rule"
    if b != ZERO:
        return "not the literal 0"
    if formula.has(k, by) != (rule == MUL_ZERO):
        return "the part has the symbol, or hasn't"
    return None


def faults(formula_bytes, by, tree_bytes, list_bytes):
    """What is wrong with a derivative's list; bytes after tree and records have to be zero."""
    formula, tree = Tree(formula_bytes), Tree(tree_bytes)
    count = len(tree.nodes)
    records = read_records(list_bytes[:RECORD_SIZE * count])
    if len(records) != count:
        return ["%d records for %d nodes" % (len(records), count)], records
    told = ["node %d, record %d,%d: %s" % (j, *records[j], what) for j in range(count) for what in [wrong(formula, tree, records, j, by)] if what]
    if any(tree_bytes[NODE_SIZE * count:]) or any(list_bytes[RECORD_SIZE * count:]):
        told.append("bytes after the tree or its records")
    return told, records


# ---- formulas, and who writes the lists

def formulas(count, seed):
    """Formula, name line and symbol."""
    seen = set()
    for _, formula, names, by, _, _ in worked():
        yield formula, names.encode(), by
    for formula, names, by in make_cases.made():
        if formula != make_cases.QUICK:
            yield formula, names.encode(), by
    for f, names, _ in make_cases.generated(seed, count):
        formula = bytes.fromhex(f) if f != "-" else b""
        for by in sorted({fields(formula[at:at + NODE_SIZE])[3] for at in range(0, len(formula) // NODE_SIZE * NODE_SIZE, NODE_SIZE) if formula[at] == SYMBOL}):
            if (f, names, by) not in seen and names != "-":
                seen.add((f, names, by))
                yield formula, bytes.fromhex(names), by


def by_library(cases):
    from library import Library
    library = Library(MOST_NODES)
    for formula, names, by in cases:
        answer, tree, records = library.derive(formula, names, by)
        yield (tree, records) if answer == 0 else None


def by_oracle(cases):
    commands = "".join("records %s %s %d\n" % (formula.hex() or "-", names.hex(), by) for formula, names, by in cases)
    oracle = os.environ.get("ORACLE", "/tmp/oracle/oracle")
    for line in subprocess.run([oracle], input=commands, text=True, capture_output=True, check=True).stdout.splitlines():
        words = line.split()
        yield (bytes.fromhex(words[1]), bytes.fromhex(words[3])) if words[0] == "tree" else None


def main(*words):
    writer = by_library
    if words[:1] == ("oracle",):
        writer, words = by_oracle, words[1:]
    count, seed = (int(word) for word in (*words, *("20000", "8")[len(words):]))
    cases = list(formulas(count, seed))
    bad, trees, total, rules = 0, 0, 0, {}
    for (formula, names, by), written in zip(cases, writer(cases), strict=True):
        if written is None:
            continue
        told, records = faults(formula, by, *written)
        trees, total = trees + 1, total + len(records)
        for rule, _ in records:
            rules[rule] = rules.get(rule, 0) + 1
        if told:
            bad += 1
            print("%s by %d: %s" % (formula.hex(), by, "; ".join(told[:3])))
    print("records by rule: " + ", ".join("%d: %d" % (rule, rules[rule]) for rule in sorted(rules)))
    print("%d derivatives of %d nodes, %d wrong" % (trees, total, bad))
    sys.exit(1 if bad else 0)


if __name__ == "__main__":
    main(*sys.argv[1:])
