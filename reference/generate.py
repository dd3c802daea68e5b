#!/usr/bin/env python3
"""Prints random commands for the oracle: generate.py --seed S --count N [--libm]."""
import argparse
import os
import random
import struct
import sys

sys.path.insert(0, os.path.join(os.path.dirname(os.path.abspath(__file__)), "..", "tools", "shared"))
from nodes import NODE_SIZE, head, node  # noqa: E402
from nodes import NUMBER, TRUTH, SYMBOL, UNARY, BINARY, COMPARE, BOOLEAN, CALL, CONDITIONAL  # noqa: E402

MODULO, NOT = 5, 2
FLOOR, CEIL, MIN, MAX, HILL, IFELSE, DENSITY = 9, 10, 11, 12, 13, 14, 15
ONE_ARGUMENT = [0, 1, 2, 3, 4, 5, 6, 7, 8, FLOOR, CEIL]

ORDINARY = [0.0, 1.0, -1.0, 2.0, 3.0, 0.5, 1.5, 0.25, 10.0, -2.0, -0.5, 4.0, 7.0, 100.0, 1e-3]
EDGES = [-0.0, 1e-20, -1e-20, 1e-8, 1e300, -1e300, 2.0**53, 2.0**53 + 2, 5e-324, -5e-324, 2.2250738585072014e-308,
         1.7976931348623157e308, -1.7976931348623157e308, 709.0, -745.0, 0.1, 1 / 3]
NOT_FINITE = [0x7FF0000000000000, 0xFFF0000000000000, 0x7FF8000000000000, 0x7FF0000000000001, 0xFFF8DEADBEEF0001]


def bits(value):
    return struct.unpack("<Q", struct.pack("<d", value))[0]


def is_finite(pattern):
    return pattern >> 52 & 0x7FF != 0x7FF


class Generator(random.Random):
    """Settings of a command: `symbols` the kinds of the table, `used` the symbols that the formula has so far,
    `faults` the chance of a fault in a node, `still` whether parameters alone may be used."""

    def chance(self, probability):
        return self.random() < probability

    def value(self, strange=0.0):
        """Bits of a float; with the chance `strange` one that isn't finite."""
        if self.chance(strange):
            return self.choice(NOT_FINITE)
        which = self.random()
        if which < 0.7:
            return bits(self.choice(ORDINARY))
        if which < 0.85:
            return bits(self.choice(EDGES))
        if which < 0.97:
            return bits(self.gauss(0, 10))
        pattern = self.getrandbits(64)
        return pattern if is_finite(pattern) else pattern & ~(1 << 62)

    # Names

    def names(self):
        """Kinds of the table, as a string of their letters."""
        count = self.choices([0, 1, 2, 3, 4, 5, 6, 256], [4, 20, 25, 20, 15, 8, 7, 1])[0]
        return "".join(self.choices("psti", [70, 15, 5, 10], k=count))

    def name_line(self, kinds):
        stems = ["a", "b_", "_c", "wind", "tas9", "x" * 40, "_"]
        names = [self.choice(stems) + "n" + str(i) for i in range(len(kinds))]
        return ",".join(f"{name}:{kind}" for name, kind in zip(names, kinds)).encode()

    def damaged_line(self, line):
        at = self.randrange(len(line) + 1)
        return self.choice([
            line[:at] + bytes([self.choice(b",:ps9A_ \n\r\0\xff")]) + line[at:],
            line[:at] + line[at + 1:],
            line[:at],
            line + b",",
            line + b"," + line,
            b"9a:p",
            b"a" * self.choice([64, 65]) + b":p",
            b",".join(b"n%d:p" % i for i in range(self.choice([255, 256, 257]))),
        ])

    # Formulas

    def formula(self, truths):
        """A formula of 1 to about 30 nodes; a truth value with the chance `truths`."""
        budget = self.choice([1, 2, 3, 4, 5, 6, 8, 10, 12, 15, 20, 25, 30])
        return self.truth(budget) if self.chance(truths) else self.number(budget)

    def split(self, budget, parts):
        """Shares a budget out among the children."""
        cuts = sorted(self.randint(0, max(budget - 1, 0)) for _ in range(parts - 1))
        return [b - a for a, b in zip([0] + cuts, cuts + [max(budget - 1, 0)])]

    def numbers(self, budget, parts):
        return [self.number(share) for share in self.split(budget, parts)]

    def kept_still(self, make):
        """Makes a part that mostly holds parameters alone, as conditions and rounding need."""
        before, self.still = self.still, self.still or self.chance(0.9)
        part = make()
        self.still = before
        return part

    def number(self, budget):
        if self.chance(self.faults):
            return self.fault(budget)
        if budget <= 1:
            return self.leaf()
        shapes = [self.sign, self.arithmetic, self.call, self.list_call, self.three_call, self.branch]
        return self.choices(shapes, [10, 40, 25, 8, 9, 8])[0](budget)

    def truth(self, budget):
        if self.chance(self.faults):
            return self.fault(budget)
        if budget <= 2:
            return node(TRUTH, value=self.randrange(2))
        which = self.random()
        if which < 0.6:
            return node(COMPARE, self.randrange(6), self.numbers(budget, 2))
        if which < 0.7:
            return node(UNARY, NOT, [self.truth(budget - 1)])
        if which < 0.75:
            return node(CONDITIONAL, 0, [self.truth(share) for share in self.split(budget, 3)])
        shares = self.split(budget, self.choice([2, 2, 3, 4]))
        return node(BOOLEAN, self.randrange(2), [self.truth(share) for share in shares])

    def leaf(self):
        usable = [i for i, kind in enumerate(self.symbols) if kind == "p" or not self.still]
        if usable and self.chance(0.65):
            symbol = self.choice(usable)
            self.used.append(symbol)
            return node(SYMBOL, symbol=symbol)
        return node(NUMBER, value=self.value())

    def sign(self, budget):
        return node(UNARY, self.randrange(2), [self.number(budget - 1)])

    def arithmetic(self, budget):
        operator = self.choices(range(6), [20, 15, 25, 18, 14, 8])[0]
        if operator == MODULO:
            return self.kept_still(lambda: node(BINARY, MODULO, self.numbers(budget, 2)))
        return node(BINARY, operator, self.numbers(budget, 2))

    def call(self, budget):
        function = self.choice(ONE_ARGUMENT)
        if function in (FLOOR, CEIL):
            return self.kept_still(lambda: node(CALL, function, [self.number(budget - 1)]))
        return node(CALL, function, [self.number(budget - 1)])

    def list_call(self, budget):
        return node(CALL, self.choice([MIN, MAX]), self.numbers(budget, self.choice([2, 2, 3, 5])))

    def three_call(self, budget):
        return node(CALL, self.choice([HILL, DENSITY]), self.numbers(budget, 3))

    def branch(self, budget):
        condition, yes, no = self.split(budget, 3)
        children = [self.kept_still(lambda: self.truth(condition)), self.number(yes), self.number(no)]
        return node(CALL, IFELSE, children) if self.chance(0.4) else node(CONDITIONAL, 0, children)

    def fault(self, budget):
        """A part with a fault of arity, symbol, type, state or literal."""
        which = self.randrange(6)
        if which == 0:
            return node(SYMBOL, symbol=self.choice([len(self.symbols), 256, 2**32 - 1]))
        if which == 1:
            return node(NUMBER, value=self.choice(NOT_FINITE))
        if which == 2:
            return node(TRUTH, value=self.randrange(2))
        if which == 3:
            return self.leaf()
        children = self.numbers(budget, self.randrange(5))
        return node(CALL, self.randrange(16), children) if which == 4 else node(BOOLEAN, self.randrange(2), children)

    def damaged(self, formula):
        """The formula with a field changed, cut or followed by something."""
        at = self.randrange(len(formula))
        field = self.choice([(0, 1), (1, 2), (2, 4), (4, 8), (8, NODE_SIZE)])
        start = at // NODE_SIZE * NODE_SIZE
        new = (self.choice([0, 1, 2, 3, self.getrandbits(64)]) % 256 ** (field[1] - field[0]))
        new = new.to_bytes(field[1] - field[0], "little")
        return self.choice([
            formula[:start + field[0]] + new + formula[start + field[1]:],
            formula[:start + field[0]] + new + formula[start + field[1]:],
            formula[:at] + bytes([formula[at] ^ 1 << self.randrange(8)]) + formula[at + 1:],
            formula[:at],
            formula[:start],
            formula + formula[start:],
            formula + bytes(self.choice([1, NODE_SIZE - 1, NODE_SIZE, NODE_SIZE + 1])),
        ])

    def faulty(self, formula):
        """The formula damaged up to three times; one in four under lists that claim to have up to 65,535 parts."""
        if self.chance(0.25):
            count = self.choice([2, 3, 255, 256, 65535, self.randrange(65536)])
            kind, operator = self.choice([(CALL, MIN), (CALL, MAX), (BOOLEAN, 0), (BOOLEAN, 1)])
            formula = head(kind, operator, count) * self.choice([1, 1, 2, 10]) + formula * self.choice([1, 2, 3])
        for _ in range(self.choice([1, 1, 2, 3])):
            formula = self.damaged(formula) if formula else formula
        return formula

    def large(self):
        """A formula near the limits of nodes or depth, or one with a large derivative."""
        leaf, which = self.leaf(), self.randrange(5)
        if which == 0:
            operator, depth = self.choice([(UNARY, 0), (UNARY, 1), (CALL, 3)]), self.choice([31, 32, 33, 100])
            return node(*operator, [b""]) * (depth - 1) + leaf
        if which == 1:
            return node(CALL, self.choice([MIN, MAX]), [leaf] * self.choice([40, 125, 126, 254, 255, 256, 400]))
        if which == 2:
            truths = [node(TRUTH, value=self.randrange(2))] * self.choice([100, 253, 254, 255, 256])
            return node(BOOLEAN, self.randrange(2), truths)
        if which == 3:
            return node(CALL, 8, [b""]) * self.choice([3, 6, 10, 11, 12]) + leaf
        return node(BINARY, 2, [leaf, b""]) * self.choice([10, 20, 31, 32]) + leaf

    # Commands

    def values(self, count, strange):
        return ",".join("%016x" % self.value(strange) for _ in range(count)) or "-"

    def inputs(self):
        count = len(self.symbols)
        if self.chance(0.02):
            count = self.choice([0, 1, count + 1, max(count - 1, 0)])
        return self.values(count, 0.01 if self.chance(0.1) else 0.0)

    def answers(self):
        count = self.choice([0, 0, 1, 2, 3, 4, 5, 6, 8, 10, 12, 20, 40])
        return self.values(count, 0.1 if self.chance(0.2) else 0.0)

    def symbol(self):
        """A symbol to derive by, mostly one that the formula has."""
        if self.used and self.chance(0.85):
            return self.choice(self.used)
        if self.symbols and self.chance(0.85):
            return self.randrange(len(self.symbols))
        return self.choice([0, len(self.symbols), 255, 256, 2**32 - 1])

    def command(self, by_libm):
        verb = self.choice(["compile", "derive", "run", "drun"])
        self.symbols, self.used, self.still = self.names(), [], False
        self.faults = 0.04 if self.chance(0.15) else 0.0
        formula = self.large() if self.chance(0.01) else self.formula(0.02 if verb[0] == "d" else 0.12)
        line = self.name_line(self.symbols)
        if self.chance(0.05):
            formula = self.damaged(formula)
        if self.chance(0.02):
            line = self.damaged_line(line)
        words = [formula.hex() or "-", line.hex() or "-"]
        if verb[0] == "d":
            words.append(str(self.symbol()))
        if verb in ("run", "drun"):
            words += [self.inputs(), "libm" if by_libm else self.answers()]
            verb = verb.replace("run", "trace") if by_libm else verb
        return " ".join([verb] + words)


def main():
    parser = argparse.ArgumentParser(description=__doc__)
    parser.add_argument("--seed", type=int, default=1)
    parser.add_argument("--count", type=int, default=1000)
    parser.add_argument("--libm", action="store_true", help="answer questions by the C library and show them")
    options = parser.parse_args()
    generator = Generator(options.seed)
    for _ in range(options.count):
        print(generator.command(options.libm))


if __name__ == "__main__":
    main()
