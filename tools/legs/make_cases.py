#!/usr/bin/env python3
"""Writes the record that `legs_cases` compares with: make_cases.py LEGS ORACLE > crates/legs_cases/stdin

What has to be printed is the reference's answer. Where the two differ in signs of zeros under Min or Max alone, it is what LEGS printed.
"""
import itertools
import os
import struct
import sys

from compare import expected, faulty_outputs, fixed_cases, random_case, run, same, worked_outputs, zero_tables
from generate import Generator

ROOM = 327680


def wanted(legs, oracle, formula, data):
    want, got = expected(oracle, formula, data), run(legs, formula, data)
    if not same(formula, got, want):
        raise SystemExit("legs and the reference differ on %s" % (formula or b"").hex())
    return got


def case(r, formula, data, want):
    if len(want) > 65536:
        return b""
    block = r.choice([1, 2, 3, 7, 16, 17, 64, 1000, 100000])
    file = formula or b""
    # a longer file is cut where legs has read enough of it
    file = file[:4097]
    head = struct.pack("<5I", int(formula is not None), block, len(file), len(data), len(want))
    return head + file + data + want


def main():
    legs, oracle = map(os.path.abspath, sys.argv[1:3])
    r = Generator(7)
    cases, total = [], 4
    for name, formula, data in fixed_cases():
        if len(data) < 25000:
            cases.append(case(r, formula, data, wanted(legs, oracle, formula, data)))
    for name, formula, data, want in itertools.chain(worked_outputs(), faulty_outputs(), zero_tables()):
        cases.append(case(r, formula, data, want))
    while True:
        total = 4 + sum(map(len, cases))
        formula, data = random_case(r)
        new = case(r, formula, data, wanted(legs, oracle, formula, data))
        if total + len(new) > ROOM:
            break
        cases.append(new)
    cases = [c for c in cases if c]
    sys.stdout.buffer.write(struct.pack("<I", len(cases)) + b"".join(cases))
    print(len(cases), "cases", file=sys.stderr)


if __name__ == "__main__":
    main()
