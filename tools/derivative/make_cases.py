#!/usr/bin/env python3
"""Writes the record that crates/derivative_cases replays: formulas, a symbol, and the Rust reference's derivative tree of each with its list of records.

    tools/derivative/make_cases.py FILE [ORACLE]     # from the repository's root; reference/build.sh builds the oracle

The head of crates/derivative_cases/src/main.rt describes a record. The random sequence is fixed."""
import os
import struct
import subprocess
import sys

ROOT = os.path.dirname(os.path.dirname(os.path.dirname(os.path.abspath(__file__))))
sys.path.insert(0, os.path.join(ROOT, "tools", "shared"))
from nodes import BINARY, BOOLEAN, CALL, COMPARE, CONDITIONAL, NODE_SIZE, UNARY, node, number, read_records, record, symbol  # noqa: E402
from worked import differs, worked  # noqa: E402

ABS, MIN, MAX, HILL, IFELSE, DENSITY = 8, 11, 12, 13, 14, 15
MULTIPLY = 2
LONGEST_FORMULA, LONGEST_TREE, TOTAL_BYTES = 4096, 1024 * NODE_SIZE, 345000
# every rule but Positive and the power 0, which no node has
SHOWN = sorted(set(range(28)) - {2, 25})
S, P, Q = symbol(0), symbol(1), symbol(2)


def asked(oracle, commands):
    answers = subprocess.run([oracle], input="\n".join(commands) + "\n", text=True, capture_output=True, check=True)
    return answers.stdout.split("\n")


# ---- formulas

def arms():
    """A formula for each arm of the rules, and for each literal that is simplified."""
    yield S
    yield from (node(UNARY, o, [S]) for o in (0, 1))
    for a in (S, P, number(0.0), number(-0.0), number(1.0), number(2.0), number(3.0), number(0.5), node(UNARY, 0, [number(2.0)])):
        for o in range(6):
            yield node(BINARY, o, [S, a])
            yield node(BINARY, o, [a, S])
    for o in range(11):
        yield node(CALL, o, [S])
        yield node(CALL, o, [node(BINARY, MULTIPLY, [S, P])])
    for o in (MIN, MAX):
        for n in (2, 3, 5, 9):
            yield node(CALL, o, [S] * n)
            yield node(CALL, o, [P] * (n - 1) + [S])
    for o in (HILL, DENSITY):
        yield from (node(CALL, o, [x, y, z]) for x in (S, P, number(0.0)) for y in (S, P, number(1.0)) for z in (S, number(1.0)))
    test = node(COMPARE, 0, [P, Q])
    yield node(CONDITIONAL, 0, [test, S, P])
    yield node(CALL, IFELSE, [test, S, S])
    yield node(CONDITIONAL, 0, [node(BOOLEAN, 0, [test, test]), P, S])
    yield node(CONDITIONAL, 0, [node(COMPARE, 0, [S, P]), S, P])


def polynomials():
    """The formulas of docs/DERIVATIVE.md, 'Exact rates of polynomials', and some that go through its simplifications."""
    def times(a, b):
        return node(BINARY, MULTIPLY, [a, b])

    def minus(a):
        return node(UNARY, 1, [a])

    yield node(BINARY, 1, [times(S, times(S, P)), minus(times(number(3.0), S))])
    yield node(BINARY, 1, [P, minus(S)])
    yield minus(minus(times(number(-0.0), S)))
    yield times(number(1e300), times(S, S))
    yield times(node(BINARY, 1, [number(-1.0), S]), node(BINARY, 0, [number(1.0), minus(S)]))
    yield number(7.0)
    yield P


def nested(n):
    f = S
    for _ in range(n):
        f = node(CALL, ABS, [f])
    return f


# Multiply(0, Abs nested 30 times) has to be answered at once; the reference can't build what it throws away.
QUICK = node(BINARY, MULTIPLY, [number(0.0), nested(30)])


def made():
    """Formula, name line and symbol of the cases made here."""
    cases = [(f, names, by) for _, f, names, by, _, _ in worked()]
    cases += [(f, "a:%s,b:p,c:p" % kind, 0) for kind in "psti" for f in arms()]
    return cases + [(f, "a:p,b:p,c:p", 0) for f in (nested(8), nested(11), QUICK, *polynomials())]


def generated(seed, count):
    """The same of random commands."""
    commands = subprocess.run([os.path.join(ROOT, "reference", "generate.py"), "--seed", str(seed), "--count", str(count)], text=True, capture_output=True, check=True)
    for words in map(str.split, commands.stdout.split("\n")):
        if words and words[0] in ("derive", "drun"):
            yield words[1], words[2], int(words[3])
        elif words and words[0] in ("run", "compile"):
            yield from ((words[1], words[2], s) for s in (0, 1))


# ---- records

def answer_of(words, formula):
    """The refusal's number or 0, the tree and its records; none where the reference says something else."""
    if words[0] == "tree":
        return 0, bytes.fromhex(words[1]), bytes.fromhex(words[3])
    if words[:2] in (["refused", "8"], ["refused", "4"]):
        return int(words[1]), b"", b""
    if formula == QUICK:
        copied = [record(0, k) for k in range(len(formula) // NODE_SIZE)]
        tree = node(BINARY, 0, [node(BINARY, MULTIPLY, [number(0.0), formula]), number(0.0)])
        return 0, tree, record(27, 0) * 3 + b"".join(copied) + record(24, 0)
    return None


def case(answer, s, state, formula, tree, records):
    return struct.pack("<BBBBHH", answer, s, state, 0, len(formula) // NODE_SIZE, len(tree) // NODE_SIZE) + formula + tree + records


def check_worked(found):
    """The worked lists stand among those found, as they were worked out."""
    for name, formula, names, by, heads, wanted in worked():
        _, tree, records = found[formula.hex(), by, kinds_of(names.encode().hex())[by] == "s"]
        what = differs(tree, records, heads, wanted)
        if what:
            sys.exit("%s: %s" % (name, what))


def kinds_of(names):
    return [] if names == "-" else [name.split(":")[1] for name in bytes.fromhex(names).decode().split(",")]


def derivable(oracle, commands):
    """The places of the commands whose formula compiles to a number and is short enough."""
    said = asked(oracle, ["compile %s %s" % (f, names) for f, names, s in commands])
    for i, (f, names, s) in enumerate(commands):
        if said[i].startswith("program") and said[i].split()[4] == "number" and len(f) <= 2 * LONGEST_FORMULA:
            yield i


def main(file, oracle="/tmp/oracle/oracle"):
    own = [(f.hex(), names.encode().hex(), s) for f, names, s in made()]
    commands = own + list(generated(41, 6000))
    places = list(derivable(oracle, commands))
    trees = asked(oracle, ["records %s %s %d" % commands[i] for i in places])
    cases, seen, counts, rules, total, turn = [], {}, {}, set(), 0, 0
    for i, said in zip(places, trees):
        f, names, s = commands[i]
        kinds = kinds_of(names)
        if s >= len(kinds) or (f, s, kinds[s] == "s") in seen:
            continue
        formula = bytes.fromhex(f)
        found = answer_of(said.split(), formula)
        seen[f, s, kinds[s] == "s"] = found
        if found is None or len(found[1]) > LONGEST_TREE:
            continue
        answer, tree, records = found
        made_case = case(answer, s, int(kinds[s] == "s"), formula, tree, records)
        if i >= len(own):
            turn += 1
            # of the random ones with a small tree one in seven, and no more than there is room for
            if (len(tree) <= 6 * NODE_SIZE and (turn - 1) % 7) or total + len(made_case) > TOTAL_BYTES:
                continue
        total += len(made_case)
        cases.append(made_case)
        counts[answer] = counts.get(answer, 0) + 1
        rules.update(rule for rule, _ in read_records(records))
    check_worked(seen)
    if sorted(rules) != SHOWN:
        sys.exit("rules %s, not %s" % (sorted(rules), SHOWN))
    with open(file, "wb") as out:
        out.write(b"".join(cases))
    print(len(cases), "records, by answer", counts)


if __name__ == "__main__":
    main(*sys.argv[1:])
