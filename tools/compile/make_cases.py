#!/usr/bin/env python3
"""Writes crates/compile_cases/stdin and stdout: formulas, and what the Rust reference's compile says of each.

make_cases.py [ORACLE [DIRECTORY]]: ORACLE is the program that reference/build.sh builds. The random sequence is fixed.
"""
import os
import struct
import subprocess
import sys

HERE = os.path.dirname(os.path.abspath(__file__))
ROOT = os.path.dirname(os.path.dirname(HERE))
sys.path[:0] = [os.path.join(ROOT, "reference"), os.path.join(ROOT, "tools", "shared")]
import faults  # noqa: E402
from generate import Generator  # noqa: E402
from nodes import NODE_SIZE, bits, node, program_room  # noqa: E402
from nodes import NUMBER, TRUTH, SYMBOL, UNARY, BINARY, COMPARE, BOOLEAN, CALL, CONDITIONAL  # noqa: E402

PATH_ROOM, FILL = 8192, 170
# numbers before a case's bytes
HEAD = struct.Struct("<10I")
OPCODES = {"unary": 5, "binary": 8, "compare": 14, "call": 20}
STEPS = {"condition": 0, "then": 1, "else": 2}


# A program's bytes, from the reference's list of instructions

def steps_of(path):
    """The numbers of a path's steps; sorted by them, paths stand in the order of their nodes."""
    words = path.split(".")
    assert words[0] == "root"
    return tuple(STEPS[w] if w in STEPS else 3 + int(w[len("arguments["):-1]) for w in words[1:])


def opcode_of(kind, operator):
    if kind == "call" and operator == 15:
        return 34
    return OPCODES[kind] + operator


def row_of(operation, first):
    """Opcode, count, a, b, c and the list of an operation; `first` is the next free list entry."""
    kind, *words = operation.split(":")
    if kind == "const":
        value = int(words[0], 16)
        return 0, 0, value & 0xFFFFFFFF, value >> 32, 0, []
    numbers = [int(word) for word in words]
    if kind in ("load", "copy"):
        return {"load": 1, "copy": 2}[kind], 0, numbers[0], 0, 0, []
    if kind == "jif":
        return 3, 0, numbers[0], 0, numbers[1], []
    if kind == "jump":
        return 4, 0, 0, 0, numbers[0], []
    opcode, registers = opcode_of(kind, numbers[0]), numbers[1:]
    if opcode in (31, 32):
        return opcode, len(registers), first, 0, 0, registers
    a, b, c = registers + [0] * (3 - len(registers))
    return opcode, 0, a, b, c, []


def records_of(texts, numbers):
    """The path records, 12 bytes each; every node has an instruction, so every path stands in the list."""
    out = b""
    for text in texts:
        steps = steps_of(text)
        parent = numbers[steps[:-1]]
        out += struct.pack("<III", parent, steps[-1] if steps else 0, len(text))
    return out


def image_of(answer):
    """The bytes that docs/PROGRAM.md gives an answer `program REGISTERS RESULT INPUTS KIND INSTR;INSTR;..`."""
    registers, result, inputs, kind, listing = answer.split(" ")[1:]
    code = [instruction.split(",") for instruction in listing.split(";")]
    texts = sorted({path for _, _, path in code}, key=steps_of)
    numbers = {steps_of(text): k for k, text in enumerate(texts)}
    rows, entries = b"", []
    for operation, destination, path in code:
        opcode, count, a, b, c, registers_read = row_of(operation, len(entries))
        entries += registers_read
        rows += struct.pack("<BBHIIIII", opcode, 0, count, int(destination), a, b, c, numbers[steps_of(path)])
    header = struct.pack("<4sIIIIIII", b"VBR1", len(code), int(registers), int(result), int(inputs),
                         {"number": 0, "boolean": 1}[kind], len(texts), len(entries))
    return header + rows + records_of(texts, numbers) + struct.pack("<%dI" % len(entries), *entries)


# Cases

def record(formula, names, rooms, number, text, program, rest, node_and_one=0):
    path_rest = 0 if text else FILL
    head = HEAD.pack(len(formula), len(names), rooms[0], rooms[1], number, len(text), path_rest, len(program), rest, node_and_one)
    return head + formula + names + text + program


def case_of(formula, names, answer, more):
    """The record of a formula; the program slice has `more` bytes above what it needs."""
    rooms = PATH_ROOM, program_room(formula) + more
    if answer.startswith("program "):
        return 0, record(formula, names, rooms, 0, b"", image_of(answer), 0)
    word, number, path = answer.split(" ")
    assert word == "refused", answer
    number, fault = int(number), faults.first_fault(formula)
    node_and_one = int(path[1:]) + 1 if path[0] == "@" else 0
    assert fault == ("%d:%d" % (number, node_and_one - 1) if node_and_one else None), answer
    text = path.encode() if path.startswith("root") else b""
    assert (number in (2, 3, 12, 13)) == (text == b"")
    return number, record(formula, names, rooms, number, text, b"", 0 if 5 <= number <= 9 else FILL, node_and_one)


def short_cases():
    """Slices that are too short: refusal 1, before anything else is looked at."""
    one, out = node(NUMBER, value=bits(1.0)), []
    for formula, rooms in [(one, (8191, 240)), (one, (8192, 239)), (one, (0, 0)), (one[:1], (8192, 239)),
                           (one + one[:1], (8192, 479)), (one[:1], (8191, 240))]:
        out.append(record(formula, b"", rooms, 1, b"", b"", FILL))
    return out


def worked():
    """The formulas of reference/examples.txt, each once."""
    seen = []
    for line in open(os.path.join(ROOT, "reference", "examples.txt")):
        words = line.split()
        if words and words[0] in ("compile", "run", "derive", "drun") and words[1:3] not in seen:
            seen.append(words[1:3])
    return [(unhex(f), unhex(n)) for f, n in seen]


def unhex(word):
    return b"" if word == "-" else bytes.fromhex(word)


def made():
    """Formulas at the limits of nodes and depth, and one with every operator in each place of arguments."""
    p, q, one, yes = node(SYMBOL), node(SYMBOL, symbol=1), node(NUMBER, value=bits(1.0)), node(TRUTH, value=1)
    names = b"p:p,q:p"
    out = [node(CALL, 11, [p] * 255), node(CALL, 12, [p] * 256), node(BOOLEAN, 0, [yes] * 255), node(BOOLEAN, 1, [yes] * 256)]
    for depth in (31, 32, 33):
        out.append(node(UNARY, 1, [b""]) * (depth - 1) + p)
        out.append(node(CONDITIONAL, 0, [yes, one, b""]) * (depth - 1) + q)
        out.append(node(BOOLEAN, 1, [yes, b""]) * (depth - 1) + yes)
    out += [node(UNARY, k, [p]) for k in (0, 1)] + [node(UNARY, 2, [yes])]
    out += [node(BINARY, k, [p, q]) for k in range(6)] + [node(COMPARE, k, [q, p]) for k in range(6)]
    for function in range(16):
        for count in range(5):
            arguments = [one, p, q, one][:count]
            out.append(node(CALL, function, ([yes] + arguments[1:]) if function == 14 and count else arguments))
    out += [node(BOOLEAN, k, [yes] * count) for k in (0, 1) for count in range(5)]
    out.append(node(CALL, 11, [p, node(CALL, 12, [q, p]), node(NUMBER, value=bits(3.0))]))
    return [(formula, names) for formula in out]


def faulty():
    """Formulas with a fault in their bytes, of the cuts those around the ends of nodes; one is longer than any file that legs takes."""
    cuts = [case for c, case in enumerate(faults.cuts()) if c % NODE_SIZE in (0, 1, NODE_SIZE - 1)]
    spoilt = [case for case in faults.spoilt(faults.FLIGHT) if not case[0].startswith("high")]
    longer = "256 Mins of 65,535 and a byte", faults.MOST * 256 + b"\0", faults.NAMES, "12:256"
    return [*faults.table(), *faults.counts(), *cuts, *spoilt, *faults.doubled(), longer]


def random_cases(count):
    generator, out = Generator(16), []
    for _ in range(count):
        words = generator.command(False).split()
        out.append((unhex(words[1]), unhex(words[2])))
    return out


def random_faults(count):
    """Random formulas damaged once or more, with their name lines."""
    generator, out = Generator(17), []
    for _ in range(count):
        generator.symbols, generator.used, generator.still, generator.faults = generator.names(), [], False, 0.0
        out.append((generator.faulty(generator.formula(0.12)), generator.name_line(generator.symbols)))
    return out


def ask(oracle, cases):
    lines = "".join("compile %s %s\n" % (f.hex() or "-", n.hex() or "-") for f, n in cases)
    answers = subprocess.run([oracle], input=lines, capture_output=True, text=True, check=True).stdout.splitlines()
    assert len(answers) == len(cases)
    return answers


def told(refusal):
    """The reference's answer of a refusal that is written as legs shows it."""
    number, place = refusal.split(":")
    return "refused %s %s" % (number, "@" + place if place.isdecimal() else place or "-")


def fixed_cases(oracle):
    """All worked, made and faulty ones."""
    own, wrong = worked() + made(), faulty()
    cases = own + [(formula, names) for _, formula, names, _ in wrong]
    answers = ask(oracle, cases)
    for (_, formula, names, refusal), answer in zip(wrong, answers[len(own):]):
        assert answer == told(refusal), (formula.hex(), answer, refusal)
    return [case_of(*case, answer, i % 3 * 17)[1] for i, (case, answer) in enumerate(zip(cases, answers))]


def chosen(oracle):
    """All fixed cases; of the random ones 130 programs and up to 16 of each refusal, the long ones left out."""
    kept, counts = short_cases() + fixed_cases(oracle), {0: 0}
    cases = random_faults(300) + random_cases(20000)
    for i, ((formula, names), answer) in enumerate(zip(cases, ask(oracle, cases))):
        if len(formula) > 272 * NODE_SIZE or len(names) > 1000:
            continue
        number, case = case_of(formula, names, answer, i % 3 * 17)
        if counts.get(number, 0) < (130 if number == 0 else 16) and len(case) < 1600:
            counts[number] = counts.get(number, 0) + 1
            kept.append(case)
    return kept, counts


def opcodes_in(case):
    lengths = HEAD.unpack_from(case)
    program = case[HEAD.size + lengths[0] + lengths[1] + lengths[5]:]
    return {program[at] for at in range(32, 32 + 24 * struct.unpack_from("<I", program, 4)[0], 24)} if program else set()


def main():
    oracle = sys.argv[1] if len(sys.argv) > 1 else "/tmp/oracle/oracle"
    directory = sys.argv[2] if len(sys.argv) > 2 else os.path.join(ROOT, "crates", "compile_cases")
    kept, counts = chosen(oracle)
    whole = struct.pack("<I", len(kept)) + b"".join(kept)
    assert len(whole) <= 327680, len(whole)
    assert set().union(*map(opcodes_in, kept)) == set(range(35))
    with open(os.path.join(directory, "stdin"), "wb") as out:
        out.write(whole)
    with open(os.path.join(directory, "stdout"), "w") as out:
        out.write("%d cases, 0 differ\n" % len(kept))
    numbers = {}
    for case in kept:
        number = struct.unpack_from("<I", case, 16)[0]
        numbers[number] = numbers.get(number, 0) + 1
    print(len(kept), "cases,", len(whole), "bytes; by answer:", sorted(numbers.items()), "; random:", sorted(counts.items()))


if __name__ == "__main__":
    main()
