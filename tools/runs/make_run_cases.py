#!/usr/bin/env python3
"""Writes the record that crates/run_cases replays: lists of calls on small programs, with an executable model of run and resume (docs/REFERENCE.md, 9).

    ORACLE=/tmp/oracle/oracle tools/runs/make_run_cases.py crates/run_cases/stdin

Programs come from the Rust reference (`compile`); each list's whole run is compared with the reference's (`trace`, answers by the C library)."""
import math, os, random, struct, subprocess, sys

ORACLE = os.environ.get("ORACLE", "/tmp/oracle/oracle")
FILL, ROOM = 170, 8192
NAMES = "a:p,b:p,c:p,d:p,e:p"
EXP, LOG = 0, 1
sys.path.insert(0, os.path.join(os.path.dirname(os.path.abspath(__file__)), "..", "shared"))
from nodes import BINARY, BOOLEAN, CALL, COMPARE, CONDITIONAL, UNARY, bits, node  # noqa: E402
from nodes import number as num, symbol as sym  # noqa: E402


# ---- formulas

def unary(o, x): return node(UNARY, o, [x])
def binary(o, x, y): return node(BINARY, o, [x, y])
def compare(o, x, y): return node(COMPARE, o, [x, y])
def junction(o, *xs): return node(BOOLEAN, o, list(xs))
def call(o, *xs): return node(CALL, o, list(xs))
def conditional(c, y, e): return node(CONDITIONAL, 0, [c, y, e])

A, B, C, D, E = map(sym, range(5))
FLIGHT = binary(0, A, binary(3, binary(2, B, C), binary(0, D, E)))
FORMULAS = [
    FLIGHT,
    conditional(compare(0, A, num(1.0)), num(2.0), num(3.0)),
    binary(0, call(0, A), call(1, B)),
    call(13, A, B, C),
    call(15, A, B, C),
    binary(4, A, B),
    call(11, A, B, C, D, E),
    binary(1, call(12, A, B), call(11, C, num(-0.0), D)),
    conditional(junction(0, compare(0, A, B), compare(2, C, D), compare(4, E, E)), binary(3, A, B), call(0, C)),
    junction(1, compare(0, A, B), compare(1, C, D), compare(5, A, E)),
    binary(0, call(9, binary(5, A, B)), binary(2, call(10, C), call(3, call(8, D)))),
    unary(1, binary(0, call(13, A, num(2.0), B), binary(4, C, num(0.5)))),
    conditional(unary(2, compare(3, A, B)), call(7, call(4, C)), call(6, call(5, D))),
    binary(2, call(2, A), call(15, B, B, C)),
    call(11, num(1.0), num(0.0), num(-0.0), num(2.0)),
    call(12, num(-1.0), num(-0.0), num(0.0)),
]

# ---- the reference

class Oracle:
    def __init__(self):
        self.p = subprocess.Popen([ORACLE], stdin=subprocess.PIPE, stdout=subprocess.PIPE, text=True)

    def ask(self, line):
        self.p.stdin.write(line + "\n")
        self.p.stdin.flush()
        return self.p.stdout.readline().strip()

def hexed(xs):
    return ",".join("%016x" % bits(x) for x in xs) or "-"

# ---- programs

class Program:
    """The reference's text of a program, and its bytes by docs/PROGRAM.md."""

    def __init__(self, text):
        _, registers, result, inputs, kind, code = text.split(" ", 5)
        self.registers, self.result, self.inputs = int(registers), int(result), int(inputs)
        self.code = []
        records, numbers, rows, entries = [(0, 0, 4)], {"root": 0}, [], []
        for part in code.split(";"):
            op, destination, path = part.split(",")
            name, *fields = op.split(":")
            fields = [int(f, 16) if name == "const" else int(f) for f in fields]
            self.code.append((name, fields, int(destination), path))
            at, prefix = 0, "root"
            for step in path.split(".")[1:]:
                prefix += "." + step
                if prefix not in numbers:
                    kinds = {"condition": 0, "then": 1, "else": 2}
                    number = kinds[step] if step in kinds else 3 + int(step[len("arguments["):-1])
                    numbers[prefix] = len(records)
                    records.append((at, number, len(prefix)))
                at = numbers[prefix]
            rows.append(self.row(name, fields, int(destination), at, entries))
        head = [len(rows), self.registers, self.result, self.inputs, int(kind == "boolean"), len(records), len(entries)]
        self.bytes = b"VBR1" + struct.pack("<7I", *head) + b"".join(rows)
        self.bytes += b"".join(struct.pack("<3I", *r) for r in records) + b"".join(struct.pack("<I", n) for n in entries)

    @staticmethod
    def row(name, f, destination, path, entries):
        count = a = b = c = 0
        if name == "const": op, a, b = 0, f[0] & 0xFFFFFFFF, f[0] >> 32
        elif name == "load": op, a = 1, f[0]
        elif name == "copy": op, a = 2, f[0]
        elif name == "jif": op, a, c = 3, f[0], f[1]
        elif name == "jump": op, c = 4, f[0]
        elif name == "unary": op, a = 5 + f[0], f[1]
        elif name == "binary": op, a, b = 8 + f[0], f[1], f[2]
        elif name == "compare": op, a, b = 14 + f[0], f[1], f[2]
        elif f[0] in (11, 12):
            op, count, a = 20 + f[0], len(f) - 1, len(entries)
            entries.extend(f[1:])
        else:
            op = 34 if f[0] == 15 else 20 + f[0]
            a, b, c = (f[1:] + [0, 0])[:3]
        return struct.pack("<BBHIIIII", op, 0, count, destination, a, b, c, path)

# ---- one node's work: a number, None for Domain, or a question (function, arguments)

def hill(x, n, k, kept):
    if n <= 0 or k <= 0: return None
    if x <= 0: return 0.0
    if len(kept) < 2: return (LOG, (x, k)[len(kept)])
    z = n * (kept[0] - kept[1])
    if len(kept) == 2: return (EXP, -z if z >= 0 else z)
    return quotient(1.0, 1.0 + kept[2]) if z >= 0 else quotient(kept[2], 1.0 + kept[2])

def density(x, mean, shape, kept):
    if mean <= 0 or shape <= 0: return None
    if x <= 0: return 0.0
    asks = [(LOG, shape), (LOG, 2 * math.pi), (LOG, x)]
    if len(kept) < 3: return asks[len(kept)]
    normalizer = 0.5 * (kept[0] - kept[1] - 3.0 * kept[2])
    if x == mean: return (EXP, normalizer - 0.0) if len(kept) == 3 else kept[3]
    asks += [(LOG, shape), (LOG, x), (LOG, abs(x - mean)), (LOG, mean)]
    if len(kept) < 7: return asks[len(kept)]
    if len(kept) == 7: return (EXP, kept[3] - math.log(2.0) - kept[4] + 2.0 * (kept[5] - kept[6]))
    return (EXP, normalizer - kept[7]) if len(kept) == 8 else kept[8]

def quotient(a, b):
    return a / b if b else math.copysign(math.inf, a) * math.copysign(1, b) if a else math.nan

def binary_work(o, a, b, kept):
    if o < 3: return (a + b, a - b, a * b)[o]
    if o == 3: return a / b if b else None
    if o == 4:
        if (a == 0 and b <= 0) or (a < 0 and b != math.floor(b)): return None
        return kept[0] if kept else (16, a, b)
    if b <= 0: return None
    r = math.fmod(a, b)
    return (0.0 if r + b >= b else r + b) if r < 0 else r

def below(x, y):
    """-0 below +0."""
    return x < y or (x == y == 0 and math.copysign(1, x) < math.copysign(1, y))

def call_work(f, xs, kept):
    x = xs[0]
    if f == 3: return math.sqrt(x) if x >= 0 else None
    if f == 8: return abs(x)
    if f in (9, 10): return math.copysign(float((math.floor, math.ceil)[f - 9](x)), x)
    if f in (11, 12):
        for y in xs[1:]: x = y if (below(y, x) if f == 11 else below(x, y)) else x
        return x
    if f == 13: return hill(*xs, kept)
    if f == 15: return density(*xs, kept)
    return kept[0] if kept else (f, x)

# ---- run and resume

class Machine:
    def __init__(self, program, bad, inputs, registers):
        self.p, self.bad, self.inputs, self.regs = program, bad, inputs, registers
        self.position, self.kept, self.pending = 0, [], None

    def effect(self, at, kept):
        name, f, _, _ = self.p.code[at]
        r = self.regs
        if name == "const": return struct.unpack("<d", struct.pack("<Q", f[0]))[0]
        if name == "load": return self.inputs[f[0]]
        if name == "copy": return r[f[0]]
        if name == "unary": return (r[f[1]], -r[f[1]], float(r[f[1]] == 0))[f[0]]
        if name == "binary": return binary_work(f[0], r[f[1]], r[f[2]], kept)
        if name == "compare":
            a, b = r[f[1]], r[f[2]]
            return float((a < b, a <= b, a > b, a >= b, a == b, a != b)[f[0]])
        return call_work(f[0], [r[i] for i in f[1:]], kept)

    def steps(self, budget):
        count = 0
        while True:
            if self.position == len(self.p.code):
                self.kept = []
                return ("value", self.regs[self.p.result]), count
            if count == budget:
                return ("spent",), count
            name, f, destination, path = self.p.code[self.position]
            if name == "jump": self.position = f[0]
            elif name == "jif": self.position = f[1] if self.regs[f[0]] == 0 else self.position + 1
            else:
                v = self.effect(self.position, self.kept)
                if isinstance(v, tuple):
                    self.pending = v
                    return ("ask", v), count
                if v is None or not math.isfinite(v):
                    self.position, self.kept = len(self.p.code), []
                    return ("refused", 9, path), count
                self.regs[destination] = v
                self.position += 1
            self.kept = []
            count += 1

    def refusal(self, room, budget, value, resume):
        if room < ROOM: return 1
        if self.bad: return 10
        if len(self.inputs) != self.p.inputs or len(self.regs) < self.p.registers: return 5
        if not all(map(math.isfinite, self.inputs)) or budget == 0: return 5
        if resume and (self.position >= len(self.p.code) or (value is not None and self.pending is None)): return 11
        return None

    def call(self, resume, room, budget, value=None):
        if not resume: self.position, self.kept, self.pending = 0, [], None
        n = self.refusal(room, budget, value, resume)
        if n: return ("refused", n, "root" if n == 5 else ""), 0
        if value is not None: self.kept = self.kept + [value]
        self.pending = None
        return self.steps(budget)

# ---- the record

def cells(*xs):
    return struct.pack("<%dQ" % len(xs), *xs)

def text_cells(b):
    return b + bytes(8 - len(b) % 8)

def question_cells(q):
    if q is None: return cells(0, 0, 0)
    return cells(2, bits(q[1]), bits(q[2])) if q[0] == 16 else cells(1, q[0], bits(q[1]))

def answer_cells(a):
    if a[0] == "value": return cells(0, bits(a[1]), 0)
    if a[0] == "ask": return question_cells(a[1])
    return cells(3, 0, 0) if a[0] == "spent" else cells(4, a[1], 0)

def by_c_library(q):
    try:
        if q[0] == 16: return math.pow(q[1], q[2])
        return {0: math.exp, 1: math.log, 2: math.log10, 4: math.sin, 5: math.cos, 6: math.tan, 7: math.tanh}[q[0]](q[1])
    except (ValueError, OverflowError):
        return math.inf

def one_list(rng, program, inputs, bad=False, registers=None):
    m = Machine(program, bad, inputs, [rng.uniform(-9, 9) for _ in range(program.registers if registers is None else registers)])
    image = bytearray(program.bytes)
    if bad: image[rng.choice([0, 5, 33, 34, 59, len(image) - 9])] ^= 0x40
    out = cells(len(image), len(inputs), len(m.regs), 0)
    out += text_cells(bytes(image)) + cells(*map(bits, inputs)) + cells(*map(bits, m.regs))
    calls = over = 0
    while calls < 24 and over < 2:
        resume = calls > 0
        room = rng.choice([ROOM, ROOM + 8, ROOM, 5, ROOM - 1]) if rng.random() < 0.3 else ROOM
        budget = rng.choice([0, 1, 1, 2, 3, 1000])
        value = None
        if resume and rng.random() < (0.8 if m.pending else 0.15):
            value = by_c_library(m.pending) if m.pending and rng.random() < 0.9 else rng.uniform(-2, 2)
        answer, count = m.call(resume, room, budget, value)
        place = answer[2].encode() if answer[0] == "refused" else b""
        out += cells(2 if value is not None else int(resume), room, budget, 0 if value is None else bits(value)) + answer_cells(answer)
        out += cells(count, m.position, len(m.kept)) + question_cells(m.pending) + cells(len(place)) + text_cells(place) + cells(*map(bits, m.regs))
        calls += 1
        over += m.position == len(program.code) or bad
    return out[:24] + cells(calls) + out[32:], calls

def compared(oracle, formula, program, inputs):
    """The model's whole run beside the reference's, with the C library's answers."""
    m = Machine(program, False, inputs, [0.0] * program.registers)
    answer, count = m.call(False, ROOM, 10 ** 9)
    while answer[0] == "ask":
        answer, more = m.call(True, ROOM, 10 ** 9, by_c_library(answer[1]))
        count += more
    said = oracle.ask("trace %s %s %s libm" % (formula.hex(), NAMES.encode().hex(), hexed(inputs))).split(" questions ")[0]
    mine = "value %016x %d" % (bits(answer[1]), count) if answer[0] == "value" else "domain %s %d" % (answer[2], count)
    if any(name == "call" and f[0] in (11, 12) for name, f, _, _ in program.code):
        # Rust leaves the sign of such a zero open
        said, mine = (text.replace("8000000000000000", "0000000000000000") for text in (said, mine))
    assert said == mine, (said, mine)

def main():
    rng, oracle = random.Random(1), Oracle()
    lists, total, out = 0, 0, b""
    for formula in FORMULAS:
        program = Program(oracle.ask("compile %s %s" % (formula.hex(), NAMES.encode().hex())))
        for k in range(3):
            inputs = [rng.choice([0.0, -1.0, 0.5, 1.0, 2.0, 3.0, 90.0, rng.uniform(0, 4)]) for _ in range(5)]
            compared(oracle, formula, program, inputs)
            record, calls = one_list(rng, program, inputs)
            out, lists, total = out + record, lists + 1, total + calls
    program = Program(oracle.ask("compile %s %s" % (FLIGHT.hex(), NAMES.encode().hex())))
    inputs = [90.0, 300.0, 400.0, 200.0, 0.0]
    for record, calls in [one_list(rng, program, inputs, bad=True) for _ in range(8)] + [
        one_list(rng, program, inputs[:4]), one_list(rng, program, inputs[:4] + [math.inf]), one_list(rng, program, inputs[:4] + [math.nan]),
        one_list(rng, program, inputs, registers=program.registers - 1), one_list(rng, program, inputs, registers=program.registers + 3)]:
        out, lists, total = out + record, lists + 1, total + calls
    with open(sys.argv[1], "wb") as f:
        f.write(cells(lists) + out)
    print("%d lists, %d calls, %d bytes" % (lists, total, len(out) + 8))

main()
