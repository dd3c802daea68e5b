#!/usr/bin/env python3
"""Runs `legs` beside the Rust reference on random and on fixed inputs, and compares every byte of the output. Zeros of formulas with Min or Max
are compared as numbers, as Rust leaves their sign open; the fixed tables of zeros, written out here, are compared byte for byte.

Usage: compare.py LEGS ORACLE [SEED [CASES]]

LEGS is the built program, ORACLE the reference (reference/build.sh). What the reference has no part in, lines, digits, counts, totals
and the form of the output, is written out here from docs/REFERENCE.md. The first fault of a formula's bytes is looked for by
tools/shared/faults.py, which has to find the reference's. In some cases the input is cut into blocks at random places: a block is
written to the pipe when the program has read all of the one before.
"""
import array
import bisect
import collections
import fcntl
import itertools
import os
import random
import re
import select
import shutil
import subprocess
import sys
import tempfile
import termios
import threading
import time

HERE = os.path.dirname(os.path.abspath(__file__))
sys.path[:0] = [os.path.join(HERE, "..", "..", "reference"), os.path.join(HERE, "..", "shared")]
import faults  # noqa: E402
from generate import Generator, is_finite  # noqa: E402
from nodes import bits, node, number, symbol  # noqa: E402

HEADER = b"no,answer,detail,steps\n"
# lines of values that are listed, and seconds that a run may take
LIMIT = 1000000
SECONDS = 60
PLUS, MINUS = b"0000000000000000", b"8000000000000000"
VALUES = re.compile(rb"[0-9a-f]{16}(,[0-9a-f]{16})*")


# ---- what legs has to print

def lines_of(data):
    pieces = data.split(b"\n")
    return pieces if pieces[-1] else pieces[:-1]


def ask(oracle, commands):
    answers = subprocess.run([oracle], input="\n".join(commands) + "\n", capture_output=True, text=True, check=True).stdout
    return answers.splitlines()


def whole(above):
    """The whole output: the header, the lines above the total, and the total, added up from their text."""
    counts, steps = collections.Counter(), 0
    for line in lines_of(above):
        _, answer, _, completed = line.split(b",")
        counts[answer] += 1
        steps += int(completed)
    columns = [counts[answer] for answer in (b"value", b"domain", b"ask", b"bad")]
    return HEADER + above + b"total,%d,%d,%d,%d,%d\n" % (*columns, steps)


def refusal(detail):
    """The output of a refusal: its number, a colon, and its path or node where it has one."""
    return whole(b"0,refused,%s,0\n" % detail.encode())


def refused(formula, words):
    """The detail of a refusal that the reference answers, nothing for a program; a fault of the bytes has to be the one found here."""
    detail = "%s:%s" % (words[1], words[2].lstrip("@-")) if words[0] == "refused" else None
    told = detail if detail and words[2].startswith("@") else None
    found = faults.first_fault(formula)
    if told != found:
        raise SystemExit("%s: fault %s here, %s by the reference" % (formula.hex(), found, told))
    return detail


def bad(line, count):
    """3 or 5 for a bad line, 0 for a good one."""
    if line and not VALUES.fullmatch(line):
        return 3
    values = line.split(b",") if line else []
    return 0 if len(values) == count and all(is_finite(int(v, 16)) for v in values) else 5


def answer(words):
    if words[0] in ("value", "domain", "ask"):
        return ",".join(words[:3])
    raise SystemExit("the reference answered " + " ".join(words))


def answers(oracle, words, count, lines):
    """Answer, detail and steps of each line. Lines that are the same have the same ones, so each line is asked once, however often it
    stands there: a million empty lines are one question."""
    numbers = {line: bad(line, count) for line in dict.fromkeys(lines)}
    good = [line for line in numbers if not numbers[line]]
    told = ask(oracle, ["run %s %s -" % (words, line.decode() or "-") for line in good]) if good else []
    found = {line: "bad,%d,0" % number for line, number in numbers.items()}
    found.update(zip(good, (answer(text.split()) for text in told), strict=True))
    return [found[line] for line in lines]


def expected(oracle, formula, data):
    if formula is None or len(formula) > 4096:
        return refusal("1:")
    names, *values = lines_of(data)[:1 + LIMIT] or [b""]
    words = "%s %s" % (formula.hex() or "-", names.hex() or "-")
    detail = refused(formula, ask(oracle, ["compile " + words])[0].split())
    if detail:
        return refusal(detail)
    count = names.count(b",") + 1 if names else 0
    records = enumerate(answers(oracle, words, count, values), 1)
    return whole("".join("%d,%s\n" % record for record in records).encode())


def has_extremum(formula):
    return any(formula[i] == 7 and formula[i + 1] in (11, 12) for i in range(0, len(formula) - 1, 16))


def same(formula, got, want):
    if got == want or not (formula and has_extremum(formula)):
        return got == want
    return got.replace(MINUS, PLUS) == want.replace(MINUS, PLUS)


# ---- the program

def waiting(fd):
    left = array.array("i", [0])
    fcntl.ioctl(fd, termios.FIONREAD, left)
    return left[0]


def is_closed(pipe):
    """Whether nobody reads the pipe any more; what is left in it stays there."""
    poll = select.poll()
    poll.register(pipe, 0)
    return bool(poll.poll(0))


def feed(pipe, blocks):
    """Writes the blocks to the pipe. `legs` may end before it has read them all."""
    try:
        for block in blocks:
            os.write(pipe, block)
            while waiting(pipe) and not is_closed(pipe):
                time.sleep(0.0001)
    except BrokenPipeError:
        pass
    os.close(pipe)


def output_of(process):
    """What the program prints; if it doesn't end, or not well, a text that is no output."""
    try:
        output = process.communicate(timeout=SECONDS)[0]
    except subprocess.TimeoutExpired:
        process.kill()
        process.communicate()
        return b"no end after %d seconds" % SECONDS
    return b"status %d" % process.returncode if process.returncode else output


def run_blocks(legs, formula, blocks):
    folder = tempfile.mkdtemp()
    try:
        if formula is not None:
            with open(os.path.join(folder, "formula.bin"), "wb") as file:
                file.write(formula)
        reader, writer = os.pipe()
        process = subprocess.Popen([legs], cwd=folder, stdin=reader, stdout=subprocess.PIPE)
        os.close(reader)
        thread = threading.Thread(target=feed, args=(writer, blocks))
        thread.start()
        output = output_of(process)
        thread.join()
        return output
    finally:
        shutil.rmtree(folder)


def run(legs, formula, data, cuts=()):
    ends = [0, *cuts, len(data)]
    return run_blocks(legs, formula, filter(None, (data[a:b] for a, b in zip(ends, ends[1:]))))


# ---- random inputs

def damaged(r, line):
    at = r.randrange(len(line) + 1)
    return r.choice([
        line[:at] + bytes([r.choice(b",g0AF \r\0\xff:-")]) + line[at:],
        line[:at] + line[at + 1:],
        line[:at],
        line + b",",
        b"," + line,
        line + b"\r",
        line.upper(),
        line + b"," + line,
    ])


def value_line(r, count, extremum):
    if extremum and r.chance(0.3):
        # many arguments of Min and Max are zeros then
        return ",".join("%016x" % bits(r.choice([0.0, -0.0, 0.0, -0.0, 1.0, -1.0])) for _ in range(count)).encode()
    if r.chance(0.05):
        count = r.choice([0, 1, count + 1, max(count - 1, 0), 256, 257, 300])
    line = ",".join("%016x" % r.value(0.02 if r.chance(0.1) else 0.0) for _ in range(count)).encode()
    return damaged(r, line) if r.chance(0.1) else line


def random_case(r):
    r.symbols, r.used, r.still = r.names(), [], False
    r.faults = 0.04 if r.chance(0.1) else 0.0
    formula = r.large() if r.chance(0.02) else r.formula(0.12)
    names = r.name_line(r.symbols)
    if r.chance(0.1):
        formula = r.faulty(formula)
    if r.chance(0.04):
        names = r.damaged_line(names)
    count = len(r.symbols)
    lines = [names] + [value_line(r, count, has_extremum(formula)) for _ in range(r.choice([0, 1, 2, 5, 20, 40]))]
    data = b"\n".join(lines) + r.choice([b"", b"\n", b"\n\n"])
    return formula, data


# ---- fixed inputs

def fixed_cases():
    value = "%016x" % bits(1.5)
    one = number(1.0)
    power = node(4, 4, [symbol(0), symbol(1)])
    exp = node(7, 0, [symbol(0)])
    divide = node(4, 3, [symbol(0), symbol(1)])
    many = ",".join(["n%d" % i + ":p" for i in range(256)]).encode()
    widest = b",".join(b"%s:p" % (b"a" * 60 + bytes([97 + i // 26, 97 + i % 26, 95, 95])) for i in range(256))
    yield "missing", None, b"a:p\n\n"
    yield "missing, no input", None, b""
    yield "missing, 3 MB of lines", None, b"a:p\n" + b"\n" * 3000000
    yield "empty formula", b"", b""
    yield "cut formula", one[:15], b""
    yield "no input", one, b""
    yield "a formula over a name that is not there", symbol(0), b""
    yield "the same, 3 MB of lines", symbol(0), b"\n" * 3000000
    yield "one newline", one, b"\n"
    yield "no names, empty lines", one, b"\n" * 20000
    yield "no names, carriage returns", one, b"\n\r\n\r"
    yield "name line with a carriage return", one, b"a:p\r\n"
    yield "256 names", symbol(255), many + b"\n" + ",".join([value] * 256).encode()
    yield "257 names", symbol(0), many + b",z:p\n"
    yield "257 values", symbol(255), many + b"\n" + ",".join([value] * 257).encode() + b"\n" + ",".join([value] * 300).encode()
    yield "300 values, malformed at the end", symbol(255), many + b"\n" + ",".join([value] * 300).encode() + b",\n"
    assert len(widest) == 17151
    yield "the longest name line", symbol(255), widest + b"\n" + ",".join([value] * 256).encode() + b"\n"
    yield "one byte more", symbol(255), widest + b"p\n" + ",".join([value] * 256).encode() + b"\n"
    yield "one byte more, a comma", symbol(255), widest + b",\n\n"
    yield "one name more", symbol(255), widest + b",b:p\n\n"
    yield "a name line of 3 MB", one, b"a" * 3000000 + b"\n\n"
    yield "a line of 4 MB", symbol(0), b"a:p\n" + b",".join([value.encode()] * 250000) + b"\n" + value.encode() + b"\n"
    yield "the same, malformed at its end", symbol(0), b"a:p\n" + b",".join([value.encode()] * 250000) + b"x\n" + value.encode()
    yield "a line of 3 MB without commas", symbol(0), b"a:p\n" + b"0" * 3000000
    yield "4096 bytes", node(7, 11, [symbol(0)] * 255), b"a:p\n" + value.encode() + b"\n"
    yield "4097 bytes", node(7, 11, [symbol(0)] * 255) + b"\0", b"a:p\n"
    yield "4112 bytes", node(7, 11, [symbol(0)] * 256), b"a:p\n"
    yield "a question of one argument", exp, b"a:i\n" + value.encode() + b"\n8000000000000000\n"
    yield "a question of two", power, b"a:i,b:i\n" + value.encode() + b"," + value.encode() + b"\n"
    yield "Domain and not", divide, b"a:i,b:i\n" + (value + ",0000000000000000\n" + value + ",8000000000000000\n" + value + "," + value).encode()
    yield "not finite", divide, b"a:i,b:i\n" + (value + ",7ff0000000000000\n" + value + ",7ff8000000000001\nfff0000000000000," + value).encode()
    yield "bytes that are no text", one, bytes(range(256)) * 50
    deep = node(3, 2, [b""]) * 30 + node(6, 0, [node(1, value=1)] * 223 + [number(float("nan"))] + [node(1, value=1)])
    yield "a long path", deep, b""
    yield "many records to a block", one, b"\n" + b"\n" * 70000
    far = node(3, 1, [b""]) * 30 + divide
    yield "long Domain paths", far, b"a:i,b:i\n" + (value + ",0000000000000000\n").encode() * 3000
    inverse = node(5, 0, [node(4, 3, [one, symbol(0)]), one])
    farthest = node(3, 2, [b""]) * 28 + node(6, 0, [node(1, value=1)] * 222 + [inverse])
    yield "a longer one, then the total", farthest, b"a:p\n0000000000000000"


# ---- outputs written out

# 1 / a below 1, else Exp(a); a line for each answer, and their records
EACH = node(8, 0, [node(5, 0, [symbol(0), number(1.0)]), node(4, 3, [number(1.0), symbol(0)]), node(7, 0, [symbol(0)])])
FIVE = b"a:p\nbff0000000000000\n0000000000000000\n4000000000000000\nx\n\n"
FIVE_RECORDS = b"1,value,bff0000000000000,9\n2,domain,root.then,6\n3,ask,0:4000000000000000,5\n4,bad,3,0\n5,bad,5,0\n"


def worked_outputs():
    """Formula, input and the whole output."""
    one = number(1.0)
    values = b"4056800000000000,4072c00000000000,4079000000000000,4069000000000000,"
    flights = b"climb:p,burn:p,distance:i,tas:i,wind:i\n" + values + b"0000000000000000\n" + values + b"c069000000000000\n"
    yield "the worked flights", faults.FLIGHT, flights, \
        HEADER + b"1,value,4085900000000000,9\n2,domain,root.arguments[1],7\ntotal,1,1,0,0,16\n"
    yield "each answer", EACH, FIVE, HEADER + FIVE_RECORDS + b"total,1,1,1,2,20\n"
    yield "two empty lines", one, b"\n\n\n", HEADER + b"1,value,3ff0000000000000,1\n2,value,3ff0000000000000,1\ntotal,2,0,0,0,2\n"
    yield "an empty name line", one, b"\n", HEADER + b"total,0,0,0,0,0\n"
    yield "an empty input", one, b"", HEADER + b"total,0,0,0,0,0\n"
    yield "no file", None, FIVE, HEADER + b"0,refused,1:,0\ntotal,0,0,0,0,0\n"


def faulty_outputs():
    """The same of formula files with a fault in their bytes."""
    longer = "256 Mins of 65,535 and a byte", faults.MOST * 256 + b"\0", faults.NAMES, "1:"
    for name, formula, names, detail in itertools.chain(faults.formulas(), [longer]):
        yield name, formula, names + b"\n", HEADER + b"0,refused,%s,0\ntotal,0,0,0,0,0\n" % detail.encode()


# ---- the zeros of Min and Max: -0 below +0, in every order

def zero_tables():
    """Formula, lines and the whole output, written out here."""
    pairs = b"".join(b"%s,%s\n" % (a, b) for a in (PLUS, MINUS) for b in (PLUS, MINUS))
    least, most = node(7, 11, [symbol(0), symbol(1)]), node(7, 12, [symbol(0), symbol(1)])
    for name, formula, zeros in [("Min", least, (PLUS, MINUS, MINUS, MINUS)), ("Max", most, (PLUS, PLUS, PLUS, MINUS))]:
        yield name, formula, b"a:p,b:p\n" + pairs, whole(b"".join(b"%d,value,%s,3\n" % row for row in enumerate(zeros, 1)))
        asked = b"".join(b"%d,ask,0:%s,3\n" % row for row in enumerate(zeros, 1))
        yield "Exp of " + name, node(7, 0, [formula]), b"a:p,b:p\n" + pairs, whole(asked)
    # three and four values: every order of 1, +0, -0, 2 under Min and of -1, -0, +0 under Max
    for name, call, values, zero in [("Min", 11, (1.0, 0.0, -0.0, 2.0), MINUS), ("Max", 12, (-1.0, -0.0, 0.0), PLUS)]:
        orders = list(itertools.permutations(b"%016x" % bits(v) for v in values))
        names = b",".join(b"%c:p" % c for c in b"abcd"[:len(values)])
        want = b"".join(b"%d,value,%s,%d\n" % (i, zero, len(values) + 1) for i in range(1, len(orders) + 1))
        yield name + " in every order", node(7, call, [symbol(i) for i in range(len(values))]), names + b"\n" + b"".join(b",".join(o) + b"\n" for o in orders), whole(want)


# ---- around line 1,000,000, the last that is listed

def limit_cases():
    """Formula, input and the end of the output, written out. An empty last line without a newline is no line, so a last line without one
    has a byte here."""
    one = number(1.0)
    full = b"1000000,value,3ff0000000000000,1\ntotal,1000000,0,0,0,1000000\n"
    for count, end, bad in [
        (999999, b"999999,value,3ff0000000000000,1\ntotal,999999,0,0,0,999999\n", b"999999,bad,3,0\ntotal,999998,0,0,1,999998\n"),
        (1000000, full, b"1000000,bad,3,0\ntotal,999999,0,0,1,999999\n"),
        (1000001, full, full),
    ]:
        yield "%d empty lines" % count, one, b"\n" + b"\n" * count, end
        yield "%d lines, the last one malformed" % count, one, b"\n" * count + b"x\n", bad
        yield "%d lines, the last one malformed and without a newline" % count, one, b"\n" * count + b"x", bad
    million = FIVE + b"\n" * 999994 + b"bff0000000000000"
    end = b"999999,bad,5,0\n1000000,value,bff0000000000000,9\ntotal,2,1,1,999996,29\n"
    for more in (b"", b"\n", b"\n\n", b"\nx", b"\nbff0000000000000", b"\nbff0000000000000\n", b"\n" * 1000000, b"\n" + b"0" * 1000000):
        yield "each answer, 1000000 lines and %d bytes more" % len(more), EACH, million + more, end


def cuts_at_limit(data):
    """Cuts near the newline of line 1,000,000, or near the input's end: it is a block, it ends one, it is in one with bytes of the lines on
    both sides; each byte there is a block."""
    end = len(b"\n".join(data.split(b"\n", LIMIT + 1)[:LIMIT + 1]))
    return [end, end + 1], [end + 1], [end - 3, end + 5], range(end - 20, end + 20)


def endless():
    """Empty lines without end, two million of them at once."""
    return itertools.chain([b"\n" * 2000000], itertools.repeat(b"\n"))


# ---- the comparison

class Tally:
    """Records compared, outputs that differ, and records with a zero of the other sign in Rust."""

    def __init__(self):
        self.records = self.wrong = self.zeros = 0

    def count(self, want):
        """Header and total are no records."""
        self.records += want.count(b"\n") - 2

    def hold(self, good, name, got, want):
        """Where two outputs aren't the same, says from which byte on."""
        if not good:
            self.wrong += 1
            at = bisect.bisect_left(range(1, min(len(got), len(want)) + 1), True, key=lambda n: got[:n] != want[:n])
            near = slice(max(at - 100, 0), at + 200)
            print("differs:", name, "at byte", at, got[near], want[near])


def try_fixed(tally, legs, oracle):
    for name, formula, data in fixed_cases():
        want, got = expected(oracle, formula, data), run(legs, formula, data)
        tally.count(want)
        tally.hold(same(formula, got, want), name, got, want)
        for step in (1, 2, 7, 16, 17) if len(data) < 2000 else ():
            cut = run(legs, formula, data, range(step, len(data), step))
            tally.hold(cut == got, "%s, in blocks of %d" % (name, step), cut, got)


def try_written(tally, legs, oracle):
    for name, formula, data, want in itertools.chain(worked_outputs(), faulty_outputs(), zero_tables()):
        tally.count(want)
        got, rust = run(legs, formula, data), expected(oracle, formula, data)
        tally.hold(got == want, name, got, want)
        tally.hold(same(formula, rust, want), name + ", by the reference", rust, want)


def try_limit(tally, legs, oracle):
    for name, formula, data, end in limit_cases():
        want = expected(oracle, formula, data)
        tally.count(want)
        tally.hold(want.endswith(b"\n" + end), name + ", by the reference", want[-len(end):], end)
        for cuts in ((), *cuts_at_limit(data)):
            got = run(legs, formula, data, cuts)
            tally.hold(got == want, "%s, cut at %s" % (name, list(cuts)), got, want)


def try_endless(tally, legs, oracle):
    for name, formula in [("a million records", number(1.0)), ("no file", None), ("refused", symbol(0))]:
        want, got = expected(oracle, formula, b"\n" + b"\n" * LIMIT), run_blocks(legs, formula, endless())
        tally.count(want)
        tally.hold(got == want, "an endless input, " + name, got, want)


def try_random(tally, legs, oracle, seed, cases):
    r = Generator(seed)
    for case in range(cases):
        formula, data = random_case(r)
        want = expected(oracle, formula, data)
        cuts = ()
        if r.chance(0.3):
            cuts = sorted(r.randrange(len(data) + 1) for _ in range(r.choice([1, 2, 5, 30])))
        got = run(legs, formula, data, cuts)
        tally.count(want)
        good = same(formula, got, want)
        tally.hold(good, "case %d of seed %d %s %s" % (case, seed, formula.hex(), data[:300]), got, want)
        if good:
            tally.zeros += sum(a != b for a, b in zip(lines_of(got), lines_of(want)))


def main():
    legs, oracle = os.path.abspath(sys.argv[1]), os.path.abspath(sys.argv[2])
    seed = int(sys.argv[3]) if len(sys.argv) > 3 else 1
    cases = int(sys.argv[4]) if len(sys.argv) > 4 else 1000
    tally = Tally()
    try_fixed(tally, legs, oracle)
    try_written(tally, legs, oracle)
    try_limit(tally, legs, oracle)
    try_endless(tally, legs, oracle)
    try_random(tally, legs, oracle, seed, cases)
    print("%d cases, %d lines, %d differ; %d lines of formulas with Min or Max have a zero of the other sign in Rust"
          % (cases, tally.records, tally.wrong, tally.zeros))
    sys.exit(1 if tally.wrong else 0)


if __name__ == "__main__":
    main()
