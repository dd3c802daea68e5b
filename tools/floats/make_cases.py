#!/usr/bin/env python3
"""Write crates/float_cases/stdin and stdout: recorded cases of Sqrt, Floor, Ceil, Modulo, Min, Max, bits, abs, is_whole, is_finite.

A record is 82 bytes: the operation's letter, five words of 16 hexadecimal digits (up to four values, zeros after them, and the result's bits) and a newline.
The answers are of Python's math module, which has them from the C library, and each root, floor, ceiling and remainder is worked out a
second time with whole numbers (fractions.Fraction, math.isqrt); the two must agree. Min and Max are the ends of the sorted numbers, -0 before +0,
unless a NaN comes first. The arguments are specials, subnormals, ends of range,
neighbours of squares and of half way cases, and bits of a fixed random sequence, so the files come out the same each time.
"""
import itertools, math, random, struct, sys
from fractions import Fraction

R = random.Random(754)
NAN = 0x7ff8000000000000

def of(n):
    return struct.unpack('<d', struct.pack('<Q', n))[0]

def bits(x):
    return NAN if x != x else struct.unpack('<Q', struct.pack('<d', x))[0]

def rounded(num, den):
    """The bits of num / den > 0, rounded to the nearest, ties to even, from whole numbers alone."""
    k = max(num.bit_length() - den.bit_length() - 53, -1074)
    while True:
        n, d = (num, den << k) if k >= 0 else (num << -k, den)
        q, r = divmod(n, d)
        if q < 1 << 53:
            break
        k += 1
    q += 2 * r > d or (2 * r == d and q & 1)
    if q == 1 << 53:
        q, k = q >> 1, k + 1
    return (k + 1074 << 52) + q if q >= 1 << 52 else q

def sqrt(x):
    if x != x or x < 0:
        return math.nan
    if x == 0 or math.isinf(x):
        return x
    y = math.sqrt(x)
    f = Fraction(x)
    # the root's 54 digits and a sticky one, scaled by an even power of two
    s = 2 * ((120 + f.denominator.bit_length()) // 2 + 1)
    n = (f.numerator << 2 * s) // f.denominator
    r = math.isqrt(n)
    exact = r * r == n and (f.numerator << 2 * s) % f.denominator == 0
    assert bits(y) == rounded(2 * r + (not exact), 2 << s), x
    return y

def signed_zero(x, n):
    return math.copysign(float(n), x)

def floor(x):
    if not math.isfinite(x):
        return x
    n = Fraction(x).__floor__()
    assert math.floor(x) == n
    return signed_zero(x, n)

def ceil(x):
    if not math.isfinite(x):
        return x
    n = Fraction(x).__ceil__()
    assert math.ceil(x) == n
    return signed_zero(x, n)

def modulo(a, b):
    if a != a or b != b or math.isinf(a) or b == 0:
        return math.nan
    r = math.fmod(a, b)
    if math.isfinite(b):
        f, g = abs(Fraction(a)), abs(Fraction(b))
        assert abs(Fraction(r)) == f - g * (f // g) and math.copysign(1, r) == math.copysign(1, a)
    if r < 0:
        s = r + b
        return 0.0 if s >= b else s
    return r

def extremum(end, xs):
    """The first (0) or last (-1) of the numbers in IEEE 754-2019's order; a NaN where it comes first."""
    if xs[0] != xs[0]:
        return xs[0]
    return sorted((x for x in xs if x == x), key=lambda x: (x, math.copysign(1, x)))[end]

SPECIAL = [0.0, 5e-324, of(2), of(0xfffffffffffff), of(0x10000000000000), of(0x10000000000001), 1e-20, 0.25, 0.5, of(0x3fdfffffffffffff), of(0x3fe0000000000001),
           of(0x3fefffffffffffff), 1.0, of(0x3ff0000000000001), 1.5, 2.0, 2.5, 3.0, 4.0, 10.0, 2.0**31, 2.0**51 + 0.5, 2.0**52 - 0.5, 2.0**52, 2.0**52 + 1, 2.0**53 - 1, 2.0**53, 2.0**53 + 2,
           2.0**63, 2.0**64, 1e300, of(0x7fefffffffffffff), math.inf]
SPECIAL = SPECIAL + [-x for x in SPECIAL] + [math.nan]

def any_bits():
    return of(R.getrandbits(64))

def near(low, high):
    """A random value with an exponent from low to high, of either sign."""
    return math.ldexp(1 + R.random(), R.randint(low, high)) * R.choice([1, -1])

out = []

def put(letter, words, r):
    out.append(letter + ''.join('%016x' % w for w in words + [0] * (4 - len(words)) + [r]) + '\n')

def one(letter, f, xs):
    for x in xs:
        put(letter, [bits(x)], bits(f(x)))

def roots():
    yield from SPECIAL
    for _ in range(350):
        m = R.getrandbits(R.choice([10, 26, 27]))
        for d in (-1, 0, 1):
            yield of(bits(float(m * m)) + d) if m else 1.0
    for _ in range(300):
        # the square of a number half way between two values, and its neighbours
        m = (R.getrandbits(52) | 1 << 52) * 2 + 1
        x = math.ldexp(float(m * m), R.randint(-400, 400))
        yield x
    for _ in range(250):
        yield of(R.getrandbits(R.randint(1, 52)) | 1)
    for _ in range(450):
        yield of(R.getrandbits(63))
    for _ in range(50):
        yield any_bits()

def wholes():
    yield from SPECIAL
    for _ in range(250):
        yield near(-3, 55)
    for _ in range(60):
        yield (R.getrandbits(R.randint(1, 53)) + R.choice([0, 0.5, 0.25])) * R.choice([1, -1])
    for _ in range(60):
        yield any_bits()

def quotients():
    some = SPECIAL[::3] + [math.nan, -0.0, -1e-20]
    for a in some:
        for b in some:
            yield a, b
    for _ in range(250):
        b = abs(near(-5, 20))
        yield near(-5, 30), b
    for _ in range(150):
        b = float(R.getrandbits(20) + 1) / 8
        yield -b * R.getrandbits(20), b
    for _ in range(150):
        yield near(-80, -50), abs(near(-2, 10))
    for _ in range(100):
        yield near(1000, 1023), of(R.getrandbits(R.randint(1, 60)) | 1)
    for _ in range(100):
        yield any_bits(), abs(any_bits())

one('s', sqrt, roots())
one('f', floor, wholes())
one('c', ceil, wholes())
for a, b in quotients():
    put('m', [bits(a), bits(b)], bits(modulo(a, b)))
for letters, some in [('lg', SPECIAL[::4] + [math.nan, -0.0]), ('nx', [0.0, -0.0, math.nan, 5e-324, -5e-324, 1.0, -1.0]), ('NX', [0.0, -0.0, math.nan, 1.0, -1.0])]:
    for xs in itertools.product(some, repeat={'l': 2, 'n': 3, 'N': 4}[letters[0]]):
        for letter, end in zip(letters, (0, -1)):
            put(letter, [bits(x) for x in xs], bits(extremum(end, xs)))
for n in [bits(x) for x in SPECIAL] + [0x7ff0000000000001, 0x7fffffffffffffff, 0xfff0000000000001, 0xfff8000000000000, 0xffffffffffffffff] + [R.getrandbits(64) for _ in range(200)]:
    put('b', [n], bits(of(n)))
one('a', abs, SPECIAL + [any_bits() for _ in range(60)])
for x in SPECIAL + [near(-3, 55) for _ in range(150)] + [math.floor(near(-3, 55)) * 1.0 for _ in range(60)]:
    put('w', [bits(x)], int(math.isfinite(x) and x == math.floor(x)))
    put('i', [bits(x)], int(math.isfinite(x)))

folder = sys.argv[1] if len(sys.argv) > 1 else 'crates/float_cases'
open(folder + '/stdin', 'w').write(''.join(out))
open(folder + '/stdout', 'w').write('%d cases\nok\n' % len(out))
