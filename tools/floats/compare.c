/* floats' Sqrt, Floor, Ceil and Modulo beside the C library's on random bits, bit for bit.
   From the root of a scratch checkout with the crate float_exports in it (README.md):
   (cd crates/float_exports && rt lib) &&
   gcc -O2 -fno-builtin tools/floats/compare.c crates/float_exports/out/libfloat_exports.a -lm -o /tmp/compare && /tmp/compare 100000000 */
#include <math.h>
#include <stdint.h>
#include <stdio.h>
#include <stdlib.h>
#include <string.h>

double floats_sqrt(double), floats_floor(double), floats_ceil(double), floats_modulo(double, double);

static uint64_t state = 88172645463325252u;
static uint64_t next(void) { state ^= state << 13; state ^= state >> 7; state ^= state << 17; return state; }
static double of(uint64_t n) { double x; memcpy(&x, &n, 8); return x; }
static uint64_t bits(double x) { uint64_t n; if (x != x) return 0x7ff8000000000000u; memcpy(&n, &x, 8); return n; }

static double modulo_c(double x, double y) {
    double r = fmod(x, y);
    if (r < 0) { r += y; if (r >= y) return 0; }
    return r;
}

static long wrong;
static void same(const char *name, double x, double y, double a, double b) {
    if (bits(a) != bits(b) && wrong++ < 10) printf("%s %016lx %016lx: %016lx %016lx\n", name, bits(x), bits(y), bits(a), bits(b));
}

int main(int argc, char **argv) {
    long count = argc > 1 ? atol(argv[1]) : 10000000;
    for (long i = 0; i < count; i++) {
        double x = of(next()), y = of(next());
        double m = ldexp(1 + (next() >> 12) * 0x1p-52, (int)(next() % 70) - 10), s = (next() & 1) ? m : -m;
        double d = ldexp(1 + (next() >> 12) * 0x1p-52, (int)(next() % 70) - 40);
        same("sqrt", x, 0, floats_sqrt(x), sqrt(x));
        same("sqrt", m, 0, floats_sqrt(m), sqrt(m));
        same("sqrt", m * m, 0, floats_sqrt(m * m), sqrt(m * m));
        same("floor", s, 0, floats_floor(s), floor(s));
        same("ceil", s, 0, floats_ceil(s), ceil(s));
        same("floor", x, 0, floats_floor(x), floor(x));
        same("ceil", x, 0, floats_ceil(x), ceil(x));
        same("modulo", s, d, floats_modulo(s, d), modulo_c(s, d));
        if (i % 16 == 0) same("modulo", x, y, floats_modulo(x, y), modulo_c(x, y));
    }
    printf("%ld turns, %ld differences\n", count, wrong);
    return wrong != 0;
}
