/* Nanoseconds a call of floats' Sqrt, Floor, Ceil and Modulo beside the C library's, in one run on the same arguments.
   From the root of a scratch checkout with the crate float_exports in it (README.md):
   (cd crates/float_exports && rt lib) &&
   gcc -O2 -fno-builtin tools/floats/speed.c crates/float_exports/out/libfloat_exports.a -lm -o /tmp/speed && /tmp/speed
   -fno-builtin makes sqrt, floor, ceil and fmod calls. */
#include <math.h>
#include <stdint.h>
#include <stdio.h>
#include <string.h>
#include <time.h>

double floats_sqrt(double), floats_floor(double), floats_ceil(double), floats_modulo(double, double);
double work_value(uint64_t, double, double, double);

enum { N = 4096, TURNS = 2000 };
static double a[N], b[N];
static uint64_t state = 88172645463325252u;
static uint64_t next(void) { state ^= state << 13; state ^= state >> 7; state ^= state << 17; return state; }
static double of(uint64_t n) { double x; memcpy(&x, &n, 8); return x; }
static double now(void) { struct timespec t; clock_gettime(CLOCK_MONOTONIC, &t); return t.tv_sec * 1e9 + t.tv_nsec; }

static double modulo_c(double x, double y) {
    double r = fmod(x, y);
    if (r < 0) { r += y; if (r >= y) return 0; }
    return r;
}

static double one(double (*f)(double)) {
    volatile double sink = 0;
    double best = 1e30;
    for (int k = 0; k < 5; k++) {
        double t = now(), s = 0;
        for (int j = 0; j < TURNS / 5; j++) for (int i = 0; i < N; i++) s += f(a[i]);
        t = (now() - t) / (TURNS / 5) / N;
        sink += s;
        if (t < best) best = t;
    }
    return best;
}

/* each call waits for the one before */
static double chained(double (*f)(double)) {
    volatile double sink = 0;
    double best = 1e30;
    for (int k = 0; k < 5; k++) {
        double t = now(), s = 0;
        for (int j = 0; j < TURNS / 5; j++) for (int i = 0; i < N; i++) s = f(a[i] + 1e-300 * s);
        t = (now() - t) / (TURNS / 5) / N;
        sink += s;
        if (t < best) best = t;
    }
    return best;
}

static double two(double (*f)(double, double)) {
    volatile double sink = 0;
    double best = 1e30;
    for (int k = 0; k < 5; k++) {
        double t = now(), s = 0;
        for (int j = 0; j < TURNS / 5; j++) for (int i = 0; i < N; i++) s += f(a[i], b[i]);
        t = (now() - t) / (TURNS / 5) / N;
        sink += s;
        if (t < best) best = t;
    }
    return best;
}

static uint64_t opcode;
static double work(double x, double y) { return work_value(opcode, x, y, 1); }

int main(void) {
    for (int i = 0; i < N; i++) a[i] = of(next() & 0x7fffffffffffffffu), a[i] = isfinite(a[i]) ? a[i] : 2.0;
    printf("any positive f64:     sqrt %.1f ns, libm %.1f ns\n", one(floats_sqrt), one(sqrt));
    for (int i = 0; i < N; i++) a[i] = (double)(next() % 1000000000) / 1000;
    printf("0 to 1e6:             sqrt %.1f ns, libm %.1f ns; chained %.1f ns, libm %.1f ns\n", one(floats_sqrt), one(sqrt), chained(floats_sqrt), chained(sqrt));
    for (int i = 0; i < N; i++) a[i] = of(next() % 0x10000000000000u + 1);
    printf("subnormal:            sqrt %.1f ns, libm %.1f ns\n", one(floats_sqrt), one(sqrt));
    for (int i = 0; i < N; i++) a[i] = (double)(int64_t)(next() % 2000000000 - 1000000000) / 1000, b[i] = (double)(next() % 1000000 + 1) / 1000;
    printf("-1e6 to 1e6:          floor %.1f ns, libm %.1f ns; ceil %.1f ns, libm %.1f ns\n", one(floats_floor), one(floor), one(floats_ceil), one(ceil));
    printf("-1e6 to 1e6 by 1e3:   modulo %.1f ns, fmod and the same sum %.1f ns\n", two(floats_modulo), two(modulo_c));
    static const struct { int number; const char *name; } operations[] = {{6, "negative"}, {8, "add"}, {11, "divide"}, {13, "modulo"}, {14, "less"}, {23, "sqrt"}, {29, "floor"}, {33, "hill"}};
    for (unsigned i = 0; i < sizeof operations / sizeof *operations; i++) {
        opcode = operations[i].number;
        printf("one node's work:      %s %.1f ns\n", operations[i].name, two(work));
    }
    return 0;
}
