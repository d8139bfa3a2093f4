// The latency of `leaf::root` against the hardware's square root, in one run.
// Each call's argument waits for the call before it. A chain of 1,024 calls is timed, and the shortest of many such times counts.
// Both are calls of functions that are not inlined; a chain of bare additions is taken off both.
#include <math.h>
#include <stdint.h>
#include <stdio.h>
#include <string.h>
#include <time.h>

double bench_root(double x);

__attribute__((noinline)) static double hardware(double x) {
    __asm__ volatile("");
    return __builtin_sqrt(x);
}

__attribute__((noinline)) static double nothing(double x) {
    __asm__ volatile("");
    return x;
}

enum { CHAIN = 1024, RUNS = 20000 };

static double steps[CHAIN];

static double seconds(void) {
    struct timespec t;
    clock_gettime(CLOCK_MONOTONIC, &t);
    return t.tv_sec + 1e-9 * t.tv_nsec;
}

static uint64_t state = 88172645463325252u;

static uint64_t next(void) {
    state ^= state << 13;
    state ^= state >> 7;
    state ^= state << 17;
    return state;
}

// nanoseconds for one call of f in a chain
#define LATENCY(best, f)                                    \
    do {                                                    \
        double y = 1, t = seconds();                        \
        for (int i = 0; i < CHAIN; i++) y = f(y + steps[i]); \
        t = (seconds() - t) * 1e9 / CHAIN;                  \
        sink += y;                                          \
        if (t < best) best = t;                             \
    } while (0)

// all patterns that are no NaN: the two roots must have the same bits
static long differing(long count) {
    long found = 0;
    for (long i = 0; i < count; i++) {
        uint64_t bits = next();
        double x, a, b;
        if (i % 4 == 0) bits >>= 12;
        else bits &= 0x7fffffffffffffff;
        memcpy(&x, &bits, 8);
        if (x != x) continue;
        a = bench_root(x);
        b = hardware(x);
        found += memcmp(&a, &b, 8) != 0;
    }
    return found;
}

int main(void) {
    double root = 1e9, hard = 1e9, none = 1e9, sink = 0;
    for (int i = 0; i < CHAIN; i++) steps[i] = 1 + (next() >> 11) * 0x1p-53 * 1000;
    for (int run = 0; run < RUNS; run++) {
        LATENCY(root, bench_root);
        LATENCY(hard, hardware);
        LATENCY(none, nothing);
    }
    printf("root %.2f ns, hardware %.2f ns, call and addition %.2f ns\n", root, hard, none);
    printf("root / hardware: %.2f with call and addition, %.2f without\n", root / hard, (root - none) / (hard - none));
    printf("%ld of 10000000 roots differ\n", differing(10000000));
    return sink == 0;
}
