#include "cases.h"
#include "lent.h"
#include "urgyelpat.h"

static void factor(const char *about, size_t n, numbers p, numbers u, numbers d, uint64_t answer, numbers u_left,
                   numbers d_left)
{
    for (placement where = 0; where < PLACEMENTS; where++) {
        lent matrix = lend_numbers(p, where), upper = lend_numbers(u, where), diagonal = lend_numbers(d, where);
        called("udu_factor", about, where);
        answered(urgyelpat_udu_factor(numbers_at(&matrix), p.length, numbers_at(&upper), u.length, numbers_at(&diagonal),
                                      d.length, n),
                 answer);
        left_numbers(matrix, "p", p);
        left_numbers(upper, "u", u_left);
        left_numbers(diagonal, "d", d_left);
    }
}

static void refused(const char *about, size_t n, numbers p, numbers u, numbers d, uint64_t answer)
{
    factor(about, n, p, u, d, answer, u, d);
}

#define BLOCK_ORDER 20

/* The calls on the blocks of rows and columns m to n - 1, for every m, by what the call on the whole answers and leaves. */
static void blocks(const char *about, size_t n, numbers p, uint64_t answer, numbers u_left, numbers d_left)
{
    static double block[BLOCK_ORDER * BLOCK_ORDER], tail[BLOCK_ORDER * BLOCK_ORDER], unwritten[BLOCK_ORDER * BLOCK_ORDER];
    for (size_t m = 0; m < n; m++) {
        size_t order = n - m, place = answer % 4096;
        for (size_t j = 0; j < order; j++)
            for (size_t i = 0; i < order; i++) {
                block[i + j * order] = i <= j ? p.at[m + i + (m + j) * n] : KEPT;
                tail[i + j * order] = u_left.at[m + i + (m + j) * n];
                unwritten[i + j * order] = KEPT;
            }
        numbers u = {unwritten, order * order}, d = {unwritten, order};
        numbers u_tail = {tail, order * order}, d_tail = {d_left.at + m, order};
        factor(about, order, (numbers){block, order * order}, u, d, answer != 0 && place >= m ? ANSWER(8, place - m) : 0,
               u_tail, d_tail);
    }
}

static void factor_and_blocks(const char *about, size_t n, numbers p, numbers u, numbers d, uint64_t answer, numbers u_left,
                              numbers d_left)
{
    factor(about, n, p, u, d, answer, u_left, d_left);
    blocks(about, n, p, answer, u_left, d_left);
}

/* Matrices by chance, and others of whole numbers from -2 to 2, of which some are refused. */
static void blocks_by_chance(void)
{
    static double p[BLOCK_ORDER * BLOCK_ORDER], u[BLOCK_ORDER * BLOCK_ORDER], d[BLOCK_ORDER];
    uint32_t state = 11;
    for (size_t n = 1; n <= BLOCK_ORDER; n++)
        for (int integers = 0; integers < 2; integers++) {
            for (size_t at = 0; at < n * n; at++) {
                double x = by_chance(&state);
                p[at] = integers ? (double)(int)(6 * x) : x;
            }
            uint64_t answer = urgyelpat_udu_factor(p, n * n, u, n * n, d, n, n);
            blocks(integers ? "a block of whole numbers" : "a block", n, (numbers){p, n * n}, answer, (numbers){u, n * n},
                   (numbers){d, n});
        }
}

static double zeros[1024 * 1024], ones[1024 * 1024];

void udu_cases(void)
{
    numbers u1 = NUMBERS(KEPT), d1 = NUMBERS(7);
    factor("49", 1, NUMBERS(49), u1, d1, 0, NUMBERS(from_bits(0x3fefffffffffffff)), NUMBERS(49));
    factor("2", 1, NUMBERS(2), u1, d1, 0, NUMBERS(1), NUMBERS(2));
    factor("a NaN", 1, NUMBERS(NAN), u1, d1, 0, NUMBERS(NAN), NUMBERS(NAN));
    factor("infinity", 1, NUMBERS(INF), u1, d1, 0, NUMBERS(NAN), NUMBERS(INF));
    factor("zero", 1, NUMBERS(0), u1, d1, ANSWER(8, 0), NUMBERS(0), NUMBERS(0));
    factor("minus zero", 1, NUMBERS(-0.0), u1, d1, ANSWER(8, 0), NUMBERS(0), NUMBERS(-0.0));

    numbers u2 = NUMBERS(KEPT, 1, 2, 3), d2 = NUMBERS(KEPT, 7);
    factor_and_blocks("order 2", 2, NUMBERS(5, KEPT, 2, 1), u2, d2, 0, NUMBERS(1, 0, 2, 1), NUMBERS(1, 1));
    factor_and_blocks("order 2, zero at column 0", 2, NUMBERS(4, KEPT, 2, 1), u2, d2, ANSWER(8, 0), NUMBERS(0, 0, 2, 1),
                      NUMBERS(0, 1));
    factor_and_blocks("order 2, zero at column 1", 2, NUMBERS(4, KEPT, 2, 0), u2, d2, ANSWER(8, 1), NUMBERS(0, 0, 0, 0),
                      NUMBERS(0, 0));

    numbers u3 = NUMBERS(KEPT, 1, 2, 3, 4, 5, 6, 7, 8), d3 = NUMBERS(KEPT, 7, 7);
    factor_and_blocks("order 3", 3, NUMBERS(20, KEPT, KEPT, 10, 6, KEPT, 4, 2, 2), u3, d3, 0,
                      NUMBERS(1, 0, 0, 1.5, 1, 0, 2, 1, 1), NUMBERS(3, 4, 2));
    factor_and_blocks("order 3, zero at column 0", 3, NUMBERS(17, KEPT, KEPT, 10, 6, KEPT, 4, 2, 2), u3, d3, ANSWER(8, 0),
                      NUMBERS(0, 0, 0, 1.5, 1, 0, 2, 1, 1), NUMBERS(0, 4, 2));
    factor_and_blocks("order 3, zero at column 1", 3, NUMBERS(17, KEPT, KEPT, 10, 2, KEPT, 4, 2, 2), u3, d3, ANSWER(8, 1),
                      NUMBERS(0, 0, 0, 0, 0, 0, 2, 1, 1), NUMBERS(0, 0, 2));
    factor_and_blocks("order 3, zero at column 2", 3, NUMBERS(17, KEPT, KEPT, 10, 2, KEPT, 4, 2, 0), u3, d3, ANSWER(8, 2),
                      NUMBERS(0, 0, 0, 0, 0, 0, 0, 0, 0), NUMBERS(0, 0, 0));
    factor_and_blocks("order 3, minus zero at column 2", 3, NUMBERS(17, KEPT, KEPT, 10, 2, KEPT, 4, 2, -0.0), u3, d3,
                      ANSWER(8, 2), NUMBERS(0, 0, 0, 0, 0, 0, 0, 0, 0), NUMBERS(0, 0, -0.0));
    blocks_by_chance();

    numbers p2 = NUMBERS(5, KEPT, 2, 1);
    refused("order 0", 0, NO_NUMBERS, NO_NUMBERS, NO_NUMBERS, ANSWER(1, 0));
    refused("order 0 of something", 0, p2, u2, d2, ANSWER(1, 0));
    refused("order 1025", 1025, p2, u2, d2, ANSWER(1, 0));
    refused("the largest order", SIZE_MAX, NO_NUMBERS, NO_NUMBERS, NO_NUMBERS, ANSWER(1, 0));
    refused("a matrix one short", 2, NUMBERS(5, KEPT, 2), u1, d1, ANSWER(3, 0));
    refused("a matrix one long", 2, NUMBERS(5, KEPT, 2, 1, 1), u2, d2, ANSWER(3, 0));
    refused("u one short", 2, p2, NUMBERS(1, 2, 3), d2, ANSWER(4, 0));
    refused("u one long", 2, p2, NUMBERS(1, 2, 3, 4, 5), d2, ANSWER(4, 0));
    refused("d one short", 2, p2, u2, NUMBERS(1), ANSWER(4, 0));
    refused("d one long", 2, p2, u2, NUMBERS(1, 2, 3), ANSWER(4, 0));
    refused("no u and no d", 2, p2, NO_NUMBERS, NO_NUMBERS, ANSWER(4, 0));

    for (size_t i = 0; i < 1024 * 1024; i++)
        ones[i] = 1;
    numbers p = {zeros, 1024 * 1024}, u = {ones, 1024 * 1024}, d = {ones, 1024};
    numbers u_left = {zeros, 1024 * 1024}, d_left = {zeros, 1024};
    factor("order 1024, zero at column 1023", 1024, p, u, d, ANSWER(8, 1023), u_left, d_left);
}
