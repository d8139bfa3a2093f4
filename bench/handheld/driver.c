/* The handheld's calls beside the lent ones at order 3: lent time over handheld time, the median of turns. In each turn
 * both are timed one after the other over all matrices, first the one and in the next turn first the other. There are so
 * many matrices that no branch is foretold from the turn before. Both sides do what a caller does: the lent calls work in
 * place, so that the nine numbers and the side are copied before. */
#define _POSIX_C_SOURCE 199309L
#include "urgyelpat.h"
#include <stdio.h>
#include <stdlib.h>
#include <string.h>
#include <time.h>

#define MATRICES ((size_t)65536)
#define TURNS 41
#define ORDER ((size_t)3)
#define NUMBERS ((size_t)9)
#define WORDS ((size_t)8)
#define RUN ((uint32_t)7)

/* ---- what is measured */

typedef enum { BOTH, FACTOR, SOLVE } which;
typedef enum { RANDOM, HEAVY, SMALL } kind; /* of a diagonal; a small one gives many blocks of two */

static const struct {
    const char *name;
    kind of;
    which calls;
} rows[] = {
    {"factor and solve, random symmetric", RANDOM, BOTH}, {"factor and solve, heavy diagonal", HEAVY, BOTH},
    {"factor and solve, small diagonal", SMALL, BOTH},    {"factor alone, random symmetric", RANDOM, FACTOR},
    {"factor alone, heavy diagonal", HEAVY, FACTOR},      {"factor alone, small diagonal", SMALL, FACTOR},
    {"solve alone, random symmetric", RANDOM, SOLVE},     {"solve alone, heavy diagonal", HEAVY, SOLVE},
    {"solve alone, small diagonal", SMALL, SOLVE},
};
#define ROWS (sizeof rows / sizeof *rows)

typedef struct {
    double a[NUMBERS];
    uint32_t record[WORDS];
} lent_factor;

static urgyelpat_matrix3 given[MATRICES];
static urgyelpat_column3 sides[MATRICES];
static lent_factor lent[MATRICES];
static urgyelpat_factored3 by_value[MATRICES];
static urgyelpat_column3 solved_lent[MATRICES], solved_by_value[MATRICES];

static double unit(uint64_t *state)
{
    *state = *state * 6364136223846793005u + 1442695040888963407u;
    return (double)(*state >> 11) / 9007199254740992.0;
}

static void fill(kind of)
{
    uint64_t state = 1;
    for (size_t m = 0; m < MATRICES; m++)
        for (size_t j = 0; j < ORDER; j++) {
            for (size_t i = j; i < ORDER; i++) {
                const double number = 2.0 * unit(&state) - 1.0;
                given[m].column[j].row[i] = given[m].column[i].row[j] = i != j        ? number
                                                                        : of == HEAVY ? number + 4.0
                                                                        : of == SMALL ? number / 100.0
                                                                                      : number;
            }
            sides[m].row[j] = 2.0 * unit(&state) - 1.0;
        }
}

/* ---- the two sides */

static uint64_t factor_lent(const urgyelpat_matrix3 *matrix, lent_factor *to)
{
    memcpy(to->a, matrix, sizeof to->a);
    return urgyelpat_lblt_factor(to->a, NUMBERS, to->record, WORDS, ORDER, RUN);
}

static uint64_t solve_lent(const lent_factor *factor, const urgyelpat_column3 *side, urgyelpat_column3 *to)
{
    *to = *side;
    return urgyelpat_lblt_solve(factor->a, NUMBERS, factor->record, WORDS, to->row, ORDER, ORDER, 1, RUN);
}

static uint64_t call_lent(which calls, size_t m)
{
    lent_factor factor;
    switch (calls) {
    case FACTOR:
        return factor_lent(&given[m], &lent[m]);
    case SOLVE:
        return solve_lent(&lent[m], &sides[m], &solved_lent[m]);
    case BOTH:
        break;
    }
    const uint64_t answer = factor_lent(&given[m], &factor);
    return answer != URGYELPAT_DONE ? answer : solve_lent(&factor, &sides[m], &solved_lent[m]);
}

static uint64_t solve_by_value(const urgyelpat_factored3 *factor, const urgyelpat_column3 *side, urgyelpat_column3 *to)
{
    const urgyelpat_solved3 solved = urgyelpat_handheld_solve(factor->matrix, factor->pivots, *side);
    *to = solved.side;
    return solved.answer;
}

static uint64_t call_by_value(which calls, size_t m)
{
    switch (calls) {
    case FACTOR:
        by_value[m] = urgyelpat_handheld_factor(given[m]);
        return URGYELPAT_DONE;
    case SOLVE:
        return solve_by_value(&by_value[m], &sides[m], &solved_by_value[m]);
    case BOTH:
        break;
    }
    const urgyelpat_factored3 factor = urgyelpat_handheld_factor(given[m]);
    return solve_by_value(&factor, &sides[m], &solved_by_value[m]);
}

/* ---- turns */

static void must(int held, const char *what)
{
    if (!held) {
        fprintf(stderr, "%s\n", what);
        exit(1);
    }
}

/* The process's own time, in which nothing else that the machine does is counted. */
static double now(void)
{
    struct timespec t;
    clock_gettime(CLOCK_PROCESS_CPUTIME_ID, &t);
    return (double)t.tv_sec * 1e9 + (double)t.tv_nsec;
}

typedef enum { LENT, BY_VALUE, WAYS } way;

/* Nanoseconds for one matrix. */
static double spent(which calls, way by)
{
    uint64_t answers = 0;
    const double began = now();
    if (by == LENT)
        for (size_t m = 0; m < MATRICES; m++)
            answers |= call_lent(calls, m);
    else
        for (size_t m = 0; m < MATRICES; m++)
            answers |= call_by_value(calls, m);
    const double ended = now();
    must(answers == URGYELPAT_DONE, "a call did not do its work");
    return (ended - began) / (double)MATRICES;
}

/* The factors of both sides, which a solve alone starts from; and that both do the same. */
static void prepare(kind of)
{
    fill(of);
    for (size_t m = 0; m < MATRICES; m++) {
        uint64_t answers = call_lent(FACTOR, m) | call_by_value(FACTOR, m);
        answers |= call_lent(SOLVE, m) | call_by_value(SOLVE, m);
        must(answers == URGYELPAT_DONE, "a call did not do its work");
        must(memcmp(lent[m].a, &by_value[m].matrix, sizeof lent[m].a) == 0, "the two factors differ");
        for (size_t i = 0; i < ORDER; i++)
            must(lent[m].record[2 * i] == by_value[m].pivots.index[i] &&
                     lent[m].record[2 * i + 1] == by_value[m].pivots.size[i],
                 "the two pivots differ");
        must(memcmp(&solved_lent[m], &solved_by_value[m], sizeof solved_lent[m]) == 0, "the two solutions differ");
    }
}

static int smaller(const void *x, const void *y)
{
    const double a = *(const double *)x, b = *(const double *)y;
    return (a > b) - (a < b);
}

static double median(double *of)
{
    qsort(of, TURNS, sizeof(double), smaller);
    return of[TURNS / 2];
}

int main(int count, char **arguments)
{
    const char *only = count > 1 ? arguments[1] : "";
    printf("lent time over handheld time: above 1 the handheld is faster (nanoseconds: lent, handheld)\n");
    for (size_t row = 0; row < ROWS; row++) {
        if (strstr(rows[row].name, only) == NULL)
            continue;
        double ratios[TURNS], times[WAYS][TURNS];
        prepare(rows[row].of);
        for (size_t turn = 0; turn < TURNS; turn++) {
            for (unsigned k = 0; k < WAYS; k++) {
                const way by = (turn + k) % 2 == 0 ? LENT : BY_VALUE;
                times[by][turn] = spent(rows[row].calls, by);
            }
            ratios[turn] = times[LENT][turn] / times[BY_VALUE][turn];
        }
        printf("%-36s%6.2f   (%.1f, %.1f)\n", rows[row].name, median(ratios), median(times[LENT]), median(times[BY_VALUE]));
        fflush(stdout);
    }
    return 0;
}
