/* The calls on packed triangles beside those on the full layout: packed time over full time, the median of turns. In each
 * turn both are timed one after the other, first the one and in the next turn first the other. Small calls are timed many
 * at once, each on a copy of its own; what they write is restored before the clock starts. */
#define _POSIX_C_SOURCE 199309L
#include "urgyelpat.h"
#include <stdio.h>
#include <stdlib.h>
#include <string.h>
#include <time.h>

#define MOST ((size_t)URGYELPAT_LARGEST)
#define MANY ((size_t)64)
#define RUN ((uint32_t)7)

/* ---- what is measured */

typedef enum {
    LBLT_FACTOR,
    LBLT_SOLVE,
    LBLT_DETERMINANT,
    CHOLESKY_FACTOR,
    CHOLESKY_EXTEND,
    CHOLESKY_SOLVE,
    FIRST_TWIN
} which;
typedef enum { RANDOM, HEAVY, NEAR } kind;                                   /* of a matrix */
typedef enum { ONE_BY_ONE, BY_EIGHTHS, AT_ONCE, LAST_ROW, LAST_EIGHTH } cut; /* of the rows into batches */

static const struct {
    const char *name;
    which call;
    kind of;
    size_t columns;
    cut by;
} rows[] = {
    {"lblt factor, random symmetric", LBLT_FACTOR, RANDOM, 0, 0},
    {"lblt factor, heavy diagonal", LBLT_FACTOR, HEAVY, 0, 0},
    {"lblt solve, 1 column", LBLT_SOLVE, RANDOM, 1, 0},
    {"lblt solve, 8 columns", LBLT_SOLVE, RANDOM, 8, 0},
    {"lblt solve, 64 columns", LBLT_SOLVE, RANDOM, MANY, 0},
    {"lblt determinant", LBLT_DETERMINANT, RANDOM, 0, 0},
    {"cholesky factor", CHOLESKY_FACTOR, HEAVY, 0, 0},
    {"cholesky extend, all rows one by one", CHOLESKY_EXTEND, HEAVY, 0, ONE_BY_ONE},
    {"cholesky extend, all rows, n/8 at a time", CHOLESKY_EXTEND, HEAVY, 0, BY_EIGHTHS},
    {"cholesky extend, all rows at once", CHOLESKY_EXTEND, HEAVY, 0, AT_ONCE},
    {"cholesky extend, the last row", CHOLESKY_EXTEND, HEAVY, 0, LAST_ROW},
    {"cholesky extend, the last n/8 rows", CHOLESKY_EXTEND, HEAVY, 0, LAST_EIGHTH},
    {"cholesky solve, 1 column", CHOLESKY_SOLVE, HEAVY, 1, 0},
    {"cholesky solve, 64 columns", CHOLESKY_SOLVE, HEAVY, MANY, 0},
    {"first_twin, random rows", FIRST_TWIN, RANDOM, 0, 0},
    {"first_twin, rows that nearly agree", FIRST_TWIN, NEAR, 0, 0},
};
#define ROWS (sizeof rows / sizeof *rows)

static const size_t orders[] = {3, 8, 16, 32, 60, 128, 256, 512, 1024};
#define ORDERS (sizeof orders / sizeof *orders)

/* one row of the table at one order */
typedef struct {
    which call;
    size_t n, columns;
    size_t earlier, step; /* the rows from `earlier` on are handed in, `step` at a time */
    size_t copies;        /* calls, or chains of batches, that are timed at once */
} task;

/* ---- the memory: what is given, and what calls write */

static double *full, *packed, *end_to_end; /* a matrix or a factor; the rows as they came, one after the other */
static double *old;                        /* the packed factor of the rows before the batch */
static double *sides;
static uint32_t record[2 * URGYELPAT_LARGEST + 2];
static double *work_full, *work_packed, *work_sides;
static uint32_t *work_records;

static double unit(uint64_t *state)
{
    *state = *state * 6364136223846793005u + 1442695040888963407u;
    return (double)(*state >> 11) / 9007199254740992.0;
}

/* Random beside the diagonal; or all entries 1 but for one a row, so that no rows are twins and all nearly are. */
static void fill(kind of, size_t n)
{
    uint64_t state = 1;
    for (size_t j = 0; j < n; j++)
        for (size_t i = j; i < n; i++) {
            const double number = 2.0 * unit(&state) - 1.0;
            full[i + j * n] = of == NEAR              ? ((i ^ 1) == j ? 2.0 : 1.0)
                              : of == HEAVY && i == j ? number + 2.0 * (double)n
                                                      : number;
        }
}

static void pack(size_t room, size_t n, double *to)
{
    for (size_t j = 0; j < n; j++)
        for (size_t i = j; i < n; i++)
            *to++ = full[i + j * room];
}

static void done(uint64_t answer)
{
    if (answer != URGYELPAT_DONE) {
        fprintf(stderr, "a call did not do its work: code %u, place %u\n", urgyelpat_code(answer), urgyelpat_place(answer));
        exit(1);
    }
}

/* What the two calls are given, in both layouts. */
static void prepare(const task *t, kind of)
{
    const size_t n = t->n;
    uint64_t state = 2;
    fill(of, n);
    for (size_t i = 0; i < n * t->columns; i++)
        sides[i] = 2.0 * unit(&state) - 1.0;
    switch (t->call) {
    case LBLT_SOLVE:
    case LBLT_DETERMINANT:
        done(urgyelpat_lblt_factor(full, n * n, record, 2 * n + 2, n, RUN));
        break;
    case CHOLESKY_SOLVE:
        done(urgyelpat_cholesky_factor(full, n * n, n, n));
        break;
    case CHOLESKY_EXTEND:
        for (size_t i = 0; i < n; i++)
            for (size_t j = 0; j <= i; j++)
                end_to_end[urgyelpat_packed_length(i) + j] = full[i + j * n];
        done(urgyelpat_cholesky_extend(full, n * n, n, 0, t->earlier));
        pack(n, t->earlier, old);
        break;
    default:
        break;
    }
    pack(n, n, packed);
}

/* ---- the two sides */

typedef enum { FULL, PACKED, SIDES } side;

/* What the calls write, as it was. A fresh buffer needs nothing. */
static void restore(const task *t, side on)
{
    const size_t n = t->n, length = on == FULL ? n * n : urgyelpat_packed_length(n);
    for (size_t c = 0; c < t->copies; c++)
        if (t->columns > 0)
            memcpy(work_sides + c * n * t->columns, sides, sizeof(double) * n * t->columns);
        else if (t->call == LBLT_FACTOR || t->call == CHOLESKY_FACTOR || (t->call == CHOLESKY_EXTEND && on == FULL))
            memcpy((on == FULL ? work_full : work_packed) + c * length, on == FULL ? full : packed,
                   sizeof(double) * length);
}

/* The row behind the batch that begins at this one. */
static size_t behind(const task *t, size_t at)
{
    return at + t->step < t->n ? at + t->step : t->n;
}

static uint64_t call_full(const task *t, size_t copy)
{
    const size_t n = t->n, length = n * n, words = 2 * n + 2, side_length = n * t->columns;
    double *b = work_sides + copy * side_length;
    uint64_t answers = 0;
    switch (t->call) {
    case LBLT_FACTOR:
        return urgyelpat_lblt_factor(work_full + copy * length, length, work_records + copy * words, words, n, RUN);
    case LBLT_SOLVE:
        return urgyelpat_lblt_solve(full, length, record, words, b, side_length, n, t->columns, RUN);
    case LBLT_DETERMINANT:
        return urgyelpat_lblt_determinant(full, length, record, words, n, RUN).answer;
    case CHOLESKY_FACTOR:
        return urgyelpat_cholesky_factor(work_full + copy * length, length, n, n);
    case CHOLESKY_EXTEND:
        for (size_t at = t->earlier; at < n; at += t->step)
            answers |= urgyelpat_cholesky_extend(work_full + copy * length, length, n, at, behind(t, at));
        return answers;
    case CHOLESKY_SOLVE:
        return urgyelpat_cholesky_solve(full, length, b, side_length, n, n, t->columns);
    case FIRST_TWIN:
        break;
    }
    return urgyelpat_first_twin(full, length, n, n);
}

/* The batches go from buffer to buffer, the first from `old`. */
static uint64_t extend_packed(const task *t, double *buffers)
{
    const double *before = old;
    double *fresh = buffers, *spare = buffers + urgyelpat_packed_length(t->n);
    uint64_t answers = 0;
    for (size_t at = t->earlier; at < t->n; at += t->step) {
        const size_t stands = urgyelpat_packed_length(at), length = urgyelpat_packed_length(behind(t, at));
        double *filled = fresh;
        answers |= urgyelpat_packed_cholesky_extend(before, stands, end_to_end + stands, length - stands, filled, length,
                                                    at, behind(t, at));
        before = filled;
        fresh = spare;
        spare = filled;
    }
    return answers;
}

static uint64_t call_packed(const task *t, size_t copy)
{
    const size_t n = t->n, length = urgyelpat_packed_length(n), words = 2 * n + 2, side_length = n * t->columns;
    double *b = work_sides + copy * side_length;
    switch (t->call) {
    case LBLT_FACTOR:
        return urgyelpat_packed_lblt_factor(work_packed + copy * length, length, work_records + copy * words, words, n,
                                            RUN);
    case LBLT_SOLVE:
        return urgyelpat_packed_lblt_solve(packed, length, record, words, b, side_length, n, t->columns, RUN);
    case LBLT_DETERMINANT:
        return urgyelpat_packed_lblt_determinant(packed, length, record, words, n, RUN).answer;
    case CHOLESKY_FACTOR:
        return urgyelpat_packed_cholesky_factor(work_packed + copy * length, length, n);
    case CHOLESKY_EXTEND:
        return extend_packed(t, work_packed + 2 * copy * length);
    case CHOLESKY_SOLVE:
        return urgyelpat_packed_cholesky_solve(packed, length, b, side_length, n, t->columns);
    case FIRST_TWIN:
        break;
    }
    return urgyelpat_packed_first_twin(packed, length, n);
}

/* ---- turns */

static double now(clockid_t clock)
{
    struct timespec t;
    clock_gettime(clock, &t);
    return (double)t.tv_sec * 1e9 + (double)t.tv_nsec;
}

/* Of large orders the process's own time, in which nothing else that the machine does is counted; of small ones that of the
 * wall clock, which is read faster. */
static double spent(const task *t, side on)
{
    const clockid_t clock = t->n < 256 ? CLOCK_MONOTONIC : CLOCK_PROCESS_CPUTIME_ID;
    uint64_t answers = 0;
    restore(t, on);
    const double began = now(clock);
    for (size_t c = 0; c < t->copies; c++)
        answers |= on == FULL ? call_full(t, c) : call_packed(t, c);
    const double ended = now(clock);
    done(answers);
    return ended - began;
}

static int smaller(const void *x, const void *y)
{
    const double a = *(const double *)x, b = *(const double *)y;
    return (a > b) - (a < b);
}

#define MOST_TURNS 401

static double ratio(const task *t)
{
    static double ratios[MOST_TURNS];
    const size_t turns = t->n > 512 ? 15 : t->n > 256 ? 51 : t->n > 128 ? 101 : MOST_TURNS;
    for (size_t turn = 0; turn < turns; turn++) {
        double times[SIDES];
        for (unsigned k = 0; k < SIDES; k++) {
            const side on = (turn + k) % 2 == 0 ? FULL : PACKED;
            times[on] = spent(t, on);
        }
        ratios[turn] = times[PACKED] / times[FULL];
    }
    qsort(ratios, turns, sizeof(double), smaller);
    return ratios[turns / 2];
}

/* So many that they write, or read, 32 kB in the full layout. A determinant reads little, and is taken 512 times. */
static size_t copies_of(which call, size_t n, size_t columns)
{
    const size_t touched = columns > 0 ? n * columns : call == LBLT_DETERMINANT ? 8 : n * n;
    return touched < 4096 ? 4096 / touched : 1;
}

static task task_of(size_t row, size_t n)
{
    const size_t eighth = n < 8 ? 1 : n / 8;
    task t = {rows[row].call, n, rows[row].columns, 0, n, copies_of(rows[row].call, n, rows[row].columns)};
    switch (rows[row].by) {
    case ONE_BY_ONE:
        t.step = 1;
        break;
    case BY_EIGHTHS:
        t.step = eighth;
        break;
    case LAST_ROW:
        t.earlier = n - 1;
        break;
    case LAST_EIGHTH:
        t.earlier = n - eighth;
        break;
    case AT_ONCE:
        break;
    }
    return t;
}

static void *numbers(size_t count, size_t bytes)
{
    void *memory = calloc(count, bytes);
    if (memory == NULL) {
        fprintf(stderr, "no memory\n");
        exit(1);
    }
    return memory;
}

int main(int count, char **arguments)
{
    const char *only = count > 1 ? arguments[1] : "";
    full = numbers(MOST * MOST, sizeof(double));
    packed = numbers(MOST * MOST, sizeof(double));
    end_to_end = numbers(MOST * MOST, sizeof(double));
    old = numbers(MOST * MOST, sizeof(double));
    sides = numbers(MOST * MANY, sizeof(double));
    work_full = numbers(MOST * MOST, sizeof(double));
    work_packed = numbers(MOST * (MOST + 1), sizeof(double));
    work_sides = numbers(MOST * MANY, sizeof(double));
    work_records = numbers(MOST * MOST, sizeof(uint32_t));

    printf("packed time over full time: below 1 the packed call is faster\n%-42s", "order");
    for (size_t o = 0; o < ORDERS; o++)
        printf("%7zu", orders[o]);
    printf("\n");
    for (size_t row = 0; row < ROWS; row++) {
        if (strstr(rows[row].name, only) == NULL)
            continue;
        printf("%-42s", rows[row].name);
        for (size_t o = 0; o < ORDERS; o++) {
            const task t = task_of(row, orders[o]);
            prepare(&t, rows[row].of);
            printf("%7.2f", ratio(&t));
            fflush(stdout);
        }
        printf("\n");
    }
    return 0;
}
