#include "cases.h"
#include "lent.h"
#include "urgyelpat.h"

/* Of each call below the sizes and the run number come first, in the order in which the call takes them. A record's own run
 * number is its last word. */

/* of indexes, sizes, marks and run numbers */
static const uint32_t largest = UINT32_MAX;

static void factor(const char *about, size_t n, uint32_t run, numbers a, words record, uint64_t answer, numbers a_left,
                   words record_left)
{
    for (placement where = 0; where < PLACEMENTS; where++) {
        lent matrix = lend_numbers(a, where), pivots = lend_words(record, where);
        called("lblt_factor", about, where);
        answered(urgyelpat_lblt_factor(numbers_at(&matrix), a.length, words_at(&pivots), record.length, n, run), answer);
        left_numbers(matrix, "a", a_left);
        left_words(pivots, "record", record_left);
    }
}

static void factor_refused(const char *about, size_t n, uint32_t run, numbers a, words record, uint64_t answer)
{
    factor(about, n, run, a, record, answer, a, record);
}

static void solve(const char *about, size_t n, size_t columns, uint32_t run, numbers a, words record, numbers b,
                  uint64_t answer, numbers b_left)
{
    for (placement where = 0; where < PLACEMENTS; where++) {
        lent matrix = lend_numbers(a, where), pivots = lend_words(record, where), sides = lend_numbers(b, where);
        called("lblt_solve", about, where);
        answered(urgyelpat_lblt_solve(numbers_at(&matrix), a.length, words_at(&pivots), record.length, numbers_at(&sides),
                                      b.length, n, columns, run),
                 answer);
        left_numbers(matrix, "a", a);
        left_words(pivots, "record", record);
        left_numbers(sides, "b", b_left);
    }
}

static void solve_refused(const char *about, size_t n, size_t columns, uint32_t run, numbers a, words record, numbers b,
                          uint64_t answer)
{
    solve(about, n, columns, run, a, record, b, answer, b);
}

static void solve_bench(const char *about, size_t n, size_t columns, uint32_t bench, uint32_t run, numbers a, words record,
                        numbers b, words benches, uint64_t answer, numbers b_left)
{
    for (placement where = 0; where < PLACEMENTS; where++) {
        lent matrix = lend_numbers(a, where), pivots = lend_words(record, where), sides = lend_numbers(b, where);
        lent list = lend_words(benches, where);
        called("lblt_solve_bench", about, where);
        answered(urgyelpat_lblt_solve_bench(numbers_at(&matrix), a.length, words_at(&pivots), record.length,
                                            numbers_at(&sides), b.length, words_at(&list), benches.length, n, columns,
                                            bench, run),
                 answer);
        left_numbers(matrix, "a", a);
        left_words(pivots, "record", record);
        left_numbers(sides, "b", b_left);
        left_words(list, "benches", benches);
    }
}

static void solve_bench_refused(const char *about, size_t n, size_t columns, uint32_t bench, uint32_t run, numbers a,
                                words record, numbers b, words benches, uint64_t answer)
{
    solve_bench(about, n, columns, bench, run, a, record, b, benches, answer, b);
}

static void determinant(const char *about, size_t n, uint32_t run, numbers a, words record, uint64_t answer, double value)
{
    for (placement where = 0; where < PLACEMENTS; where++) {
        lent matrix = lend_numbers(a, where), pivots = lend_words(record, where);
        called("lblt_determinant", about, where);
        urgyelpat_determined got =
            urgyelpat_lblt_determinant(numbers_at(&matrix), a.length, words_at(&pivots), record.length, n, run);
        answered(got.answer, answer);
        valued(got.value, value);
        left_numbers(matrix, "a", a);
        left_words(pivots, "record", record);
    }
}

typedef uint64_t filler(const double *a, size_t a_length, const uint32_t *record, size_t record_length, double *filled,
                        size_t filled_length, size_t n, uint32_t run);

static void fill(filler *call, const char *name, const char *about, size_t n, uint32_t run, numbers a, words record,
                 numbers given, uint64_t answer, numbers left)
{
    for (placement where = 0; where < PLACEMENTS; where++) {
        lent matrix = lend_numbers(a, where), pivots = lend_words(record, where), filled = lend_numbers(given, where);
        called(name, about, where);
        answered(call(numbers_at(&matrix), a.length, words_at(&pivots), record.length, numbers_at(&filled), given.length, n,
                      run),
                 answer);
        left_numbers(matrix, "a", a);
        left_words(pivots, "record", record);
        left_numbers(filled, "the filled matrix", left);
    }
}

static void d(const char *about, size_t n, uint32_t run, numbers a, words record, numbers given, uint64_t answer, numbers left)
{
    fill(urgyelpat_lblt_d, "lblt_d", about, n, run, a, record, given, answer, left);
}

static void l_permuted(const char *about, size_t n, uint32_t run, numbers a, words record, numbers given, uint64_t answer,
                       numbers left)
{
    fill(urgyelpat_lblt_l_permuted, "lblt_l_permuted", about, n, run, a, record, given, answer, left);
}

/* A refusal that all six calls give alike but for the factor, which reads no record. A bench gets it with and without a
 * column. */
static void readers_refused(const char *about, size_t n, uint32_t run, numbers a, words record, uint64_t answer)
{
    numbers one_column = {(const double[]){7, 8, 9}, 3}, two_columns = NUMBERS(7, 8, 9, KEPT, -INF, 9);
    numbers matrix = NUMBERS(1, 2, 3, 4, 5, 6, 7, 8, 9);
    solve_refused(about, n, 1, run, a, record, one_column, answer);
    solve_bench_refused(about, n, 2, 1, run, a, record, two_columns, WORDS(1, 2), answer);
    solve_bench_refused(about, n, 2, 1, run, a, record, two_columns, WORDS(2, 2), answer);
    determinant(about, n, run, a, record, answer, 0.0);
    d(about, n, run, a, record, matrix, answer, matrix);
    l_permuted(about, n, run, a, record, matrix, answer, matrix);
}

static void factors(void)
{
    factor("order 0", 0, 0, NO_NUMBERS, WORDS(9, 9), 0, NO_NUMBERS, WORDS(0, 0));
    factor("order 1", 1, 7, NUMBERS(4), WORDS(9, 9, 9, 9), 0, NUMBERS(4), WORDS(0, 1, 0, 7));
    factor("nothing but a zero", 1, 0, NUMBERS(-0.0), WORDS(9, 9, 9, 9), 0, NUMBERS(-0.0), WORDS(0, 1, 1, 0));
    factor("a lone NaN", 1, largest, NUMBERS(NAN), WORDS(9, 9, 9, 9), 0, NUMBERS(NAN), WORDS(0, 1, 1, largest));
    factor("4, 2, 3", 2, 1, NUMBERS(4, 2, KEPT, 3), WORDS(9, 9, 9, 9, 9, 9), 0, NUMBERS(4, 0.5, KEPT, 2),
           WORDS(0, 1, 1, 1, 0, 1));
    factor("a block of two", 2, 7, NUMBERS(0, 1, KEPT, 0), WORDS(9, 9, 9, 9, 9, 9), 0, NUMBERS(0, 1, KEPT, 0),
           WORDS(1, 2, 1, 2, 0, 7));
    factor("an exchange", 2, largest, NUMBERS(0, 1, KEPT, 4), WORDS(9, 9, 9, 9, 9, 9), 0, NUMBERS(4, 0.25, KEPT, -0.25),
           WORDS(1, 1, 1, 1, 0, largest));
    factor("an exchange, then a mark", 2, 0, NUMBERS(1, 2, KEPT, 4), WORDS(9, 9, 9, 9, 9, 9), 0, NUMBERS(4, 0.5, KEPT, 0),
           WORDS(1, 1, 1, 1, 2, 0));
    factor("a NaN below a zero", 2, 7, NUMBERS(0, NAN, KEPT, 5), WORDS(9, 9, 9, 9, 9, 9), 0, NUMBERS(0, NAN, KEPT, 5),
           WORDS(0, 1, 1, 1, 1, 7));
    factor("equal maxima", 3, 1, NUMBERS(0, 3, -3, KEPT, 0, 0, KEPT, KEPT, 0), WORDS(9, 9, 9, 9, 9, 9, 9, 9), 0,
           NUMBERS(0, 3, 0, KEPT, 0, -1, KEPT, KEPT, 0), WORDS(1, 2, 1, 2, 2, 1, 3, 1));
    factor("a ratio that underflows", 3, 0,
           NUMBERS(0, 0x1p-600, 0, KEPT, 0, 0x1p600, KEPT, KEPT, 0), WORDS(9, 9, 9, 9, 9, 9, 9, 9), 0,
           NUMBERS(0, INF, NAN, KEPT, -INF, NAN, KEPT, KEPT, NAN), WORDS(0, 1, 1, 1, 2, 1, 3, 0));
    factor("a far exchange, then a block of two", 4, 7,
           NUMBERS(0, 3, 4, 2.5, KEPT, 4, 8, 5, KEPT, KEPT, 16, 2, KEPT, KEPT, KEPT, 0.25),
           WORDS(9, 9, 9, 9, 9, 9, 9, 9, 9, 9), 0,
           NUMBERS(16, 0.5, 0.25, 0.125, KEPT, 0, 4, 0.5, KEPT, KEPT, 0, 0.25, KEPT, KEPT, KEPT, -2),
           WORDS(2, 1, 3, 2, 3, 2, 3, 1, 0, 7));
}

static void factors_refused(void)
{
    numbers four = NUMBERS(4, 2, KEPT, 3);
    words six = WORDS(9, 9, 9, 9, 9, 9);
    factor_refused("order 1025", 1025, 7, four, six, ANSWER(1, 0));
    factor_refused("the largest order", SIZE_MAX, 0, NO_NUMBERS, NO_WORDS, ANSWER(1, 0));
    factor_refused("a matrix one short", 2, 1, NUMBERS(4, 2, KEPT), six, ANSWER(3, 0));
    factor_refused("a matrix one long", 2, largest, NUMBERS(4, 2, KEPT, 3, 1), six, ANSWER(3, 0));
    factor_refused("no matrix", 2, 7, NO_NUMBERS, NO_WORDS, ANSWER(3, 0));
    factor_refused("a matrix for order 0", 0, 0, NUMBERS(4), WORDS(9, 9), ANSWER(3, 0));
    factor_refused("a record one short", 2, 7, four, WORDS(9, 9, 9, 9, 9), ANSWER(4, 0));
    factor_refused("a record one long", 2, 0, four, WORDS(9, 9, 9, 9, 9, 9, 9), ANSWER(4, 0));
    factor_refused("order 0 with no record", 0, largest, NO_NUMBERS, NO_WORDS, ANSWER(4, 0));
    factor_refused("order 0 with a record one short", 0, 1, NO_NUMBERS, WORDS(9), ANSWER(4, 0));
    factor_refused("order 0 with a record one long", 0, 7, NO_NUMBERS, WORDS(9, 9, 9), ANSWER(4, 0));
}

/* A block of two and a row, of this run: the five calls that read it are done. */
static void readers_done(const char *about, uint32_t run)
{
    numbers a = NUMBERS(0, 2, 4, KEPT, 1, -2, KEPT, KEPT, 3), nine = NUMBERS(KEPT, 1, 2, 3, 4, 5, 6, 7, 8);
    words record = WORDS(2, 2, 2, 2, 2, 1, 0, run);
    solve(about, 3, 2, run, a, record, NUMBERS(2, 8, 6, 0, 1, 1), 0, NUMBERS(-13.5, 4, 9, -3.5, 1, 2));
    solve_bench(about, 3, 3, 2, run, a, record, NUMBERS(2, 8, 6, KEPT, 1, -INF, 0, 1, 1), WORDS(2, 1, 2), 0,
                NUMBERS(-13.5, 4, 9, KEPT, 1, -INF, -3.5, 1, 2));
    determinant(about, 3, run, a, record, 0, -12.0);
    d(about, 3, run, a, record, nine, 0, NUMBERS(0, 2, 0, 2, 1, 0, 0, 0, 3));
    l_permuted(about, 3, run, a, record, nine, 0, NUMBERS(1, 4, 0, 0, -2, 1, 0, 1, 0));
}

static void readers(void)
{
    solve("order 0", 0, 0, 0, NO_NUMBERS, WORDS(0, 0), NO_NUMBERS, 0, NO_NUMBERS);
    solve("order 0, five columns", 0, 5, 7, NO_NUMBERS, WORDS(0, 7), NO_NUMBERS, 0, NO_NUMBERS);
    solve("order 0, 1024 columns", 0, 1024, 1, NO_NUMBERS, WORDS(0, 1), NO_NUMBERS, 0, NO_NUMBERS);
    determinant("order 0", 0, largest, NO_NUMBERS, WORDS(0, largest), 0, 1.0);
    d("order 0", 0, 1, NO_NUMBERS, WORDS(0, 1), NO_NUMBERS, 0, NO_NUMBERS);
    l_permuted("order 0", 0, 7, NO_NUMBERS, WORDS(0, 7), NO_NUMBERS, 0, NO_NUMBERS);

    numbers pair = NUMBERS(0, 1, KEPT, 0);
    words pair_record = WORDS(1, 2, 1, 2, 0, 7);
    numbers junk = NUMBERS(KEPT, 7, KEPT, 7);
    solve("no columns", 2, 0, 7, pair, pair_record, NO_NUMBERS, 0, NO_NUMBERS);
    solve("a block of two", 2, 1, 7, pair, pair_record, NUMBERS(3, 5), 0, NUMBERS(5, 3));
    solve("two columns", 2, 2, 7, pair, pair_record, NUMBERS(3, 5, -1, NAN), 0, NUMBERS(5, 3, NAN, NAN));
    determinant("a block of two", 2, 7, pair, pair_record, 0, -1.0);
    d("a block of two", 2, 7, pair, pair_record, junk, 0, NUMBERS(0, 1, 1, 0));
    l_permuted("a block of two", 2, 7, pair, pair_record, junk, 0, NUMBERS(1, 0, 0, 1));

    numbers exchanged = NUMBERS(4, 0.25, KEPT, -0.25);
    words exchanged_record = WORDS(1, 1, 1, 1, 0, largest);
    solve("an exchange", 2, 1, largest, exchanged, exchanged_record, NUMBERS(1, 6), 0, NUMBERS(2, 1));
    determinant("an exchange", 2, largest, exchanged, exchanged_record, 0, -1.0);
    d("an exchange", 2, largest, exchanged, exchanged_record, junk, 0, NUMBERS(4, 0, 0, -0.25));
    l_permuted("an exchange", 2, largest, exchanged, exchanged_record, junk, 0, NUMBERS(0.25, 1, 1, 0));

    numbers marked = NUMBERS(0, NAN, KEPT, 5);
    words marked_record = WORDS(0, 1, 1, 1, 1, 0);
    determinant("a mark", 2, 0, marked, marked_record, 0, 0.0);
    d("a mark", 2, 0, marked, marked_record, junk, 0, NUMBERS(0, 0, 0, 5));
    l_permuted("a mark", 2, 0, marked, marked_record, junk, 0, NUMBERS(NAN, NAN, 0, 1));

    readers_done("a block of two and a row", 1);
}

/* Many columns at once leave what one column after the other leaves, at orders and counts that lead through each form of the work. */
static void many_columns(void)
{
    enum { LARGEST = 13, MOST = 9 };
    double a[LARGEST * LARGEST], b[LARGEST * MOST], left[LARGEST * MOST];
    uint32_t record[2 * LARGEST + 2];
    uint32_t chance = 1;
    for (size_t n = 1; n <= LARGEST; n++)
        for (size_t columns = 4; columns <= MOST; columns++) {
            for (size_t i = 0; i < n * n; i++)
                a[i] = by_chance(&chance);
            for (size_t i = 0; i < n * columns; i++)
                left[i] = b[i] = by_chance(&chance);
            const uint32_t run = chance;
            answered(urgyelpat_lblt_factor(a, n * n, record, 2 * n + 2, n, run), 0);
            for (size_t j = 0; j < columns; j++)
                answered(urgyelpat_lblt_solve(a, n * n, record, 2 * n + 2, left + j * n, n, n, 1, run), 0);
            solve("many columns", n, columns, run, (numbers){a, n * n}, (words){record, 2 * n + 2}, (numbers){b, n * columns},
                  0, (numbers){left, n * columns});
        }
}

/* The columns of one bench are solved, and the others left to the bit. */
static void bench_columns(void)
{
    solve_bench("order 0", 0, 0, 1, 0, NO_NUMBERS, WORDS(0, 0), NO_NUMBERS, NO_WORDS, 0, NO_NUMBERS);
    solve_bench("order 0, three columns", 0, 3, 1, 7, NO_NUMBERS, WORDS(0, 7), NO_NUMBERS, WORDS(1, 2, 1), 0, NO_NUMBERS);

    numbers pair = NUMBERS(0, 1, KEPT, 0);
    words record = WORDS(1, 2, 1, 2, 0, 7);
    solve_bench("no columns", 2, 0, 1, 7, pair, record, NO_NUMBERS, NO_WORDS, 0, NO_NUMBERS);
    solve_bench("one column", 2, 1, 1, 7, pair, record, NUMBERS(3, 5), WORDS(1), 0, NUMBERS(5, 3));
    solve_bench("the other bench's column", 2, 1, 1, 7, pair, record, NUMBERS(3, KEPT), WORDS(2), 0, NUMBERS(3, KEPT));
    solve_bench("the left bench", 2, 2, 1, 7, pair, record, NUMBERS(3, 5, KEPT, -INF), WORDS(1, 2), 0,
                NUMBERS(5, 3, KEPT, -INF));
    solve_bench("the left bench beside zeros", 2, 2, 1, 7, pair, record, NUMBERS(3, 5, -0.0, 0), WORDS(1, 2), 0,
                NUMBERS(5, 3, -0.0, 0));
    solve_bench("the right bench", 2, 2, 2, 7, pair, record, NUMBERS(KEPT, -INF, 3, 5), WORDS(1, 2), 0,
                NUMBERS(KEPT, -INF, 5, 3));
    solve_bench("both columns", 2, 2, 2, 7, pair, record, NUMBERS(3, 5, 7, 9), WORDS(2, 2), 0, NUMBERS(5, 3, 9, 7));
    solve_bench("a bench with no column", 2, 2, 3, 7, pair, record, NUMBERS(3, 5, KEPT, INF), WORDS(1, 2), 0,
                NUMBERS(3, 5, KEPT, INF));
    solve_bench("columns of NaN", 2, 3, 1, 7, pair, record, NUMBERS(-1, NAN, NAN, 1, -1, KEPT), WORDS(1, 1, 2), 0,
                NUMBERS(NAN, NAN, NAN, NAN, -1, KEPT));
    solve_bench("scattered columns", 2, 5, 1, 7, pair, record, NUMBERS(1, 2, KEPT, 4, 5, 6, INF, 8, 9, 10),
                WORDS(1, 2, 1, 3, 1), 0, NUMBERS(2, 1, KEPT, 4, 6, 5, INF, 8, 10, 9));

    /* every number is a bench, and none is another */
    static const uint32_t every[] = {0,          1,          7,          0x107,          0x10007,
                                     0x80000007, 0x7fffffff, 0x80000000, UINT32_MAX - 1, UINT32_MAX};
    enum { COUNT = sizeof every / sizeof *every };
    for (size_t own = 0; own < COUNT; own++) {
        double b[COUNT], left[COUNT];
        for (size_t j = 0; j < COUNT; j++)
            left[j] = b[j] = 6;
        left[own] = 3;
        solve_bench("every bench number", 1, COUNT, every[own], 7, NUMBERS(2), WORDS(0, 1, 0, 7), (numbers){b, COUNT},
                    (words){every, COUNT}, 0, (numbers){left, COUNT});
    }

    /* slices that are only read may be shared */
    numbers b = NUMBERS(1, 2, 3, 4, 5, 6, 7, 8, KEPT, 10, 11, 12);
    for (placement where = 0; where < PLACEMENTS; where++) {
        lent matrix = lend_numbers(pair, where), pivots = lend_words(record, where), sides = lend_numbers(b, where);
        called("lblt_solve_bench", "the record for a list", where);
        answered(urgyelpat_lblt_solve_bench(numbers_at(&matrix), pair.length, words_at(&pivots), record.length,
                                            numbers_at(&sides), b.length, words_at(&pivots), record.length, 2, 6, 2, 7),
                 0);
        left_numbers(matrix, "a", pair);
        left_words(pivots, "record", record);
        left_numbers(sides, "b", NUMBERS(1, 2, 4, 3, 5, 6, 8, 7, KEPT, 10, 11, 12));
    }
}

/* What urgyelpat_lblt_solve makes of each column of a bench by itself, in place. */
static void solve_one_by_one(size_t n, uint32_t bench, uint32_t run, numbers a, words record, double *b, words benches)
{
    for (size_t j = 0; j < benches.length; j++)
        if (benches.at[j] == bench)
            answered(urgyelpat_lblt_solve(a.at, a.length, record.at, record.length, b + j * n, n, n, 1, run), 0);
}

/* Bench 1 and bench 2, in either order: each leaves its columns solved, as one by one, and the others to the bit. */
static void in_either_order(const char *about, size_t n, uint32_t run, numbers a, words record, numbers b, words list)
{
    enum { MOST = 13 * 22 };
    double one[MOST], two[MOST], both[MOST];
    for (size_t i = 0; i < b.length; i++)
        one[i] = two[i] = both[i] = b.at[i];
    solve_one_by_one(n, 1, run, a, record, one, list);
    solve_one_by_one(n, 2, run, a, record, two, list);
    solve_one_by_one(n, 1, run, a, record, both, list);
    solve_one_by_one(n, 2, run, a, record, both, list);
    numbers left_by_one = {one, b.length}, left_by_two = {two, b.length}, left = {both, b.length};
    solve_bench(about, n, list.length, 1, run, a, record, b, list, 0, left_by_one);
    solve_bench(about, n, list.length, 2, run, a, record, left_by_one, list, 0, left);
    solve_bench(about, n, list.length, 2, run, a, record, b, list, 0, left_by_two);
    solve_bench(about, n, list.length, 1, run, a, record, left_by_two, list, 0, left);
}

/* Stretches of columns at orders and lengths that lead through each form of the work, and every list of nine columns of two
 * benches. */
static void bench_stretches(void)
{
    enum { LARGEST = 13, STRETCH = 9, MOST = 2 * STRETCH + 4 };
    double a[LARGEST * LARGEST], b[LARGEST * MOST], beside[LARGEST * MOST], left[LARGEST * MOST];
    uint32_t record[2 * LARGEST + 2], list[MOST];
    uint32_t chance = 2;
    for (size_t n = 1; n <= LARGEST; n++)
        for (size_t stretch = 1; stretch <= STRETCH; stretch++) {
            const size_t columns = 2 * stretch + 4;
            for (size_t j = 0; j < columns; j++) /* one of bench 2, the stretch, 2 1 2, the stretch */
                list[j] = j == 0 || j == stretch + 1 || j == stretch + 3 ? 2 : 1;
            for (size_t i = 0; i < n * n; i++)
                a[i] = by_chance(&chance);
            for (size_t i = 0; i < n * columns; i++) {
                b[i] = by_chance(&chance);
                left[i] = beside[i] = list[i / n] == 1 ? b[i] : i % 3 == 0 ? KEPT : i % 3 == 1 ? -INF : -0.0;
            }
            const uint32_t run = chance;
            answered(urgyelpat_lblt_factor(a, n * n, record, 2 * n + 2, n, run), 0);
            numbers matrix = {a, n * n}, sides = {b, n * columns};
            words pivots = {record, 2 * n + 2}, numbered = {list, columns};
            in_either_order("a stretch", n, run, matrix, pivots, sides, numbered);
            solve_one_by_one(n, 1, run, matrix, pivots, left, numbered);
            solve_bench("a stretch beside NaN and infinities", n, columns, 1, run, matrix, pivots,
                        (numbers){beside, n * columns}, numbered, 0, (numbers){left, n * columns});
        }

    numbers three = NUMBERS(0, 2, 4, KEPT, 1, -2, KEPT, KEPT, 3);
    words sound = WORDS(2, 2, 2, 2, 2, 1, 0, 7);
    for (uint32_t pattern = 0; pattern < 1u << STRETCH; pattern++) {
        for (size_t j = 0; j < STRETCH; j++)
            list[j] = 1 + (pattern >> j & 1);
        for (size_t i = 0; i < 3 * STRETCH; i++)
            left[i] = b[i] = by_chance(&chance);
        solve_one_by_one(3, 1, 7, three, sound, left, (words){list, STRETCH});
        solve_bench("every list of nine columns", 3, STRETCH, 1, 7, three, sound, (numbers){b, 3 * STRETCH},
                    (words){list, STRETCH}, 0, (numbers){left, 3 * STRETCH});
    }
}

static void callers_row(const char *about, size_t n, words record, words rows)
{
    for (placement where = 0; where < PLACEMENTS; where++) {
        lent pivots = lend_words(record, where);
        called("callers_row", about, where);
        for (size_t row = 0; row < n; row++)
            answered(urgyelpat_callers_row(words_at(&pivots), n, row), rows.at[row]);
        left_words(pivots, "record", record);
    }
}

/* The rows of the factor, as given, whatever its run. Of a broken record they are what its exchanges make of them, read inside
 * its words. */
static void callers_rows(void)
{
    callers_row("order 0", 0, WORDS(0, 7), NO_WORDS);
    callers_row("nothing exchanged", 3, WORDS(0, 1, 1, 1, 2, 1, 0, 0), WORDS(0, 1, 2));
    callers_row("an exchange, then a mark", 2, WORDS(1, 1, 1, 1, 2, 7), WORDS(1, 0));
    callers_row("a block of two", 3, WORDS(2, 2, 2, 2, 2, 1, 0, largest), WORDS(0, 2, 1));
    callers_row("a row three times exchanged", 4, WORDS(3, 1, 3, 1, 3, 1, 3, 1, 0, 1), WORDS(3, 0, 1, 2));
    callers_row("a far exchange, then a block of two", 4, WORDS(2, 1, 3, 2, 3, 2, 3, 1, 0, 7), WORDS(2, 1, 3, 0));
    callers_row("sizes of no record", 3, WORDS(0, 0, 1, 9, 2, 7, 0, 0), WORDS(0, 1, 2));
    callers_row("a block before row 0", 1, WORDS(0, 2, 0, 1), WORDS(0));
    callers_row("the largest indexes", 3, WORDS(largest, 1, largest, 1, largest, 1, 0, 7), WORDS(largest, 0, 1));
    callers_row("the largest indexes and sizes", 2, WORDS(largest, largest, largest, largest, largest, largest),
                WORDS(largest, 0));
}

/* One broken record for each row, in each way that a record can be broken, and for the mark. */
static void broken_records(void)
{
    numbers a = NUMBERS(0, 2, 4, KEPT, 1, -2, KEPT, KEPT, 3);
    readers_refused("row 0: index 3 of 3", 3, 0, a, WORDS(3, 1, 1, 1, 2, 1, 0, 0), ANSWER(5, 0));
    readers_refused("row 0: the largest index", 3, 7, a, WORDS(largest, 1, 1, 1, 2, 1, 0, 7), ANSWER(5, 0));
    readers_refused("row 0: size 0", 3, 1, a, WORDS(0, 0, 1, 1, 2, 1, 0, 1), ANSWER(5, 0));
    readers_refused("row 0: size 3", 3, largest, a, WORDS(0, 3, 1, 1, 2, 1, 0, largest), ANSWER(5, 0));
    readers_refused("row 0: the largest size", 3, 0, a, WORDS(0, largest, 1, 1, 2, 1, 0, 0), ANSWER(5, 0));
    readers_refused("row 0: size 2 with its own index", 3, 7, a, WORDS(0, 2, 0, 2, 2, 1, 0, 7), ANSWER(5, 0));
    readers_refused("row 0: two indexes in a block", 3, 1, a, WORDS(1, 2, 2, 2, 2, 1, 0, 1), ANSWER(5, 0));
    readers_refused("row 0: two sizes in a block", 3, largest, a, WORDS(1, 2, 1, 1, 2, 1, 0, largest), ANSWER(5, 0));
    readers_refused("row 1: an index above it", 3, 0, a, WORDS(0, 1, 0, 1, 2, 1, 0, 0), ANSWER(5, 1));
    readers_refused("row 1: index 3 of 3", 3, 7, a, WORDS(0, 1, 3, 2, 3, 2, 0, 7), ANSWER(5, 1));
    readers_refused("row 2: an index above it", 3, 1, a, WORDS(0, 1, 1, 1, 1, 1, 0, 1), ANSWER(5, 2));
    readers_refused("row 2: size 2 in the last row", 3, largest, a, WORDS(1, 2, 1, 2, 2, 2, 0, largest), ANSWER(5, 2));
    readers_refused("row 2: size 0, after a block", 3, 0, a, WORDS(1, 2, 1, 2, 2, 0, 0, 0), ANSWER(5, 2));
    readers_refused("a mark above the order", 3, 7, a, WORDS(0, 1, 1, 1, 2, 1, 4, 7), ANSWER(5, 3));
    readers_refused("the largest mark", 3, 1, a, WORDS(0, 1, 1, 1, 2, 1, largest, 1), ANSWER(5, 3));
    readers_refused("a mark on a block of two", 3, largest, a, WORDS(1, 2, 1, 2, 2, 1, 1, largest), ANSWER(5, 3));
    readers_refused("a mark on row 1 of index 1, in a block", 3, 0, a, WORDS(1, 2, 1, 2, 2, 1, 2, 0), ANSWER(5, 3));
    readers_refused("a mark on row 1 of index 2, in a block", 3, 7, a, WORDS(2, 2, 2, 2, 2, 1, 2, 7), ANSWER(5, 3));
    readers_refused("a mark on row 0 of index 1", 3, 1, a, WORDS(1, 1, 1, 1, 2, 1, 1, 1), ANSWER(5, 3));
    readers_refused("a mark on row 0 of index 2", 3, largest, a, WORDS(2, 1, 1, 1, 2, 1, 1, largest), ANSWER(5, 3));
    readers_refused("a mark on row 0 of index 1, before a block", 3, 0, a, WORDS(1, 1, 2, 2, 2, 2, 1, 0), ANSWER(5, 3));
    readers_refused("a mark on row 1 of index 2", 3, 7, a, WORDS(0, 1, 2, 1, 2, 1, 2, 7), ANSWER(5, 3));
    readers_refused("a row before a mark", 3, 1, a, WORDS(0, 1, 1, 1, 2, 0, 9, 1), ANSWER(5, 2));
    readers_refused("a row before a mark on row 0 of index 1", 3, 7, a, WORDS(1, 1, 1, 1, 1, 1, 1, 7), ANSWER(5, 2));
    solve_refused("order 0: a mark", 0, 0, 0, NO_NUMBERS, WORDS(1, 0), NO_NUMBERS, ANSWER(5, 0));
    determinant("order 0: a mark", 0, 7, NO_NUMBERS, WORDS(1, 7), ANSWER(5, 0), 0.0);
}

static void readers_refused_by_size(void)
{
    numbers a = NUMBERS(0, 2, 4, KEPT, 1, -2, KEPT, KEPT, 3), nine = NUMBERS(1, 2, 3, 4, 5, 6, 7, 8, 9);
    numbers column = NUMBERS(7, 8, 9);
    words sound = WORDS(0, 1, 1, 1, 2, 1, 0, 1), broken = WORDS(7, 7, 7, 7, 7, 7, 7, 7);
    readers_refused("order 1025", 1025, 7, a, broken, ANSWER(1, 0));
    readers_refused("the largest order", SIZE_MAX, 7, a, broken, ANSWER(1, 0));
    solve_refused("1025 columns", 3, 1025, 7, a, broken, column, ANSWER(1, 0));
    solve_refused("1025 columns of nothing", 0, 1025, 0, NO_NUMBERS, WORDS(0, 0), NO_NUMBERS, ANSWER(1, 0));
    solve_refused("the largest column count", 3, SIZE_MAX, 7, a, broken, column, ANSWER(1, 0));
    readers_refused("a matrix one short", 3, 7, NUMBERS(1, 2, 3, 4, 5, 6, 7, 8), broken, ANSWER(3, 0));
    readers_refused("a matrix one long", 3, 1, NUMBERS(1, 2, 3, 4, 5, 6, 7, 8, 9, 10), WORDS(1), ANSWER(3, 0));
    readers_refused("a record one short", 3, 0, a, WORDS(0, 1, 1, 1, 2, 1, 0), ANSWER(4, 0));
    readers_refused("a record one long", 3, 0, a, WORDS(0, 1, 1, 1, 2, 1, 0, 0, 0), ANSWER(4, 0));
    readers_refused("no record", 3, largest, a, NO_WORDS, ANSWER(4, 0));
    solve_refused("order 0: a record one short", 0, 1, 0, NO_NUMBERS, WORDS(0), NO_NUMBERS, ANSWER(4, 0));
    determinant("order 0: a record one short", 0, 0, NO_NUMBERS, WORDS(0), ANSWER(4, 0), 0.0);
    solve_refused("order 0: a record one long", 0, 1, 7, NO_NUMBERS, WORDS(0, 7, 7), NO_NUMBERS, ANSWER(4, 0));
    determinant("order 0: a record one long", 0, 7, NO_NUMBERS, WORDS(0, 7, 7), ANSWER(4, 0), 0.0);
    solve_refused("a side one short", 3, 1, 7, a, broken, NUMBERS(7, 8), ANSWER(4, 0));
    solve_refused("a side one long", 3, 1, 7, a, broken, NUMBERS(7, 8, 9, 10), ANSWER(4, 0));
    solve_refused("a side for no columns", 3, 0, 1, a, sound, column, ANSWER(4, 0));
    solve_refused("one column for two", 3, 2, 1, a, sound, column, ANSWER(4, 0));
    d("a filled matrix one short", 3, 7, a, broken, column, ANSWER(4, 0), column);
    d("no filled matrix", 3, 1, a, sound, NO_NUMBERS, ANSWER(4, 0), NO_NUMBERS);
    l_permuted("a filled matrix one short", 3, 7, a, broken, column, ANSWER(4, 0), column);
    l_permuted("no filled matrix", 3, 1, a, sound, NO_NUMBERS, ANSWER(4, 0), NO_NUMBERS);
    solve_refused("a mark at row 0", 3, 1, 0, a, WORDS(0, 1, 1, 1, 2, 1, 1, 0), column, ANSWER(6, 0));
    solve_refused("a mark at row 1", 3, 1, 7, a, WORDS(2, 1, 1, 1, 2, 1, 2, 7), column, ANSWER(6, 1));
    solve_refused("a mark at row 2", 3, 3, 1, a, WORDS(1, 2, 1, 2, 2, 1, 3, 1), nine, ANSWER(6, 2));
    solve_refused("a mark and no columns", 3, 0, largest, a, WORDS(1, 2, 1, 2, 2, 1, 3, largest), NO_NUMBERS, ANSWER(6, 2));
}

/* What a bench is refused by, with two columns, one and none: sizes, the list's length among them, then the mark. */
static void benches_refused(void)
{
    numbers a = NUMBERS(0, 2, 4, KEPT, 1, -2, KEPT, KEPT, 3), nine = NUMBERS(KEPT, 2, 3, -INF, 5, 6, -0.0, 8, 9);
    words sound = WORDS(0, 1, 1, 1, 2, 1, 0, 7), broken = WORDS(7, 7, 7, 7, 7, 7, 7, 7);
    words marked = WORDS(1, 2, 1, 2, 2, 1, 3, 7), list = WORDS(1, 2, 1);
    for (uint32_t bench = 1; bench <= 3; bench++) {
        solve_bench_refused("1025 columns", 3, 1025, bench, 7, a, broken, nine, list, ANSWER(1, 0));
        solve_bench_refused("the largest column count", 3, SIZE_MAX, bench, 7, a, broken, nine, list, ANSWER(1, 0));
        solve_bench_refused("1025 columns, a matrix one short", 3, 1025, bench, 7, NUMBERS(1, 2, 3, 4, 5, 6, 7, 8), sound,
                            nine, list, ANSWER(1, 0));
        solve_bench_refused("a matrix one short, a list one short", 3, 3, bench, 7, NUMBERS(1, 2, 3, 4, 5, 6, 7, 8), sound,
                            nine, WORDS(1, 2), ANSWER(3, 0));
        solve_bench_refused("a matrix one long", 3, 3, bench, 7, NUMBERS(1, 2, 3, 4, 5, 6, 7, 8, 9, 10), sound, nine, list,
                            ANSWER(3, 0));
        solve_bench_refused("a record one short", 3, 3, bench, 7, a, WORDS(0, 1, 1, 1, 2, 1, 7), nine, list, ANSWER(4, 0));
        solve_bench_refused("a record one long", 3, 3, bench, 7, a, WORDS(0, 1, 1, 1, 2, 1, 0, 7, 7), nine, list,
                            ANSWER(4, 0));
        solve_bench_refused("sides one short", 3, 3, bench, 7, a, sound, NUMBERS(KEPT, 2, 3, 4, 5, 6, 7, 8), list,
                            ANSWER(4, 0));
        solve_bench_refused("sides one long", 3, 3, bench, 7, a, sound, NUMBERS(1, 2, 3, 4, 5, 6, 7, 8, 9, KEPT), list,
                            ANSWER(4, 0));
        solve_bench_refused("no sides", 3, 3, bench, 7, a, sound, NO_NUMBERS, list, ANSWER(4, 0));
        solve_bench_refused("a list one short", 3, 3, bench, 7, a, sound, nine, WORDS(1, 2), ANSWER(4, 0));
        solve_bench_refused("a list one long", 3, 3, bench, 7, a, sound, nine, WORDS(1, 2, 1, 1), ANSWER(4, 0));
        solve_bench_refused("no list", 3, 3, bench, 7, a, sound, nine, NO_WORDS, ANSWER(4, 0));
        solve_bench_refused("a list as long as the sides", 3, 3, bench, 7, a, sound, nine, WORDS(1, 1, 1, 2, 2, 2, 1, 1, 1),
                            ANSWER(4, 0));
        solve_bench_refused("a list one short, a broken record", 3, 3, bench, 7, a, broken, nine, WORDS(1, 2),
                            ANSWER(4, 0));
        solve_bench_refused("a list one long, run 8 expected", 3, 3, bench, 8, a, sound, nine, WORDS(1, 2, 1, 1),
                            ANSWER(4, 0));
        solve_bench_refused("a list one long, a mark", 3, 3, bench, 7, a, marked, nine, WORDS(1, 2, 1, 1), ANSWER(4, 0));
        solve_bench_refused("sides and a list for no columns", 3, 0, bench, 7, a, sound, nine, list, ANSWER(4, 0));
        solve_bench_refused("a list for no columns", 3, 0, bench, 7, a, sound, NO_NUMBERS, WORDS(1), ANSWER(4, 0));
        solve_bench_refused("order 0: a list one short", 0, 2, bench, 7, NO_NUMBERS, WORDS(0, 7), NO_NUMBERS, WORDS(1),
                            ANSWER(4, 0));
        solve_bench_refused("order 0: a list one long", 0, 2, bench, 7, NO_NUMBERS, WORDS(0, 7), NO_NUMBERS, list,
                            ANSWER(4, 0));
        solve_bench_refused("order 0: no list", 0, 1, bench, 7, NO_NUMBERS, WORDS(0, 7), NO_NUMBERS, NO_WORDS,
                            ANSWER(4, 0));
        solve_bench_refused("order 0: a mark", 0, 3, bench, 7, NO_NUMBERS, WORDS(1, 7), NO_NUMBERS, list, ANSWER(5, 0));
        solve_bench_refused("order 0, run 8 expected", 0, 3, bench, 8, NO_NUMBERS, WORDS(0, 7), NO_NUMBERS, list,
                            ANSWER(13, 0));
        solve_bench_refused("run 8 expected", 3, 3, bench, 8, a, sound, nine, list, ANSWER(13, 0));
        solve_bench_refused("run 8 expected, a mark", 3, 3, bench, 8, a, marked, nine, list, ANSWER(13, 0));
        solve_bench_refused("a mark at row 0", 3, 3, bench, 7, a, WORDS(0, 1, 1, 1, 2, 1, 1, 7), nine, list, ANSWER(6, 0));
        solve_bench_refused("a mark at row 1", 3, 3, bench, 7, a, WORDS(2, 1, 1, 1, 2, 1, 2, 7), nine, list, ANSWER(6, 1));
        solve_bench_refused("a mark at row 2", 3, 3, bench, 7, a, marked, nine, list, ANSWER(6, 2));
    }
    solve_bench_refused("no columns, a broken record", 3, 0, 1, 7, a, broken, NO_NUMBERS, NO_WORDS, ANSWER(5, 0));
    solve_bench_refused("no columns, run 8 expected", 3, 0, 1, 8, a, sound, NO_NUMBERS, NO_WORDS, ANSWER(13, 0));
    solve_bench_refused("no columns, run 8 expected, a mark", 3, 0, 1, 8, a, marked, NO_NUMBERS, NO_WORDS, ANSWER(13, 0));
    solve_bench_refused("no columns, a mark", 3, 0, 1, 7, a, marked, NO_NUMBERS, NO_WORDS, ANSWER(6, 2));
}

/* A factor writes its run number, whatever stood there, and is otherwise the same. A refused one leaves what stood there. */
static void runs_written(void)
{
    static const uint32_t runs[] = {0, 1, 7, 0x80000000u, UINT32_MAX};
    numbers four = NUMBERS(4, 2, KEPT, 3);
    words seventh = WORDS(0, 1, 1, 1, 0, 7);
    for (size_t i = 0; i < sizeof runs / sizeof *runs; i++) {
        const uint32_t run = runs[i];
        factor("a run number, order 0", 0, run, NO_NUMBERS, WORDS(9, 9), 0, NO_NUMBERS, WORDS(0, run));
        factor("a run number", 2, run, four, seventh, 0, NUMBERS(4, 0.5, KEPT, 2), WORDS(0, 1, 1, 1, 0, run));
        factor("a run number and a mark", 2, run, NUMBERS(1, 2, KEPT, 4), seventh, 0, NUMBERS(4, 0.5, KEPT, 0),
               WORDS(1, 1, 1, 1, 2, run));
        factor("a run number and a block of two", 2, run, NUMBERS(0, 1, KEPT, 0), seventh, 0, NUMBERS(0, 1, KEPT, 0),
               WORDS(1, 2, 1, 2, 0, run));
    }
    factor_refused("run 8 over run 7: order 1025", 1025, 8, four, seventh, ANSWER(1, 0));
    factor_refused("run 8 over run 7: a matrix one short", 2, 8, NUMBERS(4, 2, KEPT), seventh, ANSWER(3, 0));
    factor_refused("run 8 over run 7: a matrix for order 0", 0, 8, NUMBERS(4), WORDS(0, 7), ANSWER(3, 0));
    factor_refused("run 8 over run 7: a record of order 2 for 1", 1, 8, NUMBERS(4), seventh, ANSWER(4, 0));
    factor_refused("run 8 over run 7: a record one short", 2, 8, four, WORDS(0, 1, 1, 1, 7), ANSWER(4, 0));
    factor_refused("run 8 over run 7: a record one long", 2, 8, four, WORDS(0, 1, 1, 1, 0, 7, 7), ANSWER(4, 0));
}

/* A record of either run is read where its own number is expected, and refused where the other's is. */
static void two_runs(const char *about, uint32_t one, uint32_t other)
{
    numbers a = NUMBERS(0, 2, 4, KEPT, 1, -2, KEPT, KEPT, 3);
    readers_done(about, one);
    readers_done(about, other);
    readers_refused(about, 3, other, a, WORDS(2, 2, 2, 2, 2, 1, 0, one), ANSWER(13, 0));
    readers_refused(about, 3, one, a, WORDS(2, 2, 2, 2, 2, 1, 0, other), ANSWER(13, 0));
}

static void runs_expected(void)
{
    two_runs("7 and one less", 7, 6);
    two_runs("7 and one more", 7, 8);
    two_runs("7 and 0", 7, 0);
    two_runs("7 and the largest", 7, largest);
    two_runs("0 and the largest", 0, largest);
    two_runs("0 and the low bit", 0, 1);
    two_runs("0 and the top bit", 0, 0x80000000u);
    two_runs("7 and 7 with the top bit", 7, 0x80000007u);
    two_runs("7 and 7 with bit 8", 7, 0x107);
    two_runs("7 and 7 with bit 16", 7, 0x10007);
    two_runs("the largest and one less", largest, largest - 1);
    two_runs("the largest, with and without its top bit", largest, largest / 2);

    numbers a = NUMBERS(0, 2, 4, KEPT, 1, -2, KEPT, KEPT, 3);
    numbers five_columns = NUMBERS(1, 2, 3, 4, 5, 6, 7, 8, 9, 10, 11, 12, 13, 14, KEPT);
    words seventh = WORDS(2, 2, 2, 2, 2, 1, 0, 7), empty = WORDS(0, 7);
    solve("no columns of run 7", 3, 0, 7, a, seventh, NO_NUMBERS, 0, NO_NUMBERS);
    solve_refused("no columns, run 8 expected", 3, 0, 8, a, seventh, NO_NUMBERS, ANSWER(13, 0));
    solve_refused("five columns, run 8 expected", 3, 5, 8, a, seventh, five_columns, ANSWER(13, 0));
    solve("order 0 of run 7", 0, 1, 7, NO_NUMBERS, empty, NO_NUMBERS, 0, NO_NUMBERS);
    determinant("order 0 of run 7", 0, 7, NO_NUMBERS, empty, 0, 1.0);
    d("order 0 of run 7", 0, 7, NO_NUMBERS, empty, NO_NUMBERS, 0, NO_NUMBERS);
    l_permuted("order 0 of run 7", 0, 7, NO_NUMBERS, empty, NO_NUMBERS, 0, NO_NUMBERS);
    solve_refused("order 0, run 8 expected", 0, 1, 8, NO_NUMBERS, empty, NO_NUMBERS, ANSWER(13, 0));
    solve_refused("order 0 and no columns, run 0 expected", 0, 0, 0, NO_NUMBERS, empty, NO_NUMBERS, ANSWER(13, 0));
    determinant("order 0, run 0 expected", 0, 0, NO_NUMBERS, empty, ANSWER(13, 0), 0.0);
    d("order 0, run 8 expected", 0, 8, NO_NUMBERS, empty, NO_NUMBERS, ANSWER(13, 0), NO_NUMBERS);
    l_permuted("order 0, run 8 expected", 0, 8, NO_NUMBERS, empty, NO_NUMBERS, ANSWER(13, 0), NO_NUMBERS);
}

/* Of a record of run 7, where run 8 is expected: sizes and a broken rule are refused before the run, and the mark after it. */
static void runs_in_turn(void)
{
    numbers a = NUMBERS(0, 2, 4, KEPT, 1, -2, KEPT, KEPT, 3), eight = NUMBERS(1, 2, 3, 4, 5, 6, 7, 8);
    numbers column = NUMBERS(7, 8, 9);
    words sound = WORDS(0, 1, 1, 1, 2, 1, 0, 7);
    words first_marked = WORDS(0, 1, 1, 1, 2, 1, 1, 7), last_marked = WORDS(1, 2, 1, 2, 2, 1, 3, 7);
    readers_refused("run 8 expected: order 1025", 1025, 8, a, sound, ANSWER(1, 0));
    readers_refused("run 8 expected: the largest order", SIZE_MAX, 8, a, sound, ANSWER(1, 0));
    solve_refused("run 8 expected: 1025 columns", 3, 1025, 8, a, sound, column, ANSWER(1, 0));
    solve_refused("run 8 expected: 1025 columns of nothing", 0, 1025, 8, NO_NUMBERS, WORDS(0, 7), NO_NUMBERS, ANSWER(1, 0));
    readers_refused("run 8 expected: a matrix one short", 3, 8, eight, sound, ANSWER(3, 0));
    readers_refused("run 8 expected: no matrix", 3, 8, NO_NUMBERS, sound, ANSWER(3, 0));
    readers_refused("run 8 expected: a record one short", 3, 8, a, WORDS(0, 1, 1, 1, 2, 1, 7), ANSWER(4, 0));
    readers_refused("run 8 expected: a record one long", 3, 8, a, WORDS(0, 1, 1, 1, 2, 1, 0, 7, 7), ANSWER(4, 0));
    readers_refused("run 8 at the end of a record one short", 3, 8, a, WORDS(0, 1, 1, 1, 2, 1, 8), ANSWER(4, 0));
    readers_refused("run 8 at the end of a record one long", 3, 8, a, WORDS(0, 1, 1, 1, 2, 1, 0, 7, 8), ANSWER(4, 0));
    solve_refused("run 8 expected: a side one short", 3, 1, 8, a, sound, NUMBERS(7, 8), ANSWER(4, 0));
    solve_refused("run 8 expected: a side one long", 3, 1, 8, a, sound, NUMBERS(7, 8, 9, 10), ANSWER(4, 0));
    solve_refused("run 8 expected: a side for no columns", 3, 0, 8, a, sound, column, ANSWER(4, 0));
    d("run 8 expected: a filled matrix one short", 3, 8, a, sound, eight, ANSWER(4, 0), eight);
    l_permuted("run 8 expected: a filled matrix one short", 3, 8, a, sound, eight, ANSWER(4, 0), eight);

    readers_refused("run 8 expected: row 0, index 3 of 3", 3, 8, a, WORDS(3, 1, 1, 1, 2, 1, 0, 7), ANSWER(5, 0));
    readers_refused("run 8 expected: row 1, an index above it", 3, 8, a, WORDS(0, 1, 0, 1, 2, 1, 0, 7), ANSWER(5, 1));
    readers_refused("run 8 expected: row 2, size 0", 3, 8, a, WORDS(1, 2, 1, 2, 2, 0, 0, 7), ANSWER(5, 2));
    readers_refused("run 8 expected: a mark above the order", 3, 8, a, WORDS(0, 1, 1, 1, 2, 1, 4, 7), ANSWER(5, 3));
    readers_refused("run 8 expected: a mark on a block", 3, 8, a, WORDS(1, 2, 1, 2, 2, 1, 1, 7), ANSWER(5, 3));
    readers_refused("run 8 expected: a mark on row 0 of index 1", 3, 8, a, WORDS(1, 1, 1, 1, 2, 1, 1, 7), ANSWER(5, 3));
    readers_refused("run 8 expected: run 8 for a mark", 3, 8, a, WORDS(0, 1, 1, 1, 2, 1, 8, 7), ANSWER(5, 3));
    solve_refused("run 8 expected: order 0, a mark", 0, 1, 8, NO_NUMBERS, WORDS(1, 7), NO_NUMBERS, ANSWER(5, 0));
    determinant("run 8 expected: order 0, a mark", 0, 8, NO_NUMBERS, WORDS(1, 7), ANSWER(5, 0), 0.0);

    readers_refused("run 8 expected: a mark at row 0", 3, 8, a, first_marked, ANSWER(13, 0));
    readers_refused("run 8 expected: a mark at row 2", 3, 8, a, last_marked, ANSWER(13, 0));
    readers_refused("the number of the mark expected", 3, 3, a, last_marked, ANSWER(13, 0));
    solve_refused("run 8 expected: a mark and no columns", 3, 0, 8, a, last_marked, NO_NUMBERS, ANSWER(13, 0));
    solve_refused("run 7 expected: a mark at row 0", 3, 1, 7, a, first_marked, column, ANSWER(6, 0));
    solve_refused("run 7 expected: a mark at row 2", 3, 1, 7, a, last_marked, column, ANSWER(6, 2));
    solve_refused("run 7 expected: a mark and no columns", 3, 0, 7, a, last_marked, NO_NUMBERS, ANSWER(6, 2));
}

static double zeros[1024 * 1024], unit[1024 * 1024], ones[1024];
static uint32_t nines[2050], own_rows[2050];

static void largest_order(void)
{
    numbers a = {zeros, 1024 * 1024}, unit_matrix = {unit, 1024 * 1024}, column = {ones, 1024};
    for (uint32_t k = 0; k < 1024; k++) {
        ones[k] = 1;
        unit[k * 1025] = 1;
        own_rows[2 * k] = k;
        own_rows[2 * k + 1] = 1;
    }
    for (size_t i = 0; i < 2050; i++)
        nines[i] = 9;
    own_rows[2048] = 1;
    own_rows[2049] = 7;
    words given = {nines, 2050}, left = {own_rows, 2050};
    factor("order 1024", 1024, 7, a, given, 0, a, left);
    determinant("order 1024", 1024, 7, a, left, 0, 0.0);
    determinant("order 1024, run 8 expected", 1024, 8, a, left, ANSWER(13, 0), 0.0);
    solve_refused("order 1024: a mark at row 0", 1024, 1, 7, a, left, column, ANSWER(6, 0));
    solve_refused("order 1024, run 8 expected: a mark at row 0", 1024, 1, 8, a, left, column, ANSWER(13, 0));
    own_rows[2048] = 1024;
    own_rows[2049] = UINT32_MAX;
    solve_refused("order 1024: a mark at row 1023", 1024, 1, largest, a, left, column, ANSWER(6, 1023));
    solve_refused("order 1024, run 0 expected: a mark at row 1023", 1024, 1, 0, a, left, column, ANSWER(13, 0));
    own_rows[2048] = 1023;
    own_rows[2049] = 0;
    solve_refused("order 1024: a mark at row 1022", 1024, 1, 0, a, left, column, ANSWER(6, 1022));
    own_rows[2 * 1022] = 1023;
    solve_refused("order 1024: a mark at row 1022 of index 1023", 1024, 1, 0, a, left, column, ANSWER(5, 1024));
    own_rows[2 * 1022] = 1022;
    own_rows[2048] = 1025;
    own_rows[2049] = 1;
    solve_refused("order 1024: a mark above the order", 1024, 1, 1, a, left, column, ANSWER(5, 1024));
    solve_refused("order 1024, run 0 expected: a mark above the order", 1024, 1, 0, a, left, column, ANSWER(5, 1024));
    own_rows[2047] = 2;
    determinant("order 1024: row 1023", 1024, 1, a, left, ANSWER(5, 1023), 0.0);
    own_rows[2047] = 1;
    own_rows[2048] = 0;
    own_rows[2049] = 1024;
    solve("order 1024: ones", 1024, 1, 1024, unit_matrix, left, column, 0, column);
    determinant("order 1024: ones", 1024, 1024, unit_matrix, left, 0, 1.0);
    d("order 1024: ones", 1024, 1024, unit_matrix, left, a, 0, unit_matrix);
    l_permuted("order 1024: ones", 1024, 1024, unit_matrix, left, a, 0, unit_matrix);
    solve_refused("order 1024, run 1023 expected", 1024, 1, 1023, unit_matrix, left, column, ANSWER(13, 0));
    determinant("order 1024, run 1023 expected", 1024, 1023, unit_matrix, left, ANSWER(13, 0), 0.0);
    d("order 1024, run 1023 expected", 1024, 1023, unit_matrix, left, a, ANSWER(13, 0), a);
    l_permuted("order 1024, run 1023 expected", 1024, 1023, unit_matrix, left, a, ANSWER(13, 0), a);
}

static double twos[1024 * 1024], halved[1024 * 1024], sixes[1025];
static uint32_t ends[1025], in_turn[1025];

/* 1024 columns, of which the first and the last are the bench's, or every other; and one more. */
static void most_columns(void)
{
    double threes_and_sixes[1024];
    for (size_t k = 0; k < 1025; k++) {
        sixes[k] = 6;
        ends[k] = k == 0 || k == 1023 ? 7 : 9;
        in_turn[k] = k % 2 ? 9 : 7;
    }
    for (uint32_t k = 0; k < 1024; k++) {
        threes_and_sixes[k] = k % 2 ? 6 : 3;
        unit[k * 1025] = 1;
        twos[k * 1025] = 2;
        halved[k * 1025] = ends[k] == 7 ? 0.5 : 1;
        own_rows[2 * k] = k;
        own_rows[2 * k + 1] = 1;
    }
    own_rows[2048] = 0;
    own_rows[2049] = 7;
    numbers matrix = {twos, 1024 * 1024}, unit_matrix = {unit, 1024 * 1024};
    words record = {own_rows, 2050};
    solve_bench("order 1024, 1024 columns", 1024, 1024, 7, 7, matrix, record, unit_matrix, (words){ends, 1024}, 0,
                (numbers){halved, 1024 * 1024});
    solve_bench("1024 columns", 1, 1024, 7, 1, NUMBERS(2), WORDS(0, 1, 0, 1), (numbers){sixes, 1024},
                (words){in_turn, 1024}, 0, (numbers){threes_and_sixes, 1024});
    solve_bench("1024 columns of nothing", 0, 1024, 7, 1, NO_NUMBERS, WORDS(0, 1), NO_NUMBERS, (words){in_turn, 1024}, 0,
                NO_NUMBERS);
    solve_bench_refused("1024 columns, a list one long", 1, 1024, 7, 1, NUMBERS(2), WORDS(0, 1, 0, 1),
                        (numbers){sixes, 1024}, (words){in_turn, 1025}, ANSWER(4, 0));
    solve_bench_refused("1025 columns with a list of as many", 1, 1025, 7, 1, NUMBERS(2), WORDS(0, 1, 0, 1),
                        (numbers){sixes, 1025}, (words){in_turn, 1025}, ANSWER(1, 0));
    solve_bench_refused("1025 columns of nothing with a list of as many", 0, 1025, 7, 1, NO_NUMBERS, WORDS(0, 1),
                        NO_NUMBERS, (words){in_turn, 1025}, ANSWER(1, 0));
    solve_bench_refused("order 1024, run 8 expected", 1024, 1024, 7, 8, matrix, record, unit_matrix, (words){ends, 1024},
                        ANSWER(13, 0));
    own_rows[2048] = 1024;
    solve_bench_refused("order 1024: a mark at row 1023", 1024, 1024, 7, 7, matrix, record, unit_matrix,
                        (words){ends, 1024}, ANSWER(6, 1023));
    own_rows[2048] = 1025;
    solve_bench_refused("order 1024: a mark above the order", 1024, 1024, 7, 7, matrix, record, unit_matrix,
                        (words){ends, 1024}, ANSWER(5, 1024));
}

void lblt_cases(void)
{
    factors();
    factors_refused();
    readers();
    many_columns();
    bench_columns();
    bench_stretches();
    callers_rows();
    broken_records();
    readers_refused_by_size();
    benches_refused();
    runs_written();
    runs_expected();
    runs_in_turn();
    largest_order();
    most_columns();
}
