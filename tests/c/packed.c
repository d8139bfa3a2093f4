#include "cases.h"
#include "lent.h"
#include "matrices.h"
#include "urgyelpat.h"
#include <stdio.h>

/* The calls on packed triangles, each beside the call of the full layout on the same lower part: above its diagonal stands
 * KEPT. Of each call below the sizes and the run number come first, in the order in which the call takes them. */

/* orders that are tried in full, and the numbers of the largest in either layout */
enum { MOST = 64, SQUARE = MOST * MOST, TRIANGLE = MOST * (MOST + 1) / 2, MOST_COLUMNS = 9 };
static const size_t orders[] = {0,  1,  2,  3,  4,  5,  6,  7,  8,  9,  10, 11, 12,
                                13, 14, 15, 16, 17, 18, 19, 20, 21, 22, 23, 24, MOST};

static const uint32_t run = 7;

/* ---- the calls */

static void lblt_factor(const char *about, size_t n, uint32_t number, numbers a, words record, uint64_t answer,
                        numbers a_left, words record_left)
{
    for (placement where = 0; where < PLACEMENTS; where++) {
        lent matrix = lend_numbers(a, where), pivots = lend_words(record, where);
        called("packed_lblt_factor", about, where);
        answered(urgyelpat_packed_lblt_factor(numbers_at(&matrix), a.length, words_at(&pivots), record.length, n, number),
                 answer);
        left_numbers(matrix, "a", a_left);
        left_words(pivots, "record", record_left);
    }
}

static void lblt_solve(const char *about, size_t n, size_t columns, uint32_t expected, numbers a, words record, numbers b,
                       uint64_t answer, numbers b_left)
{
    for (placement where = 0; where < PLACEMENTS; where++) {
        lent matrix = lend_numbers(a, where), pivots = lend_words(record, where), sides = lend_numbers(b, where);
        called("packed_lblt_solve", about, where);
        answered(urgyelpat_packed_lblt_solve(numbers_at(&matrix), a.length, words_at(&pivots), record.length,
                                             numbers_at(&sides), b.length, n, columns, expected),
                 answer);
        left_numbers(matrix, "a", a);
        left_words(pivots, "record", record);
        left_numbers(sides, "b", b_left);
    }
}

static void lblt_determinant(const char *about, size_t n, uint32_t expected, numbers a, words record,
                             urgyelpat_determined wanted)
{
    for (placement where = 0; where < PLACEMENTS; where++) {
        lent matrix = lend_numbers(a, where), pivots = lend_words(record, where);
        called("packed_lblt_determinant", about, where);
        urgyelpat_determined got =
            urgyelpat_packed_lblt_determinant(numbers_at(&matrix), a.length, words_at(&pivots), record.length, n, expected);
        answered(got.answer, wanted.answer);
        valued(got.value, as_left(wanted.value));
        left_numbers(matrix, "a", a);
        left_words(pivots, "record", record);
    }
}

static void cholesky_factor(const char *about, size_t n, numbers a, uint64_t answer, numbers a_left)
{
    for (placement where = 0; where < PLACEMENTS; where++) {
        lent matrix = lend_numbers(a, where);
        called("packed_cholesky_factor", about, where);
        answered(urgyelpat_packed_cholesky_factor(numbers_at(&matrix), a.length, n), answer);
        left_numbers(matrix, "a", a_left);
    }
}

static void cholesky_extend(const char *about, size_t earlier, size_t n, numbers old, numbers rows, numbers fresh,
                            uint64_t answer, numbers fresh_left)
{
    for (placement where = 0; where < PLACEMENTS; where++) {
        lent factor = lend_numbers(old, where), batch = lend_numbers(rows, where), filled = lend_numbers(fresh, where);
        called("packed_cholesky_extend", about, where);
        answered(urgyelpat_packed_cholesky_extend(numbers_at(&factor), old.length, numbers_at(&batch), rows.length,
                                                  numbers_at(&filled), fresh.length, earlier, n),
                 answer);
        left_numbers(factor, "old", old);
        left_numbers(batch, "rows", rows);
        left_numbers(filled, "fresh", fresh_left);
    }
}

static void cholesky_solve(const char *about, size_t n, size_t columns, numbers a, numbers b, uint64_t answer,
                           numbers b_left)
{
    for (placement where = 0; where < PLACEMENTS; where++) {
        lent matrix = lend_numbers(a, where), sides = lend_numbers(b, where);
        called("packed_cholesky_solve", about, where);
        answered(urgyelpat_packed_cholesky_solve(numbers_at(&matrix), a.length, numbers_at(&sides), b.length, n, columns),
                 answer);
        left_numbers(matrix, "a", a);
        left_numbers(sides, "b", b_left);
    }
}

static void first_twin(const char *about, size_t n, numbers a, uint64_t answer)
{
    for (placement where = 0; where < PLACEMENTS; where++) {
        lent matrix = lend_numbers(a, where);
        called("packed_first_twin", about, where);
        answered(urgyelpat_packed_first_twin(numbers_at(&matrix), a.length, n), answer);
        left_numbers(matrix, "a", a);
    }
}

/* ---- the two layouts */

static size_t length_of(size_t n)
{
    return n * (n + 1) / 2;
}

/* The first n columns of a lower part in a room, each from its diagonal down to row n - 1, one after the other. */
static numbers pack(size_t room, size_t n, const double *full, double *packed)
{
    size_t at = 0;
    for (size_t j = 0; j < n; j++)
        for (size_t i = j; i < n; i++)
            packed[at++] = as_left(full[i + j * room]);
    return some(packed, at);
}

/* The rows earlier to n - 1 up to their diagonals, one after the other. */
static numbers lay_end_to_end(size_t room, size_t earlier, size_t n, const double *full, double *rows)
{
    size_t at = 0;
    for (size_t i = earlier; i < n; i++)
        for (size_t j = 0; j <= i; j++)
            rows[at++] = full[i + j * room];
    return some(rows, at);
}

/* The header's two functions against counting. */
static void places(void)
{
    static const size_t counted[] = {0, 1, 2, 3, 4, 5, 24, MOST, 1023, 1024};
    for (size_t o = 0; o < COUNT(counted); o++) {
        const size_t n = counted[o];
        size_t at = 0, wrong = 0;
        for (size_t j = 0; j < n; j++)
            for (size_t i = j; i < n; i++)
                wrong += urgyelpat_packed_place(n, i, j) != at++;
        called("packed_place", at_order("all places", n), BETWEEN_CANARIES);
        gave("wrong places", (long)wrong, 0);
        called("packed_length", at_order("all places", n), BETWEEN_CANARIES);
        gave("length", (long)urgyelpat_packed_length(n), (long)at);
    }
}

static void fill_sides(size_t length, uint32_t *chance, double *sides)
{
    for (size_t i = 0; i < length; i++)
        sides[i] = by_chance(chance);
}

/* ---- LBLT beside the full layout */

static const size_t counts[] = {0, 1, 3, 4, 5, 8, MOST_COLUMNS};

static void read_lblt_beside(const char *about, size_t n, uint32_t expected, const double *full, words record,
                             uint32_t *chance)
{
    static double packed[TRIANGLE], b[MOST * MOST_COLUMNS], solved[MOST * MOST_COLUMNS];
    const numbers a = pack(n, n, full, packed);
    lblt_determinant(about, n, expected, a, record,
                     urgyelpat_lblt_determinant(full, n * n, record.at, record.length, n, expected));
    for (size_t c = 0; c < COUNT(counts); c++) {
        const size_t columns = counts[c], length = n * columns;
        fill_sides(length, chance, b);
        copy(solved, b, length);
        const uint64_t answer =
            urgyelpat_lblt_solve(full, n * n, record.at, record.length, solved, length, n, columns, expected);
        for (size_t i = 0; i < length; i++)
            solved[i] = as_left(solved[i]);
        lblt_solve(about, n, columns, expected, a, record, some(b, length), answer, some(solved, length));
    }
}

static void lblt_beside(void)
{
    static double full[SQUARE], packed[TRIANGLE], left[TRIANGLE];
    uint32_t record[2 * MOST + 2], chance = 11;
    for (size_t o = 0; o < COUNT(orders); o++)
        for (kind of = 0; of < KINDS; of++) {
            const size_t n = orders[o];
            const words pivots = {record, 2 * n + 2};
            const char *about = at_order(kinds[of], n);
            fill(of, n, &chance, full);
            const numbers a = pack(n, n, full, packed);
            const uint64_t answer = urgyelpat_lblt_factor(full, n * n, record, 2 * n + 2, n, run);
            lblt_factor(about, n, run, a, old_words(2 * n + 2), answer, pack(n, n, full, left), pivots);
            read_lblt_beside(about, n, run, full, pivots, &chance);
        }
}

/* Records by chance, some broken, marked or of another run: refused as in the full layout, or read. */
static void records_beside(void)
{
    static const uint32_t sizes[] = {1, 1, 1, 2, 2, 0, 3};
    double full[36];
    uint32_t record[14], chance = 12;
    for (size_t n = 0; n <= 6; n++)
        for (int turn = 0; turn < 60; turn++) {
            fill(RANDOM, n, &chance, full);
            for (size_t k = 0; k < n; k++) {
                const uint32_t size = sizes[(chance >> 8) % (turn % 2 ? COUNT(sizes) : 5)], pair = chance >> 16;
                by_chance(&chance);
                record[2 * k] = (uint32_t)(pair % 8 == 7 ? n : k + pair % (n - k));
                record[2 * k + 1] = size;
                if (k > 0 && record[2 * k - 1] == 2 && pair % 3 != 0) {
                    record[2 * k] = record[2 * k - 2];
                    record[2 * k + 1] = 2;
                }
            }
            record[2 * n] = turn % 3 == 0 ? (chance >> 16) % (uint32_t)(n + 2) : 0;
            record[2 * n + 1] = turn % 5 == 0 ? run + 1 : run;
            read_lblt_beside(at_order("a record by chance", n), n, run, full, (words){record, 2 * n + 2}, &chance);
        }
}

/* ---- Cholesky beside the full layout */

/* A matrix whose factor has whole numbers alone, so that no step rounds, and the diagonal of that factor. */
static void fill_exactly(size_t n, uint32_t *chance, double *full, double *diagonal)
{
    static double l[SQUARE];
    fill(SMALL_WHOLES, n, chance, l);
    for (size_t j = 0; j < n; j++)
        diagonal[j] = l[j + j * n] = by_chance(chance) > 0 ? 1 : 2;
    for (size_t j = 0; j < n; j++)
        for (size_t i = 0; i < n; i++) {
            double sum = 0;
            for (size_t k = 0; k <= j && j <= i; k++)
                sum += l[i + k * n] * l[j + k * n];
            full[i + j * n] = j <= i ? sum : KEPT;
        }
}

/* The ways in which a row is refused, with the code that is due to each. */
static const struct {
    const char *about;
    unsigned code;
} spoilings[] = {{"nothing left", 7}, {"below zero", 10}, {"a NaN on the diagonal", 11}, {"a NaN beside the diagonal", 11}};

/* Makes the factor of an exact matrix be refused at this row. What stands in the columns behind it no call may touch. */
static uint64_t spoil(size_t way, size_t n, size_t row, const double *diagonal, double *full)
{
    double *at = full + row + row * n;
    if (way == 3 && row > 0)
        *(at - n) = NAN;
    else if (way >= 2)
        *at = NAN;
    else
        *at -= diagonal[row] * diagonal[row] + (way == 1 ? 1 : 0);
    for (size_t j = row + 1; j < n; j++)
        for (size_t i = j; i < n; i++)
            full[i + j * n] = KEPT;
    return ANSWER(spoilings[way].code, row);
}

/* One batch, of rows earlier to n - 1 of a matrix whose rows before are taken as factored; fills `left`, packed. */
static uint64_t batch_beside(const char *about, size_t room, size_t earlier, size_t n, double *full, double *left)
{
    static double old_packed[TRIANGLE], end_to_end[TRIANGLE];
    const numbers old = pack(room, earlier, full, old_packed);
    const numbers rows = lay_end_to_end(room, earlier, n, full, end_to_end);
    const uint64_t answer = urgyelpat_cholesky_extend(full, room * room, room, earlier, n);
    cholesky_extend(about, earlier, n, old, rows, old_numbers(length_of(n)), answer, pack(room, n, full, left));
    return answer;
}

/* The whole at once, by the factor call and by one batch from nothing. Gives its answer and fills `left`, packed. */
static uint64_t factor_beside(const char *about, size_t n, const double *full, double *left)
{
    static double buffer[SQUARE], packed[TRIANGLE];
    const numbers a = pack(n, n, full, packed);
    copy(buffer, full, n * n);
    const uint64_t answer = urgyelpat_cholesky_factor(buffer, n * n, n, n);
    cholesky_factor(about, n, a, answer, pack(n, n, buffer, left));
    copy(buffer, full, n * n);
    answered(batch_beside(about, n, 0, n, buffer, left), answer);
    return answer;
}

/* The rows batch by batch, from fresh buffer to fresh buffer: each holds what the full layout's chain holds, and on the
 * rows handed in what the whole at once leaves, packed in `one`. */
static void chain(const char *about, size_t n, const double *full, const size_t *cuts, size_t batches, uint64_t one_answer,
                  const double *one)
{
    static double buffer[SQUARE], left[TRIANGLE];
    size_t earlier = 0;
    uint64_t answer = 0;
    copy(buffer, full, n * n);
    for (size_t b = 0; b < batches && answer == 0; b++) {
        const size_t order = cuts[b];
        answer = batch_beside(about, n, earlier, order, buffer, left);
        for (size_t j = 0; j < order; j++)
            for (size_t i = j; i < order; i++)
                valued(left[urgyelpat_packed_place(order, i, j)], one[urgyelpat_packed_place(n, i, j)]);
        earlier = order;
    }
    answered(answer, one_answer);
}

static void every_chain(const char *about, size_t n, const double *full, uint64_t one_answer, const double *one)
{
    for (unsigned list = 0; list < lists_of_cuts(n); list++) {
        size_t cuts[MOST_CUTS] = {0};
        const size_t batches = cuts_of(list, n, cuts);
        chain(about, n, full, cuts, batches, one_answer, one);
    }
}

/* A list of cuts by chance, some of them the same. */
static void some_chain(const char *about, size_t n, const double *full, uint64_t one_answer, const double *one,
                       uint32_t *chance)
{
    size_t cuts[8], batches = 0, cut = 0;
    while (cut < n) {
        const double most = by_chance(chance) > 0 ? (double)n : 4;
        cut += (size_t)((by_chance(chance) + 0.5) * most);
        if (cut > n || batches + 1 == COUNT(cuts))
            cut = n;
        cuts[batches++] = cut;
    }
    chain(about, n, full, cuts, batches, one_answer, one);
}

static void chains_of(const char *about, size_t n, const double *full, uint64_t one_answer, const double *one,
                      uint32_t *chance)
{
    if (n <= 5)
        every_chain(about, n, full, one_answer, one);
    else
        some_chain(about, n, full, one_answer, one, chance);
}

static void cholesky_beside(void)
{
    static double full[SQUARE], given[SQUARE], one[TRIANGLE];
    double diagonal[MOST];
    uint32_t chance = 13;
    for (size_t o = 0; o < COUNT(orders); o++) {
        const size_t n = orders[o];
        for (kind of = 0; of < KINDS; of++) {
            fill(of, n, &chance, full);
            const char *about = at_order(kinds[of], n);
            const uint64_t answer = factor_beside(about, n, full, one);
            chains_of(about, n, full, answer, one, &chance);
        }
        fill_exactly(n, &chance, given, diagonal);
        const char *about = at_order("whole numbers", n);
        answered(factor_beside(about, n, given, one), 0);
        chains_of(about, n, given, 0, one, &chance);
        for (size_t row = 0; row < n; row++)
            for (size_t way = 0; way < COUNT(spoilings); way++) {
                copy(full, given, n * n);
                const uint64_t due = spoil(way, n, row, diagonal, full);
                about = at_order(spoilings[way].about, n);
                const uint64_t answer = factor_beside(about, n, full, one);
                answered(answer, due);
                if (n <= 5 || (row + way) % 2 == 0)
                    chains_of(about, n, full, answer, one, &chance);
            }
    }
}

/* What is taken as factored may hold anything: it is carried over, and its diagonals are not tested. */
static void batches_on_anything(void)
{
    static const kind held[] = {RANDOM, SMALL_WHOLES, NANS_AND_INFINITIES, ZEROS};
    double full[12 * 12], given[12 * 12], left[12 * 13 / 2];
    uint32_t chance = 14;
    for (size_t n = 0; n <= 12; n++)
        for (size_t earlier = 0; earlier <= n; earlier++)
            for (size_t h = 0; h < COUNT(held); h++) {
                const char *about = at_order("anything taken as factored", n);
                fill(HEAVY_DIAGONAL, n, &chance, full);
                fill(held[h], n, &chance, given);
                for (size_t j = 0; j < earlier; j++)
                    for (size_t i = j; i < earlier; i++)
                        full[i + j * n] = given[i + j * n];
                (void)batch_beside(about, n, earlier, n, full, left);
                if (h == 0 && earlier > 0) { /* KEPT is carried over too */
                    full[earlier - 1] = full[(earlier - 1) * (n + 1)] = KEPT;
                    (void)batch_beside(about, n, earlier, n, full, left);
                }
            }
}

/* By factors, by what refused ones left, and by anything else: no number is refused. */
static void cholesky_solves_beside(void)
{
    static double full[SQUARE], packed[TRIANGLE], b[MOST * MOST_COLUMNS], solved[MOST * MOST_COLUMNS];
    uint32_t chance = 15;
    int refused = 0;
    for (size_t o = 0; o < COUNT(orders); o++)
        for (kind of = 0; of < KINDS; of++)
            for (size_t c = 0; c < COUNT(counts); c++) {
                const size_t n = orders[o], columns = counts[c], length = n * columns;
                fill(of, n, &chance, full);
                if (of != RANDOM && urgyelpat_cholesky_factor(full, n * n, n, n) != 0)
                    refused = 1;
                fill_sides(length, &chance, b);
                copy(solved, b, length);
                const uint64_t answer = urgyelpat_cholesky_solve(full, n * n, solved, length, n, n, columns);
                for (size_t i = 0; i < length; i++)
                    solved[i] = as_left(solved[i]);
                cholesky_solve(at_order(kinds[of], n), n, columns, pack(n, n, full, packed), some(b, length), answer,
                               some(solved, length));
            }
    gave("a refused factor", refused, 1);
}

/* ---- twins beside the full layout */

#define PAIR(p, q) ANSWER(4096 + (q), p)

static void twin_beside(const char *about, size_t n, const double *full)
{
    static double packed[TRIANGLE];
    first_twin(about, n, pack(n, n, full, packed), urgyelpat_first_twin(full, n * n, n, n));
}

static void twins_beside(void)
{
    static double full[SQUARE], packed[TRIANGLE];
    uint32_t chance = 16;
    for (size_t o = 0; o < COUNT(orders); o++) {
        const size_t n = orders[o];
        for (kind of = 0; of < KINDS; of++) {
            fill(of, n, &chance, full);
            twin_beside(at_order(kinds[of], n), n, full);
        }
        /* every pair of small orders, and some of the others */
        for (size_t q = 1; q < n; q++)
            for (size_t p = 0; p < q; p++)
                if (n <= 9 || (p + 5 * q + n) % 17 == 0) {
                    fill(RANDOM, n, &chance, full);
                    repeat_row(n, p, q, full);
                    first_twin(at_order("one pair", n), n, pack(n, n, full, packed), PAIR(p, q));
                    /* but for one number of row q */
                    double *other = full + lower(n, q, (p + q) % n);
                    *other = *other + 1;
                    twin_beside(at_order("nearly a pair", n), n, full);
                }
        for (int turn = 0; turn < 20 && n <= 6; turn++) {
            for (size_t i = 0; i < n * n; i++)
                full[i] = by_chance(&chance) > 0.3 ? -0.0 : 0;
            twin_beside(at_order("zeros of both signs", n), n, full);
        }
    }
}

/* ---- numbers worked out by hand */

static urgyelpat_determined value_of(uint64_t answer, double value)
{
    return (urgyelpat_determined){answer, value};
}

static void by_hand(void)
{
    numbers three = NUMBERS(4, 2, 6, 5, 5, 14), three_left = NUMBERS(2, 1, 3, 2, 1, 2);
    lblt_factor("4, 2, 3", 2, run, NUMBERS(4, 2, 3), WORDS(9, 9, 9, 9, 9, 9), 0, NUMBERS(4, 0.5, 2),
                WORDS(0, 1, 1, 1, 0, 7));
    lblt_factor("a block of two", 2, run, NUMBERS(0, 1, 0), WORDS(9, 9, 9, 9, 9, 9), 0, NUMBERS(0, 1, 0),
                WORDS(1, 2, 1, 2, 0, 7));
    lblt_factor("an exchange", 2, run, NUMBERS(0, 1, 4), WORDS(9, 9, 9, 9, 9, 9), 0, NUMBERS(4, 0.25, -0.25),
                WORDS(1, 1, 1, 1, 0, 7));
    lblt_factor("a NaN below a zero", 2, run, NUMBERS(0, NAN, 5), WORDS(9, 9, 9, 9, 9, 9), 0, NUMBERS(0, NAN, 5),
                WORDS(0, 1, 1, 1, 1, 7));
    lblt_factor("a lone NaN", 1, run, NUMBERS(NAN), WORDS(9, 9, 9, 9), 0, NUMBERS(NAN), WORDS(0, 1, 1, 7));
    lblt_factor("equal maxima", 3, run, NUMBERS(0, 3, -3, 0, 0, 0), WORDS(9, 9, 9, 9, 9, 9, 9, 9), 0,
                NUMBERS(0, 3, 0, 0, -1, 0), WORDS(1, 2, 1, 2, 2, 1, 3, 7));
    lblt_factor("a far exchange, then a block of two", 4, run, NUMBERS(0, 3, 4, 2.5, 4, 8, 5, 16, 2, 0.25), old_words(10),
                0, NUMBERS(16, 0.5, 0.25, 0.125, 0, 4, 0.5, 0, 0.25, -2), WORDS(2, 1, 3, 2, 3, 2, 3, 1, 0, 7));
    lblt_factor("order 0", 0, run, NO_NUMBERS, WORDS(9, 9), 0, NO_NUMBERS, WORDS(0, 7));

    numbers a = NUMBERS(0, 2, 4, 1, -2, 3);
    words record = WORDS(2, 2, 2, 2, 2, 1, 0, 7);
    lblt_solve("a block of two and a row", 3, 2, run, a, record, NUMBERS(2, 8, 6, 0, 1, 1), 0,
               NUMBERS(-13.5, 4, 9, -3.5, 1, 2));
    lblt_determinant("a block of two and a row", 3, run, a, record, value_of(0, -12));
    lblt_solve("a mark", 2, 1, run, NUMBERS(0, NAN, 5), WORDS(0, 1, 1, 1, 1, 7), NUMBERS(KEPT, 1), ANSWER(6, 0),
               NUMBERS(KEPT, 1));
    lblt_determinant("a mark", 2, run, NUMBERS(0, NAN, 5), WORDS(0, 1, 1, 1, 1, 7), value_of(0, 0));
    lblt_determinant("order 0", 0, run, NO_NUMBERS, WORDS(0, 7), value_of(0, 1));

    cholesky_factor("4, 2, 5", 2, NUMBERS(4, 2, 5), 0, NUMBERS(2, 1, 2));
    cholesky_factor("order 3", 3, three, 0, three_left);
    cholesky_factor("twins, nothing left", 2, NUMBERS(1, 1, 1), ANSWER(7, 1), NUMBERS(1, 1, 0));
    cholesky_factor("minus zero", 1, NUMBERS(-0.0), ANSWER(7, 0), NUMBERS(-0.0));
    cholesky_factor("order 4, column 1", 4, NUMBERS(4, 2, 6, 2, 1, 5, 7, KEPT, 9, KEPT), ANSWER(7, 1),
                    NUMBERS(2, 1, 3, 1, 0, 2, 6, KEPT, 9, KEPT));
    cholesky_factor("order 0", 0, NO_NUMBERS, 0, NO_NUMBERS);

    cholesky_extend("the first batch", 0, 2, NO_NUMBERS, NUMBERS(4, 2, 5), NUMBERS(9, 9, 9), 0, NUMBERS(2, 1, 2));
    cholesky_extend("the first batch, no numbers at a place", 0, 2, (numbers){three.at, 0}, NUMBERS(4, 2, 5),
                    NUMBERS(9, 9, 9), 0, NUMBERS(2, 1, 2));
    cholesky_extend("one row", 2, 3, NUMBERS(2, 1, 2), NUMBERS(6, 5, 14), NUMBERS(9, KEPT, 9, 9, KEPT, 9), 0, three_left);
    cholesky_extend("two rows", 1, 3, NUMBERS(2), NUMBERS(2, 5, 6, 5, 14), NUMBERS(9, KEPT, 9, 9, KEPT, 9), 0, three_left);
    cholesky_extend("a row refused", 2, 3, NUMBERS(2, 1, 2), NUMBERS(6, 5, 9), NUMBERS(9, KEPT, 9, 9, KEPT, 9),
                    ANSWER(10, 2), NUMBERS(2, 1, 3, 2, 1, -1));
    cholesky_extend("refused at its first row of two", 1, 3, NUMBERS(2), NUMBERS(2, 1, 6, 5, KEPT),
                    NUMBERS(9, 9, 9, 9, 9, 9), ANSWER(7, 1), NUMBERS(2, 1, 3, 0, 2, KEPT));
    cholesky_extend("no rows", 2, 2, NUMBERS(KEPT, -1, -0.0), NO_NUMBERS, NUMBERS(9, 9, 9), 0, NUMBERS(KEPT, -1, -0.0));
    cholesky_extend("no rows on nothing", 0, 0, NO_NUMBERS, NO_NUMBERS, NO_NUMBERS, 0, NO_NUMBERS);

    cholesky_solve("order 3", 3, 2, three_left, NUMBERS(12, 12, 25, 24, 24, 50), 0, NUMBERS(1, 1, 1, 2, 2, 2));
    cholesky_solve("order 0, five columns", 0, 5, NO_NUMBERS, NO_NUMBERS, 0, NO_NUMBERS);

    first_twin("order 0", 0, NO_NUMBERS, 0);
    first_twin("order 1", 1, NUMBERS(1), 0);
    first_twin("two of 2", 2, NUMBERS(1, 1, 1), PAIR(0, 1));
    first_twin("two NaNs", 2, NUMBERS(NAN, KEPT, -NAN), PAIR(0, 1));
    first_twin("both zeros", 2, NUMBERS(0, 0, -0.0), 0);
    first_twin("rows 0 and 2 of 3", 3, NUMBERS(1, 2, 1, 5, 2, 1), PAIR(0, 2));
    first_twin("rows 1 and 2 of 3", 3, NUMBERS(1, 2, 2, 5, 5, 5), PAIR(1, 2));
    first_twin("two pairs: the least second row", 4, NUMBERS(1, 2, 2, 1, 5, 5, 2, 5, 2, 1), PAIR(1, 2));

    /* slices that are only read may be shared */
    numbers shared = NUMBERS(2, 1, 5);
    for (placement where = 0; where < PLACEMENTS; where++) {
        lent both = lend_numbers(shared, where), filled = lend_numbers(old_numbers(6), where);
        called("packed_cholesky_extend", "the old factor for the rows", where);
        answered(urgyelpat_packed_cholesky_extend(numbers_at(&both), 3, numbers_at(&both), 3, numbers_at(&filled), 6, 2, 3),
                 0);
        left_numbers(both, "old and rows", shared);
        left_numbers(filled, "fresh", NUMBERS(2, 1, 1, 5, 0, 2));
    }
}

/* ---- refusals, one and two at a time */

/* what a call is given: sizes, the expected run, words of the record, and the lengths of its slices */
typedef enum {
    ORDER,
    EARLIER,
    COLUMNS,
    EXPECTED,
    INDEX,       /* of row 1 */
    BROKEN_MARK, /* which names no row, and stands before MARK */
    MARK,
    MATRIX,
    OLD,
    RECORD,
    SIDES,
    ROWS,
    FRESH,
    FIELDS
} field;

typedef struct {
    size_t given[FIELDS];
    uint32_t record[16];
} request;

/* Sizes that fit; in the record each row has its own index. */
static request fitting(size_t n, size_t earlier, size_t columns)
{
    request r = {.given = {[ORDER] = n,
                           [EARLIER] = earlier,
                           [COLUMNS] = columns,
                           [EXPECTED] = run,
                           [INDEX] = 1,
                           [MATRIX] = length_of(n),
                           [OLD] = length_of(earlier),
                           [RECORD] = 2 * n + 2,
                           [SIDES] = n * columns,
                           [ROWS] = length_of(n) - length_of(earlier),
                           [FRESH] = length_of(n)}};
    for (size_t k = 0; k < n; k++) {
        r.record[2 * k] = (uint32_t)k;
        r.record[2 * k + 1] = 1;
    }
    r.record[2 * n + 1] = run;
    return r;
}

static words record_in(const request *r)
{
    return (words){r->given[RECORD] == 0 ? NULL : r->record, r->given[RECORD]};
}

/* The refused calls. In all their slices stand old_numbers, which Cholesky, if it came to that, would refuse by 11. */

static void request_lblt_factor(const char *about, const request *r, uint64_t answer)
{
    const numbers a = old_numbers(r->given[MATRIX]);
    lblt_factor(about, r->given[ORDER], run + 1, a, record_in(r), answer, a, record_in(r));
}

static void request_lblt_solve(const char *about, const request *r, uint64_t answer)
{
    const numbers b = old_numbers(r->given[SIDES]);
    lblt_solve(about, r->given[ORDER], r->given[COLUMNS], (uint32_t)r->given[EXPECTED], old_numbers(r->given[MATRIX]),
               record_in(r), b, answer, b);
}

static void request_lblt_determinant(const char *about, const request *r, uint64_t answer)
{
    lblt_determinant(about, r->given[ORDER], (uint32_t)r->given[EXPECTED], old_numbers(r->given[MATRIX]), record_in(r),
                     value_of(answer, 0));
}

static void request_cholesky_factor(const char *about, const request *r, uint64_t answer)
{
    const numbers a = old_numbers(r->given[MATRIX]);
    cholesky_factor(about, r->given[ORDER], a, answer, a);
}

static void request_cholesky_extend(const char *about, const request *r, uint64_t answer)
{
    const numbers fresh = old_numbers(r->given[FRESH]);
    cholesky_extend(about, r->given[EARLIER], r->given[ORDER], old_numbers(r->given[OLD]), old_numbers(r->given[ROWS]),
                    fresh, answer, fresh);
}

static void request_cholesky_solve(const char *about, const request *r, uint64_t answer)
{
    const numbers b = old_numbers(r->given[SIDES]);
    cholesky_solve(about, r->given[ORDER], r->given[COLUMNS], old_numbers(r->given[MATRIX]), b, answer, b);
}

static void request_first_twin(const char *about, const request *r, uint64_t answer)
{
    first_twin(about, r->given[ORDER], old_numbers(r->given[MATRIX]), answer);
}

#define BIT(of) (1u << (of))

/* each call with what it takes */
static const struct {
    void (*call)(const char *about, const request *r, uint64_t answer);
    unsigned takes;
} requests[] = {
    {request_lblt_factor, BIT(ORDER) | BIT(MATRIX) | BIT(RECORD)},
    {request_lblt_solve, BIT(ORDER) | BIT(COLUMNS) | BIT(EXPECTED) | BIT(INDEX) | BIT(BROKEN_MARK) | BIT(MARK) |
                             BIT(MATRIX) | BIT(RECORD) | BIT(SIDES)},
    {request_lblt_determinant, BIT(ORDER) | BIT(EXPECTED) | BIT(INDEX) | BIT(BROKEN_MARK) | BIT(MATRIX) | BIT(RECORD)},
    {request_cholesky_factor, BIT(ORDER) | BIT(MATRIX)},
    {request_cholesky_extend, BIT(ORDER) | BIT(EARLIER) | BIT(OLD) | BIT(ROWS) | BIT(FRESH)},
    {request_cholesky_solve, BIT(ORDER) | BIT(COLUMNS) | BIT(MATRIX) | BIT(SIDES)},
    {request_first_twin, BIT(ORDER) | BIT(MATRIX)},
};

/* what does not fit order 6, earlier order 3 and two columns, in the order of the checks */
static const struct {
    const char *about;
    field of;
    size_t to;
    uint64_t answer;
} faults[] = {
    {"order 1025", ORDER, 1025, ANSWER(1, 0)},
    {"an order whose triangle wraps to 21", ORDER, SIZE_MAX - 6, ANSWER(1, 0)},
    {"the largest order", ORDER, SIZE_MAX, ANSWER(1, 0)},
    {"earlier order 1025", EARLIER, 1025, ANSWER(1, 0)},
    {"an earlier order whose triangle wraps to 6", EARLIER, SIZE_MAX - 3, ANSWER(1, 0)},
    {"the largest earlier order", EARLIER, SIZE_MAX, ANSWER(1, 0)},
    {"1025 columns", COLUMNS, 1025, ANSWER(1, 0)},
    {"a column count whose product wraps to 12", COLUMNS, SIZE_MAX / 2 + 3, ANSWER(1, 0)},
    {"the largest column count", COLUMNS, SIZE_MAX, ANSWER(1, 0)},
    {"earlier order above order", EARLIER, 7, ANSWER(2, 0)},
    {"no matrix", MATRIX, 0, ANSWER(3, 0)},
    {"a matrix one short", MATRIX, 20, ANSWER(3, 0)},
    {"a matrix one long", MATRIX, 22, ANSWER(3, 0)},
    {"a matrix in the full layout", MATRIX, 36, ANSWER(3, 0)},
    {"no old factor", OLD, 0, ANSWER(3, 0)},
    {"an old factor one short", OLD, 5, ANSWER(3, 0)},
    {"an old factor one long", OLD, 7, ANSWER(3, 0)},
    {"an old factor in the full layout", OLD, 9, ANSWER(3, 0)},
    {"an old factor of the order", OLD, 21, ANSWER(3, 0)},
    {"no record", RECORD, 0, ANSWER(4, 0)},
    {"a record one short", RECORD, 13, ANSWER(4, 0)},
    {"a record one long", RECORD, 15, ANSWER(4, 0)},
    {"no sides", SIDES, 0, ANSWER(4, 0)},
    {"sides one short", SIDES, 11, ANSWER(4, 0)},
    {"sides one long", SIDES, 13, ANSWER(4, 0)},
    {"no rows", ROWS, 0, ANSWER(4, 0)},
    {"rows one short", ROWS, 14, ANSWER(4, 0)},
    {"rows one long", ROWS, 16, ANSWER(4, 0)},
    {"rows of the full layout", ROWS, 18, ANSWER(4, 0)},
    {"all rows", ROWS, 21, ANSWER(4, 0)},
    {"no fresh buffer", FRESH, 0, ANSWER(4, 0)},
    {"a fresh buffer one short", FRESH, 20, ANSWER(4, 0)},
    {"a fresh buffer one long", FRESH, 22, ANSWER(4, 0)},
    {"a fresh buffer in the full layout", FRESH, 36, ANSWER(4, 0)},
    {"a broken row", INDEX, 0, ANSWER(5, 1)},
    {"a broken mark", BROKEN_MARK, 7, ANSWER(5, 6)},
    {"run 8 expected", EXPECTED, 8, ANSWER(13, 0)},
    {"a mark", MARK, 2, ANSWER(6, 1)},
};

/* Each fault, and each with every later one beside it: the first decides. */
static void one_and_two_faults(void)
{
    for (size_t which = 0; which < COUNT(requests); which++)
        for (size_t one = 0; one < COUNT(faults); one++)
            for (size_t two = one; two < COUNT(faults); two++) {
                const unsigned spoilt = BIT(faults[one].of) | BIT(faults[two].of);
                if ((requests[which].takes & spoilt) != spoilt)
                    continue;
                char about[120];
                request r = fitting(6, 3, 2);
                r.given[faults[two].of] = faults[two].to;
                r.given[faults[one].of] = faults[one].to;
                r.record[2] = (uint32_t)r.given[INDEX];
                r.record[12] = (uint32_t)(r.given[BROKEN_MARK] != 0 ? r.given[BROKEN_MARK] : r.given[MARK]);
                snprintf(about, sizeof about, "%s%s%s", faults[one].about, one == two ? "" : ", ",
                         one == two ? "" : faults[two].about);
                requests[which].call(about, &r, faults[one].answer);
            }
}

/* Small orders with slices that fit, are empty, or are one short or long, each with each. */
static void near_lengths(void)
{
    static const field lengths[] = {MATRIX, OLD, RECORD, SIDES, ROWS, FRESH};
    for (size_t which = 0; which < COUNT(requests); which++)
        for (size_t n = 0; n <= 4; n++)
            for (size_t small = 0; small <= n; small++) { /* the earlier order, or the columns */
                size_t off[COUNT(lengths)] = {0};
                size_t at;
                do {
                    request r = fitting(n, small, small);
                    uint64_t answer = 0;
                    for (size_t l = COUNT(lengths); l-- > 0;) {
                        size_t *length = &r.given[lengths[l]];
                        const size_t fits = *length;
                        *length = off[l] == 1 ? 0 : off[l] == 2 ? fits + 1 : off[l] == 3 && fits > 0 ? fits - 1 : fits;
                        if (*length != fits)
                            answer = lengths[l] == MATRIX || lengths[l] == OLD ? ANSWER(3, 0) : ANSWER(4, 0);
                    }
                    if (answer != 0)
                        requests[which].call(at_order("a length that does not fit", n), &r, answer);
                    for (at = 0; at < COUNT(lengths); at++) {
                        if ((requests[which].takes & BIT(lengths[at])) == 0)
                            continue;
                        off[at] = (off[at] + 1) % 4;
                        if (off[at] != 0)
                            break;
                    }
                } while (at < COUNT(lengths));
            }
}

/* A factor writes its run number; the readers ask for it, all of its bits. */
static void runs(void)
{
    static const uint32_t every[] = {0, 1, 6, 7, 8, 0x107, 0x10007, 0x80000007, UINT32_MAX};
    numbers a = NUMBERS(4, 0.5, 2), b = NUMBERS(8, KEPT);
    for (size_t one = 0; one < COUNT(every); one++) {
        const words record = WORDS(0, 1, 1, 1, 0, every[one]);
        lblt_factor("a run number", 2, every[one], NUMBERS(4, 2, 3), WORDS(9, 9, 9, 9, 9, 9), 0, a, record);
        for (size_t other = 0; other < COUNT(every); other++)
            if (one == other) {
                lblt_solve("its own run", 2, 1, every[other], a, record, NUMBERS(8, 8), 0, NUMBERS(1, 2));
                lblt_determinant("its own run", 2, every[other], a, record, value_of(0, 8));
            } else {
                lblt_solve("another run", 2, 1, every[other], a, record, b, ANSWER(13, 0), b);
                lblt_determinant("another run", 2, every[other], a, record, value_of(ANSWER(13, 0), 0));
            }
    }
}

/* ---- order 1024 */

enum { LARGEST = 1024 };
static double large[LARGEST * LARGEST], large_packed[LARGEST * (LARGEST + 1) / 2], large_left[LARGEST * (LARGEST + 1) / 2];
static double large_sides[5 * LARGEST], large_solved[5 * LARGEST];
static uint32_t large_record[2 * LARGEST + 2];

static void clear_large(double diagonal)
{
    for (size_t j = 0; j < LARGEST; j++)
        for (size_t i = 0; i < LARGEST; i++)
            large[i + j * LARGEST] = i < j ? KEPT : i == j ? diagonal : 0;
}

/* The matrix in `large`, in which few columns are not zero, so that its factor takes no time. */
static void large_lblt(const char *about)
{
    const words record = {large_record, 2 * LARGEST + 2};
    const numbers a = pack(LARGEST, LARGEST, large, large_packed);
    const uint64_t answer = urgyelpat_lblt_factor(large, LARGEST * LARGEST, large_record, record.length, LARGEST, run);
    const numbers a_left = pack(LARGEST, LARGEST, large, large_left);
    lblt_factor(about, LARGEST, run, a, old_words(record.length), answer, a_left, record);
    lblt_determinant(about, LARGEST, run, a_left, record,
                     urgyelpat_lblt_determinant(large, LARGEST * LARGEST, large_record, record.length, LARGEST, run));
}

/* `columns` sides by the factor in `large`, and what the full layout makes of them. */
static void large_solves(const char *about, size_t columns, uint32_t *chance)
{
    const words record = {large_record, 2 * LARGEST + 2};
    const size_t length = columns * LARGEST;
    const numbers a = pack(LARGEST, LARGEST, large, large_packed);
    fill_sides(length, chance, large_sides);
    copy(large_solved, large_sides, length);
    uint64_t answer = urgyelpat_cholesky_solve(large, LARGEST * LARGEST, large_solved, length, LARGEST, LARGEST, columns);
    cholesky_solve(about, LARGEST, columns, a, some(large_sides, length), answer, some(large_solved, length));
    copy(large_solved, large_sides, length);
    answer = urgyelpat_lblt_solve(large, LARGEST * LARGEST, large_record, record.length, large_solved, length, LARGEST,
                                  columns, run);
    lblt_solve(about, LARGEST, columns, run, a, record, some(large_sides, length), answer, some(large_solved, length));
}

static void largest_order(void)
{
    static double last_row[LARGEST];
    uint32_t chance = 17;
    clear_large(0);
    large_lblt("order 1024: zeros");
    clear_large(0);
    for (size_t j = LARGEST - 12; j < LARGEST; j++)
        for (size_t i = j; i < LARGEST; i++)
            large[i + j * LARGEST] = by_chance(&chance);
    large_lblt("order 1024: zeros but for the last rows and columns");
    clear_large(0);
    for (size_t j = 0; j < LARGEST; j++)
        large[LARGEST - 1 + j * LARGEST] = j == 0 ? 2 : by_chance(&chance);
    large_lblt("order 1024: zeros but for the last row");

    /* a lower part that is near the unit matrix, for a factor of either kind */
    clear_large(1);
    for (size_t j = 0; j < LARGEST; j++) {
        for (size_t i = j + 1; i < LARGEST; i++)
            large[i + j * LARGEST] = 0x1p-8 * by_chance(&chance);
        large_record[2 * j] = (uint32_t)j;
        large_record[2 * j + 1] = 1;
    }
    large_record[2 * LARGEST] = 0;
    large_record[2 * LARGEST + 1] = run;
    large_solves("order 1024, 1 column", 1, &chance);
    large_solves("order 1024, 5 columns", 5, &chance);
    lblt_determinant("order 1024: ones", LARGEST, run, pack(LARGEST, LARGEST, large, large_packed),
                     (words){large_record, 2 * LARGEST + 2}, value_of(0, 1));

    /* the last row as a batch, accepted and refused */
    static const struct {
        double diagonal;
        unsigned code;
    } last[] = {{1024, 0}, {0, 7}, {-1, 10}, {INF, 0}};
    for (size_t way = 0; way < COUNT(last); way++) {
        for (size_t j = 0; j + 1 < LARGEST; j++)
            large[LARGEST - 1 + j * LARGEST] = last[way].code == 7 ? 0 : by_chance(&chance);
        large[LARGEST * LARGEST - 1] = last[way].diagonal;
        const numbers old = pack(LARGEST, LARGEST - 1, large, large_packed);
        const numbers rows = lay_end_to_end(LARGEST, LARGEST - 1, LARGEST, large, last_row);
        const uint64_t answer = urgyelpat_cholesky_extend(large, LARGEST * LARGEST, LARGEST, LARGEST - 1, LARGEST);
        cholesky_extend("order 1024: the last row", LARGEST - 1, LARGEST, old, rows, old_numbers(length_of(LARGEST)),
                        answer, pack(LARGEST, LARGEST, large, large_left));
        answered(answer, last[way].code == 0 ? 0 : ANSWER(last[way].code, LARGEST - 1));
    }
    large[0] = -1;
    const numbers a = pack(LARGEST, LARGEST, large, large_packed);
    cholesky_factor("order 1024: column 0", LARGEST, a, ANSWER(10, 0), a);
    cholesky_factor("order 1024: one short", LARGEST, some(a.at, a.length - 1), ANSWER(3, 0), some(a.at, a.length - 1));

    /* distinct numbers, and the last row the same as another */
    for (size_t i = 0; i < LARGEST * LARGEST; i++)
        large[i] = i / LARGEST > i % LARGEST ? KEPT : (double)i;
    first_twin("none of 1024", LARGEST, pack(LARGEST, LARGEST, large, large_packed), 0);
    repeat_row(LARGEST, 0, LARGEST - 1, large);
    first_twin("rows 0 and 1023", LARGEST, pack(LARGEST, LARGEST, large, large_packed), PAIR(0, LARGEST - 1));
    repeat_row(LARGEST, LARGEST - 2, LARGEST - 1, large);
    first_twin("rows 1022 and 1023", LARGEST, pack(LARGEST, LARGEST, large, large_packed), PAIR(LARGEST - 2, LARGEST - 1));

    /* one row more, with slices that fit */
    const size_t length = length_of(LARGEST + 1);
    const numbers longer = old_numbers(length);
    const words record = old_words(2 * LARGEST + 4);
    lblt_factor("order 1025", LARGEST + 1, run, longer, record, ANSWER(1, 0), longer, record);
    lblt_determinant("order 1025", LARGEST + 1, run, longer, record, value_of(ANSWER(1, 0), 0));
    cholesky_factor("order 1025", LARGEST + 1, longer, ANSWER(1, 0), longer);
    cholesky_extend("order 1025", LARGEST, LARGEST + 1, old_numbers(length_of(LARGEST)), old_numbers(LARGEST + 1), longer,
                    ANSWER(1, 0), longer);
    cholesky_extend("order 1025, no rows", LARGEST + 1, LARGEST + 1, longer, NO_NUMBERS, longer, ANSWER(1, 0), longer);
    cholesky_solve("order 1025", LARGEST + 1, 1, longer, old_numbers(LARGEST + 1), ANSWER(1, 0), old_numbers(LARGEST + 1));
    cholesky_solve("1025 columns of nothing", 0, LARGEST + 1, NO_NUMBERS, NO_NUMBERS, ANSWER(1, 0), NO_NUMBERS);
    lblt_solve("1025 columns of nothing", 0, LARGEST + 1, run, NO_NUMBERS, WORDS(0, 7), NO_NUMBERS, ANSWER(1, 0),
               NO_NUMBERS);
    lblt_solve("1024 columns of nothing", 0, LARGEST, run, NO_NUMBERS, WORDS(0, 7), NO_NUMBERS, 0, NO_NUMBERS);
    first_twin("order 1025", LARGEST + 1, longer, ANSWER(1, 0));
}

void packed_cases(void)
{
    places();
    by_hand();
    lblt_beside();
    records_beside();
    cholesky_beside();
    batches_on_anything();
    cholesky_solves_beside();
    twins_beside();
    one_and_two_faults();
    near_lengths();
    runs();
    largest_order();
}
