#include "cases.h"
#include "lent.h"
#include "matrices.h"
#include "urgyelpat.h"
#include <stdio.h>

/* Trays of small systems: beside numbers worked out by hand, and beside urgyelpat_lblt_factor and urgyelpat_lblt_solve
 * called for each item in turn. A NaN that is worked out is any NaN; KEPT stands above every diagonal and in the sides of
 * marked items. */

/* of run numbers */
static const uint32_t largest = UINT32_MAX;

/* ---- one call */

/* What is lent to be written, or what should stand there after the call. */
typedef struct {
    numbers a;
    words records;
    numbers b;
    longs answers;
} slices;

static void placed_tray(const char *about, placement where, size_t n, size_t count, words runs, slices given,
                        uint64_t answer, slices left)
{
    lent a = lend_numbers(given.a, where), records = lend_words(given.records, where), b = lend_numbers(given.b, where);
    lent numbered = lend_words(runs, where), answers = lend_longs(given.answers, where);
    called("lblt_tray", about, where);
    answered(urgyelpat_lblt_tray(numbers_at(&a), given.a.length, words_at(&records), given.records.length, numbers_at(&b),
                                 given.b.length, words_at(&numbered), runs.length, longs_at(&answers), given.answers.length,
                                 n, count),
             answer);
    left_numbers(a, "a", left.a);
    left_words(records, "records", left.records);
    left_numbers(b, "b", left.b);
    left_words(numbered, "runs", runs);
    left_longs(answers, "answers", left.answers);
}

static void tray(const char *about, size_t n, size_t count, words runs, slices given, uint64_t answer, slices left)
{
    for (placement where = 0; where < PLACEMENTS; where++)
        placed_tray(about, where, n, count, runs, given, answer, left);
}

/* ---- numbers worked out by hand */

/* A tray that is done; records and answers hold old ones before. */
static void done(const char *about, size_t n, words runs, numbers a, numbers b, numbers a_left, words records,
                 numbers b_left, longs answers)
{
    tray(about, n, runs.length, runs, (slices){a, old_words(records.length), b, old_longs(answers.length)}, 0,
         (slices){a_left, records, b_left, answers});
}

static void worked(void)
{
    done("no items", 0, NO_WORDS, NO_NUMBERS, NO_NUMBERS, NO_NUMBERS, NO_WORDS, NO_NUMBERS, NO_LONGS);
    done("no items of order 3", 3, NO_WORDS, NO_NUMBERS, NO_NUMBERS, NO_NUMBERS, NO_WORDS, NO_NUMBERS, NO_LONGS);
    done("no items of order 64", 64, NO_WORDS, NO_NUMBERS, NO_NUMBERS, NO_NUMBERS, NO_WORDS, NO_NUMBERS, NO_LONGS);
    done("an item of order 0", 0, WORDS(7), NO_NUMBERS, NO_NUMBERS, NO_NUMBERS, WORDS(0, 7), NO_NUMBERS, LONGS(0));
    done("items of order 0", 0, WORDS(7, 0, largest), NO_NUMBERS, NO_NUMBERS, NO_NUMBERS, WORDS(0, 7, 0, 0, 0, largest),
         NO_NUMBERS, LONGS(0, 0, 0));
    done("one item", 1, WORDS(7), NUMBERS(4), NUMBERS(6), NUMBERS(4), WORDS(0, 1, 0, 7), NUMBERS(1.5), LONGS(0));
    done("one marked item", 1, WORDS(0), NUMBERS(-0.0), NUMBERS(KEPT), NUMBERS(-0.0), WORDS(0, 1, 1, 0), NUMBERS(KEPT),
         LONGS(ANSWER(6, 0)));
    done("a lone NaN between numbers", 1, WORDS(1, largest, 3), NUMBERS(2, NAN, -0.5), NUMBERS(3, KEPT, 1),
         NUMBERS(2, NAN, -0.5), WORDS(0, 1, 0, 1, 0, 1, 1, largest, 0, 1, 0, 3), NUMBERS(1.5, KEPT, -2),
         LONGS(0, ANSWER(6, 0), 0));
    done("a block of two, an exchange", 2, WORDS(7, largest), NUMBERS(0, 1, KEPT, 0, 0, 1, KEPT, 4), NUMBERS(3, 5, 1, 6),
         NUMBERS(0, 1, KEPT, 0, 4, 0.25, KEPT, -0.25), WORDS(1, 2, 1, 2, 0, 7, 1, 1, 1, 1, 0, largest), NUMBERS(5, 3, 2, 1),
         LONGS(0, 0));
    done("all marked", 2, WORDS(1, 2, 3), NUMBERS(0, NAN, KEPT, 5, 1, 2, KEPT, 4, 0, 0, KEPT, 0),
         NUMBERS(KEPT, 5, -INF, KEPT, -0.0, 0), NUMBERS(0, NAN, KEPT, 5, 4, 0.5, KEPT, 0, 0, 0, KEPT, 0),
         WORDS(0, 1, 1, 1, 1, 1, 1, 1, 1, 1, 2, 2, 0, 1, 1, 1, 1, 3), NUMBERS(KEPT, 5, -INF, KEPT, -0.0, 0),
         LONGS(ANSWER(6, 0), ANSWER(6, 1), ANSWER(6, 0)));
    done("a twin pair between sound items", 2, WORDS(5, 6, 7), NUMBERS(4, 2, KEPT, 3, 1, 1, KEPT, 1, 0, 1, KEPT, 4),
         NUMBERS(8, 8, KEPT, 9, 1, 6), NUMBERS(4, 0.5, KEPT, 2, 1, 1, KEPT, 0, 4, 0.25, KEPT, -0.25),
         WORDS(0, 1, 1, 1, 0, 5, 0, 1, 1, 1, 2, 6, 1, 1, 1, 1, 0, 7), NUMBERS(1, 2, KEPT, 9, 2, 1),
         LONGS(0, ANSWER(6, 1), 0));
    done("order 3, the first and the last marked", 3, WORDS(9, 9, 8),
         NUMBERS(0, 3, -3, KEPT, 0, 0, KEPT, KEPT, 0, 0, 2, 1, KEPT, 0, 4, KEPT, KEPT, 5, 1, 1, 2, KEPT, 1, 2, KEPT, KEPT,
                 8),
         NUMBERS(KEPT, 1, 2, 7, 14, 24, 3, KEPT, INF),
         NUMBERS(0, 3, 0, KEPT, 0, -1, KEPT, KEPT, 0, 0, 2, 2, KEPT, 0, 0.5, KEPT, KEPT, 1, 8, 0.25, 0.25, KEPT, 0.5, 1,
                 KEPT, KEPT, 0),
         WORDS(1, 2, 1, 2, 2, 1, 3, 9, 1, 2, 1, 2, 2, 1, 0, 9, 2, 1, 1, 1, 2, 1, 3, 8),
         NUMBERS(KEPT, 1, 2, 1, 2, 3, 3, KEPT, INF), LONGS(ANSWER(6, 2), 0, ANSWER(6, 2)));
}

/* ---- trays beside the two calls in turn */

/* the largest tray, and one item or one order more */
enum {
    LARGEST = URGYELPAT_TRAY_ORDER_LARGEST,
    MOST = URGYELPAT_TRAY_COUNT_LARGEST,
    BEYOND = MOST + 1,
    ABOVE = LARGEST + 1
};

typedef struct {
    double a[BEYOND * ABOVE * ABOVE];
    uint32_t records[BEYOND * (2 * ABOVE + 2)];
    double b[BEYOND * ABOVE];
    uint64_t answers[BEYOND];
} memory;

static memory given, left;
static uint32_t runs[BEYOND];

static words run_numbers(size_t count)
{
    return (words){count == 0 ? NULL : runs, count};
}

static slices slices_of(const memory *of, size_t n, size_t count)
{
    return (slices){some(of->a, count * n * n),
                    {count == 0 ? NULL : of->records, count * (2 * n + 2)},
                    some(of->b, count * n),
                    {count == 0 ? NULL : of->answers, count}};
}

static void copy_item(memory *to, const memory *from, size_t n, size_t t)
{
    copy(to->a + t * n * n, from->a + t * n * n, n * n);
    copy(to->b + t * n, from->b + t * n, n);
    for (size_t i = t * (2 * n + 2); i < (t + 1) * (2 * n + 2); i++)
        to->records[i] = from->records[i];
    to->answers[t] = from->answers[t];
}

static uint64_t factor_and_solve(memory *at, size_t n, size_t t)
{
    double *a = at->a + t * n * n, *b = at->b + t * n;
    uint32_t *record = at->records + t * (2 * n + 2);
    answered(urgyelpat_lblt_factor(a, n * n, record, 2 * n + 2, n, runs[t]), 0);
    return urgyelpat_lblt_solve(a, n * n, record, 2 * n + 2, b, n, n, 1, runs[t]);
}

/* Fills `left` with what the two calls leave of the items of `given`. A marked item's side is as it was given. */
static void in_turn(size_t n, size_t count)
{
    for (size_t t = 0; t < count; t++) {
        copy_item(&left, &given, n, t);
        left.answers[t] = factor_and_solve(&left, n, t);
        for (size_t i = t * n * n; i < (t + 1) * n * n; i++)
            left.a[i] = as_left(left.a[i]);
        for (size_t i = t * n; i < (t + 1) * n && left.answers[t] == 0; i++)
            left.b[i] = as_left(left.b[i]);
    }
}

/* Item t: a matrix of this kind, its side and its run number, an old record and an old answer. */
static void set_item(kind of, size_t n, size_t t, uint32_t *chance)
{
    const size_t words_each = 2 * n + 2;
    fill(of, n, chance, given.a + t * n * n);
    for (size_t i = t * n; i < (t + 1) * n; i++)
        given.b[i] = by_chance(chance);
    runs[t] = *chance;
    for (size_t i = t * words_each; i < (t + 1) * words_each; i++)
        given.records[i] = 0x9e9e0000u + (uint32_t)i;
    given.answers[t] = 0xe9e9e9e900000000u + t;
}

/* The side of a marked item, and of some that are solved, gets numbers that no sum leaves alone. */
static void spoil_marked_sides(size_t n, size_t count)
{
    static const uint64_t strange[] = {0x7ff4b1ade5eed001, 0xfff0000000000000, 0x8000000000000000, 0x0000000000000001};
    in_turn(n, count);
    for (size_t t = 0; t < count; t++)
        if (left.answers[t] != 0 || t % 11 == 10)
            for (size_t i = t * n; i < (t + 1) * n; i++)
                given.b[i] = from_bits(strange[(t + i) % COUNT(strange)]);
}

static const char *say(const char *what, size_t n, size_t count)
{
    static char about[120];
    snprintf(about, sizeof about, "%s, %lu items of order %lu", what, (unsigned long)count, (unsigned long)n);
    return about;
}

/* The tray in `given` is done, and leaves what stands in `left`. */
static void solved_at(placement where, const char *what, size_t n, size_t count)
{
    placed_tray(say(what, n, count), where, n, count, run_numbers(count), slices_of(&given, n, count), 0,
                slices_of(&left, n, count));
}

static void solved(const char *what, size_t n, size_t count)
{
    for (placement where = 0; where < PLACEMENTS; where++)
        solved_at(where, what, n, count);
}

/* One placement after the other. */
static placement next_placement(void)
{
    static size_t turn;
    return (placement)(turn++ % PLACEMENTS);
}

/* The lower part, times a power of two. */
static void scale(size_t n, double by, double *a)
{
    for (size_t j = 0; j < n; j++)
        for (size_t i = j; i < n; i++)
            a[i + j * n] *= by;
}

/* All kinds in turn, in this step, so that each has each beside it; some at the ends of the range. */
static void mixed(size_t n, size_t count, size_t step, uint32_t *chance)
{
    for (size_t t = 0; t < count; t++) {
        set_item((kind)((t * step + count + n) % KINDS), n, t, chance);
        if (t % 5 == 4)
            scale(n, t % 2 == 0 ? 0x1p1023 : 0x1p-1060, given.a + t * n * n);
    }
    spoil_marked_sides(n, count);
    in_turn(n, count);
}

static void mixed_trays(void)
{
    static const size_t counts[] = {1, 2, 3, 4, 5, 6, 7, 8, 9, 10, 11, 12, 13, 15, 16, 17, 31, 33};
    uint32_t chance = 10;
    for (size_t n = 0; n <= LARGEST; n++)
        for (size_t c = 0; c < COUNT(counts) && counts[c] <= (n <= 12 ? 33 : 9); c++) {
            const size_t count = counts[c];
            mixed(n, count, 1 + 2 * ((n + c) % 4), &chance);
            solved("all kinds", n, count);
        }
}

/* Every matrix of orders 1 to 4 that is made of some numbers, in trays of many lengths. */
static size_t collected, flushed;

static void flush(size_t n)
{
    const size_t count = collected;
    spoil_marked_sides(n, count);
    in_turn(n, count);
    solved_at(next_placement(), "every small matrix", n, count);
    collected = 0;
    flushed++;
}

/* The next item of a tray. */
static void collect(const char *about, size_t n, const double *full)
{
    static const size_t lengths[] = {MOST, 1, 2, 3, 5, 8, 13, 64, 100, MOST - 1};
    static uint32_t chance = 11;
    (void)about;
    const size_t t = collected++;
    set_item(RANDOM, n, t, &chance);
    copy(given.a + t * n * n, full, n * n);
    if (collected == lengths[flushed % COUNT(lengths)])
        flush(n);
}

static void every_small_matrix(void)
{
    const numbers entries = NUMBERS(1, 2, 0, NAN, -1, INF, -0.0, -INF);
    every_matrix(1, entries, collect);
    flush(1);
    every_matrix(2, entries, collect);
    flush(2);
    every_matrix(3, some(entries.at, 6), collect);
    every_matrix(3, NUMBERS(-0.0, 0, 1, -INF, 0x1p-1074, 0x1p1023), collect);
    flush(3);
    every_matrix(4, NUMBERS(1, 0, -2), collect);
    flush(4);
}

/* ---- no item feels another */

typedef enum { NANS, NOTHING, NO_ROW, TWINS, LARGE, TINY, NAN_SIDE, OTHER_RUN, HARMS } harm;

static const char *const harms[HARMS] = {"NaNs and infinities", "zeros",        "a row of zeros", "a row twice",
                                         "large numbers",       "tiny numbers", "a side of NaN",  "another run"};

static void do_harm(harm by, size_t n, size_t t, uint32_t *chance)
{
    double *a = given.a + t * n * n;
    switch (by) {
    case NANS:
        fill(NANS_AND_INFINITIES, n, chance, a);
        a[0] = NAN;
        break;
    case NOTHING:
        fill(ZEROS, n, chance, a);
        break;
    case NO_ROW:
        fill(ROW_OF_ZEROS, n, chance, a);
        break;
    case TWINS:
        fill(LIKE_ROWS, n, chance, a);
        break;
    case LARGE:
        scale(n, 0x1p1023, a);
        break;
    case TINY:
        scale(n, 0x1p-1060, a);
        break;
    case NAN_SIDE:
        for (size_t i = 0; i < n; i++)
            given.b[t * n + i] = i % 2 == 0 ? NAN : -INF;
        break;
    default:
        runs[t] ^= 0x80000001u;
    }
}

/* A tray of sound items, and then with each of them harmed: to the others the same bits are left. */
static void unfelt(size_t n, size_t count, uint32_t *chance)
{
    static const kind kinds_of_sound[] = {RANDOM, HEAVY_DIAGONAL, ZERO_DIAGONAL};
    static memory sound, sound_left;
    for (size_t t = 0; t < count; t++)
        set_item(kinds_of_sound[n == 1 ? 0 : t % COUNT(kinds_of_sound)], n, t, chance);
    in_turn(n, count);
    solved_at(next_placement(), "sound items", n, count);
    for (size_t t = 0; t < count; t++) {
        answered(left.answers[t], 0);
        copy_item(&sound, &given, n, t);
        copy_item(&sound_left, &left, n, t);
    }
    for (size_t t = 0; t < count; t++) {
        const uint32_t run = runs[t];
        for (harm by = 0; by < HARMS; by++) {
            do_harm(by, n, t, chance);
            in_turn(n, count);
            for (size_t other = 0; other < count; other++)
                if (other != t)
                    copy_item(&left, &sound_left, n, other);
            solved_at(next_placement(), harms[by], n, count);
            copy_item(&given, &sound, n, t);
            runs[t] = run;
        }
    }
}

static void neighbours(void)
{
    static const size_t orders[] = {1, 2, 3, 4, 5, 6, 8, 13, 16};
    uint32_t chance = 12;
    for (size_t o = 0; o < COUNT(orders); o++)
        for (size_t count = 1; count <= 9; count++)
            unfelt(orders[o], count, &chance);
    unfelt(33, 4, &chance);
    unfelt(LARGEST, 3, &chance);
}

/* What stands in records and answers before the call is not read: sound records and marked ones of other runs, and
 * refusals. */
static void old_contents(void)
{
    uint32_t chance = 13;
    for (size_t n = 0; n <= 9; n++) {
        const size_t count = 7;
        mixed(n, count, 3, &chance);
        for (size_t t = 0; t < count; t++) {
            uint32_t *record = given.records + t * (2 * n + 2);
            for (size_t i = 0; i < n; i++) {
                record[2 * i] = (uint32_t)i;
                record[2 * i + 1] = 1;
            }
            record[2 * n] = n == 0 ? 0 : (uint32_t)(t % (n + 1));
            record[2 * n + 1] = runs[t] + (uint32_t)(t % 2);
            given.answers[t] = t % 3 == 0 ? 0 : ANSWER(t % 3 == 1 ? 6 : 13, t);
        }
        solved("records and answers of before", n, count);
    }
}

/* ---- refusals */

/* What is refused by size, in the order of the checks; 0 if all fits. */
static unsigned due(size_t n, size_t count, words runs_lent, slices lent_slices)
{
    if (count > 1024 || n > 64)
        return 1;
    if (lent_slices.a.length != count * n * n)
        return 3;
    return lent_slices.records.length == count * (2 * n + 2) && lent_slices.b.length == count * n &&
                   runs_lent.length == count && lent_slices.answers.length == count
               ? 0
               : 4;
}

static void refused(const char *about, size_t n, size_t count, words runs_lent, slices old)
{
    tray(about, n, count, runs_lent, old, ANSWER(due(n, count, runs_lent, old), 0), old);
}

static slices old_slices(size_t a, size_t records, size_t b, size_t answers)
{
    return (slices){old_numbers(a), old_words(records), old_numbers(b), old_longs(answers)};
}

/* As it is, one long, one short. */
static size_t off(size_t fit, unsigned how)
{
    return how == 0 ? fit : how == 1 ? fit + 1 : fit - 1;
}

/* Each length so, each with each; where one alone is wrong, in three placements. */
static void refused_by_length(void)
{
    enum { LENGTHS = 5, WAYS = 3 * 3 * 3 * 3 * 3 };
    static const size_t sizes[][2] = {/* order, count */
                                      {0, 0}, {0, 1}, {0, 3}, {1, 0}, {3, 0}, {1, 1},
                                      {1, 2}, {2, 1}, {2, 2}, {3, 2}, {2, 5}, {64, 1}};
    for (size_t s = 0; s < COUNT(sizes); s++)
        for (unsigned way = 1; way < WAYS; way++) {
            const size_t n = sizes[s][0], count = sizes[s][1];
            const size_t fit[LENGTHS] = {count * n * n, count * (2 * n + 2), count * n, count, count};
            size_t length[LENGTHS];
            unsigned rest = way, wrong_ones = 0, below_zero = 0;
            for (size_t k = 0; k < LENGTHS; k++, rest /= 3) {
                length[k] = off(fit[k], rest % 3);
                wrong_ones += rest % 3 != 0;
                below_zero += length[k] == SIZE_MAX;
            }
            if (below_zero > 0)
                continue;
            const slices old = old_slices(length[0], length[1], length[2], length[4]);
            const words numbered = old_words(length[3]);
            const char *about = say("lengths that do not fit", n, count);
            if (wrong_ones == 1)
                refused(about, n, count, numbered, old);
            else
                placed_tray(about, next_placement(), n, count, numbered, old, ANSWER(due(n, count, numbered, old), 0), old);
        }
}

/* Lengths that would be right by another rule: packed triangles, records without mark or run number, one side or one run
 * number for all, a slice for another count or order. */
static void refused_by_other_lengths(void)
{
    const size_t n = 3, count = 4;
    const size_t fit[5] = {count * n * n, count * (2 * n + 2), count * n, count, count};
    const size_t others[5][8] = {
        {0, count * n * (n + 1) / 2, n * n, (count + 1) * n * n, (count - 1) * n * n, count * n, 64, 37},
        {0, count * (2 * n + 1), count * 2 * n, 2 * n + 2, count * 2 * n + 2, (count + 1) * (2 * n + 2), 8, 31},
        {0, n, count, (count + 1) * n, (count - 1) * n, count * n * n, 16, 11},
        {0, 1, n, 2 * count, count * n, 1024, 8, 5},
        {0, 1, n, 2 * count, count * n, 1024, 8, 5}};
    for (size_t k = 0; k < 5; k++)
        for (size_t o = 0; o < COUNT(others[k]); o++) {
            size_t lengths[5];
            for (size_t i = 0; i < 5; i++)
                lengths[i] = i == k ? others[k][o] : fit[i];
            refused("a length of another rule", n, count, old_words(lengths[3]),
                    old_slices(lengths[0], lengths[1], lengths[2], lengths[4]));
        }
}

/* The length for this product, wrapped or not, if it is small, else 4. */
static size_t small_length(size_t product)
{
    return product <= 1026 ? product : 4;
}

/* Counts and orders each with each, some of which have products that wrap, in slices that fit the wrapped products; and in
 * slices that do not fit. */
static void refused_by_size(void)
{
    static const size_t sizes[] = {
        0,           1,           2,         3,         63,        64,           65,           66,
        1023,        1024,        1025,      1026,      0xffff,    0x10000,      0x10001,      0xffffffff,
        0x100000000, 0x100000001, 1ul << 61, 1ul << 62, 1ul << 63, SIZE_MAX / 2, SIZE_MAX - 1, SIZE_MAX};
    for (size_t c = 0; c < COUNT(sizes); c++)
        for (size_t o = 0; o < COUNT(sizes); o++) {
            const size_t count = sizes[c], n = sizes[o];
            if (count <= 1024 && n <= 64)
                continue;
            char about[120];
            snprintf(about, sizeof about, "count %lu, order %lu", (unsigned long)count, (unsigned long)n);
            const words numbered = old_words(small_length(count));
            const slices fit = old_slices(small_length(count * n * n), small_length(count * (2 * n + 2)),
                                          small_length(count * n), small_length(count));
            refused(about, n, count, numbered, fit);
            refused(about, n, count, NO_WORDS, old_slices(0, 0, 0, 0));
            refused(about, n, count, WORDS(1), old_slices(4, 6, 2, 1));
        }
}

/* ---- limits */

/* A tray that would be solved if it were not too large. */
static void too_large(placement where, size_t n, size_t count)
{
    uint32_t chance = 14;
    for (size_t t = 0; t < count; t++)
        set_item(HEAVY_DIAGONAL, n, t, &chance);
    placed_tray(say("too large", n, count), where, n, count, run_numbers(count), slices_of(&given, n, count), ANSWER(1, 0),
                slices_of(&given, n, count));
}

static void limits(void)
{
    static const size_t orders[] = {0, 1, 2, 3, 4, 5, 8, 16};
    uint32_t chance = 15;
    for (size_t o = 0; o < COUNT(orders); o++)
        for (size_t count = MOST - 1; count <= MOST; count++) {
            const size_t n = orders[o];
            mixed(n, count, 3, &chance);
            if (n <= 3)
                solved("the longest trays", n, count);
            else
                solved_at(next_placement(), "the longest trays", n, count);
        }
    mixed(LARGEST, MOST, 5, &chance);
    solved_at(AT_THE_END, "the largest tray", LARGEST, MOST);
    for (size_t n = 0; n <= 3; n++)
        for (placement where = 0; where < PLACEMENTS; where++)
            too_large(where, n, BEYOND);
    for (size_t count = 0; count <= 3; count++)
        for (placement where = 0; where < PLACEMENTS; where++)
            too_large(where, ABOVE, count);
    too_large(BETWEEN_CANARIES, LARGEST, BEYOND);
    too_large(BETWEEN_CANARIES, ABOVE, MOST);
}

void tray_cases(void)
{
    worked();
    mixed_trays();
    every_small_matrix();
    neighbours();
    old_contents();
    refused_by_length();
    refused_by_other_lengths();
    refused_by_size();
    limits();
}
