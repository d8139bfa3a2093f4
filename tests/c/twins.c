#include "cases.h"
#include "lent.h"
#include "urgyelpat.h"

static void since(const char *about, size_t room, size_t earlier, size_t n, numbers a, uint64_t answer)
{
    for (placement where = 0; where < PLACEMENTS; where++) {
        lent matrix = lend_numbers(a, where);
        called("first_twin_since", about, where);
        answered(urgyelpat_first_twin_since(numbers_at(&matrix), a.length, room, earlier, n), answer);
        left_numbers(matrix, "a", a);
    }
}

/* first_twin_since has to give the same answer from row 0 on. */
static void first_twin(const char *about, size_t room, size_t n, numbers a, uint64_t answer)
{
    for (placement where = 0; where < PLACEMENTS; where++) {
        lent matrix = lend_numbers(a, where);
        called("first_twin", about, where);
        answered(urgyelpat_first_twin(numbers_at(&matrix), a.length, room, n), answer);
        left_numbers(matrix, "a", a);
    }
    since(about, room, 0, n, a, answer);
}

#define PAIR(p, q) ANSWER(4096 + (q), p)

static double distinct[1024 * 1024];

/* Row and column 1023 of the distinct numbers become those of row p. */
static void repeat_row(size_t p)
{
    for (size_t k = 0; k < 1023; k++)
        distinct[1023 + k * 1024] = k < p ? distinct[p + k * 1024] : distinct[k + p * 1024];
    distinct[1023 * 1025] = distinct[p * 1025];
}

static void whole(void)
{
    first_twin("order 0", 0, 0, NO_NUMBERS, 0);
    first_twin("order 0 in room 2", 2, 0, NUMBERS(1, 1, 1, 1), 0);
    first_twin("order 1", 1, 1, NUMBERS(1), 0);
    first_twin("order 1 in room 2", 2, 1, NUMBERS(1, 1, 1, 1), 0);
    first_twin("none of 2", 2, 2, NUMBERS(1, 1, KEPT, 2), 0);
    first_twin("both zeros", 2, 2, NUMBERS(0, 0, KEPT, -0.0), 0);
    first_twin("a zero beside the diagonal", 2, 2, NUMBERS(0, -0.0, KEPT, 0), 0);
    first_twin("none of 3", 3, 3, NUMBERS(1, 2, 3, KEPT, 4, 5, KEPT, KEPT, 6), 0);
    first_twin("two of 2", 2, 2, NUMBERS(1, 1, KEPT, 1), PAIR(0, 1));
    first_twin("two NaNs", 2, 2, NUMBERS(NAN, KEPT, 1, -NAN), PAIR(0, 1));
    first_twin("two of 2 in room 3", 3, 2, NUMBERS(1, 1, 7, KEPT, 1, 8, KEPT, KEPT, 9), PAIR(0, 1));
    first_twin("rows 0 and 1 of 3", 3, 3, NUMBERS(1, 1, 3, KEPT, 1, 3, KEPT, KEPT, 6), PAIR(0, 1));
    first_twin("rows 0 and 1 but for the entry below", 3, 3, NUMBERS(1, 1, 3, KEPT, 1, 4, KEPT, KEPT, 6), 0);
    first_twin("rows 0 and 2 of 3", 3, 3, NUMBERS(1, 2, 1, KEPT, 5, 2, KEPT, KEPT, 1), PAIR(0, 2));
    first_twin("rows 0 and 2 but for the entry between", 3, 3, NUMBERS(1, 2, 1, KEPT, 5, 3, KEPT, KEPT, 1), 0);
    first_twin("rows 1 and 2 of 3", 3, 3, NUMBERS(1, 2, 2, KEPT, 5, 5, KEPT, KEPT, 5), PAIR(1, 2));
    first_twin("three alike", 3, 3, NUMBERS(1, 1, 1, KEPT, 1, 1, KEPT, KEPT, 1), PAIR(0, 1));
    first_twin("two pairs: the least second row", 4, 4,
               NUMBERS(1, 2, 2, 1, KEPT, 5, 5, 2, KEPT, KEPT, 5, 2, KEPT, KEPT, KEPT, 1), PAIR(1, 2));
    first_twin("twins above the diagonal alone", 3, 3, NUMBERS(1, 1, 3, 1, 1, 4, 9, 9, 6), 0);
    first_twin("twins but above the diagonal", 3, 3, NUMBERS(1, 1, 3, 5, 1, 3, 7, 8, 6), PAIR(0, 1));

    numbers four = NUMBERS(1, 1, KEPT, 1), three = NUMBERS(1, 1, KEPT);
    first_twin("room 1025", 1025, 2, four, ANSWER(1, 0));
    first_twin("order 1025", 2, 1025, four, ANSWER(1, 0));
    first_twin("the largest room", SIZE_MAX, 0, NO_NUMBERS, ANSWER(1, 0));
    first_twin("the largest order", 2, SIZE_MAX, four, ANSWER(1, 0));
    first_twin("order above room", 2, 3, three, ANSWER(2, 0));
    first_twin("a matrix one short", 2, 2, three, ANSWER(3, 0));
    first_twin("a matrix one long", 2, 2, NUMBERS(1, 1, KEPT, 1, 1), ANSWER(3, 0));
    first_twin("a matrix of the order's size", 3, 2, four, ANSWER(3, 0));
}

/* Rows that came in batches, the last of them from row `earlier` on. */
static void batches(void)
{
    since("no batch after order 1", 1, 1, 1, NUMBERS(1), 0);

    /* rows 0 and 2 are the same */
    numbers one = NUMBERS(1, 2, 1, KEPT, 5, 2, KEPT, KEPT, 1);
    since("none before the pair", 3, 1, 2, one, 0);
    since("a pair within the batch", 3, 0, 3, one, PAIR(0, 2));
    since("a pair across, two new rows", 3, 1, 3, one, PAIR(0, 2));
    since("a pair across, one new row", 3, 2, 3, one, PAIR(0, 2));
    since("no batch after the pair", 3, 3, 3, one, 0);

    /* rows 0 and 1 are the same, and rows 2 and 3 */
    numbers two = NUMBERS(1, 1, 3, 3, KEPT, 1, 3, 3, KEPT, KEPT, 6, 6, KEPT, KEPT, KEPT, 6);
    since("the first of two pairs", 4, 1, 4, two, PAIR(0, 1));
    since("a kept pair and none in the batch", 4, 2, 3, two, 0);
    since("a kept pair and another in the batch", 4, 2, 4, two, PAIR(2, 3));
    since("a kept pair and another across", 4, 3, 4, two, PAIR(2, 3));
    since("two kept pairs", 4, 4, 4, two, 0);

    /* all rows are the same */
    numbers alike = NUMBERS(1, 1, 1, KEPT, 1, 1, KEPT, KEPT, 1);
    since("the least second row", 3, 1, 3, alike, PAIR(0, 1));
    since("the least first row", 3, 2, 3, alike, PAIR(0, 2));
    since("one more outside the order", 3, 1, 2, alike, PAIR(0, 1));

    since("NaNs across", 2, 1, 2, NUMBERS(NAN, KEPT, 1, -NAN), PAIR(0, 1));
    since("a NaN and a number across", 2, 1, 2, NUMBERS(NAN, NAN, 1, 1), 0);
    since("both zeros across", 2, 1, 2, NUMBERS(0, 0, KEPT, -0.0), 0);
    since("one zero across", 2, 1, 2, NUMBERS(-0.0, -0.0, KEPT, -0.0), PAIR(0, 1));
    since("a pair in a larger room", 3, 1, 2, NUMBERS(1, 1, 7, KEPT, 1, 8, KEPT, KEPT, 9), PAIR(0, 1));
    since("a pair outside the order", 3, 1, 2, NUMBERS(1, 2, 1, 2, 5, 2, 1, 2, 1), 0);
    since("twins above the diagonal alone", 3, 1, 3, NUMBERS(1, 1, 3, 1, 1, 4, 9, 9, 6), 0);
    since("twins but above the diagonal", 3, 1, 3, NUMBERS(1, 1, 3, 5, 1, 3, 7, 8, 6), PAIR(0, 1));

    /* why a factor is never asked: twins are missed, and others invented */
    since("2 / 2 2 as it came", 2, 1, 2, NUMBERS(2, 2, KEPT, 2), PAIR(0, 1));
    since("2 / 2 2, row 0 factored", 2, 1, 2, NUMBERS(from_bits(0x3ff6a09e667f3bcd), 2, KEPT, 2), 0);
    since("4 / 2 2 as it came", 2, 1, 2, NUMBERS(4, 2, KEPT, 2), 0);
    since("4 / 2 2, row 0 factored", 2, 1, 2, NUMBERS(2, 2, KEPT, 2), PAIR(0, 1));

    numbers four = NUMBERS(1, 1, KEPT, 1), three = NUMBERS(1, 1, KEPT);
    since("room 1025", 1025, 1, 2, four, ANSWER(1, 0));
    since("order 1025", 2, 1, 1025, four, ANSWER(1, 0));
    since("earlier order 1025", 2, 1025, 2, four, ANSWER(1, 0));
    since("the largest room", SIZE_MAX, 0, 0, NO_NUMBERS, ANSWER(1, 0));
    since("the largest order", 2, 1, SIZE_MAX, four, ANSWER(1, 0));
    since("the largest earlier order", 2, SIZE_MAX, 2, four, ANSWER(1, 0));
    since("order above room, earlier order 1025", 2, 1025, 3, three, ANSWER(1, 0));
    since("order above room", 2, 1, 3, three, ANSWER(2, 0));
    since("earlier order above order", 2, 2, 1, four, ANSWER(2, 0));
    since("earlier order above order and room", 2, 3, 2, four, ANSWER(2, 0));
    since("earlier order above order, a matrix one short", 2, 2, 1, three, ANSWER(2, 0));
    since("a matrix one short", 2, 1, 2, three, ANSWER(3, 0));
    since("a matrix one long", 2, 2, 2, NUMBERS(1, 1, KEPT, 1, 1), ANSWER(3, 0));
    since("a matrix of the order's size", 3, 1, 2, four, ANSWER(3, 0));
}

static void largest_order(void)
{
    for (size_t i = 0; i < 1024 * 1024; i++)
        distinct[i] = (double)i;
    numbers a = {distinct, 1024 * 1024};
    first_twin("none of 1024", 1024, 1024, a, 0);
    repeat_row(0);
    first_twin("rows 0 and 1023", 1024, 1024, a, PAIR(0, 1023));
    first_twin("rows 0 and 1023, the order below", 1024, 1023, a, 0);
    repeat_row(1022);
    first_twin("rows 1022 and 1023", 1024, 1024, a, PAIR(1022, 1023));
    since("rows 1022 and 1023 across", 1024, 1023, 1024, a, PAIR(1022, 1023));
    since("rows 1022 and 1023, no batch", 1024, 1024, 1024, a, 0);
}

void twin_cases(void)
{
    whole();
    batches();
    largest_order();
}
