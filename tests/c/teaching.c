#include "cases.h"
#include "lent.h"
#include "matrices.h"
#include "urgyelpat.h"
#include <stdio.h>

/* The teaching engine: beside numbers worked out by hand, beside the steps as they are written here, and beside
 * urgyelpat_cholesky_factor. Of each call below the sizes come first, in the order in which the call takes them. */

static void teaching(const char *about, size_t room, size_t n, numbers a, uint64_t answer, numbers a_left)
{
    for (placement where = 0; where < PLACEMENTS; where++) {
        lent matrix = lend_numbers(a, where);
        called("cholesky_teaching", about, where);
        answered(urgyelpat_cholesky_teaching(numbers_at(&matrix), a.length, room, n), answer);
        left_numbers(matrix, "a", a_left);
    }
}

/* ---- numbers worked out by hand */

static void factors(void)
{
    teaching("order 0", 0, 0, NO_NUMBERS, 0, NO_NUMBERS);
    teaching("order 0 in room 2", 2, 0, NUMBERS(-1, KEPT, 3, 4), 0, NUMBERS(-1, KEPT, 3, 4));
    teaching("2", 1, 1, NUMBERS(2), 0, NUMBERS(from_bits(0x3ff6a09e667f3bcd)));
    teaching("the least subnormal", 1, 1, NUMBERS(0x1p-1074), 0, NUMBERS(from_bits(0x1e60000000000000)));
    teaching("infinity", 1, 1, NUMBERS(INF), 0, NUMBERS(INF));
    teaching("4, 2, 5", 2, 2, NUMBERS(4, 2, KEPT, 5), 0, NUMBERS(2, 1, KEPT, 2));
    teaching("4, 2, 5 in room 3", 3, 2, NUMBERS(4, 2, KEPT, KEPT, 5, -0.0, 0, NAN, KEPT), 0,
             NUMBERS(2, 1, KEPT, KEPT, 2, -0.0, 0, NAN, KEPT));
    teaching("order 3", 3, 3, NUMBERS(4, 2, 6, KEPT, 5, 5, KEPT, KEPT, 14), 0, NUMBERS(2, 1, 3, KEPT, 2, 1, KEPT, KEPT, 2));
    teaching("twins that pass", 2, 2, NUMBERS(2, 2, KEPT, 2), 0,
             NUMBERS(from_bits(0x3ff6a09e667f3bcd), from_bits(0x3ff6a09e667f3bcc), KEPT, from_bits(0x3e56a09e667f3bcd)));
    /* a product with the inverse of the diagonal would leave one bit less */
    teaching("a quotient", 2, 2, NUMBERS(9, 5, KEPT, 4), 0,
             NUMBERS(3, from_bits(0x3ffaaaaaaaaaaaab), KEPT, from_bits(0x3ff1b04c62a8f4cd)));
    /* fused, -2^-104 would be left, which is refused by 10 */
    teaching("a rounded product", 2, 2, NUMBERS(1, 1 + 0x1p-52, KEPT, 1 + 0x1p-51), ANSWER(7, 1),
             NUMBERS(1, 1 + 0x1p-52, KEPT, 0));
    /* with column 1 before column 0, or with both products summed first, (3, 2) would be 1 - 2^-52 */
    teaching("columns rising", 4, 4, NUMBERS(1, 0, 1, 0x1p-54, KEPT, 1, 1, 0x1p-53, KEPT, KEPT, 3, 1, KEPT, KEPT, KEPT, 5), 0,
             NUMBERS(1, 0, 1, 0x1p-54, KEPT, 1, 1, 0x1p-53, KEPT, KEPT, 1, 1 - 0x1p-53, KEPT, KEPT, KEPT, 2));
}

/* A diagonal that fails alone, and twins. */
static void refused(void)
{
    teaching("zero", 1, 1, NUMBERS(0), ANSWER(7, 0), NUMBERS(0));
    teaching("minus zero", 1, 1, NUMBERS(-0.0), ANSWER(7, 0), NUMBERS(-0.0));
    teaching("below zero", 1, 1, NUMBERS(-1), ANSWER(10, 0), NUMBERS(-1));
    teaching("the first below zero", 1, 1, NUMBERS(-0x1p-1074), ANSWER(10, 0), NUMBERS(-0x1p-1074));
    teaching("minus infinity", 1, 1, NUMBERS(-INF), ANSWER(10, 0), NUMBERS(-INF));
    teaching("a NaN", 1, 1, NUMBERS(NAN), ANSWER(11, 0), NUMBERS(NAN));
    teaching("a NaN with a sign", 1, 1, NUMBERS(-NAN), ANSWER(11, 0), NUMBERS(-NAN));
    teaching("twins, nothing left", 2, 2, NUMBERS(1, 1, KEPT, 1), ANSWER(7, 1), NUMBERS(1, 1, KEPT, 0));
    teaching("twins, a crumb below zero", 2, 2, NUMBERS(3, 3, KEPT, 3), ANSWER(10, 1),
             NUMBERS(from_bits(0x3ffbb67ae8584caa), from_bits(0x3ffbb67ae8584cab), KEPT, -0x1p-51));
    teaching("twins, infinite", 2, 2, NUMBERS(INF, INF, KEPT, INF), ANSWER(11, 1), NUMBERS(INF, NAN, KEPT, NAN));
    teaching("a NaN beside the diagonal", 2, 2, NUMBERS(1, NAN, KEPT, 1), ANSWER(11, 1), NUMBERS(1, NAN, KEPT, NAN));
    teaching("infinity beside the diagonal", 2, 2, NUMBERS(1, INF, KEPT, 1), ANSWER(10, 1), NUMBERS(1, INF, KEPT, -INF));
    teaching("minus zero in row 1", 2, 2, NUMBERS(1, 0, KEPT, -0.0), ANSWER(7, 1), NUMBERS(1, 0, KEPT, -0.0));
    /* column 1 below the refused diagonal, which urgyelpat_cholesky_factor updates to 0 */
    teaching("the row below", 3, 3, NUMBERS(1, 1, 2, KEPT, 1, 2, KEPT, KEPT, 9), ANSWER(7, 1),
             NUMBERS(1, 1, 2, KEPT, 0, 2, KEPT, KEPT, 9));
    teaching("a NaN, then a zero", 2, 2, NUMBERS(NAN, 0, KEPT, 0), ANSWER(11, 0), NUMBERS(NAN, 0, KEPT, 0));
    teaching("below zero, then a NaN", 2, 2, NUMBERS(-1, 0, KEPT, NAN), ANSWER(10, 0), NUMBERS(-1, 0, KEPT, NAN));
    teaching("a zero, then below zero", 2, 2, NUMBERS(0, 0, KEPT, -1), ANSWER(7, 0), NUMBERS(0, 0, KEPT, -1));
}

/* The lower rows 4 / 2 5 / 6 5 14 / 2 7 9 16.25, refused at each row by each code, in rooms of 4 and 5. All that is to stay as
 * given is KEPT. */
static void refused_at_each_row(void)
{
    enum { N = 4, MOST = N + 1 };
    const numbers given = NUMBERS(4, 2, 6, 2, KEPT, 5, 5, 7, KEPT, KEPT, 14, 9, KEPT, KEPT, KEPT, 16.25);
    const numbers factor = NUMBERS(2, 1, 3, 1, KEPT, 2, 1, 3, KEPT, KEPT, 2, 1.5, KEPT, KEPT, KEPT, 2);
    const numbers taken = NUMBERS(0, 1, 10, 12.25); /* from each diagonal by the columns before it */
    const numbers rests = NUMBERS(0, -0.5, -INF, NAN);
    static const unsigned codes[] = {7, 10, 10, 11};
    for (size_t room = N; room <= MOST; room++)
        for (size_t row = 0; row < N; row++)
            for (size_t r = 0; r < rests.length; r++) {
                double a[MOST * MOST], left[MOST * MOST];
                for (size_t i = 0; i < room * room; i++)
                    a[i] = left[i] = KEPT;
                for (size_t i = 0; i <= row; i++)
                    for (size_t j = 0; j <= i; j++) {
                        a[i + j * room] = given.at[i + j * N];
                        left[i + j * room] = factor.at[i + j * N];
                    }
                a[row + row * room] = taken.at[row] + rests.at[r];
                left[row + row * room] = rests.at[r];
                teaching("refused at each row", room, N, some(a, room * room), ANSWER(codes[r], row),
                         some(left, room * room));
            }
}

/* ---- refusals by size */

/* What is refused by size, in the order of the checks; 0 if all fits. */
static unsigned due_to_sizes(size_t room, size_t n, size_t length)
{
    if (n > 64 || room > 1024)
        return 1;
    if (n > room)
        return 2;
    return length == room * room ? 0 : 3;
}

/* Sizes each with each, some of which have squares that wrap to one of the lengths. In the slice stand old_numbers: a call
 * that came to them would refuse the first. */
static void refused_by_size(void)
{
    static const size_t sizes[] = {
        0,    1,    2,    3,          8,           63,          64,           65,           66,
        1023, 1024, 1025, 0xffffffff, 0x100000000, 0x100000002, SIZE_MAX - 2, SIZE_MAX - 1, SIZE_MAX};
    static const size_t lengths[] = {0, 1, 3, 4, 5, 9, 64, 63 * 63, 64 * 64 - 1, 64 * 64, 64 * 64 + 1, 65 * 65};
    for (size_t r = 0; r < COUNT(sizes); r++)
        for (size_t o = 0; o < COUNT(sizes); o++)
            for (size_t l = 0; l < COUNT(lengths); l++) {
                const size_t room = sizes[r], n = sizes[o], length = lengths[l];
                const unsigned code = due_to_sizes(room, n, length);
                if (code == 0)
                    continue;
                char about[120];
                snprintf(about, sizeof about, "room %lu, order %lu, length %lu", (unsigned long)room, (unsigned long)n,
                         (unsigned long)length);
                teaching(about, room, n, old_numbers(length), ANSWER(code, 0), old_numbers(length));
            }
}

/* ---- beside the steps, and beside urgyelpat_cholesky_factor */

/* the largest order, and the largest room that is tried in full */
enum { LARGEST = 64, MOST = LARGEST + 3, SQUARE = MOST * MOST };

/* Row after row, each from left to right, every step rounded by itself. Sizes and lengths fit. */
static uint64_t steps(size_t room, size_t n, double *a)
{
    for (size_t i = 0; i < n; i++)
        for (size_t j = 0; j <= i; j++) {
            double entry = a[i + j * room];
            for (size_t k = 0; k < j; k++) {
                const volatile double product = -a[j + k * room] * a[i + k * room];
                entry = entry + product;
            }
            const int passes = j < i || 0 < entry;
            a[i + j * room] = j < i ? entry / a[j + j * room] : passes ? root(entry) : entry;
            if (!passes)
                return ANSWER(entry == 0 ? 7 : entry < 0 ? 10 : 11, i);
        }
    return 0;
}

/* What the call leaves beside what urgyelpat_cholesky_factor does: the whole buffer where it is done, else the rows up to the
 * refused one. */
static void laws(size_t room, size_t n, const double *a, uint64_t got, const double *left)
{
    static double main_left[SQUARE];
    const size_t length = room * room;
    copy(main_left, a, length);
    const uint64_t answer = urgyelpat_cholesky_factor(main_left, length, room, n);
    answered(got, answer);
    for (size_t at = 0; at < length; at++)
        if (answer == 0 || (at / room <= at % room && at % room <= urgyelpat_place(answer)))
            valued(left[at], as_left(main_left[at]));
}

/* The call on one matrix. Gives what the steps give, and fills `left` with what they leave. */
static uint64_t beside(const char *matrix, size_t room, size_t n, const double *a, double *left)
{
    static char about[200];
    const size_t length = room * room;
    snprintf(about, sizeof about, "%s, order %lu in room %lu", matrix, (unsigned long)n, (unsigned long)room);
    copy(left, a, length);
    const uint64_t wanted = steps(room, n, left);
    for (size_t i = 0; i < length; i++)
        left[i] = as_left(left[i]);
    double *const buffer = lend_framed(a, length);
    called("cholesky_teaching", about, BETWEEN_CANARIES);
    const uint64_t got = urgyelpat_cholesky_teaching(buffer, length, room, n);
    answered(got, wanted);
    left_framed(left, length);
    laws(room, n, a, got, buffer);
    return wanted;
}

static void small_matrix(const char *about, size_t n, const double *full)
{
    double left[16];
    (void)beside(about, n, n, full, left);
}

/* Of orders 1 to 3 there are accepted ones among them, and ones that are refused by each code at each row. */
static void every_small_matrix(void)
{
    const numbers entries = NUMBERS(1, 2, 0, NAN, -1, INF, -0.0, -INF);
    every_matrix(1, entries, small_matrix);
    every_matrix(2, entries, small_matrix);
    every_matrix(3, some(entries.at, 6), small_matrix);
    every_matrix(4, NUMBERS(4, 2, 1), small_matrix);
}

/* The same, in three placements too. */
static void placed(const char *matrix, size_t room, size_t n, const double *a)
{
    static double left[SQUARE];
    const uint64_t answer = beside(matrix, room, n, a, left);
    teaching(matrix, room, n, some(a, room * room), answer, some(left, room * room));
}

/* The row is refused by this code, if none before it is: for a zero or a number below zero on the diagonal, or for a NaN,
 * there or left of it. */
static void spoil(unsigned code, size_t n, size_t row, double *full)
{
    for (size_t j = 0; j < row && code == 7; j++)
        full[row + j * n] = 0;
    full[row + (code == 11 ? row / 2 : row) * n] = code == 7 ? 0 : code == 10 ? -1 : NAN;
}

/* The rows below this one become KEPT. */
static void keep_below(size_t n, size_t row, double *full)
{
    for (size_t i = row + 1; i < n; i++)
        for (size_t j = 0; j <= i; j++)
            full[i + j * n] = KEPT;
}

static void refused_at(size_t room, size_t n, size_t row, uint32_t *chance)
{
    static const unsigned codes[] = {7, 10, 11};
    static double full[SQUARE], a[SQUARE], left[SQUARE];
    for (size_t c = 0; c < COUNT(codes); c++) {
        fill(HEAVY_DIAGONAL, n, chance, full);
        spoil(codes[c], n, row, full);
        if ((row + c) % 2 == 0)
            keep_below(n, row, full);
        set_in_room(room, n, full, a);
        answered(beside("one row spoilt", room, n, a, left), ANSWER(codes[c], row));
    }
}

static void matrices_by_chance(void)
{
    static const size_t orders[] = {0, 1, 2, 3, 4, 5, 6, 7, 8, 9, 10, 13, 17, 24, 33, 63, 64};
    static double full[SQUARE], a[SQUARE], left[SQUARE];
    uint32_t chance = 21;
    for (size_t o = 0; o < COUNT(orders); o++) {
        const size_t n = orders[o];
        for (kind of = 0; of < KINDS; of++) {
            const size_t room = n + (o + of) % 4;
            fill(of, n, &chance, full);
            set_in_room(room, n, full, a);
            placed(kinds[of], room, n, a);
        }
        for (size_t row = 0; row < n; row++) {
            const size_t room = n + row % 4;
            refused_at(room, n, row, &chance);
            fill(HEAVY_DIAGONAL, n, &chance, full);
            repeat_row(n, row / 2, row, full);
            set_in_room(room, n, full, a);
            (void)beside("twins", room, n, a, left);
        }
    }
}

/* ---- orders above 64, and large rooms */

enum { LARGEST_ROOM = 1024 };
static double large[(LARGEST_ROOM + 1) * (LARGEST_ROOM + 1)], large_left[LARGEST_ROOM * LARGEST_ROOM];

/* One call between canaries, since a large room takes long. */
static void large_room(const char *about, size_t room, size_t n, uint64_t answer, const double *left)
{
    const numbers a = {large, room * room};
    lent matrix = lend_numbers(a, BETWEEN_CANARIES);
    called("cholesky_teaching", about, BETWEEN_CANARIES);
    answered(urgyelpat_cholesky_teaching(numbers_at(&matrix), a.length, room, n), answer);
    left_numbers(matrix, "a", (numbers){left, a.length});
}

/* Matrices with no diagonal that fails, in slices that fit: up to 1024 the order alone is refused. */
static void orders_above_64(void)
{
    static double full[SQUARE];
    uint32_t chance = 3;
    for (size_t n = LARGEST + 1; n <= LARGEST + 2; n++) {
        fill(HEAVY_DIAGONAL, n, &chance, full);
        teaching(at_order("heavy diagonal", n), n, n, some(full, n * n), ANSWER(1, 0), some(full, n * n));
    }
    for (size_t n = LARGEST_ROOM; n <= LARGEST_ROOM + 1; n++) {
        for (size_t at = 0; at < n * n; at++)
            large[at] = at % n < at / n ? KEPT : at % n == at / n;
        large_room(at_order("the unit matrix", n), n, n, ANSWER(1, 0), large);
    }
}

static void large_rooms(void)
{
    static double full[SQUARE], a[SQUARE], left[SQUARE];
    uint32_t chance = 4;
    for (int refuse = 0; refuse <= 1; refuse++) {
        fill(HEAVY_DIAGONAL, LARGEST, &chance, full);
        if (refuse)
            full[LARGEST * LARGEST - 1] = -1;
        set_in_room(LARGEST, LARGEST, full, a);
        const uint64_t answer = beside("before the large room", LARGEST, LARGEST, a, left);
        set_in_room(LARGEST_ROOM, LARGEST, full, large);
        set_in_room(LARGEST_ROOM, LARGEST, left, large_left);
        large_room("order 64 in room 1024", LARGEST_ROOM, LARGEST, answer, large_left);
    }
    large_room("order 65 in room 1024", LARGEST_ROOM, LARGEST + 1, ANSWER(1, 0), large);
    set_in_room(LARGEST_ROOM + 1, LARGEST, full, large);
    large_room("order 64 in room 1025", LARGEST_ROOM + 1, LARGEST, ANSWER(1, 0), large);
}

void teaching_cases(void)
{
    factors();
    refused();
    refused_at_each_row();
    refused_by_size();
    every_small_matrix();
    matrices_by_chance();
    orders_above_64();
    large_rooms();
}
