#include "cases.h"
#include "lent.h"
#include "urgyelpat.h"

static void extend(const char *about, size_t room, size_t earlier, size_t n, numbers a, uint64_t answer, numbers a_left)
{
    for (placement where = 0; where < PLACEMENTS; where++) {
        lent matrix = lend_numbers(a, where);
        called("cholesky_extend", about, where);
        answered(urgyelpat_cholesky_extend(numbers_at(&matrix), a.length, room, earlier, n), answer);
        left_numbers(matrix, "a", a_left);
    }
}

/* The factor call, and the further batch from earlier order 0, which is the same. */
static void factor(const char *about, size_t room, size_t n, numbers a, uint64_t answer, numbers a_left)
{
    for (placement where = 0; where < PLACEMENTS; where++) {
        lent matrix = lend_numbers(a, where);
        called("cholesky_factor", about, where);
        answered(urgyelpat_cholesky_factor(numbers_at(&matrix), a.length, room, n), answer);
        left_numbers(matrix, "a", a_left);
    }
    extend(about, room, 0, n, a, answer, a_left);
}

static void solve(const char *about, size_t room, size_t n, size_t columns, numbers a, numbers b, uint64_t answer,
                  numbers b_left)
{
    for (placement where = 0; where < PLACEMENTS; where++) {
        lent matrix = lend_numbers(a, where), sides = lend_numbers(b, where);
        called("cholesky_solve", about, where);
        answered(urgyelpat_cholesky_solve(numbers_at(&matrix), a.length, numbers_at(&sides), b.length, room, n, columns),
                 answer);
        left_numbers(matrix, "a", a);
        left_numbers(sides, "b", b_left);
    }
}

static void solve_refused(const char *about, size_t room, size_t n, size_t columns, numbers a, numbers b, uint64_t answer)
{
    solve(about, room, n, columns, a, b, answer, b);
}

/* One column of an order up to 4, and five times the same: four columns at a time and one that is left. */
static void solve_column(const char *about, size_t room, size_t n, numbers a, numbers b, numbers b_left)
{
    double given[5 * 4], solved[5 * 4];
    for (size_t i = 0; i < 5 * n; i++) {
        given[i] = b.at[i % n];
        solved[i] = b_left.at[i % n];
    }
    solve(about, room, n, 1, a, b, 0, b_left);
    solve(about, room, n, 5, a, (numbers){given, 5 * n}, 0, (numbers){solved, 5 * n});
}

static void l(const char *about, size_t room, size_t n, numbers a, numbers given, uint64_t answer, numbers left)
{
    for (placement where = 0; where < PLACEMENTS; where++) {
        lent matrix = lend_numbers(a, where), filled = lend_numbers(given, where);
        called("cholesky_l", about, where);
        answered(urgyelpat_cholesky_l(numbers_at(&matrix), a.length, numbers_at(&filled), given.length, room, n), answer);
        left_numbers(matrix, "a", a);
        left_numbers(filled, "l", left);
    }
}

static void unpack(const char *about, size_t room, size_t n, numbers a, uint64_t answer, numbers a_left)
{
    for (placement where = 0; where < PLACEMENTS; where++) {
        lent matrix = lend_numbers(a, where);
        called("cholesky_unpack", about, where);
        answered(urgyelpat_cholesky_unpack(numbers_at(&matrix), a.length, room, n), answer);
        left_numbers(matrix, "a", a_left);
    }
}

static void determinant(const char *about, size_t room, size_t n, numbers a, uint64_t answer, double value)
{
    for (placement where = 0; where < PLACEMENTS; where++) {
        lent matrix = lend_numbers(a, where);
        called("cholesky_determinant", about, where);
        urgyelpat_determined got = urgyelpat_cholesky_determinant(numbers_at(&matrix), a.length, room, n);
        answered(got.answer, answer);
        valued(got.value, value);
        left_numbers(matrix, "a", a);
    }
}

/* A refusal by size, which every call gives alike. */
static void all_refused(const char *about, size_t room, size_t n, numbers a, uint64_t answer)
{
    numbers four = NUMBERS(1, 2, 3, 4);
    factor(about, room, n, a, answer, a);
    solve_refused(about, room, n, 1, a, four, answer);
    l(about, room, n, a, four, answer, four);
    unpack(about, room, n, a, answer, a);
    determinant(about, room, n, a, answer, 0.0);
}

static void factors(void)
{
    factor("order 0", 0, 0, NO_NUMBERS, 0, NO_NUMBERS);
    factor("order 0 in room 2", 2, 0, NUMBERS(-1, KEPT, 3, 4), 0, NUMBERS(-1, KEPT, 3, 4));
    factor("2", 1, 1, NUMBERS(2), 0, NUMBERS(from_bits(0x3ff6a09e667f3bcd)));
    factor("the least subnormal", 1, 1, NUMBERS(0x1p-1074), 0, NUMBERS(from_bits(0x1e60000000000000)));
    factor("infinity", 1, 1, NUMBERS(INF), 0, NUMBERS(INF));
    factor("4, 2, 5", 2, 2, NUMBERS(4, 2, KEPT, 5), 0, NUMBERS(2, 1, KEPT, 2));
    factor("4, 2, 5 in room 3", 3, 2, NUMBERS(4, 2, KEPT, KEPT, 5, -0.0, 0, NAN, KEPT), 0,
           NUMBERS(2, 1, KEPT, KEPT, 2, -0.0, 0, NAN, KEPT));
    factor("order 3", 3, 3, NUMBERS(4, 2, 6, KEPT, 5, 5, KEPT, KEPT, 14), 0, NUMBERS(2, 1, 3, KEPT, 2, 1, KEPT, KEPT, 2));
    factor("twins that pass", 2, 2, NUMBERS(2, 2, KEPT, 2), 0,
           NUMBERS(from_bits(0x3ff6a09e667f3bcd), from_bits(0x3ff6a09e667f3bcc), KEPT, from_bits(0x3e56a09e667f3bcd)));
}

static void factors_refused(void)
{
    factor("zero", 1, 1, NUMBERS(0), ANSWER(7, 0), NUMBERS(0));
    factor("minus zero", 1, 1, NUMBERS(-0.0), ANSWER(7, 0), NUMBERS(-0.0));
    factor("below zero", 1, 1, NUMBERS(-1), ANSWER(10, 0), NUMBERS(-1));
    factor("the first below zero", 1, 1, NUMBERS(-0x1p-1074), ANSWER(10, 0), NUMBERS(-0x1p-1074));
    factor("minus infinity", 1, 1, NUMBERS(-INF), ANSWER(10, 0), NUMBERS(-INF));
    factor("a NaN", 1, 1, NUMBERS(NAN), ANSWER(11, 0), NUMBERS(NAN));
    factor("a NaN with a sign", 1, 1, NUMBERS(-NAN), ANSWER(11, 0), NUMBERS(-NAN));
    factor("twins, nothing left", 2, 2, NUMBERS(1, 1, KEPT, 1), ANSWER(7, 1), NUMBERS(1, 1, KEPT, 0));
    factor("twins, a crumb below zero", 2, 2, NUMBERS(3, 3, KEPT, 3), ANSWER(10, 1),
           NUMBERS(from_bits(0x3ffbb67ae8584caa), from_bits(0x3ffbb67ae8584cab), KEPT, -0x1p-51));
    factor("twins, infinite", 2, 2, NUMBERS(INF, INF, KEPT, INF), ANSWER(11, 1), NUMBERS(INF, NAN, KEPT, NAN));
    factor("a NaN beside the diagonal", 2, 2, NUMBERS(1, NAN, KEPT, 1), ANSWER(11, 1), NUMBERS(1, NAN, KEPT, NAN));
    factor("infinity beside the diagonal", 2, 2, NUMBERS(1, INF, KEPT, 1), ANSWER(10, 1), NUMBERS(1, INF, KEPT, -INF));
    factor("a NaN, then a zero", 2, 2, NUMBERS(NAN, 0, KEPT, 0), ANSWER(11, 0), NUMBERS(NAN, 0, KEPT, 0));
    factor("below zero, then a NaN", 2, 2, NUMBERS(-1, 0, KEPT, NAN), ANSWER(10, 0), NUMBERS(-1, 0, KEPT, NAN));
    factor("a zero, then below zero", 2, 2, NUMBERS(0, 0, KEPT, -1), ANSWER(7, 0), NUMBERS(0, 0, KEPT, -1));
    factor("order 4, column 0", 4, 4, NUMBERS(-4, 2, 6, 2, KEPT, 5, 5, 7, KEPT, KEPT, 14, 9, KEPT, KEPT, KEPT, 3),
           ANSWER(10, 0), NUMBERS(-4, 2, 6, 2, KEPT, 5, 5, 7, KEPT, KEPT, 14, 9, KEPT, KEPT, KEPT, 3));
    factor("order 4, column 1", 4, 4, NUMBERS(4, 2, 6, 2, KEPT, 1, 5, 7, KEPT, KEPT, 14, 9, KEPT, KEPT, KEPT, 3),
           ANSWER(7, 1), NUMBERS(2, 1, 3, 1, KEPT, 0, 2, 6, KEPT, KEPT, 14, 9, KEPT, KEPT, KEPT, 3));
    factor("order 4, column 2", 4, 4, NUMBERS(4, 2, 6, 2, KEPT, 5, 5, 7, KEPT, KEPT, 9, 9, KEPT, KEPT, KEPT, 3),
           ANSWER(10, 2), NUMBERS(2, 1, 3, 1, KEPT, 2, 1, 3, KEPT, KEPT, -1, 3, KEPT, KEPT, KEPT, 3));
    factor("order 4, column 3", 4, 4, NUMBERS(4, 2, 6, 2, KEPT, 5, 5, 7, KEPT, KEPT, 14, 9, KEPT, KEPT, KEPT, 3),
           ANSWER(10, 3), NUMBERS(2, 1, 3, 1, KEPT, 2, 1, 3, KEPT, KEPT, 2, 1.5, KEPT, KEPT, KEPT, -9.25));
}

static void batches(void)
{
    numbers factored = NUMBERS(2, 1, KEPT, 2);
    extend("a batch of no rows", 2, 2, 2, factored, 0, factored);
    extend("a batch of no rows, later rows kept", 2, 1, 1, NUMBERS(2, KEPT, KEPT, KEPT), 0, NUMBERS(2, KEPT, KEPT, KEPT));
    extend("one row", 2, 1, 2, NUMBERS(2, 2, KEPT, 5), 0, factored);
    extend("one row in room 3", 3, 1, 2, NUMBERS(2, 2, KEPT, KEPT, 5, KEPT, 0, NAN, -0.0), 0,
           NUMBERS(2, 1, KEPT, KEPT, 2, KEPT, 0, NAN, -0.0));
    extend("two rows", 3, 1, 3, NUMBERS(2, 2, 6, KEPT, 5, 5, KEPT, KEPT, 14), 0, NUMBERS(2, 1, 3, KEPT, 2, 1, KEPT, KEPT, 2));
    extend("the last row", 3, 2, 3, NUMBERS(2, 1, 6, KEPT, 2, 5, KEPT, KEPT, 14), 0,
           NUMBERS(2, 1, 3, KEPT, 2, 1, KEPT, KEPT, 2));
    extend("refused at its first row", 3, 1, 3, NUMBERS(2, 2, 6, KEPT, 1, 5, KEPT, KEPT, 14), ANSWER(7, 1),
           NUMBERS(2, 1, 3, KEPT, 0, 2, KEPT, KEPT, 14));
    extend("refused at its second row", 3, 1, 3, NUMBERS(2, 2, 6, KEPT, 5, 5, KEPT, KEPT, 10), ANSWER(7, 2),
           NUMBERS(2, 1, 3, KEPT, 2, 1, KEPT, KEPT, 0));
    extend("below zero at the last row", 3, 2, 3, NUMBERS(2, 1, 6, KEPT, 2, 5, KEPT, KEPT, 9), ANSWER(10, 2),
           NUMBERS(2, 1, 3, KEPT, 2, 1, KEPT, KEPT, -1));
    extend("a NaN at the last row", 3, 2, 3, NUMBERS(2, 1, 6, KEPT, 2, 5, KEPT, KEPT, NAN), ANSWER(11, 2),
           NUMBERS(2, 1, 3, KEPT, 2, 1, KEPT, KEPT, NAN));
    extend("a NaN beside the earlier factor", 2, 1, 2, NUMBERS(2, NAN, KEPT, 5), ANSWER(11, 1), NUMBERS(2, NAN, KEPT, NAN));
    extend("a NaN within the batch", 3, 1, 3, NUMBERS(2, 2, 6, KEPT, 5, NAN, KEPT, KEPT, 14), ANSWER(11, 2),
           NUMBERS(2, 1, 3, KEPT, 2, NAN, KEPT, KEPT, NAN));
    extend("minus zero", 2, 1, 2, NUMBERS(2, 0, KEPT, -0.0), ANSWER(7, 1), NUMBERS(2, 0, KEPT, -0.0));
    extend("infinity less infinity", 2, 1, 2, NUMBERS(2, INF, KEPT, INF), ANSWER(11, 1), NUMBERS(2, INF, KEPT, NAN));
    extend("a NaN in the earlier factor", 2, 1, 2, NUMBERS(NAN, 2, KEPT, 5), ANSWER(11, 1), NUMBERS(NAN, NAN, KEPT, NAN));
    extend("a zero in the earlier factor", 2, 1, 2, NUMBERS(0, 2, KEPT, 5), ANSWER(10, 1), NUMBERS(0, INF, KEPT, -INF));
}

static void solves(void)
{
    numbers in_room_3 = NUMBERS(2, 1, KEPT, KEPT, 2, KEPT, KEPT, KEPT, KEPT);
    solve("order 0", 0, 0, 0, NO_NUMBERS, NO_NUMBERS, 0, NO_NUMBERS);
    solve("order 0, five columns", 0, 0, 5, NO_NUMBERS, NO_NUMBERS, 0, NO_NUMBERS);
    solve("order 0, 1024 columns", 0, 0, 1024, NO_NUMBERS, NO_NUMBERS, 0, NO_NUMBERS);
    solve("order 0 in room 3", 3, 0, 5, in_room_3, NO_NUMBERS, 0, NO_NUMBERS);
    solve("no columns", 3, 2, 0, in_room_3, NO_NUMBERS, 0, NO_NUMBERS);

    numbers two = NUMBERS(2, 1, KEPT, 2);
    solve_column("order 1", 1, 1, NUMBERS(2), NUMBERS(-3), NUMBERS(-0.75));
    solve_column("order 2", 2, 2, two, NUMBERS(8, 11), NUMBERS(1.125, 1.75));
    solve_column("order 2 in room 3", 3, 2, in_room_3, NUMBERS(8, 11), NUMBERS(1.125, 1.75));
    solve_column("order 3", 3, 3, NUMBERS(2, 1, 3, KEPT, 2, 1, KEPT, KEPT, 2), NUMBERS(12, 12, 25), NUMBERS(1, 1, 1));
    solve_column("zeros of both signs", 2, 2, two, NUMBERS(-0.0, -0.0), NUMBERS(-0.0, 0));
    solve_column("infinity", 2, 2, two, NUMBERS(INF, 0), NUMBERS(INF, -INF));
    solve_column("a NaN in row 0", 2, 2, two, NUMBERS(NAN, 1), NUMBERS(NAN, NAN));
    solve_column("a NaN in row 1", 2, 2, two, NUMBERS(1, NAN), NUMBERS(NAN, NAN));
    solve("five columns, each by itself", 3, 2, 5, in_room_3, NUMBERS(8, 11, NAN, 1, 2, 5, INF, 0, 4, 2), 0,
          NUMBERS(1.125, 1.75, NAN, NAN, 0, 1, INF, -INF, 1, 0));

    /* a product with the inverse gives ..fb, one quotient by the square ..fd */
    solve_column("two quotients", 1, 1, NUMBERS(49), NUMBERS(1), NUMBERS(from_bits(0x3f3b4b985cf97efc)));
    /* fused, the zero would be -2^-104 */
    solve_column("a rounded product going forward", 2, 2, NUMBERS(1, 1 + 0x1p-52, KEPT, 1),
                 NUMBERS(1 + 0x1p-52, 1 + 0x1p-51), NUMBERS(1 + 0x1p-52, 0));
    solve_column("a rounded product going back", 2, 2, NUMBERS(1, 1 + 0x1p-52, KEPT, 1), NUMBERS(1 + 0x1p-51, 2 + 0x1p-50),
                 NUMBERS(0, 1 + 0x1p-52));
    /* with row 2 before row 1, or with both products summed first, row 0 would be 1 - 2^-52 */
    solve_column("rows rising on the way back", 3, 3, NUMBERS(1, 0x1p-54, 0x1p-53, KEPT, 1, 0, KEPT, KEPT, 1),
                 NUMBERS(1, 1, 1), NUMBERS(1 - 0x1p-53, 1, 1 - 0x1p-53));
}

/* No number of a factor is refused. */
static void solves_by_any_factor(void)
{
    numbers side = NUMBERS(8, 11);
    solve_column("zero", 1, 1, NUMBERS(0), NUMBERS(1), NUMBERS(INF));
    solve_column("minus zero", 1, 1, NUMBERS(-0.0), NUMBERS(-1), NUMBERS(-INF));
    solve_column("zero by zero", 1, 1, NUMBERS(0), NUMBERS(0), NUMBERS(NAN));
    solve_column("zero at (0, 0)", 2, 2, NUMBERS(0, 1, KEPT, 2), side, NUMBERS(INF, -INF));
    solve_column("zero at (1, 1)", 2, 2, NUMBERS(2, 1, KEPT, 0), side, NUMBERS(-INF, INF));
    solve_column("infinity at (0, 0)", 2, 2, NUMBERS(INF, 1, KEPT, 2), side, NUMBERS(-0.0, 2.75));
    solve_column("infinity at (1, 0)", 2, 2, NUMBERS(2, INF, KEPT, 2), side, NUMBERS(INF, -INF));
    solve_column("a NaN at (1, 0)", 2, 2, NUMBERS(2, NAN, KEPT, 2), side, NUMBERS(NAN, NAN));
    solve_column("a NaN at (1, 1)", 2, 2, NUMBERS(2, 1, KEPT, NAN), side, NUMBERS(NAN, NAN));
    solve_column("what twins left", 2, 2, NUMBERS(1, 1, KEPT, 0), side, NUMBERS(-INF, INF));
    solve_column("what a factor refused at column 2 left", 4, 4,
                 NUMBERS(2, 1, 3, 1, KEPT, 2, 1, 3, KEPT, KEPT, -1, 3, KEPT, KEPT, KEPT, 3), NUMBERS(14, 19, 25, 40),
                 NUMBERS(1, 1, 1, 1));
}

/* Many columns at once leave what one column after the other leaves, in rooms of the order and above it. */
static void many_columns(void)
{
    enum { LARGEST = 13, MOST = 9, ROOM = LARGEST + 2 };
    static const size_t counts[] = {1, 3, 4, 5, MOST};
    double a[ROOM * ROOM], b[LARGEST * MOST], left[LARGEST * MOST];
    uint32_t chance = 1;
    for (size_t n = 1; n <= LARGEST; n++)
        for (size_t c = 0; c < sizeof counts / sizeof counts[0]; c++) {
            size_t columns = counts[c], room = n + columns % 3;
            for (size_t i = 0; i < room * room; i++)
                a[i] = KEPT;
            for (size_t j = 0; j < n; j++)
                for (size_t i = j; i < n; i++)
                    a[i + j * room] = by_chance(&chance) + (i == j ? (double)n : 0);
            for (size_t i = 0; i < n * columns; i++)
                left[i] = b[i] = by_chance(&chance);
            answered(urgyelpat_cholesky_factor(a, room * room, room, n), 0);
            for (size_t j = 0; j < columns; j++)
                answered(urgyelpat_cholesky_solve(a, room * room, left + j * n, n, room, n, 1), 0);
            solve("many columns", room, n, columns, (numbers){a, room * room}, (numbers){b, n * columns}, 0,
                  (numbers){left, n * columns});
        }
}

static void solves_refused(void)
{
    numbers two = NUMBERS(2, 1, KEPT, 2), short_two = NUMBERS(2, 1, KEPT);
    numbers in_room_3 = NUMBERS(2, 1, KEPT, KEPT, 2, KEPT, KEPT, KEPT, KEPT);
    numbers side = NUMBERS(KEPT, 7), short_side = NUMBERS(KEPT), three = NUMBERS(7, 8, KEPT);
    solve_refused("1025 columns", 2, 2, 1025, two, side, ANSWER(1, 0));
    solve_refused("1025 columns of nothing", 0, 0, 1025, NO_NUMBERS, NO_NUMBERS, ANSWER(1, 0));
    solve_refused("the largest column count", 2, 2, SIZE_MAX, two, side, ANSWER(1, 0));
    solve_refused("a column count whose product wraps", 2, 2, SIZE_MAX / 2 + 2, two, side, ANSWER(1, 0));
    solve_refused("1025 columns, order above room", 2, 3, 1025, two, side, ANSWER(1, 0));
    solve_refused("1025 columns, a matrix one short", 2, 2, 1025, short_two, side, ANSWER(1, 0));
    solve_refused("order above room alone", 2, 3, 1, two, three, ANSWER(2, 0));
    solve_refused("order above room, a matrix one short", 2, 3, 1, short_two, three, ANSWER(2, 0));
    solve_refused("order above room, a side one short", 2, 3, 1, two, side, ANSWER(2, 0));
    solve_refused("a matrix one short alone", 2, 2, 1, short_two, side, ANSWER(3, 0));
    solve_refused("a matrix and a side one short", 2, 2, 1, short_two, short_side, ANSWER(3, 0));
    solve_refused("a side one short", 2, 2, 1, two, short_side, ANSWER(4, 0));
    solve_refused("a side one long", 2, 2, 1, two, three, ANSWER(4, 0));
    solve_refused("no side", 2, 2, 1, two, NO_NUMBERS, ANSWER(4, 0));
    solve_refused("a side for no columns", 2, 2, 0, two, side, ANSWER(4, 0));
    solve_refused("a side for order 0", 2, 0, 1, two, side, ANSWER(4, 0));
    solve_refused("one column for two", 2, 2, 2, two, side, ANSWER(4, 0));
    solve_refused("a side of the room's length", 3, 2, 1, in_room_3, three, ANSWER(4, 0));
}

static void readers(void)
{
    numbers junk = NUMBERS(KEPT, 7, KEPT, 7);
    numbers in_room_3 = NUMBERS(2, 1, KEPT, KEPT, 2, -0.0, 0, NAN, KEPT);
    l("order 0", 0, 0, NO_NUMBERS, NO_NUMBERS, 0, NO_NUMBERS);
    l("order 0 in room 3", 3, 0, in_room_3, NO_NUMBERS, 0, NO_NUMBERS);
    l("order 2", 2, 2, NUMBERS(2, 1, KEPT, 2), junk, 0, NUMBERS(2, 1, 0, 2));
    l("order 2 in room 3", 3, 2, in_room_3, junk, 0, NUMBERS(2, 1, 0, 2));
    unpack("order 0", 0, 0, NO_NUMBERS, 0, NO_NUMBERS);
    unpack("order 0 in room 3", 3, 0, in_room_3, 0, in_room_3);
    unpack("order 2", 2, 2, NUMBERS(2, 1, KEPT, 2), 0, NUMBERS(2, 1, 0, 2));
    unpack("order 2 in room 3", 3, 2, in_room_3, 0, NUMBERS(2, 1, KEPT, 0, 2, -0.0, 0, NAN, KEPT));
    determinant("order 0", 0, 0, NO_NUMBERS, 0, 1.0);
    determinant("order 0 in room 3", 3, 0, in_room_3, 0, 1.0);
    determinant("order 2", 2, 2, NUMBERS(2, 1, KEPT, 2), 0, 16.0);
    determinant("order 2 in room 3", 3, 2, in_room_3, 0, 16.0);
    determinant("order 2, a NaN", 2, 2, NUMBERS(2, 1, KEPT, NAN), 0, NAN);
    numbers four = NUMBERS(2, 1, KEPT, 2);
    l("l one short", 2, 2, four, NUMBERS(1, 2, 3), ANSWER(4, 0), NUMBERS(1, 2, 3));
    l("l one long", 2, 2, four, NUMBERS(1, 2, 3, 4, 5), ANSWER(4, 0), NUMBERS(1, 2, 3, 4, 5));
    l("no l", 2, 2, four, NO_NUMBERS, ANSWER(4, 0), NO_NUMBERS);
    l("l of the room's size", 3, 2, in_room_3, in_room_3, ANSWER(4, 0), in_room_3);
}

static void refused_by_size(void)
{
    numbers four = NUMBERS(4, 2, KEPT, 5), three = NUMBERS(4, 2, KEPT), five = NUMBERS(4, 2, KEPT, 5, 1);
    all_refused("room 1025", 1025, 2, four, ANSWER(1, 0));
    all_refused("order 1025", 2, 1025, four, ANSWER(1, 0));
    all_refused("the largest room", SIZE_MAX, 0, NO_NUMBERS, ANSWER(1, 0));
    all_refused("the largest order", 2, SIZE_MAX, four, ANSWER(1, 0));
    all_refused("order above room", 2, 3, three, ANSWER(2, 0));
    all_refused("order 1024 in room 1023", 1023, 1024, NO_NUMBERS, ANSWER(2, 0));
    all_refused("a matrix one short", 2, 2, three, ANSWER(3, 0));
    all_refused("a matrix one long", 2, 2, five, ANSWER(3, 0));
    all_refused("a matrix of the order's size", 3, 2, four, ANSWER(3, 0));
    all_refused("no matrix", 2, 0, NO_NUMBERS, ANSWER(3, 0));
    extend("earlier order 1025", 2, 1025, 2, four, ANSWER(1, 0), four);
    extend("the largest earlier order", 2, SIZE_MAX, 2, three, ANSWER(1, 0), three);
    extend("earlier order above order", 2, 2, 1, three, ANSWER(2, 0), three);
    extend("a later matrix one short", 2, 1, 2, three, ANSWER(3, 0), three);
}

static double unit[1024 * 1024], unit_left[1024 * 1024], filled[1024 * 1024];
static double sides[5 * 1024], solved[5 * 1024];

static void largest_order(void)
{
    for (size_t i = 0; i < 1024; i++)
        unit[i * 1025] = unit_left[i * 1025] = 1;
    unit[1023 * 1025] = 4;
    unit_left[1023 * 1025] = 2;
    numbers a = {unit, 1024 * 1024}, left = {unit_left, 1024 * 1024}, junk = {filled, 1024 * 1024};
    extend("order 1024 from 1023", 1024, 1023, 1024, a, 0, left);
    determinant("order 1024", 1024, 1024, left, 0, 4.0);
    l("order 1024", 1024, 1024, left, junk, 0, left);
    unpack("order 1024", 1024, 1024, left, 0, left);
    unit_left[1023] = 1;
    for (size_t i = 0; i < 5 * 1024; i++) {
        sides[i] = i % 1024 == 1023 ? 5 : 1;
        solved[i] = i % 1024 == 0 ? 0 : 1;
    }
    solve("order 1024", 1024, 1024, 5, left, (numbers){sides, 5 * 1024}, 0, (numbers){solved, 5 * 1024});
    for (size_t i = 0; i < 1024; i++) {
        sides[i] = 4 * (double)i;
        solved[i] = (double)i;
    }
    solve("1024 columns", 1, 1, 1024, NUMBERS(2), (numbers){sides, 1024}, 0, (numbers){solved, 1024});
    unit[1023 * 1025] = 0;
    extend("order 1024 from 1023, refused", 1024, 1023, 1024, a, ANSWER(7, 1023), a);
    unit[0] = -1;
    factor("order 1024, column 0", 1024, 1024, a, ANSWER(10, 0), a);
    unit[0] = 1;
    unit[1023 * 1025] = NAN;
    extend("order 1024 from 1023, a NaN", 1024, 1023, 1024, a, ANSWER(11, 1023), a);
}

void cholesky_cases(void)
{
    factors();
    factors_refused();
    batches();
    solves();
    solves_by_any_factor();
    many_columns();
    solves_refused();
    readers();
    refused_by_size();
    largest_order();
}
