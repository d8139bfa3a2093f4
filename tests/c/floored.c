#include "cases.h"
#include "lent.h"
#include "matrices.h"
#include "urgyelpat.h"
#include <stdio.h>

/* The Cholesky calls with a floor: beside numbers worked out by hand, beside the steps as they are written here, and beside the
 * calls without a floor. Of each call below the sizes and the floor come first, in the order in which the call takes them. */

/* Floors that fail, of every kind, and floors that pass. */
#define FAILING NUMBERS(-1, 0, -0.0, NAN, -NAN, KEPT, -INF, -0x1p-1074)
#define PASSING NUMBERS(4, 0x1p-1074, 1e300, INF)
#define FLOORS NUMBERS(-1, 0, -0.0, NAN, -NAN, KEPT, -INF, -0x1p-1074, 4, 0x1p-1074, 1e300, INF)

static int passes(double number)
{
    return 0 < number;
}

/* ---- the calls */

static void given(urgyelpat_floored got, uint64_t answer, uint64_t used)
{
    answered(got.answer, answer);
    gave("used", (long)got.used, (long)used);
}

static void extend(const char *about, size_t room, size_t earlier, size_t n, double floor, numbers a, uint64_t answer,
                   uint64_t used, numbers a_left)
{
    for (placement where = 0; where < PLACEMENTS; where++) {
        lent matrix = lend_numbers(a, where);
        called("cholesky_extend_floored", about, where);
        given(urgyelpat_cholesky_extend_floored(numbers_at(&matrix), a.length, room, earlier, n, floor), answer, used);
        left_numbers(matrix, "a", a_left);
    }
}

/* The factor call, and the further batch from earlier order 0, which is the same. */
static void factor(const char *about, size_t room, size_t n, double floor, numbers a, uint64_t answer, uint64_t used,
                   numbers a_left)
{
    for (placement where = 0; where < PLACEMENTS; where++) {
        lent matrix = lend_numbers(a, where);
        called("cholesky_factor_floored", about, where);
        given(urgyelpat_cholesky_factor_floored(numbers_at(&matrix), a.length, room, n, floor), answer, used);
        left_numbers(matrix, "a", a_left);
    }
    extend(about, room, 0, n, floor, a, answer, used, a_left);
}

/* By each of these floors alike, none of which is used. */
static void by_each(numbers floors, const char *about, size_t room, size_t earlier, size_t n, numbers a, uint64_t answer,
                    numbers a_left)
{
    for (size_t f = 0; f < floors.length; f++)
        if (earlier == 0)
            factor(about, room, n, floors.at[f], a, answer, 0, a_left);
        else
            extend(about, room, earlier, n, floors.at[f], a, answer, 0, a_left);
}

static void whatever_the_floor(const char *about, size_t room, size_t earlier, size_t n, numbers a, numbers a_left)
{
    by_each(FLOORS, about, room, earlier, n, a, 0, a_left);
}

static void refused(const char *about, size_t room, size_t earlier, size_t n, numbers a, uint64_t answer, numbers a_left)
{
    by_each(FAILING, about, room, earlier, n, a, answer, a_left);
}

/* ---- numbers worked out by hand */

/* One diagonal that fails, by floors that pass and floors that fail. */
static void alone(void)
{
    static const struct {
        uint64_t diagonal;
        unsigned code;
    } failing[] = {{0, 7},
                   {0x8000000000000000, 7},
                   {0xbff0000000000000, 10}, /* -1 */
                   {0x8000000000000001, 10},
                   {0xfff0000000000000, 10},
                   {0x7ff8000000000000, 11},
                   {0xfff8000000000000, 11},
                   {0x7ff4b1ade5eed001, 11}}; /* KEPT */
    const numbers passing = PASSING;
    const numbers roots = NUMBERS(2, from_bits(0x1e60000000000000), from_bits(0x5f138d352e5096af), INF);
    for (size_t d = 0; d < COUNT(failing); d++) {
        const numbers a = NUMBERS(from_bits(failing[d].diagonal));
        for (size_t f = 0; f < passing.length; f++)
            factor("a diagonal that fails", 1, 1, passing.at[f], a, 0, 1, some(roots.at + f, 1));
        refused("a diagonal and a floor that fail", 1, 0, 1, a, ANSWER(failing[d].code, 0), a);
    }
    whatever_the_floor("4", 1, 0, 1, NUMBERS(4), NUMBERS(2));
    whatever_the_floor("the least subnormal", 1, 0, 1, NUMBERS(0x1p-1074), NUMBERS(from_bits(0x1e60000000000000)));
    whatever_the_floor("infinity", 1, 0, 1, NUMBERS(INF), NUMBERS(INF));
}

static void factors(void)
{
    factor("1, 1, 1", 2, 2, 4, NUMBERS(1, 1, KEPT, 1), 0, 1, NUMBERS(1, 1, KEPT, 2));
    factor("1, 1, 1 in room 3", 3, 2, 4, NUMBERS(1, 1, KEPT, KEPT, 1, -0.0, 0, NAN, KEPT), 0, 1,
           NUMBERS(1, 1, KEPT, KEPT, 2, -0.0, 0, NAN, KEPT));
    factor("divided by the root", 2, 2, 4, NUMBERS(0, 6, KEPT, 10), 0, 1, NUMBERS(2, 3, KEPT, 1));
    factor("both columns", 2, 2, 4, NUMBERS(0, 6, KEPT, 1), 0, 2, NUMBERS(2, 3, KEPT, 2));
    factor("floor infinity", 2, 2, INF, NUMBERS(-1, 6, KEPT, 1), 0, 1, NUMBERS(INF, 0, KEPT, 1));
    factor("infinity by infinity", 2, 2, INF, NUMBERS(0, INF, KEPT, 1), 0, 2, NUMBERS(INF, NAN, KEPT, INF));
    factor("a floor below the diagonals", 2, 2, 1, NUMBERS(4, 2, KEPT, 5), 0, 0, NUMBERS(2, 1, KEPT, 2));
    factor("a floor above the diagonals", 2, 2, 1e300, NUMBERS(4, 2, KEPT, 5), 0, 0, NUMBERS(2, 1, KEPT, 2));

    /* twins: what is left of the second is zero, a crumb below zero, or one above zero, which uses no floor */
    factor("twins, nothing left", 2, 2, 9, NUMBERS(4, 4, KEPT, 4), 0, 1, NUMBERS(2, 2, KEPT, 3));
    factor("twins, a crumb below zero", 2, 2, 9, NUMBERS(3, 3, KEPT, 3), 0, 1,
           NUMBERS(from_bits(0x3ffbb67ae8584caa), from_bits(0x3ffbb67ae8584cab), KEPT, 3));
    factor("twins, a crumb above zero", 2, 2, 9, NUMBERS(2, 2, KEPT, 2), 0, 0,
           NUMBERS(from_bits(0x3ff6a09e667f3bcd), from_bits(0x3ff6a09e667f3bcc), KEPT, from_bits(0x3e56a09e667f3bcd)));
    factor("twins, infinite", 2, 2, 9, NUMBERS(INF, INF, KEPT, INF), 0, 1, NUMBERS(INF, NAN, KEPT, 3));

    /* a NaN on the diagonal leaves no trace but the count; one beside it stays, and reaches all later rows */
    factor("a NaN on the diagonal", 3, 3, 4, NUMBERS(1, 1, 1, KEPT, NAN, 3, KEPT, KEPT, 6), 0, 1,
           NUMBERS(1, 1, 1, KEPT, 2, 1, KEPT, KEPT, 2));
    factor("a NaN beside the diagonal", 3, 3, 4, NUMBERS(1, NAN, 1, KEPT, 1, 1, KEPT, KEPT, 6), 0, 2,
           NUMBERS(1, NAN, 1, KEPT, 2, NAN, KEPT, KEPT, 2));

    factor("order 4, column 0", 4, 4, 4, NUMBERS(-4, 2, 6, 2, KEPT, 5, 5, 7, KEPT, KEPT, 14, 9, KEPT, KEPT, KEPT, 16.25), 0, 1,
           NUMBERS(2, 1, 3, 1, KEPT, 2, 1, 3, KEPT, KEPT, 2, 1.5, KEPT, KEPT, KEPT, 2));
    factor("order 4, columns 1 and 3", 4, 4, 4, NUMBERS(4, 2, 6, 2, KEPT, 1, 5, 7, KEPT, KEPT, 14, 9, KEPT, KEPT, KEPT, 3), 0,
           2, NUMBERS(2, 1, 3, 1, KEPT, 2, 1, 3, KEPT, KEPT, 2, 1.5, KEPT, KEPT, KEPT, 2));
    factor("order 4, columns 2 and 3", 4, 4, 4, NUMBERS(4, 2, 6, 2, KEPT, 5, 5, 7, KEPT, KEPT, 9, 9, KEPT, KEPT, KEPT, 3), 0,
           2, NUMBERS(2, 1, 3, 1, KEPT, 2, 1, 3, KEPT, KEPT, 2, 1.5, KEPT, KEPT, KEPT, 2));
    factor("order 4, column 3", 4, 4, 4, NUMBERS(4, 2, 6, 2, KEPT, 5, 5, 7, KEPT, KEPT, 14, 9, KEPT, KEPT, KEPT, 3), 0, 1,
           NUMBERS(2, 1, 3, 1, KEPT, 2, 1, 3, KEPT, KEPT, 2, 1.5, KEPT, KEPT, KEPT, 2));

    whatever_the_floor("order 0", 0, 0, 0, NO_NUMBERS, NO_NUMBERS);
    whatever_the_floor("order 0 in room 2", 2, 0, 0, NUMBERS(-1, KEPT, 3, 4), NUMBERS(-1, KEPT, 3, 4));
    whatever_the_floor("4, 2, 5", 2, 0, 2, NUMBERS(4, 2, KEPT, 5), NUMBERS(2, 1, KEPT, 2));

    refused("column 0 of 2", 2, 0, 2, NUMBERS(-0.0, 7, KEPT, -1), ANSWER(7, 0), NUMBERS(-0.0, 7, KEPT, -1));
    refused("column 1 of 4", 4, 0, 4, NUMBERS(4, 2, 6, 2, KEPT, 1, 5, 7, KEPT, KEPT, KEPT, 9, KEPT, KEPT, KEPT, KEPT),
            ANSWER(7, 1), NUMBERS(2, 1, 3, 1, KEPT, 0, 2, 6, KEPT, KEPT, KEPT, 9, KEPT, KEPT, KEPT, KEPT));
    refused("column 2 of 4", 4, 0, 4, NUMBERS(4, 2, 6, 2, KEPT, 5, 5, 7, KEPT, KEPT, 9, 9, KEPT, KEPT, KEPT, KEPT),
            ANSWER(10, 2), NUMBERS(2, 1, 3, 1, KEPT, 2, 1, 3, KEPT, KEPT, -1, 3, KEPT, KEPT, KEPT, KEPT));
    refused("column 3 of 4", 4, 0, 4, NUMBERS(4, 2, 6, 2, KEPT, 5, 5, 7, KEPT, KEPT, 14, 9, KEPT, KEPT, KEPT, NAN),
            ANSWER(11, 3), NUMBERS(2, 1, 3, 1, KEPT, 2, 1, 3, KEPT, KEPT, 2, 1.5, KEPT, KEPT, KEPT, NAN));
}

/* The rows before the batch are taken as factored: whatever stands on their diagonals is neither tested nor counted. */
static void batches(void)
{
    extend("one row that came twice", 2, 1, 2, 4, NUMBERS(1, 1, KEPT, 1), 0, 1, NUMBERS(1, 1, KEPT, 2));
    extend("one row in room 3", 3, 1, 2, 4, NUMBERS(1, 1, KEPT, KEPT, 1, KEPT, 0, NAN, -0.0), 0, 1,
           NUMBERS(1, 1, KEPT, KEPT, 2, KEPT, 0, NAN, -0.0));
    extend("two rows, both counted", 3, 1, 3, 4, NUMBERS(2, 2, 6, KEPT, 1, 5, KEPT, KEPT, 10), 0, 2,
           NUMBERS(2, 1, 3, KEPT, 2, 1, KEPT, KEPT, 2));
    extend("two rows, the first counted", 3, 1, 3, 4, NUMBERS(2, 2, 6, KEPT, 1, 5, KEPT, KEPT, 14), 0, 1,
           NUMBERS(2, 1, 3, KEPT, 2, 1, KEPT, KEPT, 2));
    extend("below zero before", 2, 1, 2, 4, NUMBERS(-2, 4, KEPT, 5), 0, 0, NUMBERS(-2, -2, KEPT, 1));
    extend("below zero before and in the batch", 2, 1, 2, 4, NUMBERS(-2, 4, KEPT, 3), 0, 1, NUMBERS(-2, -2, KEPT, 2));
    extend("zero before", 2, 1, 2, 4, NUMBERS(0, 4, KEPT, 5), 0, 1, NUMBERS(0, INF, KEPT, 2));
    extend("a NaN before", 2, 1, 2, 4, NUMBERS(KEPT, 4, KEPT, 5), 0, 1, NUMBERS(KEPT, NAN, KEPT, 2));
    extend("-1, zero and a NaN before", 4, 3, 4, 4,
           NUMBERS(-1, 0, 0, 0, KEPT, 0, 0, 0, KEPT, KEPT, KEPT, 0, KEPT, KEPT, KEPT, 9), 0, 1,
           NUMBERS(-1, 0, 0, -0.0, KEPT, 0, 0, NAN, KEPT, KEPT, KEPT, NAN, KEPT, KEPT, KEPT, 2));

    numbers before = NUMBERS(-1, KEPT, KEPT, -0.0);
    whatever_the_floor("a batch of no rows", 2, 2, 2, before, before);
    whatever_the_floor("a batch of no rows, later rows kept", 2, 1, 1, before, before);
    whatever_the_floor("a row that passes", 2, 1, 2, NUMBERS(-2, 4, KEPT, 5), NUMBERS(-2, -2, KEPT, 1));

    refused("its first row", 3, 1, 3, NUMBERS(-2, 2, 6, KEPT, 1, 5, KEPT, KEPT, KEPT), ANSWER(7, 1),
            NUMBERS(-2, -1, -3, KEPT, 0, 2, KEPT, KEPT, KEPT));
    refused("its second row", 3, 1, 3, NUMBERS(2, 2, 6, KEPT, 5, 5, KEPT, KEPT, 9), ANSWER(10, 2),
            NUMBERS(2, 1, 3, KEPT, 2, 1, KEPT, KEPT, -1));
    refused("a NaN beside the earlier factor", 2, 1, 2, NUMBERS(2, NAN, KEPT, 5), ANSWER(11, 1),
            NUMBERS(2, NAN, KEPT, NAN));
}

/* ---- refusals by size */

/* What is refused by size, in the order of the checks; 0 if all fits. */
static unsigned due_to_sizes(size_t room, size_t earlier, size_t n, size_t length)
{
    if (room > 1024 || earlier > 1024 || n > 1024)
        return 1;
    if (n > room || earlier > n)
        return 2;
    return length == room * room ? 0 : 3;
}

/* Sizes each with each, some of which have squares that wrap to one of the lengths; the floors by turns. In the slice stand
 * old_numbers: a call that came to them would refuse or count the first. */
static void refused_by_size(void)
{
    static const size_t sizes[] = {0,          1,           2,           3,           1023,         1024,    1025,
                                   0xffffffff, 0x100000000, 0x100000002, SIZE_MAX - 2, SIZE_MAX - 1, SIZE_MAX};
    static const size_t lengths[] = {0, 1, 3, 4, 5, 9};
    const numbers floors = FLOORS;
    size_t turn = 0;
    for (size_t r = 0; r < COUNT(sizes); r++)
        for (size_t o = 0; o < COUNT(sizes); o++)
            for (size_t e = 0; e < COUNT(sizes); e++)
                for (size_t l = 0; l < COUNT(lengths); l++) {
                    const size_t room = sizes[r], n = sizes[o], earlier = sizes[e], length = lengths[l];
                    const uint64_t answer = ANSWER(due_to_sizes(room, earlier, n, length), 0);
                    if (answer == 0)
                        continue;
                    char about[120];
                    const double floor = floors.at[turn++ % floors.length];
                    snprintf(about, sizeof about, "room %lu, earlier %lu, order %lu, length %lu", (unsigned long)room,
                             (unsigned long)earlier, (unsigned long)n, (unsigned long)length);
                    if (earlier == 0)
                        factor(about, room, n, floor, old_numbers(length), answer, 0, old_numbers(length));
                    else
                        extend(about, room, earlier, n, floor, old_numbers(length), answer, 0, old_numbers(length));
                }
}

/* ---- beside the steps, and beside the calls without a floor */

/* the largest room that is tried in full */
enum { MOST = 36, SQUARE = MOST * MOST };

/* The steps in their order, each rounded by itself. Both sizes and lengths fit. */
static urgyelpat_floored steps(size_t room, size_t earlier, size_t n, double floor, double *a)
{
    uint64_t used = 0;
    for (size_t j = 0; j < n; j++) {
        double *const column = a + j * room, *const diagonal = column + j;
        const size_t first = j < earlier ? earlier : j;
        for (size_t k = 0; k < j; k++)
            for (size_t i = first; i < n; i++) {
                const volatile double product = -a[j + k * room] * a[i + k * room];
                column[i] = column[i] + product;
            }
        if (earlier <= j) {
            if (!passes(*diagonal) && !passes(floor))
                return (urgyelpat_floored){ANSWER(*diagonal == 0 ? 7 : *diagonal < 0 ? 10 : 11, j), 0};
            used += !passes(*diagonal);
            *diagonal = root(passes(*diagonal) ? *diagonal : floor);
        }
        for (size_t i = j < earlier ? earlier : j + 1; i < n; i++)
            column[i] = column[i] / *diagonal;
    }
    return (urgyelpat_floored){0, used};
}

/* What a call with a floor shares with the call without one, which answers `plain` and leaves `plain_left`. */
static void laws(double floor, urgyelpat_floored got, const double *left, uint64_t plain, const double *plain_left,
                 size_t length)
{
    if (!passes(floor) || plain == 0 || got.answer != 0)
        gave("used, where the floor fails, the plain call is done, or this one is refused", (long)got.used, 0);
    if (passes(floor))
        gave("code, where the floor passes", (long)urgyelpat_code(got.answer), 0);
    if (got.used == 0) {
        answered(got.answer, plain);
        for (size_t i = 0; i < length; i++)
            valued(left[i], as_left(plain_left[i]));
    }
}

/* The calls on one matrix. Gives what the steps give, and fills `left` with what they leave. */
static urgyelpat_floored beside(const char *matrix, size_t room, size_t earlier, size_t n, double floor, const double *a,
                                double *left)
{
    static double plain_left[SQUARE];
    static char about[200];
    const size_t length = room * room;
    snprintf(about, sizeof about, "%s, rows %lu to %lu in room %lu, floor %g", matrix, (unsigned long)earlier,
             (unsigned long)n, (unsigned long)room, floor);
    copy(left, a, length);
    const urgyelpat_floored wanted = steps(room, earlier, n, floor, left);
    for (size_t i = 0; i < length; i++)
        left[i] = as_left(left[i]);
    copy(plain_left, a, length);
    const uint64_t plain = urgyelpat_cholesky_extend(plain_left, length, room, earlier, n);
    for (int whole = earlier == 0; whole >= 0; whole--) {
        double *const buffer = lend_framed(a, length);
        called(whole ? "cholesky_factor_floored" : "cholesky_extend_floored", about, BETWEEN_CANARIES);
        const urgyelpat_floored got = whole ? urgyelpat_cholesky_factor_floored(buffer, length, room, n, floor)
                                            : urgyelpat_cholesky_extend_floored(buffer, length, room, earlier, n, floor);
        given(got, wanted.answer, wanted.used);
        left_framed(left, length);
        laws(floor, got, buffer, plain, plain_left, length);
    }
    return wanted;
}

/* One matrix from every earlier order: the rows before are taken as factored. */
static void small_matrix(const char *about, size_t n, const double *a)
{
    const numbers floors = FLOORS;
    double left[9];
    for (size_t earlier = 0; earlier < n; earlier++)
        for (size_t f = n < 3 ? 0 : 7; f < floors.length; f++)
            (void)beside(about, n, earlier, n, floors.at[f], a, left);
}

static void every_small_matrix(void)
{
    const numbers entries = NUMBERS(0, 1, 2, -1, NAN, INF, -0.0, -INF);
    for (size_t n = 1; n <= 3; n++)
        every_matrix(n, some(entries.at, n < 3 ? entries.length : 6), small_matrix);
}

/* ---- matrices by chance */

/* The batches of a matrix in one buffer, by one floor for all: they give and leave what one call on the whole does, and
 * their counts add up to its count. */
static void chain(const char *matrix, size_t room, double floor, const double *a, const size_t *cuts, size_t count,
                  urgyelpat_floored one, const double *one_left)
{
    static double left[SQUARE];
    static char about[200];
    const size_t length = room * room;
    lent buffer = lend_numbers(some(a, length), BETWEEN_CANARIES);
    size_t earlier = 0;
    uint64_t used = 0, answer = 0;
    copy(left, a, length);
    snprintf(about, sizeof about, "%s, %lu batches in room %lu, floor %g", matrix, (unsigned long)count, (unsigned long)room,
             floor);
    for (size_t c = 0; c < count && answer == 0; c++) {
        called("cholesky_extend_floored", about, BETWEEN_CANARIES);
        const urgyelpat_floored got =
            urgyelpat_cholesky_extend_floored(numbers_at(&buffer), length, room, earlier, cuts[c], floor);
        answer = got.answer;
        used += got.used;
        for (size_t j = 0; j < cuts[c]; j++)
            for (size_t i = j < earlier ? earlier : j; i < cuts[c]; i++)
                left[i + j * room] = as_left(one_left[i + j * room]);
        for (size_t i = 0; i < length; i++)
            valued(numbers_at(&buffer)[i], left[i]);
        earlier = cuts[c];
    }
    left_numbers(buffer, "a", some(left, length));
    answered(answer, one.answer);
    gave("used in all batches", (long)used, (long)one.used);
}

/* Every list of cuts of small orders; of others two batches at every cut, and row by row. */
static void chains(const char *matrix, size_t room, size_t n, double floor, const double *a)
{
    static double one_left[SQUARE];
    const size_t length = room * room;
    size_t cuts[MOST];
    copy(one_left, a, length);
    const urgyelpat_floored one = urgyelpat_cholesky_factor_floored(one_left, length, room, n, floor);
    if (n <= 5) {
        for (unsigned list = 0; list < lists_of_cuts(n); list++) {
            const size_t count = cuts_of(list, n, cuts);
            chain(matrix, room, floor, a, cuts, count, one, one_left);
        }
        return;
    }
    for (size_t cut = 0; cut <= n; cut++) {
        cuts[0] = cut;
        cuts[1] = n;
        chain(matrix, room, floor, a, cuts, 2, one, one_left);
    }
    for (size_t cut = 0; cut < n; cut++)
        cuts[cut] = cut + 1;
    chain(matrix, room, floor, a, cuts, n, one, one_left);
}

/* One matrix by some floors, as a whole, from every earlier order, and in batches. */
static void by_floors(const char *matrix, size_t room, size_t n, const double *a)
{
    static double left[SQUARE];
    const numbers floors = NUMBERS(NAN, -1, 4, 0x1p-1074, 1e300, INF);
    for (size_t f = 0; f < floors.length; f++) {
        for (size_t earlier = 0; earlier <= n; earlier++) {
            const urgyelpat_floored wanted = beside(matrix, room, earlier, n, floors.at[f], a, left);
            if (earlier == n / 2 && f % 3 == 2) /* in three placements too */
                extend(matrix, room, earlier, n, floors.at[f], some(a, room * room), wanted.answer, wanted.used,
                       some(left, room * room));
        }
        chains(matrix, room, n, floors.at[f], a);
    }
}

static void matrices_by_chance(void)
{
    static const size_t orders[] = {0, 1, 2, 3, 4, 5, 6, 7, 8, 9, 10, 13, 17, 24, 33};
    static double full[SQUARE], a[SQUARE];
    uint32_t chance = 21;
    for (size_t o = 0; o < COUNT(orders); o++) {
        const size_t n = orders[o];
        for (kind of = 0; of < KINDS; of++) {
            const size_t room = n + (o + of) % 4;
            fill(of, n, &chance, full);
            set_in_room(room, n, full, a);
            by_floors(at_order(kinds[of], n), room, n, a);
        }
        /* positive definite, but that rows came twice, or that one is spoilt */
        for (size_t row = 1; row < n; row += 1 + n / 5) {
            const size_t room = n + row % 3;
            fill(HEAVY_DIAGONAL, n, &chance, full);
            repeat_row(n, row / 2, row, full);
            set_in_room(room, n, full, a);
            by_floors(at_order("twins", n), room, n, a);
            fill(HEAVY_DIAGONAL, n, &chance, full);
            full[row + (row - row % 2) * n] = row % 4 < 2 ? NAN : -(double)(n * n);
            set_in_room(room, n, full, a);
            by_floors(at_order("one row spoilt", n), room, n, a);
        }
    }
}

/* ---- order 1024 */

enum { LARGEST = 1024 };
static double large[(LARGEST + 1) * (LARGEST + 1)], large_left[LARGEST * LARGEST];

/* Zero but for the diagonal, KEPT above it. */
static void clear_large(double diagonal, double *to)
{
    for (size_t j = 0; j < LARGEST; j++)
        for (size_t i = 0; i < LARGEST; i++)
            to[i + j * LARGEST] = i < j ? KEPT : i == j ? diagonal : 0;
}

/* Every column uses the floor; made once, since it takes long. */
static void all_columns_of_the_largest(int whole)
{
    clear_large(0, large);
    clear_large(2, large_left);
    const numbers a = {large, LARGEST * LARGEST};
    lent matrix = lend_numbers(a, BETWEEN_CANARIES);
    called(whole ? "cholesky_factor_floored" : "cholesky_extend_floored", "order 1024, all columns", BETWEEN_CANARIES);
    given(whole ? urgyelpat_cholesky_factor_floored(numbers_at(&matrix), a.length, LARGEST, LARGEST, 4)
                : urgyelpat_cholesky_extend_floored(numbers_at(&matrix), a.length, LARGEST, 0, LARGEST, 4),
          0, LARGEST);
    left_numbers(matrix, "a", (numbers){large_left, LARGEST * LARGEST});
}

static void largest_order(void)
{
    const size_t last = LARGEST * LARGEST - 1;
    const numbers a = {large, LARGEST * LARGEST}, left = {large_left, LARGEST * LARGEST};
    all_columns_of_the_largest(1);
    all_columns_of_the_largest(0);

    clear_large(-1, large);
    factor("order 1024, column 0", LARGEST, LARGEST, -1, a, ANSWER(10, 0), 0, a);
    extend("order 1024 from 1024", LARGEST, LARGEST, LARGEST, 4, a, 0, 0, a);
    clear_large(1, large);
    clear_large(1, large_left);
    large[last] = -0.0;
    large_left[last] = 2;
    extend("order 1024 from 1023", LARGEST, LARGEST - 1, LARGEST, 4, a, 0, 1, left);
    extend("order 1024 from 1023, refused", LARGEST, LARGEST - 1, LARGEST, -4, a, ANSWER(7, 1023), 0, a);
    factor("order 1024, one short", LARGEST, LARGEST, 4, some(large, last), ANSWER(3, 0), 0, some(large, last));

    /* three rows in the largest room */
    for (size_t i = 0; i <= last; i++)
        large[i] = large_left[i] = KEPT;
    for (size_t j = 0; j < 3; j++)
        for (size_t i = j; i < 3; i++) {
            large[i + j * LARGEST] = i == 0 ? 0 : 2;
            large_left[i + j * LARGEST] = i == j && i != 1 ? 2 : 1;
        }
    factor("order 3 in room 1024", LARGEST, 3, 4, a, 0, 2, left);

    /* one row more, with a slice that fits */
    const size_t more = LARGEST + 1;
    for (size_t i = 0; i < more * more; i++)
        large[i] = KEPT;
    const numbers longer = {large, more * more};
    factor("room and order 1025", more, more, 4, longer, ANSWER(1, 0), 0, longer);
    factor("order 3 in room 1025", more, 3, 4, longer, ANSWER(1, 0), 0, longer);
    factor("a matrix for room 1025", LARGEST, 3, 4, longer, ANSWER(3, 0), 0, longer);
    extend("room, earlier order and order 1025", more, more, more, 4, longer, ANSWER(1, 0), 0, longer);
}

void floored_cases(void)
{
    alone();
    factors();
    batches();
    refused_by_size();
    every_small_matrix();
    matrices_by_chance();
    largest_order();
}
