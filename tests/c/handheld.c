#include "cases.h"
#include "lent.h"
#include "matrices.h"
#include "urgyelpat.h"

/* The two calls by value: beside numbers worked out by hand, and beside urgyelpat_lblt_factor and urgyelpat_lblt_solve on
 * the same numbers. A NaN that is worked out is any NaN; what comes back as given, above the diagonal or as a refused side,
 * is compared by its bytes. */

/* what is called of the C library */
void *memcpy(void *to, const void *from, size_t bytes);

enum { ORDER = 3, NINE = 9, RECORD = 8, RUN = 7 };

_Static_assert(sizeof(urgyelpat_column3) == 24 && sizeof(urgyelpat_matrix3) == 72, "nine numbers end to end");
_Static_assert(sizeof(urgyelpat_pivots3) == 28, "seven words end to end");
_Static_assert(sizeof(urgyelpat_factored3) == 104 && __builtin_offsetof(urgyelpat_factored3, pivots) == 72,
               "a factor, its pivots");
_Static_assert(sizeof(urgyelpat_solved3) == 32 && __builtin_offsetof(urgyelpat_solved3, side) == 8, "an answer, its side");

#define PIVOTS(i0, i1, i2, s0, s1, s2, mark) ((urgyelpat_pivots3){{i0, i1, i2}, {s0, s1, s2}, mark})
static const uint32_t largest = UINT32_MAX;

static urgyelpat_matrix3 matrix_of(const double *nine)
{
    urgyelpat_matrix3 matrix;
    memcpy(&matrix, nine, sizeof matrix);
    return matrix;
}

static urgyelpat_column3 column_of(const double *three)
{
    urgyelpat_column3 column;
    memcpy(&column, three, sizeof column);
    return column;
}

/* Bits that a sum or a conversion would change: signalling NaNs, signs, the ends of the range. */
static const uint64_t strange[] = {0x7ff4b1ade5eed001, 0xfff8000000000001, 0x7ff0000000000001, 0xfff0000000000001,
                                   0xffffffffffffffff, 0x7ff0000000000000, 0xfff0000000000000, 0x8000000000000000,
                                   0x0000000000000001, 0x800fffffffffffff, 0x7fefffffffffffff, 0xffefffffffffffff,
                                   0x3ff0000000000000, 0x7ff8000000000000, 0x4024000000000000};

/* The next of them. */
static double strange_number(void)
{
    static size_t at;
    return from_bits(strange[at++ % COUNT(strange)]);
}

/* ---- what should come back */

/* What a lent call worked out, as what should come back: every NaN is any NaN. */
static double worked_out(double number)
{
    return number == number ? number : NAN;
}

static void left_factored(const urgyelpat_factored3 *got, const double *given, const double *left,
                          const urgyelpat_pivots3 *pivots)
{
    for (size_t j = 0; j < ORDER; j++)
        for (size_t i = 0; i < ORDER; i++)
            if (i < j)
                kept("what is above the diagonal", &got->matrix.column[j].row[i], given + i + j * ORDER, sizeof(double));
            else
                valued(got->matrix.column[j].row[i], left[i + j * ORDER]);
    for (size_t i = 0; i < ORDER; i++) {
        gave("index", got->pivots.index[i], pivots->index[i]);
        gave("size", got->pivots.size[i], pivots->size[i]);
    }
    gave("mark", got->pivots.mark, pivots->mark);
}

static void left_solved(const urgyelpat_solved3 *got, const double *given, uint64_t answer, const double *left)
{
    answered(got->answer, answer);
    if (answer != 0)
        kept("the refused side", got->side.row, given, sizeof got->side);
    else
        for (size_t i = 0; i < ORDER; i++)
            valued(got->side.row[i], left[i]);
}

/* ---- calls with their memory around them, as the System V ABI makes them: the place of the result in a register, the
 * arguments at the end of the stack */

/* a stack is cut at every sixteenth byte */
enum { STACK = 1 << 15, CUT = 16, MOST_ARGUMENTS = 128 };

/* Calls the function on a stack whose last bytes are the arguments. Gives what the function says of the place of its
 * result. */
static void *call_on(void (*function)(void), void *result, unsigned char *arguments)
{
    void *said;
    __asm__ volatile("mov %%rsp, %%rbx\n\tmov %[arguments], %%rsp\n\tcall *%[function]\n\tmov %%rbx, %%rsp"
                     : "=a"(said), "+D"(result)
                     : [function] "r"(function), [arguments] "r"(arguments)
                     : "rbx", "rcx", "rdx", "rsi", "r8", "r9", "r10", "r11", "xmm0", "xmm1", "xmm2", "xmm3", "xmm4", "xmm5",
                       "xmm6", "xmm7", "xmm8", "xmm9", "xmm10", "xmm11", "xmm12", "xmm13", "xmm14", "xmm15", "cc",
                       "memory");
    return said;
}

/* One call, its arguments and its result placed so. Fills `result`. */
static void placed(placement where, void (*function)(void), const void *arguments, size_t bytes, void *result,
                   size_t result_bytes)
{
    static unsigned char given[STACK + MOST_ARGUMENTS];
    const size_t rest = (CUT - bytes % CUT) % CUT;
    for (size_t i = 0; i < sizeof given; i++)
        given[i] = 0xa5;
    memcpy(given + STACK, arguments, bytes);
    lent stack = lend_bytes(given, STACK + bytes + rest, where), place = lend_bytes(result, result_bytes, where);
    unsigned char *const passed = (unsigned char *)bytes_at(&stack) + STACK;
    gave("the place of the result", call_on(function, bytes_at(&place), passed) == bytes_at(&place), 1);
    memcpy(result, bytes_at(&place), result_bytes);
    kept("what is behind the arguments", passed + bytes, given + STACK + bytes, rest);
    left_around(place, "the result");
    left_around(stack, "the arguments");
}

static urgyelpat_factored3 placed_factor(urgyelpat_matrix3 matrix, placement where)
{
    urgyelpat_factored3 factored = {{{{{9, 9, 9}}, {{9, 9, 9}}, {{9, 9, 9}}}}, {{9, 9, 9}, {9, 9, 9}, 9}};
    placed(where, (void (*)(void))urgyelpat_handheld_factor, &matrix, sizeof matrix, &factored, sizeof factored);
    return factored;
}

static urgyelpat_solved3 placed_solve(urgyelpat_matrix3 matrix, urgyelpat_pivots3 pivots, urgyelpat_column3 side,
                                      placement where)
{
    const struct {
        urgyelpat_matrix3 matrix;
        urgyelpat_pivots3 pivots;
        urgyelpat_column3 side;
    } arguments = {matrix, pivots, side};
    urgyelpat_solved3 solved = {9, {{9, 9, 9}}};
    placed(where, (void (*)(void))urgyelpat_handheld_solve, &arguments, sizeof arguments, &solved, sizeof solved);
    return solved;
}

/* ---- calls as a C program makes them, what the caller has between canaries */

enum { CANARIES = 4 };

typedef struct {
    double before[CANARIES];
    urgyelpat_matrix3 matrix;
    double behind_matrix[CANARIES];
    urgyelpat_pivots3 pivots;
    double behind_pivots[CANARIES];
    urgyelpat_column3 side;
    double behind_side[CANARIES];
    urgyelpat_factored3 factored;
    double behind_factored[CANARIES];
    urgyelpat_solved3 solved;
    double behind_solved[CANARIES];
} frame;

static frame held, should;

static void set_canaries(void)
{
    double *const all[] = {held.before,      held.behind_matrix,   held.behind_pivots,
                           held.behind_side, held.behind_factored, held.behind_solved};
    for (size_t c = 0; c < COUNT(all); c++)
        for (size_t i = 0; i < CANARIES; i++)
            all[c][i] = KEPT;
}

static const urgyelpat_factored3 *framed_factor(const char *about, const double *nine)
{
    held.matrix = matrix_of(nine);
    memcpy(&should, &held, sizeof held);
    called("handheld_factor", about, BETWEEN_CANARIES);
    held.factored = urgyelpat_handheld_factor(held.matrix);
    memcpy(&should.factored, &held.factored, sizeof held.factored);
    kept("what the caller has beside the factor", &held, &should, sizeof held);
    return &held.factored;
}

static const urgyelpat_solved3 *framed_solve(const char *about, const double *nine, const urgyelpat_pivots3 *pivots,
                                             const double *three)
{
    held.matrix = matrix_of(nine);
    held.pivots = *pivots;
    held.side = column_of(three);
    memcpy(&should, &held, sizeof held);
    called("handheld_solve", about, BETWEEN_CANARIES);
    held.solved = urgyelpat_handheld_solve(held.matrix, held.pivots, held.side);
    memcpy(&should.solved, &held.solved, sizeof held.solved);
    kept("what the caller has beside the solution", &held, &should, sizeof held);
    return &held.solved;
}

/* ---- numbers worked out by hand */

static void factor(const char *about, numbers a, numbers left, urgyelpat_pivots3 pivots)
{
    for (placement where = 0; where < PLACEMENTS; where++) {
        called("handheld_factor", about, where);
        const urgyelpat_factored3 got = placed_factor(matrix_of(a.at), where);
        left_factored(&got, a.at, left.at, &pivots);
    }
    left_factored(framed_factor(about, a.at), a.at, left.at, &pivots);
}

static void solve(const char *about, numbers a, urgyelpat_pivots3 pivots, numbers side, uint64_t answer, numbers left)
{
    for (placement where = 0; where < PLACEMENTS; where++) {
        called("handheld_solve", about, where);
        const urgyelpat_solved3 got = placed_solve(matrix_of(a.at), pivots, column_of(side.at), where);
        left_solved(&got, side.at, answer, left.at);
    }
    left_solved(framed_solve(about, a.at, &pivots, side.at), side.at, answer, left.at);
}

static void solve_refused(const char *about, numbers a, urgyelpat_pivots3 pivots, numbers side, uint64_t answer)
{
    solve(about, a, pivots, side, answer, side);
}

static void factors(void)
{
    const urgyelpat_pivots3 own_rows = PIVOTS(0, 1, 2, 1, 1, 1, 0);
    factor("nothing exchanged", NUMBERS(4, 2, 6, KEPT, 5, 5, KEPT, KEPT, 14),
           NUMBERS(4, 0.5, 1.5, KEPT, 4, 0.5, KEPT, KEPT, 4), own_rows);
    factor("two exchanges with row 2", NUMBERS(0, 3, 4, KEPT, 4, 8, KEPT, KEPT, 16),
           NUMBERS(16, 0.5, 0.25, KEPT, -1, -1, KEPT, KEPT, 1), PIVOTS(2, 2, 2, 1, 1, 1, 0));
    factor("an exchange with row 1", NUMBERS(0, 4, 2, KEPT, 16, 8, KEPT, KEPT, 8),
           NUMBERS(16, 0.25, 0.5, KEPT, -1, -0.0, KEPT, KEPT, 4), PIVOTS(1, 1, 2, 1, 1, 1, 0));
    factor("a block of two, then a row", NUMBERS(0, 2, 1, KEPT, 0, 4, KEPT, KEPT, 5),
           NUMBERS(0, 2, 2, KEPT, 0, 0.5, KEPT, KEPT, 1), PIVOTS(1, 1, 2, 2, 2, 1, 0));
    factor("a block of rows 0 and 2", NUMBERS(0, 1, 2, KEPT, 5, 0, KEPT, KEPT, 0),
           NUMBERS(0, 2, -0.0, KEPT, 0, 0.5, KEPT, KEPT, 5), PIVOTS(2, 2, 2, 2, 2, 1, 0));
    factor("a row, then a block of two", NUMBERS(4, 0, 0, KEPT, 0, 1, KEPT, KEPT, 0),
           NUMBERS(4, 0, 0, KEPT, 0, 1, KEPT, KEPT, 0), PIVOTS(0, 2, 2, 1, 2, 2, 0));
    factor("equal maxima, then a mark", NUMBERS(0, 3, -3, KEPT, 0, 0, KEPT, KEPT, 0),
           NUMBERS(0, 3, 0, KEPT, 0, -1, KEPT, KEPT, 0), PIVOTS(1, 1, 2, 2, 2, 1, 3));
    factor("a ratio that underflows", NUMBERS(0, 0x1p-600, 0, KEPT, 0, 0x1p600, KEPT, KEPT, 0),
           NUMBERS(0, INF, NAN, KEPT, -INF, NAN, KEPT, KEPT, NAN), PIVOTS(0, 1, 2, 1, 1, 1, 3));
    /* 49 divided by 49 would be 1 */
    factor("a product with the inverse", NUMBERS(49, 49, 0, KEPT, 50, 0, KEPT, KEPT, 1),
           NUMBERS(49, 1 - 0x1p-53, 0, KEPT, from_bits(0x3ff0000000000020), 0, KEPT, KEPT, 1), own_rows);
}

static void marks(void)
{
    const numbers zeros = NUMBERS(0, 0, 0, KEPT, 0, 0, KEPT, KEPT, 0);
    factor("zeros", zeros, zeros, PIVOTS(0, 1, 2, 1, 1, 1, 1));
    const numbers minus_zeros = NUMBERS(-0.0, -0.0, -0.0, KEPT, -0.0, -0.0, KEPT, KEPT, -0.0);
    factor("minus zeros", minus_zeros, minus_zeros, PIVOTS(0, 1, 2, 1, 1, 1, 1));
    factor("a mark at row 0, then an exchange", NUMBERS(0, 0, 0, KEPT, 0, 1, KEPT, KEPT, 4),
           NUMBERS(0, 0, 0, KEPT, 4, 0.25, KEPT, KEPT, -0.25), PIVOTS(0, 2, 2, 1, 1, 1, 1));
    factor("a mark at row 0, then a block of two", NUMBERS(0, 0, 0, KEPT, 0, 1, KEPT, KEPT, 0),
           NUMBERS(0, 0, 0, KEPT, 0, 1, KEPT, KEPT, 0), PIVOTS(0, 2, 2, 1, 2, 2, 1));
    factor("a mark at row 1", NUMBERS(5, 0, 0, KEPT, 0, 0, KEPT, KEPT, 5), NUMBERS(5, 0, 0, KEPT, 0, 0, KEPT, KEPT, 5),
           PIVOTS(0, 1, 2, 1, 1, 1, 2));
    factor("a mark at row 2", NUMBERS(5, 0, 0, KEPT, 5, 0, KEPT, KEPT, 0), NUMBERS(5, 0, 0, KEPT, 5, 0, KEPT, KEPT, 0),
           PIVOTS(0, 1, 2, 1, 1, 1, 3));
    factor("rows 1 and 2 could be marked", NUMBERS(5, 0, 0, KEPT, 0, 0, KEPT, KEPT, 0),
           NUMBERS(5, 0, 0, KEPT, 0, 0, KEPT, KEPT, 0), PIVOTS(0, 1, 2, 1, 1, 1, 2));
    factor("a NaN below a zero", NUMBERS(0, NAN, 1, KEPT, 2, 0, KEPT, KEPT, 2),
           NUMBERS(0, NAN, 1, KEPT, 2, 0, KEPT, KEPT, 2), PIVOTS(0, 1, 2, 1, 1, 1, 1));
    factor("a NaN that is the last below a zero", NUMBERS(0, 0, NAN, KEPT, 2, 0, KEPT, KEPT, 2),
           NUMBERS(0, 0, NAN, KEPT, 2, 0, KEPT, KEPT, 2), PIVOTS(0, 1, 2, 1, 1, 1, 1));
    factor("a NaN on the last diagonal", NUMBERS(1, 0, 0, KEPT, 1, 0, KEPT, KEPT, NAN),
           NUMBERS(1, 0, 0, KEPT, 1, 0, KEPT, KEPT, NAN), PIVOTS(0, 1, 2, 1, 1, 1, 3));
    factor("an infinity on the last diagonal", NUMBERS(1, 0, 0, KEPT, 1, 0, KEPT, KEPT, -INF),
           NUMBERS(1, 0, 0, KEPT, 1, 0, KEPT, KEPT, -INF), PIVOTS(0, 1, 2, 1, 1, 1, 0));
}

static void solves(void)
{
    solve("nothing exchanged", NUMBERS(4, 0.5, 1.5, KEPT, 4, 0.5, KEPT, KEPT, 4), PIVOTS(0, 1, 2, 1, 1, 1, 0),
          NUMBERS(26, 27, 58), 0, NUMBERS(1, 2, 3));
    solve("two exchanges with row 2", NUMBERS(16, 0.5, 0.25, KEPT, -1, -1, KEPT, KEPT, 1), PIVOTS(2, 2, 2, 1, 1, 1, 0),
          NUMBERS(18, 35, 68), 0, NUMBERS(1, 2, 3));
    solve("an exchange with row 1", NUMBERS(16, 0.25, 0.5, KEPT, -1, 0, KEPT, KEPT, 4), PIVOTS(1, 1, 2, 1, 1, 1, 0),
          NUMBERS(14, 60, 42), 0, NUMBERS(1, 2, 3));
    solve("a block of two, then a row", NUMBERS(0, 2, 2, KEPT, 0, 0.5, KEPT, KEPT, 1), PIVOTS(1, 1, 2, 2, 2, 1, 0),
          NUMBERS(7, 14, 24), 0, NUMBERS(1, 2, 3));
    solve("a block of rows 0 and 2", NUMBERS(0, 2, 4, KEPT, 1, -2, KEPT, KEPT, 3), PIVOTS(2, 2, 2, 2, 2, 1, 0),
          NUMBERS(2, 8, 6), 0, NUMBERS(-13.5, 4, 9));
    solve("a row, then a block of two", NUMBERS(4, 0, 0, KEPT, 0, 1, KEPT, KEPT, 0), PIVOTS(0, 2, 2, 1, 2, 2, 0),
          NUMBERS(8, 3, 5), 0, NUMBERS(2, 5, 3));
    solve("a zero that no mark names", NUMBERS(0, 0, 0, KEPT, 1, 0, KEPT, KEPT, 1), PIVOTS(0, 1, 2, 1, 1, 1, 0),
          NUMBERS(1, 2, -3), 0, NUMBERS(INF, 2, -3));
    solve("a side of NaN", NUMBERS(1, 0, 0, KEPT, 1, 0, KEPT, KEPT, 1), PIVOTS(0, 1, 2, 1, 1, 1, 0), NUMBERS(1, NAN, 3), 0,
          NUMBERS(NAN, NAN, NAN));
    /* divided by 3: a product with its inverse would miss 5/3 by one bit */
    solve("a quotient", NUMBERS(3, 0, 0, KEPT, 1, 0, KEPT, KEPT, 1), PIVOTS(0, 1, 2, 1, 1, 1, 0), NUMBERS(5, 1, 1), 0,
          NUMBERS(from_bits(0x3ffaaaaaaaaaaaab), 1, 1));
}

/* The sides are refused as they are, signalling NaNs too. */
static void refused(void)
{
    const numbers a = NUMBERS(0, 2, 4, KEPT, 1, -2, KEPT, KEPT, 3);
    const numbers side = NUMBERS(KEPT, -0.0, from_bits(0xfff0000000000001));
    solve_refused("row 0: index 3", a, PIVOTS(3, 1, 2, 1, 1, 1, 0), side, ANSWER(5, 0));
    solve_refused("row 0: the largest index", a, PIVOTS(largest, 1, 2, 1, 1, 1, 0), side, ANSWER(5, 0));
    solve_refused("row 0: size 0", a, PIVOTS(0, 1, 2, 0, 1, 1, 0), side, ANSWER(5, 0));
    solve_refused("row 0: size 3", a, PIVOTS(0, 1, 2, 3, 1, 1, 0), side, ANSWER(5, 0));
    solve_refused("row 0: the largest size", a, PIVOTS(0, 1, 2, largest, 1, 1, 0), side, ANSWER(5, 0));
    solve_refused("row 0: size 2 with its own index", a, PIVOTS(0, 0, 2, 2, 2, 1, 0), side, ANSWER(5, 0));
    solve_refused("row 0: two indexes in a block", a, PIVOTS(1, 2, 2, 2, 2, 1, 0), side, ANSWER(5, 0));
    solve_refused("row 0: two sizes in a block", a, PIVOTS(1, 1, 2, 2, 1, 1, 0), side, ANSWER(5, 0));
    solve_refused("row 1: an index above it", a, PIVOTS(0, 0, 2, 1, 1, 1, 0), side, ANSWER(5, 1));
    solve_refused("row 1: index 3", a, PIVOTS(0, 3, 3, 1, 2, 2, 0), side, ANSWER(5, 1));
    solve_refused("row 1: size 2 with its own index", a, PIVOTS(0, 1, 1, 1, 2, 2, 0), side, ANSWER(5, 1));
    solve_refused("row 2: an index above it", a, PIVOTS(0, 1, 1, 1, 1, 1, 0), side, ANSWER(5, 2));
    solve_refused("row 2: size 2 in the last row", a, PIVOTS(1, 1, 2, 2, 2, 2, 0), side, ANSWER(5, 2));
    solve_refused("row 2: size 0, after a block", a, PIVOTS(1, 1, 2, 2, 2, 0, 0), side, ANSWER(5, 2));
    solve_refused("a mark above the order", a, PIVOTS(0, 1, 2, 1, 1, 1, 4), side, ANSWER(5, 3));
    solve_refused("the largest mark", a, PIVOTS(0, 1, 2, 1, 1, 1, largest), side, ANSWER(5, 3));
    solve_refused("a mark on a block of two", a, PIVOTS(1, 1, 2, 2, 2, 1, 1), side, ANSWER(5, 3));
    solve_refused("a mark on row 1 of index 1, in a block", a, PIVOTS(1, 1, 2, 2, 2, 1, 2), side, ANSWER(5, 3));
    solve_refused("a mark on row 0 of index 1", a, PIVOTS(1, 1, 2, 1, 1, 1, 1), side, ANSWER(5, 3));
    solve_refused("a mark on row 1 of index 2", a, PIVOTS(0, 2, 2, 1, 1, 1, 2), side, ANSWER(5, 3));
    solve_refused("a row before a mark", a, PIVOTS(0, 1, 2, 1, 1, 0, 9), side, ANSWER(5, 2));
    solve_refused("a mark at row 0", a, PIVOTS(0, 1, 2, 1, 1, 1, 1), side, ANSWER(6, 0));
    solve_refused("a mark at row 1", a, PIVOTS(2, 1, 2, 1, 1, 1, 2), side, ANSWER(6, 1));
    solve_refused("a mark at row 2, after a block", a, PIVOTS(1, 1, 2, 2, 2, 1, 3), side, ANSWER(6, 2));
}

static void callers_row(const char *about, urgyelpat_pivots3 pivots, words wanted)
{
    for (size_t row = 0; row < wanted.length; row++) {
        called("handheld_callers_row", about, BETWEEN_CANARIES);
        gave("row", (long)urgyelpat_handheld_callers_row(pivots, row), wanted.at[row]);
    }
}

static void callers_rows(void)
{
    callers_row("nothing exchanged", PIVOTS(0, 1, 2, 1, 1, 1, 0), WORDS(0, 1, 2));
    callers_row("rows 0 and 1", PIVOTS(1, 1, 2, 1, 1, 1, 3), WORDS(1, 0, 2));
    callers_row("two exchanges with row 2", PIVOTS(2, 2, 2, 1, 1, 1, 0), WORDS(2, 0, 1));
    callers_row("a block of rows 0 and 2", PIVOTS(2, 2, 2, 2, 2, 1, 3), WORDS(0, 2, 1));
    callers_row("row 2, then a block of two", PIVOTS(2, 2, 2, 1, 2, 2, 0), WORDS(2, 1, 0));
    callers_row("sizes of no pivots", PIVOTS(0, 1, 2, 0, 9, 7, 0), WORDS(0, 1, 2));
}

/* ---- beside the lent calls */

static void as_record(const urgyelpat_pivots3 *pivots, uint32_t *record)
{
    for (size_t i = 0; i < ORDER; i++) {
        record[2 * i] = pivots->index[i];
        record[2 * i + 1] = pivots->size[i];
    }
    record[2 * ORDER] = pivots->mark;
    record[2 * ORDER + 1] = RUN;
}

/* Gives the answer. */
static uint64_t solve_beside(const char *about, const double *factored, const urgyelpat_pivots3 *pivots, const double *side)
{
    uint32_t record[RECORD];
    double left[ORDER];
    as_record(pivots, record);
    copy(left, side, ORDER);
    const uint64_t answer = urgyelpat_lblt_solve(factored, NINE, record, RECORD, left, ORDER, ORDER, 1, RUN);
    for (size_t i = 0; i < ORDER; i++)
        left[i] = worked_out(left[i]);
    left_solved(framed_solve(about, factored, pivots, side), side, answer, left);
    return answer;
}

/* What the rule of document 01 and the mark give, block by block. */
static uint64_t due_to_pivots(const urgyelpat_pivots3 *p)
{
    int alone[ORDER] = {0, 0, 0}; /* a row of size 1 whose index is that row */
    size_t k = 0;
    while (k < ORDER) {
        const int one = p->size[k] == 1 && k <= p->index[k] && p->index[k] < ORDER;
        const int two = p->size[k] == 2 && k + 1 < ORDER && k + 1 <= p->index[k] && p->index[k] < ORDER &&
                        p->index[k + 1] == p->index[k] && p->size[k + 1] == 2;
        if (!one && !two)
            return ANSWER(URGYELPAT_BAD_RECORD, k);
        alone[k] = one && p->index[k] == k;
        k += one ? 1 : 2;
    }
    if (p->mark == 0)
        return 0;
    return p->mark <= ORDER && alone[p->mark - 1] ? ANSWER(URGYELPAT_ZERO_MARK, p->mark - 1)
                                                  : ANSWER(URGYELPAT_BAD_RECORD, ORDER);
}

static void solve_by_rule(const char *about, const double *factored, const urgyelpat_pivots3 *pivots, const double *side)
{
    answered(solve_beside(about, factored, pivots, side), due_to_pivots(pivots));
}

/* The factor, and the solution of two sides by it. The numbers above the diagonal are strange ones. */
static void factor_beside(const char *about, const double *lower_part, const double *sides)
{
    double nine[NINE], left[NINE], factored[NINE];
    uint32_t record[RECORD];
    for (size_t at = 0; at < NINE; at++)
        nine[at] = at % ORDER < at / ORDER ? strange_number() : lower_part[at];
    copy(left, nine, NINE);
    answered(urgyelpat_lblt_factor(left, NINE, record, RECORD, ORDER, RUN), 0);
    for (size_t at = 0; at < NINE; at++)
        left[at] = worked_out(left[at]);
    const urgyelpat_pivots3 pivots = PIVOTS(record[0], record[2], record[4], record[1], record[3], record[5], record[6]);
    const urgyelpat_factored3 *got = framed_factor(about, nine);
    left_factored(got, nine, left, &pivots);
    const urgyelpat_pivots3 got_pivots = got->pivots;
    memcpy(factored, &got->matrix, sizeof factored);
    for (size_t s = 0; s < 2; s++) {
        const uint64_t answer = solve_beside(about, factored, &got_pivots, sides + s * ORDER);
        answered(answer, pivots.mark == 0 ? 0 : ANSWER(URGYELPAT_ZERO_MARK, pivots.mark - 1));
    }
}

/* Two sides: three numbers, and three of which some may be strange. */
static void sides_by_chance(uint32_t *chance, double *sides)
{
    for (size_t i = 0; i < 2 * ORDER; i++)
        sides[i] = 4 * by_chance(chance);
    if (by_chance(chance) < 0)
        sides[ORDER + (*chance >> 8) % ORDER] = strange_number();
}

static void small_matrix(const char *about, size_t n, const double *full)
{
    static uint32_t chance = 5;
    double sides[2 * ORDER];
    (void)n;
    sides_by_chance(&chance, sides);
    factor_beside(about, full, sides);
}

/* In each set there are all eleven pivots that keep the rule, and marks at each row. */
static void every_small_matrix(void)
{
    every_matrix(ORDER, NUMBERS(0, 1, -2, 0.5, NAN, INF), small_matrix);
    every_matrix(ORDER, NUMBERS(-1, -0.0, 2, 3, 0x1p600, 0x1p-600), small_matrix);
    every_matrix(ORDER, NUMBERS(0, 1, 0x1p600, 0x1p-600, NAN), small_matrix);
}

/* Any double at all. */
static double any_number(uint32_t *chance)
{
    (void)by_chance(chance);
    const uint64_t high = *chance;
    (void)by_chance(chance);
    return from_bits(high << 32 ^ *chance >> 4);
}

static double special_number(uint32_t *chance)
{
    const numbers special = NUMBERS(-2, -1, -0.0, 0, 0.5, 1, 2, 3, NAN, INF, 0x1p600, 0x1p-600, -INF, 0x1p-1074, 0x1p1023,
                                    -0x1p600, -0x1p-600, 0.6403882032022076, 7);
    (void)by_chance(chance);
    return special.at[(*chance >> 8) % special.length];
}

static void matrices_by_chance(void)
{
    double full[NINE], sides[2 * ORDER];
    uint32_t chance = 13;
    for (size_t turn = 0; turn < 4000; turn++) {
        for (kind of = 0; of < KINDS; of++) {
            fill(of, ORDER, &chance, full);
            sides_by_chance(&chance, sides);
            factor_beside(kinds[of], full, sides);
        }
        for (size_t diagonal = 0; diagonal < ORDER; diagonal++) { /* small, one after the other, for blocks of two */
            fill(RANDOM, ORDER, &chance, full);
            for (size_t i = diagonal; i < ORDER; i++)
                full[i + i * ORDER] *= 0x1p-6;
            sides_by_chance(&chance, sides);
            factor_beside("a small diagonal", full, sides);
        }
        for (size_t at = 0; at < NINE; at++)
            full[at] = special_number(&chance);
        for (size_t i = 0; i < 2 * ORDER; i++)
            sides[i] = special_number(&chance);
        factor_beside("special numbers", full, sides);
        for (size_t at = 0; at < NINE; at++)
            full[at] = any_number(&chance);
        for (size_t i = 0; i < 2 * ORDER; i++)
            sides[i] = any_number(&chance);
        factor_beside("any numbers", full, sides);
    }
}

/* One of the number and its two neighbours. */
static double near(double number, uint32_t *chance)
{
    uint64_t bits;
    memcpy(&bits, &number, sizeof bits);
    (void)by_chance(chance);
    return from_bits(bits - 1 + (*chance >> 8) % 3);
}

/* The numbers at which the choice of a pivot turns, in the first step by row 1 or 2, and in the second. */
static void at_the_bounds(void)
{
    const double alpha = 0.6403882032022076;
    uint32_t chance = 29;
    for (size_t turn = 0; turn < 30000; turn++) {
        const double colmax = 0.75 + by_chance(&chance) / 2,
                     rowmax = turn % 3 == 2 ? colmax : colmax + 0.5 + by_chance(&chance);
        const double bound = turn % 2 == 0 ? alpha * colmax : (alpha * colmax) * (colmax / rowmax);
        double full[NINE], sides[2 * ORDER];
        fill(RANDOM, ORDER, &chance, full);
        if (turn % 3 == 2) {
            full[0] = 1;
            full[1] = full[2] = 0;
            full[4] = near(bound, &chance);
            full[5] = colmax;
            full[8] = near(alpha * rowmax, &chance);
        } else {
            const size_t row = 1 + turn % 3;
            full[0] = near(bound, &chance);
            full[row] = colmax;
            full[ORDER - row] = turn % 5 == 0 ? near(colmax, &chance) : colmax / 2;
            full[5] = rowmax;
            full[4 * row] = near(alpha * rowmax, &chance);
        }
        for (size_t at = 0; at < NINE; at++)
            full[at] = by_chance(&chance) < 0 ? -full[at] : full[at];
        sides_by_chance(&chance, sides);
        factor_beside("at the bounds of a choice", full, sides);
    }
}

/* ---- pivots that no factor call gave */

enum { WORDS_OF_PIVOTS = 7 };

static urgyelpat_pivots3 pivots_of(const uint32_t *seven)
{
    return PIVOTS(seven[0], seven[1], seven[2], seven[3], seven[4], seven[5], seven[6]);
}

/* Every choice of these numbers for the seven words. */
static void every_pivots(words from, void (*take)(const uint32_t *seven))
{
    size_t chosen[WORDS_OF_PIVOTS] = {0}, at;
    do {
        uint32_t seven[WORDS_OF_PIVOTS];
        for (size_t i = 0; i < WORDS_OF_PIVOTS; i++)
            seven[i] = from.at[chosen[i]];
        take(seven);
        for (at = 0; at < WORDS_OF_PIVOTS && ++chosen[at] == from.length; at++)
            chosen[at] = 0;
    } while (at < WORDS_OF_PIVOTS);
}

static uint32_t pivots_chance = 17;

/* On a matrix by chance, strange numbers in the side. */
static void damaged(const uint32_t *seven)
{
    const urgyelpat_pivots3 pivots = pivots_of(seven);
    double nine[NINE], side[ORDER];
    for (size_t at = 0; at < NINE; at++)
        nine[at] = at % ORDER < at / ORDER ? strange_number() : by_chance(&pivots_chance);
    for (size_t i = 0; i < ORDER; i++)
        side[i] = (pivots_chance >> (8 + i)) % 2 ? by_chance(&pivots_chance) : strange_number();
    solve_by_rule("damaged pivots", nine, &pivots, side);
}

/* Pivots that keep the rule, by many matrices that no factor call left; and with each word replaced by others. */
static void sound(const uint32_t *seven)
{
    const urgyelpat_pivots3 pivots = pivots_of(seven);
    if (urgyelpat_code(due_to_pivots(&pivots)) == URGYELPAT_BAD_RECORD)
        return;
    double nine[NINE], side[ORDER];
    for (size_t turn = 0; turn < 3000; turn++) {
        for (size_t at = 0; at < NINE; at++)
            nine[at] = at % ORDER < at / ORDER ? strange_number()
                       : turn % 3 == 0         ? special_number(&pivots_chance)
                                               : by_chance(&pivots_chance);
        for (size_t i = 0; i < ORDER; i++)
            side[i] = turn % 2 ? by_chance(&pivots_chance) : special_number(&pivots_chance);
        solve_by_rule("sound pivots", nine, &pivots, side);
    }
    for (size_t word = 0; word < WORDS_OF_PIVOTS; word++)
        for (uint32_t bit = 0; bit < 32; bit++) {
            uint32_t replaced[WORDS_OF_PIVOTS];
            memcpy(replaced, seven, sizeof replaced);
            replaced[word] = seven[word] ^ 1u << bit;
            damaged(replaced);
            replaced[word] = seven[word] | ~0u << bit;
            damaged(replaced);
            replaced[word] = (1u << bit) - 1;
            damaged(replaced);
        }
}

void handheld_cases(void)
{
    set_canaries();
    factors();
    marks();
    solves();
    refused();
    callers_rows();
    every_small_matrix();
    matrices_by_chance();
    at_the_bounds();
    every_pivots(WORDS(0, 1, 2, 3, 4, UINT32_MAX), damaged);
    every_pivots(WORDS(0, 1, 2, 3), sound);
}
