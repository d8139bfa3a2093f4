/* A tray of sockets in one call: each has three unknowns and a run number of its own. In one of them a row came twice. */
#include "urgyelpat.h"
#include <stdio.h>

enum { COUNT = 4, ORDER = 3, NUMBERS = ORDER * ORDER, WORDS = 2 * ORDER + 2 };

/* The tray in one call; fewer answers than items are refused. */
static uint64_t solve(double *a, uint32_t *records, double *b, const uint32_t *runs, uint64_t *answers,
                      size_t answers_length)
{
    return urgyelpat_lblt_tray(a, COUNT * NUMBERS, records, COUNT * WORDS, b, COUNT * ORDER, runs, COUNT, answers,
                               answers_length, ORDER, COUNT);
}

static void print_item(const uint32_t *record, const double *x, uint64_t answer)
{
    const unsigned code = urgyelpat_code(answer), row = urgyelpat_place(answer);
    printf("run %u: ", (unsigned)record[WORDS - 1]);
    if (code == URGYELPAT_DONE)
        printf("x = %g, %g, %g\n", x[0], x[1], x[2]);
    else /* the place is a row of the factor */
        printf("refused, code %u, row %u of the factor, which is row %u as sent; the side is still %g, %g, %g\n", code, row,
               (unsigned)urgyelpat_callers_row(record, ORDER, row), x[0], x[1], x[2]);
}

int main(void)
{
    /* the symmetric matrices end to end, each column by column; above the diagonals nothing is read */
    double a[COUNT * NUMBERS] = {
        0, 2, 1, 0, 0, 4, 0, 0, 5,  /* 0 2 1 / 2 0 4 / 1 4 5 */
        1, 1, 2, 0, 1, 2, 0, 0, 8,  /* row 0 came twice, as row 1: nothing is left of one of them, and it is marked */
        4, 2, 6, 0, 5, 5, 0, 0, 14, /* 4 2 6 / 2 5 5 / 6 5 14 */
        2, 0, 0, 0, 4, 0, 0, 0, 8,  /* 2 0 0 / 0 4 0 / 0 0 8 */
    };
    double b[COUNT * ORDER] = {7, 14, 24, 7, 14, 24, 26, 21, 51, 6, 8, 8};
    const uint32_t runs[COUNT] = {1116, 1117, 1118, 1119};
    uint32_t records[COUNT * WORDS] = {0};
    uint64_t answers[COUNT] = {0};

    /* room for three answers alone: the tray is refused as a whole, and nothing is written */
    uint64_t answer = solve(a, records, b, runs, answers, COUNT - 1);
    printf("the tray: refused, code %u\n", urgyelpat_code(answer));

    answer = solve(a, records, b, runs, answers, COUNT);
    if (answer != URGYELPAT_DONE)
        return 1;
    for (size_t t = 0; t < COUNT; t++)
        print_item(records + t * WORDS, b + t * ORDER, answers[t]);
    return 0;
}
