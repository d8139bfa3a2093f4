/* Three unknowns by value, as a pocket probe solves them: no buffers are lent. */
#include "urgyelpat.h"
#include <stdio.h>

static void print_answer(urgyelpat_factored3 factored, urgyelpat_solved3 solved)
{
    const double *x = solved.side.row;
    const unsigned code = urgyelpat_code(solved.answer), place = urgyelpat_place(solved.answer);
    switch (code) {
    case URGYELPAT_DONE:
        printf("x = %g, %g, %g\n", x[0], x[1], x[2]);
        break;
    case URGYELPAT_ZERO_MARK: /* the place is a row of the factor */
        printf("refused: code %u, row %u of the factor, which is row %u as sent; the side is still %g, %g, %g\n", code,
               place, (unsigned)urgyelpat_handheld_callers_row(factored.pivots, place), x[0], x[1], x[2]);
        break;
    default: /* the pivots are damaged at a row, or at 3 for their mark */
        printf("refused: code %u, place %u; the side is still %g, %g, %g\n", code, place, x[0], x[1], x[2]);
    }
}

int main(void)
{
    /* the symmetric matrix 0 2 1 / 2 0 4 / 1 4 5, column by column; above the diagonal nothing is read */
    const urgyelpat_matrix3 matrix = {{{{0, 2, 1}}, {{0, 0, 4}}, {{0, 0, 5}}}};
    const urgyelpat_column3 side = {{7, 14, 24}};
    const urgyelpat_factored3 factored = urgyelpat_handheld_factor(matrix);
    print_answer(factored, urgyelpat_handheld_solve(factored.matrix, factored.pivots, side));

    /* row 0 came twice, as row 1: nothing is left of one of them, and it is marked */
    const urgyelpat_matrix3 twice = {{{{1, 1, 2}}, {{0, 1, 2}}, {{0, 0, 8}}}};
    const urgyelpat_factored3 marked = urgyelpat_handheld_factor(twice);
    print_answer(marked, urgyelpat_handheld_solve(marked.matrix, marked.pivots, side));

    /* a word of the pivots is damaged on its way, and then the mark */
    urgyelpat_factored3 damaged = factored;
    damaged.pivots.index[1] ^= 2;
    print_answer(damaged, urgyelpat_handheld_solve(damaged.matrix, damaged.pivots, side));
    damaged = factored;
    damaged.pivots.mark = 9;
    print_answer(damaged, urgyelpat_handheld_solve(damaged.matrix, damaged.pivots, side));
    return 0;
}
