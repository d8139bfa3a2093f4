/* Grows a Cholesky factor by batches of rows, leaves out a batch that came twice, and solves by the factor. */
#include "urgyelpat.h"
#include <stdio.h>

enum { ROOM = 4, LENGTH = ROOM * ROOM };

static double came[LENGTH];   /* the rows as they came: asked for twins, never factored */
static double factor[LENGTH]; /* their factor */

/* Takes the rows earlier to n - 1, which stand end to end, row i up to its diagonal. */
static uint64_t take(const double *rows, size_t earlier, size_t n)
{
    if (n > ROOM)
        return URGYELPAT_ORDER_ABOVE_ROOM * 4096u;
    for (size_t i = earlier; i < n; i++)
        for (size_t j = 0; j <= i; j++)
            came[i + j * ROOM] = factor[i + j * ROOM] = *rows++;

    uint64_t answer = urgyelpat_first_twin_since(came, LENGTH, ROOM, earlier, n);
    if (answer == URGYELPAT_DONE)
        answer = urgyelpat_cholesky_extend(factor, LENGTH, ROOM, earlier, n);
    return answer;
}

int main(void)
{
    /* row 1 comes twice: the factor alone would take it, with 2e-8 on its diagonal */
    static const double batches[][3] = {{4}, {2, 3}, {2, 3, 3}, {2, 1, 10}};
    static const double sides[] = {14, 11, 11, 34}; /* the right-hand side of each row */
    double x[ROOM] = {0};                           /* those of the rows that were taken, and then the solution */
    size_t order = 0;

    for (unsigned batch = 0; batch < 4; batch++) {
        uint64_t answer = take(batches[batch], order, order + 1);
        if (answer == URGYELPAT_DONE) {
            x[order++] = sides[batch];
        } else if (urgyelpat_is_pair(answer)) {
            printf("rows %u and %u are the same: ", urgyelpat_twin_p(answer), urgyelpat_twin_q(answer));
            printf("batch %u is left out\n", batch);
        } else {
            printf("refused: code %u, place %u\n", urgyelpat_code(answer), urgyelpat_place(answer));
            return 1;
        }
    }
    printf("diagonal");
    for (size_t i = 0; i < order; i++)
        printf(" %g", factor[i + i * ROOM]);
    printf("\n");

    uint64_t answer = urgyelpat_cholesky_solve(factor, LENGTH, x, order, ROOM, order, 1);
    if (answer != URGYELPAT_DONE) {
        printf("refused: code %u, place %u\n", urgyelpat_code(answer), urgyelpat_place(answer));
        return 1;
    }
    printf("x =");
    for (size_t i = 0; i < order; i++)
        printf(" %g", x[i]);
    printf("\n");
    return 0;
}
