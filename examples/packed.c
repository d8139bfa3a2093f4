/* Grows a packed Cholesky factor by batches of rows, each into a fresh buffer, leaves out a batch that came twice and one that
 * is refused, and solves by the factor. */
#include "urgyelpat.h"
#include <stdio.h>

enum { MOST = 4, LENGTH = MOST * (MOST + 1) / 2 };

static double came[LENGTH];       /* the rows as they came, end to end, row i up to its diagonal; never factored */
static double buffers[2][LENGTH]; /* the packed factor, and room for the next */

/* Asks the first n rows as they came for twins, packed for that. */
static uint64_t twins(size_t n)
{
    double packed[LENGTH];
    for (size_t i = 0; i < n; i++)
        for (size_t j = 0; j <= i; j++)
            packed[urgyelpat_packed_place(n, i, j)] = came[urgyelpat_packed_length(i) + j];
    return urgyelpat_packed_first_twin(packed, urgyelpat_packed_length(n), n);
}

/* Takes the rows earlier to n - 1, which stand end to end: from the factor in old, that of all n rows into fresh. */
static uint64_t take(const double *rows, size_t earlier, size_t n, const double *old, double *fresh)
{
    const size_t stood = urgyelpat_packed_length(earlier), length = urgyelpat_packed_length(n);
    if (n > MOST)
        return URGYELPAT_ORDER_ABOVE_ROOM * 4096u;
    for (size_t i = stood; i < length; i++)
        came[i] = *rows++;

    uint64_t answer = twins(n);
    if (answer == URGYELPAT_DONE)
        answer = urgyelpat_packed_cholesky_extend(old, stood, came + stood, length - stood, fresh, length, earlier, n);
    return answer;
}

int main(void)
{
    /* row 1 comes twice, and the row after it cannot be: below zero is left on its diagonal */
    static const double batches[][3] = {{4}, {2, 3}, {2, 3, 3}, {2, 3, 2}, {2, 1, 10}};
    static const double sides[] = {14, 11, 11, 11, 34}; /* the right-hand side of each row */
    double x[MOST] = {0};                               /* those of the rows that were taken, and then the solution */
    double *old = buffers[0], *fresh = buffers[1];
    size_t order = 0;

    for (unsigned batch = 0; batch < 5; batch++) {
        uint64_t answer = take(batches[batch], order, order + 1, old, fresh);
        if (answer == URGYELPAT_DONE) {
            double *spare = old;
            old = fresh;
            fresh = spare;
            x[order++] = sides[batch];
        } else if (urgyelpat_is_pair(answer)) {
            printf("rows %u and %u are the same: ", urgyelpat_twin_p(answer), urgyelpat_twin_q(answer));
            printf("batch %u is left out\n", batch);
        } else { /* old is still the factor of the rows before */
            printf("refused: code %u, place %u: ", urgyelpat_code(answer), urgyelpat_place(answer));
            printf("batch %u is left out\n", batch);
        }
    }
    printf("diagonal");
    for (size_t i = 0; i < order; i++)
        printf(" %g", old[urgyelpat_packed_place(order, i, i)]);
    printf("\n");

    uint64_t answer = urgyelpat_packed_cholesky_solve(old, urgyelpat_packed_length(order), x, order, order, 1);
    if (answer != URGYELPAT_DONE) {
        printf("refused: code %u, place %u\n", urgyelpat_code(answer), urgyelpat_place(answer));
        return 1;
    }
    printf("x =");
    for (size_t i = 0; i < order; i++)
        printf(" %g", x[i]);
    printf("\n");
    return 0;
}
