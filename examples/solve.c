/* Solves a system by LBLT. */
#include "urgyelpat.h"
#include <stdio.h>

int main(void)
{
    double a[4] = {4, 2, 0, 3}; /* the symmetric matrix 4 2 / 2 3, column by column; above the diagonal nothing is read */
    double b[2] = {8, 8};
    uint32_t record[6] = {0};
    const uint32_t run = 1116; /* the number of this run, here its day: a record of another day is refused */

    uint64_t answer = urgyelpat_first_twin(a, 4, 2, 2);
    if (urgyelpat_is_pair(answer))
        printf("rows %u and %u are the same\n", urgyelpat_twin_p(answer), urgyelpat_twin_q(answer));

    answer = urgyelpat_lblt_factor(a, 4, record, 6, 2, run);
    if (answer == URGYELPAT_DONE)
        answer = urgyelpat_lblt_solve(a, 4, record, 6, b, 2, 2, 1, run);
    if (answer != URGYELPAT_DONE) {
        printf("refused: code %u, place %u\n", urgyelpat_code(answer), urgyelpat_place(answer));
        return 1;
    }
    printf("x = %g, %g\n", b[0], b[1]);
    printf("determinant %g\n", urgyelpat_lblt_determinant(a, 4, record, 6, 2, run).value);
    return 0;
}
