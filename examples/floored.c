/* What a floor hides: two models in which a row came twice, each factored without a floor and with one. */
#include "urgyelpat.h"
#include <stdio.h>

enum { ORDER = 3, LENGTH = ORDER * ORDER };

static void print(const char *how, uint64_t answer, const double *factor)
{
    printf("%s: ", how);
    if (answer != URGYELPAT_DONE) {
        printf("refused, code %u, place %u\n", urgyelpat_code(answer), urgyelpat_place(answer));
        return;
    }
    printf("done, diagonal");
    for (size_t i = 0; i < ORDER; i++)
        printf(" %.3g", factor[i + i * ORDER]);
    printf("\n");
}

/* Rows 0 and 1 are the first batch, row 2 is the second; all stand in `came`, of which the lower part is read. */
static void two_batches(const double *came)
{
    const double floor = 1; /* one for all batches */
    double plain[LENGTH], floored[LENGTH];
    for (size_t i = 0; i < LENGTH; i++)
        plain[i] = floored[i] = came[i];

    /* asked of the rows as they came, before the batch is factored: this tells every row that came twice */
    uint64_t answer = urgyelpat_first_twin_since(came, LENGTH, ORDER, 2, ORDER);
    if (urgyelpat_is_pair(answer))
        printf("rows %u and %u are the same\n", urgyelpat_twin_p(answer), urgyelpat_twin_q(answer));

    answer = urgyelpat_cholesky_factor(plain, LENGTH, ORDER, 2);
    if (answer == URGYELPAT_DONE)
        answer = urgyelpat_cholesky_extend(plain, LENGTH, ORDER, 2, ORDER);
    print("without a floor", answer, plain);

    urgyelpat_floored batch = urgyelpat_cholesky_factor_floored(floored, LENGTH, ORDER, 2, floor);
    uint64_t used = batch.used;
    if (batch.answer == URGYELPAT_DONE) {
        batch = urgyelpat_cholesky_extend_floored(floored, LENGTH, ORDER, 2, ORDER, floor);
        used += batch.used;
    }
    print("with floor 1", batch.answer, floored);
    printf("columns that used it: %u\n", (unsigned)used);
}

int main(void)
{
    /* row 1 comes twice, and zero is left of it: refused, or by a floor accepted and counted */
    two_batches((const double[LENGTH]){4, 2, 2, 0, 5, 5, 0, 0, 5});
    /* row 1 comes twice, and a crumb above zero is left of it: accepted either way, and not counted */
    two_batches((const double[LENGTH]){4, 2, 2, 0, 3, 3, 0, 0, 3});
    return 0;
}
