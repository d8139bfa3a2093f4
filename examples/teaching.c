/* Cholesky on the board: the three matrices of docs/TEACHING.md, by the teaching engine and by the main engine beside it. */
#include "urgyelpat.h"
#include <stdio.h>

enum { MOST = 4 * 4 };

/* The lower rows, each up to its diagonal. */
static void print_rows(size_t order, const double *a)
{
    for (size_t i = 0; i < order; i++)
        for (size_t j = 0; j <= i; j++)
            printf("%s %.3g", i > 0 && j == 0 ? " /" : "", a[i + j * order]);
    printf("\n");
}

static void print_answer(const char *engine, uint64_t answer, size_t order, const double *left)
{
    printf("%s: ", engine);
    if (answer == URGYELPAT_DONE)
        printf("done, leaves");
    else
        printf("refused, code %u, row %u, leaves", urgyelpat_code(answer), urgyelpat_place(answer));
    print_rows(order, left);
}

static int same_bits(size_t length, const double *one, const double *other)
{
    const unsigned char *byte = (const unsigned char *)one, *beside = (const unsigned char *)other;
    for (size_t i = 0; i < length * sizeof(double); i++)
        if (byte[i] != beside[i])
            return 0;
    return 1;
}

/* The matrix stands in `sent`, column by column, of which the lower part is read. */
static void on_the_board(size_t order, const double *sent)
{
    const size_t length = order * order;
    double board[MOST], stand[MOST];
    for (size_t i = 0; i < length; i++)
        board[i] = stand[i] = sent[i];
    printf("sent");
    print_rows(order, sent);

    const uint64_t twins = urgyelpat_first_twin(sent, length, order, order);
    if (urgyelpat_is_pair(twins))
        printf("rows %u and %u are the same\n", urgyelpat_twin_p(twins), urgyelpat_twin_q(twins));

    const uint64_t taught = urgyelpat_cholesky_teaching(board, length, order, order);
    print_answer("teaching engine", taught, order, board);
    const uint64_t answer = urgyelpat_cholesky_factor(stand, length, order, order);
    if (answer == taught && same_bits(length, board, stand))
        printf("main engine: the same answer and bits\n");
    else
        print_answer("main engine", answer, order, stand);
}

int main(void)
{
    /* every number comes out whole */
    on_the_board(3, (const double[]){4, 2, 6, 0, 5, 5, 0, 0, 14});
    /* row 1 comes twice, and zero is left of it: refused. Row 3 is as sent; the main engine has worked in it by then */
    on_the_board(4, (const double[]){4, 2, 2, 6, 0, 5, 5, 5, 0, 0, 5, 5, 0, 0, 0, 14});
    /* row 1 comes twice, and a crumb above zero is left of it: accepted */
    on_the_board(3, (const double[]){4, 2, 2, 0, 3, 3, 0, 0, 3});
    return 0;
}
