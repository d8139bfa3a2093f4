/* Compiled as C11 and as C++17 with all warnings: every name of include/urgyelpat.h that needs no archive. */
#include "urgyelpat.h"

const char *meaning(uint64_t answer);
int is_taught(size_t n);
int fits_a_tray(size_t n, size_t count);
size_t refused_row(const uint32_t *record, size_t n, uint64_t answer);
size_t numbers_behind(size_t n, size_t i, size_t j);
size_t marked_row(urgyelpat_factored3 factored);
double unknown(urgyelpat_solved3 solved, size_t row);

int is_taught(size_t n)
{
    return n <= URGYELPAT_TEACHING_LARGEST;
}

int fits_a_tray(size_t n, size_t count)
{
    return n <= URGYELPAT_TRAY_ORDER_LARGEST && count <= URGYELPAT_TRAY_COUNT_LARGEST;
}

size_t refused_row(const uint32_t *record, size_t n, uint64_t answer)
{
    return urgyelpat_callers_row(record, n, urgyelpat_place(answer));
}

size_t numbers_behind(size_t n, size_t i, size_t j)
{
    return urgyelpat_packed_length(n) - urgyelpat_packed_place(n, i, j) - 1;
}

size_t marked_row(urgyelpat_factored3 factored)
{
    return factored.pivots.mark == 0 ? 3 : urgyelpat_handheld_callers_row(factored.pivots, factored.pivots.mark - 1);
}

double unknown(urgyelpat_solved3 solved, size_t row)
{
    const urgyelpat_column3 column = solved.side;
    const urgyelpat_matrix3 matrix = {{column, column, column}};
    return matrix.column[row].row[row];
}

const char *meaning(uint64_t answer)
{
    if (urgyelpat_is_pair(answer))
        return urgyelpat_twin_p(answer) < urgyelpat_twin_q(answer) ? "twins" : "no answer";
    if (urgyelpat_place(answer) > URGYELPAT_LARGEST)
        return "no answer";
    switch (urgyelpat_code(answer)) {
    case URGYELPAT_DONE:
        return "done";
    case URGYELPAT_OUT_OF_RANGE:
    case URGYELPAT_ORDER_ABOVE_ROOM:
    case URGYELPAT_MATRIX_LENGTH:
    case URGYELPAT_SLICE_LENGTH:
        return "sizes";
    case URGYELPAT_BAD_RECORD:
    case URGYELPAT_ZERO_MARK:
    case URGYELPAT_BAD_LIST:
    case URGYELPAT_OTHER_RUN:
        return "record";
    case URGYELPAT_CHOLESKY_ZERO:
    case URGYELPAT_ZERO_DIAGONAL:
    case URGYELPAT_CHOLESKY_BELOW_ZERO:
    case URGYELPAT_CHOLESKY_NAN:
        return "diagonal";
    default:
        return "no answer";
    }
}
