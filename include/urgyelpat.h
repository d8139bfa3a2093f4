/* urgyelpat.h: LBLT, Cholesky and UDU factors of symmetric matrices of doubles, from C and C++.
 *
 * The functions stand in liburgyelpat.a (`./staticlib urgyelpat`), for x86-64 Linux. Each is proved, on every input, to give
 * the answer and to leave the buffers that this page and docs/PROMISES.md say. What is said to hold "on paper" holds for exact
 * numbers: that a factor multiplies back, or that a solution solves, up to rounding, is not proved, and is not true of every
 * matrix. The small functions that stand here in C are tested and not proved.
 *
 * MATRICES are lent and stand column by column: entry (i, j), row i and column j counted from 0, of an n-by-n matrix is at
 * i + j*n. A Cholesky matrix stands in a room s, at i + j*s; what is outside the first n rows and columns is kept. Of a
 * symmetric matrix LBLT, Cholesky and the search for twins look at the entries with i >= j alone, UDU at those with i <= j.
 * The others are neither read nor written, except by the calls that fill a whole matrix or say that they write there. The calls
 * on packed triangles take the entries with i >= j alone, in half the memory. The two calls for three unknowns, at the end of
 * this page, are lent nothing: they take and give their numbers by value.
 *
 * SLICES. Every slice is a pointer and then its length, counted in numbers and not in bytes. What is asked of a caller:
 *   - The memory of the whole length is there, is initialised, and is aligned as its type is.
 *   - Where a call writes a slice (a pointer without `const`), no other slice of that call overlaps it, and no other thread
 *     reads or writes it during the call. Slices that are only read may be shared.
 *   - A slice of length 0 is never read or written: its pointer may be anything, a null pointer too.
 *   - The processor rounds to nearest and keeps subnormal numbers, as it does unless a program changes it. (A program that
 *     is linked with -ffast-math changes it.)
 * Nothing else is asked: sizes, lengths and contents that do not fit are refused by a number, and every double is a content,
 * infinities and NaN too, as is every whole number. A call keeps nothing after it returns, takes no memory of its own but
 * stack, and ends.
 *
 * ANSWERS. An answer is code * 4096 + place; 0 is done. The checks 1 to 5, then 13, then 6 run in that order, and the first
 * that fails is the answer; every buffer is then as it was. For a LAPACK list, 12 stands where 5 does for a record. Cholesky
 * and UDU go on from there column by column, UDU from the last one back, the teaching engine row by row, and the first diagonal
 * that fails gives its code, unless a floor stands in for it (two Cholesky calls take one). A tray has one answer of its own and
 * one for each item.
 *
 *   code                             given exactly if                                          place
 *   0  URGYELPAT_DONE                the result stands in the buffers                          0
 *   1  URGYELPAT_OUT_OF_RANGE        an order, room or column count is above 1024, UDU has     0
 *                                    order 0, the teaching engine or a tray an order above
 *                                    64, or a tray more than 1024 items
 *   2  URGYELPAT_ORDER_ABOVE_ROOM    an order is above its room, or an earlier order above     0
 *                                    the order
 *   3  URGYELPAT_MATRIX_LENGTH       the first matrix, or those of a tray, have the wrong      0
 *                                    length
 *   4  URGYELPAT_SLICE_LENGTH        another slice has the wrong length                        0
 *   5  URGYELPAT_BAD_RECORD          the pivot record breaks its rule, or the handheld's       the row, or n for its mark
 *                                    pivots do
 *   6  URGYELPAT_ZERO_MARK           solve: the record marks a row without a pivot             the marked row, of the
 *                                                                                              factor:
 *                                                                                              urgyelpat_callers_row
 *   7  URGYELPAT_CHOLESKY_ZERO       Cholesky: that diagonal is zero, of either sign           its column j
 *   8  URGYELPAT_ZERO_DIAGONAL       UDU: that diagonal is zero                                its column j
 *   10 URGYELPAT_CHOLESKY_BELOW_ZERO Cholesky: that diagonal is below zero, -infinity too      its column j
 *   11 URGYELPAT_CHOLESKY_NAN        Cholesky: that diagonal is NaN                            its column j
 *   12 URGYELPAT_BAD_LIST            a LAPACK pivot list, with its INFO, stands for no record  the first row (from 0) of
 *                                    that keeps its rule                                       its first broken block, or
 *                                                                                              n for INFO
 *   13 URGYELPAT_OTHER_RUN           the pivot record has another run number than expected     0
 *
 * Cholesky judges a diagonal once it is updated by the columns before it; exactly one of "passes" (above zero, +infinity too),
 * 7, 10 and 11 fits it. By the calls without a floor a NaN on the diagonal of a row that is handed in, or left of it, is never
 * accepted: where the sizes fit, that row is refused by 11, if none before it is. With a floor that passes it is accepted, and
 * the call says by a count that the floor was used.
 * What stands in the buffers after 7, 8, 10 and 11 is said at the functions that give them. Everything is promised to the bit
 * but a NaN's sign and payload: a NaN is a NaN, in results and in what is kept. (That a kept NaN keeps its bits is tested.)
 */
#ifndef URGYELPAT_H
#define URGYELPAT_H

#include <stddef.h>
#include <stdint.h>

#if defined(__cplusplus)
#define URGYELPAT_MUST_USE [[nodiscard]]
#elif defined(__GNUC__)
#define URGYELPAT_MUST_USE __attribute__((warn_unused_result))
#else
#define URGYELPAT_MUST_USE
#endif

#ifdef __cplusplus
extern "C" {
#endif

/* The largest order, room and column count. */
#define URGYELPAT_LARGEST 1024u
/* The largest order of the teaching engine, urgyelpat_cholesky_teaching. */
#define URGYELPAT_TEACHING_LARGEST 64u
/* The largest order of a tray, urgyelpat_lblt_tray, and the most items that it can have. */
#define URGYELPAT_TRAY_ORDER_LARGEST 64u
#define URGYELPAT_TRAY_COUNT_LARGEST 1024u

/* The codes of the table above. */
#define URGYELPAT_DONE 0u
#define URGYELPAT_OUT_OF_RANGE 1u
#define URGYELPAT_ORDER_ABOVE_ROOM 2u
#define URGYELPAT_MATRIX_LENGTH 3u
#define URGYELPAT_SLICE_LENGTH 4u
#define URGYELPAT_BAD_RECORD 5u
#define URGYELPAT_ZERO_MARK 6u
#define URGYELPAT_CHOLESKY_ZERO 7u
#define URGYELPAT_ZERO_DIAGONAL 8u
#define URGYELPAT_CHOLESKY_BELOW_ZERO 10u
#define URGYELPAT_CHOLESKY_NAN 11u
#define URGYELPAT_BAD_LIST 12u
#define URGYELPAT_OTHER_RUN 13u

/* The code of an answer, and its place. */
static inline uint32_t urgyelpat_code(uint64_t answer) { return (uint32_t)(answer / 4096u); }
static inline uint32_t urgyelpat_place(uint64_t answer) { return (uint32_t)(answer % 4096u); }

/* A determinant with its answer; the value is +0 where the call is refused. */
typedef struct urgyelpat_determined {
    uint64_t answer;
    double value;
} urgyelpat_determined;

/* What goes with a LAPACK pivot list that was written: its INFO and the run number of its record, both 0 where the call is
 * refused. */
typedef struct urgyelpat_listed {
    uint64_t answer;
    int32_t info;
    uint32_t run;
} urgyelpat_listed;

/* The answer of a Cholesky call with a floor, and how many columns used the floor: of those from the earlier order on (from 0 on
 * in the factor call), the ones whose diagonal failed once it was updated. used is 0 where the call is refused. */
typedef struct urgyelpat_floored {
    uint64_t answer;
    uint64_t used;
} urgyelpat_floored;

/* ---- LBLT: P A P^T = L D L^T on paper, by Bunch and Kaufman's pivoting ----
 *
 * The pivot record has 2n + 2 words: for each row the index and the size (1 or 2) of its pivot, then the mark, 0 or marked
 * row + 1, then the run number. A factor call writes it, and the calls that read the factor check its rule. Block by block from
 * row 0 on: a block of size 1 at row k has an index in k..n-1; one of size 2 needs k + 1 < n, an index in k+1..n-1 and the same
 * pair at k + 1. The mark is 0, or names a row of size 1 whose index is that row: where there is no pivot, nothing is exchanged.
 * A record that breaks the rule is refused by 5, at its first row that does, or at n if its mark alone does.
 *
 * The run number is the caller's: any uint32_t, and none of them stands for "unchecked". A factor call that is done writes the
 * one that it is given, as its last argument; a refused one leaves the record that stood there, with its number. A call that
 * reads the factor is given the number that it expects, as its last argument, and refuses by 13 a record that keeps the rule
 * but has another. Give each run (a day, a patient, a sheet) a number of its own, and yesterday's record is refused today. A
 * record that keeps the rule and has the expected number is accepted, even if it is damaged or of another matrix: keep a factor
 * and its record together.
 *
 * The rows of the factor are not in the order in which they came: for a block of size s from row k on, the row that the index
 * names was exchanged with row k + s - 1. */

/* Factors the lower part of a (n*n numbers) in place, and writes its record (2n + 2 words), with `run` at its end.
 * Where the diagonal and the largest number below it are both zero in size, or one is zero and the other NaN (the largest is
 * NaN where the first number below is), there is no pivot: the column is passed over, and the first such row is marked. Below
 * the last row there is nothing, which counts as zero, so a NaN alone on the last diagonal is marked ([NaN]). With a NaN or
 * infinity among the numbers the mark is often the last row, wherever that number stands ([NaN / 1 2]: row 1). The call is done
 * all the same, and only a solve refuses the mark.
 * Answers 0, 1, 3 (a), 4 (record). */
URGYELPAT_MUST_USE uint64_t urgyelpat_lblt_factor(double *a, size_t a_length, uint32_t *record, size_t record_length, size_t n,
                                                  uint32_t run);

/* Solves A X = B in b (n*columns numbers, column by column) by a factor and its record, which is expected to be of run `run`.
 * After 6 look first for NaN or infinite numbers in all rows of A.
 * Answers 0, 1, 3 (a), 4 (record or b), 5, 13, 6 (its place is a row of the factor; urgyelpat_callers_row gives yours). */
URGYELPAT_MUST_USE uint64_t urgyelpat_lblt_solve(const double *a, size_t a_length, const uint32_t *record, size_t record_length,
                                                 double *b, size_t b_length, size_t n, size_t columns, uint32_t run);

/* Solves the columns of one bench in b (n*columns numbers, column by column) by a factor and its record, which is expected
 * to be of run `run`. benches (columns words) has a bench number, any uint32_t, for each column: column j is solved if
 * benches[j] is `bench`, and else stays as it was. A solved column is what urgyelpat_lblt_solve gives for that column. What
 * a bench gets, the answer too, depends on nothing that stands in the columns of the others. Where it has no column, the
 * same is checked and nothing is written.
 * Four or more columns of the bench that stand side by side are solved several at a time, fewer one by one.
 * Answers 0, 1, 3 (a), 4 (record, b or benches), 5, 13, 6 (its place is as for urgyelpat_lblt_solve). */
URGYELPAT_MUST_USE uint64_t urgyelpat_lblt_solve_bench(const double *a, size_t a_length, const uint32_t *record,
                                                       size_t record_length, double *b, size_t b_length,
                                                       const uint32_t *benches, size_t benches_length, size_t n,
                                                       size_t columns, uint32_t bench, uint32_t run);

/* The row of the given matrix that stands at a row of the factor: the exchanges of the record, taken back from the last to the
 * first. ([1 / 2 4]: row 1 is marked, and it is row 0 as given.) record has the 2n + 2 words that a factor call of order n
 * wrote, or that a list of order n was read into, in whichever run: only its pairs are read. */
static inline size_t urgyelpat_callers_row(const uint32_t *record, size_t n, size_t row)
{
    size_t rest = n; /* the exchanges of the rows from here on are taken back */
    while (rest > 0) {
        size_t stands = rest - 1, came = record[2 * stands];
        row = row == stands ? came : row == came ? stands : row;
        rest -= rest > 1 && record[2 * stands + 1] == 2 ? 2 : 1;
    }
    return row;
}

/* The determinant by a factor and its record, which is expected to be of run `run`; 1 for order 0. A marked record is accepted.
 * Answers 0, 1, 3 (a), 4 (record), 5, 13. */
URGYELPAT_MUST_USE urgyelpat_determined urgyelpat_lblt_determinant(const double *a, size_t a_length, const uint32_t *record,
                                                                   size_t record_length, size_t n, uint32_t run);

/* Fills d (n*n numbers) with the block diagonal matrix of a factor, zeros beside the blocks. The record is expected to be of run
 * `run`. A marked record is accepted.
 * Answers 0, 1, 3 (a), 4 (record or d), 5, 13. */
URGYELPAT_MUST_USE uint64_t urgyelpat_lblt_d(const double *a, size_t a_length, const uint32_t *record, size_t record_length,
                                             double *d, size_t d_length, size_t n, uint32_t run);

/* Fills l (n*n numbers) with P^T L; on paper the factored matrix is l d l^T. The record is expected to be of run `run`. A marked
 * record is accepted.
 * Answers 0, 1, 3 (a), 4 (record or l), 5, 13. */
URGYELPAT_MUST_USE uint64_t urgyelpat_lblt_l_permuted(const double *a, size_t a_length, const uint32_t *record,
                                                      size_t record_length, double *l, size_t l_length, size_t n, uint32_t run);

/* ---- A tray: many small systems by LBLT, in one call ---- */

/* Factors and solves `count` systems of order n, each with one right-hand side, laid end to end. Item t has its matrix (n*n
 * numbers) at a + t*n*n, its record (2n + 2 words) at records + t*(2n + 2), its side (n numbers) at b + t*n, its run number in
 * runs[t], and gets its answer in answers[t]. What stood in records and answers before is not read. None of the five slices
 * overlaps another.
 * Item by item this leaves, to the bit, what urgyelpat_lblt_factor and then urgyelpat_lblt_solve with one column leave, both
 * with the item's own run number: the factor where the matrix stood, the record, and the solution where the side stood.
 * answers[t] is the answer of that solve: 0, or 6 where the factor is marked, its place the marked row. A marked item keeps its
 * factor and its record, and its side is as it was. No item feels another: those beside it are solved.
 * THE CALL ANSWERS 0 WHERE ITEMS ARE MARKED: it says that all were worked on, and answers[t] whether item t is solved. After a 6
 * look first for NaN or infinite numbers in all rows of that item's matrix as it was given; urgyelpat_callers_row takes the
 * item's record, and gives your row. An item's factor and record are read by the calls above, as any other's.
 * A tray is refused as a whole, and then nothing is written, in answers neither: by 1 where n is above
 * URGYELPAT_TRAY_ORDER_LARGEST or count above URGYELPAT_TRAY_COUNT_LARGEST, then by 3 where a does not have count*n*n numbers,
 * then by 4 where records does not have count*(2n + 2) words, b count*n numbers, runs count words or answers count numbers.
 * Order 0 and count 0 are done.
 * Answers 0, 1, 3 (a), 4 (records, b, runs or answers). */
URGYELPAT_MUST_USE uint64_t urgyelpat_lblt_tray(double *a, size_t a_length, uint32_t *records, size_t records_length, double *b,
                                                size_t b_length, const uint32_t *runs, size_t runs_length, uint64_t *answers,
                                                size_t answers_length, size_t n, size_t count);

/* ---- LAPACK's pivot lists, read and written ----
 *
 * LAPACK's dsytrf and dsytf2 say their pivots by IPIV, a list of n signed numbers, and by INFO. For the lower triangle
 * (UPLO = 'L'), rows counted from 1:
 *   - p > 0 at row k is a block of size 1, with rows k and p exchanged. In the record it is the pair (p - 1, 1).
 *   - -p at row k and again at row k + 1 is a block of size 2, with rows k + 1 and p exchanged: the pair (p - 1, 2) at both.
 *   - INFO, 0 or the row of the first diagonal that is exactly zero, is the mark's word, number for number.
 * The list is judged by the rule of the record that it stands for: block by block from the first row on, and then INFO, which
 * is 0 or a row k at which the list has k itself. So a list is read exactly if some record that keeps the rule is written so.
 * From such a record to its list and back is the same record, its run number too; from such a list to its record and back is
 * the same list, with the same INFO.
 *
 * INFO and the mark need not mean the same. LAPACK says of INFO that this diagonal of D is the first that is exactly zero; the
 * mark is the first row at which a factor call found no pivot. For [0 / 2^-600 0 / 0 2^600 0] the mark is row 2, counted from
 * 0, and is written as INFO 3, though the factor has a zero at row 0. A list whose INFO is not 0 gives a marked record, which a
 * solve refuses by 6.
 *
 * WHICH LISTS. The factor beside a list is taken as it is. By LAPACK's documentation it stands in the lower part as that of
 * urgyelpat_lblt_factor does (compared, not proved), if dsytrf or dsytf2 wrote it with UPLO = 'L' and LDA = n (or its columns
 * are copied together so), and IPIV has 32-bit integers. Use it where INFO is 0. With another INFO a solve is refused, and the
 * determinant, d and l_permuted are not: where dsytrf works by blocks it may leave in that column what is not its D and L.
 * NEVER hand in lists of UPLO = 'U', nor those of dsytrf_rook, dsytrf_rk and dsytrf_aa: they can mean other things, and are not
 * always refused, those of dsytrf_aa hardly ever. docs/DIFFERENCES.md has what was seen. */

/* Reads a list (n numbers) and its INFO into a record (2n + 2 words), with `run` at its end: the number that is then expected
 * where the factor is read. Every int32_t is a content: a 0 in the list, INT32_MIN, an INFO below 0 (by which LAPACK says that
 * it factored nothing) and one above n are refused by 12.
 * Answers 0, 1, 4 (list or record), 12 (its place is a row from 0: the first of the first broken block, or n for INFO). */
URGYELPAT_MUST_USE uint64_t urgyelpat_pivots_from_lapack(const int32_t *list, size_t list_length, int32_t info,
                                                         uint32_t *record, size_t record_length, size_t n, uint32_t run);

/* Writes a record as a list (n numbers), and gives INFO and the record's run number beside the answer. No run number is
 * expected: compare the one that is given with your own. A marked record is accepted.
 * Answers 0, 1, 4 (record or list), 5. */
URGYELPAT_MUST_USE urgyelpat_listed urgyelpat_pivots_to_lapack(const uint32_t *record, size_t record_length, int32_t *list,
                                                               size_t list_length, size_t n);

/* ---- Cholesky: A = L L^T on paper, in a room, row batch by row batch ---- */

/* Factors the first n rows and columns of the lower part of a (room*room numbers) in place.
 * After 7, 10 or 11 at column j: the columns before j are finished, column j is updated and not divided, later columns are as
 * given.
 * Answers 0, 1, 2, 3 (a), 7, 10, 11. */
URGYELPAT_MUST_USE uint64_t urgyelpat_cholesky_factor(double *a, size_t a_length, size_t room, size_t n);

/* Takes the first `earlier` rows as factored and factors the rows earlier to n - 1 in place, so that the batches of a matrix
 * give what one call on the whole gives, to the bit, and are refused by the same code at the same row.
 * After 7, 10 or 11 at column j (earlier <= j): the rows from `earlier` on are left as by the factor call, the rows before as
 * they were.
 * A row that came twice is often not refused: ask urgyelpat_first_twin_since first.
 * Answers 0, 1, 2, 3 (a), 7, 10, 11. */
URGYELPAT_MUST_USE uint64_t urgyelpat_cholesky_extend(double *a, size_t a_length, size_t room, size_t earlier, size_t n);

/* The teaching engine, a plain Cholesky for the board: that of order n is that of order n - 1, and then the last row, found
 * from left to right. The order goes up to URGYELPAT_TEACHING_LARGEST, the room up to URGYELPAT_LARGEST. Where the sizes are
 * accepted, the answer is that of urgyelpat_cholesky_factor; after 0 so is the whole buffer, to the bit.
 * After 7, 10 or 11 at row j: the rows up to j, each up to and with its diagonal, are as urgyelpat_cholesky_factor leaves
 * them. The rows below j, the entries right of the diagonals and all that is outside the first n rows and columns are as given.
 * (That call works in the rows below j too.)
 * Larger orders and batches are for the two calls above.
 * Answers 0, 1, 2, 3 (a), 7, 10, 11. */
URGYELPAT_MUST_USE uint64_t urgyelpat_cholesky_teaching(double *a, size_t a_length, size_t room, size_t n);

/* urgyelpat_cholesky_factor with a floor for the diagonal. Where the diagonal of a column fails once it is updated and the floor
 * passes (above zero, +infinity too), the floor stands in for it: the root of the floor is stored there, the rows below are
 * divided by that root, and the column is counted in `used`. Where the floor fails too (zero, below zero, NaN), the refusal is
 * the diagonal's own, 7, 10 or 11 at that column; while no diagonal needs it, such a floor does no harm.
 * Proved of this call and the next, beside the call without a floor on the same numbers:
 *   - Where that call is done, this one gives the same answer and buffer, whatever the floor, and used is 0.
 *   - Where used is 0, answer and buffer are that call's. So what that call refuses is refused here too, or counted.
 *   - A floor that fails: answer and buffer are that call's, and used is 0. One that passes: no diagonal is refused, and only
 *     1, 2 and 3 are left.
 *   - A call that is refused, by whichever code, has used none, and leaves the buffer as that call leaves it.
 * A FLOOR HIDES what the call without one shows. A row that came twice, a broken probe's NaN and a matrix that is not positive
 * definite are accepted, and `used` is the only sign. ([NaN] with floor 4 gives [2]; a NaN left of the diagonal stays in the
 * factor.) A row that came twice may also leave a crumb above zero, which is neither refused nor counted. So ask
 * urgyelpat_first_twin before, of a batch urgyelpat_first_twin_since, and look at `used` after each call. Where it is not 0,
 * the factor is not that of A: on paper it is that of A with each counted diagonal raised, by the floor less what was left
 * there, and a solution or a determinant by it is that matrix's.
 * Answers 0, 1, 2, 3 (a), 7, 10, 11. */
URGYELPAT_MUST_USE urgyelpat_floored urgyelpat_cholesky_factor_floored(double *a, size_t a_length, size_t room, size_t n,
                                                                       double floor);

/* urgyelpat_cholesky_extend with a floor: the same for the rows earlier to n - 1. The diagonals of the first `earlier` rows are
 * neither tested nor counted. With one floor for all of them, the batches of a matrix give what one call of
 * urgyelpat_cholesky_factor_floored on the whole gives, to the bit, and are refused by the same code at the same row, and their
 * counts add up to the count of that call.
 * After 7, 10 or 11 at column j (earlier <= j): as after urgyelpat_cholesky_extend, and used is 0.
 * Ask urgyelpat_first_twin_since first, and look at `used` after each batch.
 * Answers 0, 1, 2, 3 (a), 7, 10, 11. */
URGYELPAT_MUST_USE urgyelpat_floored urgyelpat_cholesky_extend_floored(double *a, size_t a_length, size_t room, size_t earlier,
                                                                       size_t n, double floor);

/* Solves A X = B in b (n*columns numbers, n for each column, whatever the room) by the factor that stands in a. The solution
 * of a column depends on the factor and that column alone. No number of the factor is refused: a zero on its diagonal gives
 * infinities or NaN, and what a refused factor left is read as it stands.
 * Answers 0, 1, 2, 3 (a), 4 (b). */
URGYELPAT_MUST_USE uint64_t urgyelpat_cholesky_solve(const double *a, size_t a_length, double *b, size_t b_length, size_t room,
                                                     size_t n, size_t columns);

/* Fills l (n*n numbers, entry (i, j) at i + j*n) with the factor that stands in a, zero above the diagonal.
 * Answers 0, 1, 2, 3 (a), 4 (l). */
URGYELPAT_MUST_USE uint64_t urgyelpat_cholesky_l(const double *a, size_t a_length, double *l, size_t l_length, size_t room,
                                                 size_t n);

/* Sets the entries (i, j) with i < j < n of a, above the diagonal, to zero where they stand.
 * Answers 0, 1, 2, 3 (a). */
URGYELPAT_MUST_USE uint64_t urgyelpat_cholesky_unpack(double *a, size_t a_length, size_t room, size_t n);

/* The determinant of the factored matrix, the square of the product of the diagonal; 1 for order 0.
 * Answers 0, 1, 2, 3 (a). */
URGYELPAT_MUST_USE urgyelpat_determined urgyelpat_cholesky_determinant(const double *a, size_t a_length, size_t room, size_t n);

/* ---- UDU: P = U D U^T on paper ---- */

/* Fills u (n*n numbers) and d (n numbers) with the factors of p (n*n numbers), of which the upper part is read.
 * After 8 at column j: d has the zero that was found at j and zeros before it, the columns up to j of u are zero, and what
 * comes after j in both is finished. (At j = n - 1 all of u is zero.)
 * After 0 and 8 alike, rows and columns m to n - 1 of u and d are what the call on that block of p leaves, for every m below n:
 * to drop the first m, keep the others. That call answers 8 at j - m if this one answered 8 at a j >= m, and else 0.
 * Answers 0, 1, 3 (p), 4 (u or d), 8. */
URGYELPAT_MUST_USE uint64_t urgyelpat_udu_factor(const double *p, size_t p_length, double *u, size_t u_length, double *d,
                                                 size_t d_length, size_t n);

/* ---- Twins: a row that came twice ----
 *
 * Ask for twins of the rows as they came, in a buffer of their own that is never factored. NEVER ask of a buffer that holds a
 * factor, even if its last rows are still as they came: there twins are missed, and others invented. */

/* Looks for twin rows p < q among the first n rows of the symmetric matrix whose lower part stands in a (room*room numbers):
 * the same numbers bit for bit, NaN equal to NaN. Finds the pair with the least q, and then the least p. Writes nothing.
 * Answers 0 for no twins, (4096 + q) * 4096 + p for a pair, and refuses by 1, 2, 3 (a). */
URGYELPAT_MUST_USE uint64_t urgyelpat_first_twin(const double *a, size_t a_length, size_t room, size_t n);

/* The same among the pairs with earlier <= q alone: asked before a batch of rows earlier to n - 1 is factored, it finds what
 * the batch brings, and not again what was kept before it. (urgyelpat_first_twin is this from 0.) Writes nothing.
 * Answers 0 for no twins, (4096 + q) * 4096 + p for a pair, and refuses by 1, 2, 3 (a). */
URGYELPAT_MUST_USE uint64_t urgyelpat_first_twin_since(const double *a, size_t a_length, size_t room, size_t earlier, size_t n);

/* Whether an answer of a search for twins is a pair, and if so its rows p and q. */
static inline int urgyelpat_is_pair(uint64_t answer) { return urgyelpat_code(answer) >= 4096u; }
static inline uint32_t urgyelpat_twin_p(uint64_t answer) { return urgyelpat_place(answer); }
static inline uint32_t urgyelpat_twin_q(uint64_t answer) { return urgyelpat_code(answer) - 4096u; }

/* ---- Packed triangles: LBLT, Cholesky and the search for twins on the lower part alone, in half the memory ----
 *
 * A packed matrix of order n is its lower part, column after column, each from its diagonal down: n(n+1)/2 numbers, entry
 * (i, j), i >= j, at i + j*(2n-j-1)/2. The upper part is not there, and neither is room for rows to come. At order 1024 that is
 * 524,800 numbers, where the full layout has 1,048,576.
 *
 * No result depends on the layout (proved, for all of these calls by one law): the answer is that of the call without
 * `packed_` on the same lower part with the order for its room, code and place included, and so are the record, the solution
 * and the value; what stands packed after the call is what then stands in the lower part there. Codes, records, marks, run
 * numbers, urgyelpat_callers_row and the pairs of twins mean the same, and a record does not say in which layout its factor
 * stands. There are no packed calls with a floor, and none by the teaching engine. */

/* How many numbers a packed matrix of order n has, and where its entry (i, j), j <= i < n, stands; for orders up to 1024. The
 * first is also where row n begins if lower rows stand end to end, i + 1 numbers for row i. */
static inline size_t urgyelpat_packed_length(size_t n) { return n * (n + 1) / 2; }
static inline size_t urgyelpat_packed_place(size_t n, size_t i, size_t j) { return i + j * (2 * n - j - 1) / 2; }

/* Factors a (packed, n(n+1)/2 numbers) in place, and writes its record (2n + 2 words), with `run` at its end. The mark is set as
 * by urgyelpat_lblt_factor.
 * Answers 0, 1, 3 (a), 4 (record). */
URGYELPAT_MUST_USE uint64_t urgyelpat_packed_lblt_factor(double *a, size_t a_length, uint32_t *record, size_t record_length,
                                                         size_t n, uint32_t run);

/* Solves A X = B in b (n*columns numbers, column by column) by a packed factor (n(n+1)/2 numbers) and its record, which is
 * expected to be of run `run`.
 * Answers 0, 1, 3 (a), 4 (record or b), 5, 13, 6 (its place is as for urgyelpat_lblt_solve). */
URGYELPAT_MUST_USE uint64_t urgyelpat_packed_lblt_solve(const double *a, size_t a_length, const uint32_t *record,
                                                        size_t record_length, double *b, size_t b_length, size_t n,
                                                        size_t columns, uint32_t run);

/* The determinant by a packed factor (n(n+1)/2 numbers) and its record, which is expected to be of run `run`; 1 for order 0. A
 * marked record is accepted.
 * Answers 0, 1, 3 (a), 4 (record), 5, 13. */
URGYELPAT_MUST_USE urgyelpat_determined urgyelpat_packed_lblt_determinant(const double *a, size_t a_length,
                                                                          const uint32_t *record, size_t record_length,
                                                                          size_t n, uint32_t run);

/* Factors a (packed, n(n+1)/2 numbers) in place.
 * After 7, 10 or 11 at column j: the columns before j are finished, column j is updated and not divided, later columns are as
 * given.
 * Answers 0, 1, 3 (a), 7, 10, 11. */
URGYELPAT_MUST_USE uint64_t urgyelpat_packed_cholesky_factor(double *a, size_t a_length, size_t n);

/* A further batch. Takes the packed factor of the first `earlier` rows, in old (earlier(earlier+1)/2 numbers), and the rows
 * earlier to n - 1 as they came, in rows: end to end, i + 1 numbers for row i, up to its diagonal, which makes
 * n(n+1)/2 - earlier(earlier+1)/2 numbers. Fills fresh (n(n+1)/2 numbers, whatever stood there) with the packed factor of all n
 * rows; old and rows are only read. The batches of a matrix, each from the fresh buffer of the one before (the first from no
 * numbers and earlier order 0), give what one call of urgyelpat_packed_cholesky_factor on the whole gives, to the bit, and are
 * refused by the same code at the same row. The diagonals in old are not tested.
 * After 7, 10 or 11 at column j (earlier <= j) fresh is filled too, and is no factor: its first `earlier` rows are those of old,
 * the others are left as by the factor call. old is still the factor that it was: go on from there with other rows. Every other
 * refusal leaves fresh as it was.
 * A row that came twice is often not refused: ask urgyelpat_packed_first_twin first.
 * Answers 0, 1 (n or earlier), 2 (earlier above n), 3 (old), 4 (rows or fresh), 7, 10, 11. */
URGYELPAT_MUST_USE uint64_t urgyelpat_packed_cholesky_extend(const double *old, size_t old_length, const double *rows,
                                                             size_t rows_length, double *fresh, size_t fresh_length,
                                                             size_t earlier, size_t n);

/* Solves A X = B in b (n*columns numbers, column by column) by a packed factor (n(n+1)/2 numbers). As for
 * urgyelpat_cholesky_solve, each column is solved by itself, and no number of the factor is refused.
 * Answers 0, 1, 3 (a), 4 (b). */
URGYELPAT_MUST_USE uint64_t urgyelpat_packed_cholesky_solve(const double *a, size_t a_length, double *b, size_t b_length,
                                                            size_t n, size_t columns);

/* Looks for twin rows p < q in a packed matrix (n(n+1)/2 numbers), as urgyelpat_first_twin does: of the rows as they came, never
 * of a factor. It looks at all rows, so a pair that was kept is found again, and hides the pairs with a greater q. Writes
 * nothing.
 * Answers 0 for no twins, (4096 + q) * 4096 + p for a pair, and refuses by 1, 3 (a). */
URGYELPAT_MUST_USE uint64_t urgyelpat_packed_first_twin(const double *a, size_t a_length, size_t n);

/* ---- The handheld: LBLT of three unknowns, by value ----
 *
 * For a probe that has no buffers to lend: matrix, pivots and right-hand side are passed and returned by value, in structs.
 * What the caller keeps of them is not touched.
 *
 * Proved of the two calls, beside urgyelpat_lblt_factor and urgyelpat_lblt_solve with order 3, one column and one run number on
 * the same numbers, column by column: the same lower entries, pivots and mark, the same answer, code and place, and the same
 * solution, to the bit. There is no run number, so that yesterday's pivots are not told from today's: keep a factor and its
 * pivots together. */

/* A column of three numbers: of a matrix, a right-hand side or a solution. */
typedef struct urgyelpat_column3 {
    double row[3];
} urgyelpat_column3;

/* A matrix of order 3: entry (i, j) is column[j].row[i]. */
typedef struct urgyelpat_matrix3 {
    urgyelpat_column3 column[3];
} urgyelpat_matrix3;

/* What a pivot record of order 3 holds, without its run number: for each row the index and the size of its pivot, and the mark,
 * 0 or marked row + 1. The rule is the record's. */
typedef struct urgyelpat_pivots3 {
    uint32_t index[3];
    uint32_t size[3];
    uint32_t mark;
} urgyelpat_pivots3;

/* A factor of order 3, and its pivots. */
typedef struct urgyelpat_factored3 {
    urgyelpat_matrix3 matrix;
    urgyelpat_pivots3 pivots;
} urgyelpat_factored3;

/* A solution of three unknowns with its answer; where the call is refused, the right-hand side as it was given. */
typedef struct urgyelpat_solved3 {
    uint64_t answer;
    urgyelpat_column3 side;
} urgyelpat_solved3;

/* Factors the lower part of a matrix of order 3, and gives the factor with its pivots. The three numbers above the diagonal
 * come back unchanged. The mark is set as by urgyelpat_lblt_factor: pivots.mark is 0, or marked row + 1, and a solve refuses it.
 * Every matrix is factored; there is no refusal. urgyelpat_handheld_solve never refuses these pivots by 5. */
URGYELPAT_MUST_USE urgyelpat_factored3 urgyelpat_handheld_factor(urgyelpat_matrix3 matrix);

/* Solves A x = side by a factor and its pivots. After 5 and 6 the side comes back as given. After 6 look first for NaN or
 * infinite numbers in all rows of A.
 * Answers 0, 5 (the pivots break the rule: its place is the first row that does, or 3 if the mark alone does), 6 (a mark stands:
 * its place is a row of the factor; urgyelpat_handheld_callers_row gives yours). */
URGYELPAT_MUST_USE urgyelpat_solved3 urgyelpat_handheld_solve(urgyelpat_matrix3 matrix, urgyelpat_pivots3 pivots,
                                                              urgyelpat_column3 side);

/* The row of the given matrix that stands at a row of the factor, by the pivots that a factor call gave: what
 * urgyelpat_callers_row is for a record. */
static inline size_t urgyelpat_handheld_callers_row(urgyelpat_pivots3 pivots, size_t row)
{
    uint32_t pairs[6];
    for (size_t k = 0; k < 3; k++) {
        pairs[2 * k] = pivots.index[k];
        pairs[2 * k + 1] = pivots.size[k];
    }
    return urgyelpat_callers_row(pairs, 3, row);
}

#ifdef __cplusplus
}
#endif

#endif
