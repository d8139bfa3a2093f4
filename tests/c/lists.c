#include "cases.h"
#include "lent.h"
#include "urgyelpat.h"

/* Of each call below the order comes first, then the number of the run, if the call takes one. A record's own run number is
 * its last word. */

enum { LARGEST = 1024 };

static words old_record(size_t n)
{
    return old_words(2 * n + 2);
}

static void from_lapack(const char *about, size_t n, uint32_t run, wholes list, int32_t info, words record, uint64_t answer,
                        words record_left)
{
    for (placement where = 0; where < PLACEMENTS; where++) {
        lent given = lend_wholes(list, where), pivots = lend_words(record, where);
        called("pivots_from_lapack", about, where);
        answered(
            urgyelpat_pivots_from_lapack(wholes_at(&given), list.length, info, words_at(&pivots), record.length, n, run),
            answer);
        left_wholes(given, "list", list);
        left_words(pivots, "record", record_left);
    }
}

static void from_lapack_refused(const char *about, size_t n, uint32_t run, wholes list, int32_t info, words record,
                                uint64_t answer)
{
    from_lapack(about, n, run, list, info, record, answer, record);
}

static void to_lapack(const char *about, size_t n, words record, wholes list, uint64_t answer, int32_t info, uint32_t run,
                      wholes list_left)
{
    for (placement where = 0; where < PLACEMENTS; where++) {
        lent pivots = lend_words(record, where), written = lend_wholes(list, where);
        called("pivots_to_lapack", about, where);
        urgyelpat_listed got =
            urgyelpat_pivots_to_lapack(words_at(&pivots), record.length, wholes_at(&written), list.length, n);
        answered(got.answer, answer);
        gave("info", got.info, info);
        gave("run", got.run, run);
        left_words(pivots, "record", record);
        left_wholes(written, "list", list_left);
    }
}

static void to_lapack_refused(const char *about, size_t n, words record, wholes list, uint64_t answer)
{
    to_lapack(about, n, record, list, answer, 0, 0, list);
}

/* A list and the record that it stands for: each is made of the other. */
static void both_ways(const char *about, size_t n, wholes list, int32_t info, words record)
{
    const uint32_t run = record.at[2 * n + 1];
    from_lapack(about, n, run, list, info, old_record(n), 0, record);
    to_lapack(about, n, record, old_wholes(n), 0, info, run, list);
}

/* ---- a second judgement, of a list by LAPACK's words and of a record by the header's */

/* Rows are counted from 1, and row k has the number ipiv[k - 1]. */
static uint64_t judged_list(wholes ipiv, int32_t info)
{
    const long n = (long)ipiv.length;
    for (long k = 1; k <= n;) {
        const long p = ipiv.at[k - 1];
        if (p > 0 && k <= p && p <= n) /* a 1-by-1 block: rows k and p were interchanged */
            k += 1;
        else if (p < 0 && k < n && ipiv.at[k] == p && k + 1 <= -p && -p <= n) /* a 2-by-2 block: rows k + 1 and -p were */
            k += 2;
        else
            return ANSWER(12, k - 1);
    }
    if (info == 0 || (0 < info && info <= n && ipiv.at[info - 1] == info)) /* no rows were interchanged for a zero column */
        return 0;
    return ANSWER(12, n);
}

static uint64_t judged_record(size_t n, words record)
{
    for (size_t k = 0; k < n;) {
        const uint32_t *pair = record.at + 2 * k;
        if (pair[1] == 1 && k <= pair[0] && pair[0] < n)
            k += 1;
        else if (pair[1] == 2 && k + 1 < n && k + 1 <= pair[0] && pair[0] < n && pair[2] == pair[0] && pair[3] == 2)
            k += 2;
        else
            return ANSWER(5, k);
    }
    const size_t mark = record.at[2 * n];
    if (mark == 0 || (mark <= n && record.at[2 * mark - 1] == 1 && record.at[2 * mark - 2] == mark - 1))
        return 0;
    return ANSWER(5, n);
}

/* The record of a list that was judged sound. */
static void record_of(wholes list, int32_t info, uint32_t run, uint32_t *record)
{
    for (size_t k = 0; k < list.length; k++) {
        const long p = list.at[k];
        record[2 * k] = (uint32_t)(p > 0 ? p - 1 : -p - 1);
        record[2 * k + 1] = p > 0 ? 1 : 2;
    }
    record[2 * list.length] = (uint32_t)info;
    record[2 * list.length + 1] = run;
}

/* The next choice of n among so many, as digits, until all are 0 again. */
static int another(size_t *digits, size_t n, size_t choices)
{
    for (size_t i = 0; i < n; i++) {
        digits[i] = (digits[i] + 1) % choices;
        if (digits[i] != 0)
            return 1;
    }
    return 0;
}

/* ---- all small lists and records */

/* A list with a broken block is refused there whatever INFO is: a third of them is tried, in turn. */
static void every_list(void)
{
    static const int32_t numbers_of[] = {0, 1, 2, 3, 4, -1, -2, -3, -4, INT32_MAX, INT32_MIN};
    static const int32_t infos[] = {0, 1, 2, 3, 4, -1, -3, INT32_MAX, INT32_MIN};
    static const char *const orders[] = {"every list of order 0", "every list of order 1", "every list of order 2",
                                         "every list of order 3"};
    for (size_t n = 0; n < COUNT(orders); n++) {
        size_t digits[3] = {0, 0, 0};
        do {
            int32_t ipiv[3];
            for (size_t k = 0; k < n; k++)
                ipiv[k] = numbers_of[digits[k]];
            const wholes list = {n == 0 ? NULL : ipiv, n};
            const int broken = judged_list(list, 0) != 0;
            for (size_t i = 0; i < COUNT(infos); i++) {
                const uint64_t answer = judged_list(list, infos[i]);
                uint32_t record[8];
                if (broken && (i + digits[0] + digits[1] + digits[2]) % 3 != 0)
                    continue;
                if (answer != 0) {
                    from_lapack_refused(orders[n], n, 7, list, infos[i], old_record(n), answer);
                    continue;
                }
                record_of(list, infos[i], 7, record);
                both_ways(orders[n], n, list, infos[i], (words){record, 2 * n + 2});
            }
        } while (another(digits, n, COUNT(numbers_of)));
    }
}

/* All sound lists of orders 4 and 5, with each INFO that goes with them. */
static void every_sound_list(void)
{
    static const int32_t numbers_of[] = {1, 2, 3, 4, 5, -1, -2, -3, -4, -5};
    for (size_t n = 4; n <= 5; n++) {
        long sound = 0;
        size_t digits[5] = {0, 0, 0, 0, 0};
        do {
            int32_t ipiv[5];
            uint32_t record[12];
            for (size_t k = 0; k < n; k++)
                ipiv[k] = numbers_of[digits[k]];
            const wholes list = {ipiv, n};
            for (int32_t info = 0; info <= 5; info++)
                if (judged_list(list, info) == 0) {
                    sound += info == 0;
                    record_of(list, info, 7, record);
                    both_ways("every sound list of orders 4 and 5", n, list, info, (words){record, 2 * n + 2});
                }
        } while (another(digits, n, COUNT(numbers_of)));
        /* a first block of one row has n numbers to take, one of two n - 1: 1, 1, 3, 11, 53, 309 lists */
        gave("sound lists", sound, n == 4 ? 53 : 309);
    }
}

static void every_record_of(size_t n, words indexes, words sizes)
{
    const size_t pairs = indexes.length * sizes.length;
    const uint32_t marks[] = {0, 1, 2, 3, 4, UINT32_MAX};
    size_t digits[3] = {0, 0, 0};
    do {
        uint32_t record[8];
        for (size_t k = 0; k < n; k++) {
            record[2 * k] = indexes.at[digits[k] % indexes.length];
            record[2 * k + 1] = sizes.at[digits[k] / indexes.length];
        }
        record[2 * n + 1] = 7;
        for (size_t i = 0; i < COUNT(marks); i++) {
            const words given = {record, 2 * n + 2};
            record[2 * n] = marks[i];
            const uint64_t answer = judged_record(n, given);
            if (answer != 0) {
                to_lapack_refused("every record", n, given, old_wholes(n), answer);
                continue;
            }
            int32_t list[3];
            for (size_t k = 0; k < n; k++) {
                const int32_t row = (int32_t)record[2 * k] + 1;
                list[k] = record[2 * k + 1] == 2 ? -row : row;
            }
            both_ways("every record", n, (wholes){n == 0 ? NULL : list, n}, (int32_t)marks[i], given);
        }
    } while (another(digits, n, pairs));
}

static void every_record(void)
{
    for (size_t n = 0; n <= 2; n++)
        every_record_of(n, WORDS(0, 1, 2, UINT32_MAX), WORDS(0, 1, 2, 3));
    every_record_of(3, WORDS(0, 1, 2, 3), WORDS(1, 2));
}

/* ---- lists one by one */

static void lists(void)
{
    static const uint32_t runs[] = {0, 1, 7, 0x80000000u, UINT32_MAX - 1, UINT32_MAX};
    for (size_t i = 0; i < COUNT(runs); i++) {
        const uint32_t run = runs[i];
        both_ways("order 0", 0, NO_WHOLES, 0, WORDS(0, run));
        both_ways("order 1", 1, WHOLES(1), 0, WORDS(0, 1, 0, run));
        both_ways("order 1, a mark", 1, WHOLES(1), 1, WORDS(0, 1, 1, run));
        both_ways("a block of two", 2, WHOLES(-2, -2), 0, WORDS(1, 2, 1, 2, 0, run));
        both_ways("an exchange", 2, WHOLES(2, 2), 0, WORDS(1, 1, 1, 1, 0, run));
        both_ways("an exchange, then a mark", 2, WHOLES(2, 2), 2, WORDS(1, 1, 1, 1, 2, run));
        both_ways("a block of two, then a mark", 3, WHOLES(-3, -3, 3), 3, WORDS(2, 2, 2, 2, 2, 1, 3, run));
        both_ways("a mark, then a block of two", 3, WHOLES(1, -3, -3), 1, WORDS(0, 1, 2, 2, 2, 2, 1, run));
        both_ways("a far exchange, then a block of two", 4, WHOLES(3, -4, -4, 4), 0, WORDS(2, 1, 3, 2, 3, 2, 3, 1, 0, run));
        both_ways("two blocks of two with one row", 4, WHOLES(-4, -4, -4, -4), 0, WORDS(3, 2, 3, 2, 3, 2, 3, 2, 0, run));
    }
    /* what stood there does not matter */
    from_lapack("over a record of run 8", 2, 7, WHOLES(2, 2), 0, WORDS(1, 2, 1, 2, 0, 8), 0, WORDS(1, 1, 1, 1, 0, 7));
    from_lapack("over a marked record", 2, 7, WHOLES(-2, -2), 0, WORDS(0, 1, 1, 1, 1, 7), 0, WORDS(1, 2, 1, 2, 0, 7));
    from_lapack("over its own record", 2, 7, WHOLES(1, 2), 2, WORDS(0, 1, 1, 1, 2, 7), 0, WORDS(0, 1, 1, 1, 2, 7));
    to_lapack("over another list", 2, WORDS(1, 1, 1, 1, 0, 7), WHOLES(-2, -2), 0, 0, 7, WHOLES(2, 2));
    to_lapack("over its own list", 2, WORDS(1, 2, 1, 2, 0, 7), WHOLES(-2, -2), 0, 0, 7, WHOLES(-2, -2));
    to_lapack("over zeros", 2, WORDS(1, 1, 1, 1, 2, 7), WHOLES(0, 0), 0, 2, 7, WHOLES(2, 2));
}

/* The record that stands where a list is to be read into stays, with its run number. */
static void broken_lists(void)
{
    words stood = WORDS(0, 1, 1, 1, 2, 1, 0, 8);
    /* 1, 2 and 3 with bits beside them */
    static const int32_t beside[] = {0x101, 0x202, 0x303, 0x10001, 0x10002, 0x10003, 0x40000001, 0x40000002, 0x40000003};
    for (size_t i = 0; i < COUNT(beside); i++) {
        const int32_t p = beside[i];
        from_lapack_refused("row 0: bits beside a row", 3, 7, WHOLES(p, 2, 3), 0, stood, ANSWER(12, 0));
        from_lapack_refused("row 1: bits beside a row", 3, 7, WHOLES(1, p, 3), 0, stood, ANSWER(12, 1));
        from_lapack_refused("row 2: bits beside a row", 3, 7, WHOLES(-2, -2, p), 0, stood, ANSWER(12, 2));
        from_lapack_refused("row 0: a block with bits beside a row", 3, 7, WHOLES(-p, -p, 3), 0, stood, ANSWER(12, 0));
        from_lapack_refused("row 1: a block with bits beside a row", 3, 7, WHOLES(1, -p, -p), 0, stood, ANSWER(12, 1));
        from_lapack_refused("INFO with bits beside a row", 3, 7, WHOLES(1, 2, 3), p, stood, ANSWER(12, 3));
        from_lapack_refused("INFO below 0 with bits beside a row", 3, 7, WHOLES(1, 2, 3), -p, stood, ANSWER(12, 3));
    }
    /* INT32_MAX, INT32_MIN and their neighbours */
    static const int32_t ends[] = {INT32_MAX, INT32_MAX - 1, INT32_MIN + 2, INT32_MIN + 1, INT32_MIN};
    for (size_t i = 0; i < COUNT(ends); i++) {
        const int32_t p = ends[i];
        from_lapack_refused("row 0: an end of the range", 3, 7, WHOLES(p, p, p), p, stood, ANSWER(12, 0));
        from_lapack_refused("row 1: an end of the range", 3, 7, WHOLES(3, p, p), 1, stood, ANSWER(12, 1));
        from_lapack_refused("row 2: an end of the range", 3, 7, WHOLES(-3, -3, p), 0, stood, ANSWER(12, 2));
        from_lapack_refused("INFO an end of the range", 3, 7, WHOLES(3, 2, 3), p, stood, ANSWER(12, 3));
        from_lapack_refused("order 0: INFO an end of the range", 0, 7, NO_WHOLES, p, WORDS(0, 8), ANSWER(12, 0));
    }

    from_lapack_refused("row 0: a zero", 3, 7, WHOLES(0, 2, 3), 0, stood, ANSWER(12, 0));
    from_lapack_refused("row 2: a zero after a block", 3, 7, WHOLES(-2, -2, 0), 0, stood, ANSWER(12, 2));
    from_lapack_refused("row 0: row 4 of 3", 3, 7, WHOLES(4, 2, 3), 0, stood, ANSWER(12, 0));
    from_lapack_refused("row 1: a row above it", 3, 7, WHOLES(1, 1, 3), 0, stood, ANSWER(12, 1));
    from_lapack_refused("row 2: a row above it", 3, 7, WHOLES(1, 2, 2), 0, stood, ANSWER(12, 2));
    from_lapack_refused("row 0: a block with its first row", 3, 7, WHOLES(-1, -1, 3), 0, stood, ANSWER(12, 0));
    from_lapack_refused("row 1: a block with its first row", 3, 7, WHOLES(1, -2, -2), 0, stood, ANSWER(12, 1));
    from_lapack_refused("row 0: a block with row 4 of 3", 3, 7, WHOLES(-4, -4, 3), 0, stood, ANSWER(12, 0));
    from_lapack_refused("row 0: two rows in a block", 3, 7, WHOLES(-2, -3, 3), 0, stood, ANSWER(12, 0));
    from_lapack_refused("row 0: a block whose second row is one", 3, 7, WHOLES(-2, 2, 3), 0, stood, ANSWER(12, 0));
    from_lapack_refused("row 0: a block of three rows", 3, 7, WHOLES(-3, -3, -3), 0, stood, ANSWER(12, 2));
    from_lapack_refused("row 1: a row, then half a block", 3, 7, WHOLES(1, -3, 3), 0, stood, ANSWER(12, 1));
    from_lapack_refused("row 2: a block in the last row", 3, 7, WHOLES(1, 2, -3), 0, stood, ANSWER(12, 2));
    from_lapack_refused("order 1: a block", 1, 7, WHOLES(-1), 0, WORDS(0, 1, 0, 8), ANSWER(12, 0));
    from_lapack_refused("order 1: a block with the row behind", 1, 7, WHOLES(-2), 0, WORDS(0, 1, 0, 8), ANSWER(12, 0));
    from_lapack_refused("two broken blocks", 4, 7, WHOLES(1, 5, 0, -4), 0, old_record(4), ANSWER(12, 1));
    /* as LAPACK writes the upper triangle: a block of two has the row above */
    from_lapack_refused("a list of the upper triangle", 3, 7, WHOLES(1, -1, -1), 0, stood, ANSWER(12, 1));
    /* as dsytrf_rook does: each row of a block has its own */
    from_lapack_refused("a list of dsytrf_rook", 3, 7, WHOLES(-1, -3, 3), 0, stood, ANSWER(12, 0));

    from_lapack_refused("INFO above the order", 3, 7, WHOLES(1, 2, 3), 4, stood, ANSWER(12, 3));
    from_lapack_refused("INFO below 0", 3, 7, WHOLES(1, 2, 3), -1, stood, ANSWER(12, 3));
    from_lapack_refused("INFO on a block of two", 3, 7, WHOLES(-2, -2, 3), 1, stood, ANSWER(12, 3));
    from_lapack_refused("INFO on the second row of a block", 3, 7, WHOLES(-2, -2, 3), 2, stood, ANSWER(12, 3));
    from_lapack_refused("INFO on row 0, exchanged with row 1", 3, 7, WHOLES(2, 2, 3), 1, stood, ANSWER(12, 3));
    from_lapack_refused("INFO on row 1, exchanged with row 2", 3, 7, WHOLES(1, 3, 3), 2, stood, ANSWER(12, 3));
    from_lapack_refused("a row before INFO", 3, 7, WHOLES(1, 2, 0), 9, stood, ANSWER(12, 2));
    from_lapack_refused("a row after INFO's", 3, 7, WHOLES(1, 2, 4), 1, stood, ANSWER(12, 2));
    from_lapack_refused("order 0: INFO 1", 0, 7, NO_WHOLES, 1, WORDS(0, 8), ANSWER(12, 0));
    from_lapack_refused("order 0: INFO below 0", 0, 7, NO_WHOLES, -1, WORDS(0, 8), ANSWER(12, 0));
    from_lapack_refused("order 1: INFO 2", 1, 7, WHOLES(1), 2, WORDS(0, 1, 0, 8), ANSWER(12, 1));
}

/* Mark and run number are not handed back. */
static void broken_records(void)
{
    wholes stood = WHOLES(1, -3, -3);
    to_lapack_refused("row 0: index 3 of 3", 3, WORDS(3, 1, 1, 1, 2, 1, 2, 7), stood, ANSWER(5, 0));
    to_lapack_refused("row 0: the largest index", 3, WORDS(UINT32_MAX, 1, 1, 1, 2, 1, 2, 7), stood, ANSWER(5, 0));
    to_lapack_refused("row 0: the index of INT32_MIN", 3, WORDS(INT32_MAX, 2, INT32_MAX, 2, 2, 1, 3, 7), stood,
                      ANSWER(5, 0));
    to_lapack_refused("row 0: size 0", 3, WORDS(0, 0, 1, 1, 2, 1, 2, 7), stood, ANSWER(5, 0));
    to_lapack_refused("row 0: size 3", 3, WORDS(0, 3, 1, 1, 2, 1, 2, 7), stood, ANSWER(5, 0));
    to_lapack_refused("row 0: size 2 with its own index", 3, WORDS(0, 2, 0, 2, 2, 1, 3, 7), stood, ANSWER(5, 0));
    to_lapack_refused("row 0: two indexes in a block", 3, WORDS(1, 2, 2, 2, 2, 1, 3, 7), stood, ANSWER(5, 0));
    to_lapack_refused("row 0: two sizes in a block", 3, WORDS(1, 2, 1, 1, 2, 1, 3, 7), stood, ANSWER(5, 0));
    to_lapack_refused("row 1: an index above it", 3, WORDS(0, 1, 0, 1, 2, 1, 1, 7), stood, ANSWER(5, 1));
    to_lapack_refused("row 2: size 2 in the last row", 3, WORDS(1, 2, 1, 2, 2, 2, 3, 7), stood, ANSWER(5, 2));
    to_lapack_refused("row 2: size 0, after a block", 3, WORDS(1, 2, 1, 2, 2, 0, 3, 7), stood, ANSWER(5, 2));
    to_lapack_refused("a mark above the order", 3, WORDS(0, 1, 1, 1, 2, 1, 4, 7), stood, ANSWER(5, 3));
    to_lapack_refused("the largest mark", 3, WORDS(0, 1, 1, 1, 2, 1, UINT32_MAX, 7), stood, ANSWER(5, 3));
    to_lapack_refused("a mark on a block of two", 3, WORDS(1, 2, 1, 2, 2, 1, 1, 7), stood, ANSWER(5, 3));
    to_lapack_refused("a mark on the second row of a block", 3, WORDS(1, 2, 1, 2, 2, 1, 2, 7), stood, ANSWER(5, 3));
    to_lapack_refused("a mark on row 0 of index 1", 3, WORDS(1, 1, 1, 1, 2, 1, 1, 7), stood, ANSWER(5, 3));
    to_lapack_refused("a mark on row 1 of index 2", 3, WORDS(0, 1, 2, 1, 2, 1, 2, 7), stood, ANSWER(5, 3));
    to_lapack_refused("a row before a mark", 3, WORDS(0, 1, 1, 1, 2, 0, 9, 7), stood, ANSWER(5, 2));
    to_lapack_refused("order 0: a mark", 0, WORDS(1, 7), NO_WHOLES, ANSWER(5, 0));
    to_lapack_refused("order 1: a mark above the order", 1, WORDS(0, 1, 2, 7), WHOLES(4), ANSWER(5, 1));
}

/* The order is looked at first, then the lengths, and then what stands in the slices. */
static void refused_by_size(void)
{
    static const size_t orders[] = {1025,         1026,         0x10000,          0x100000000u,
                                    0x100000002u, SIZE_MAX / 2, SIZE_MAX / 2 + 1, SIZE_MAX};
    wholes sound_list = WHOLES(1, 2), broken_list = WHOLES(0, 9), three = WHOLES(1, 2, 3);
    words sound = WORDS(0, 1, 1, 1, 2, 7), broken = WORDS(7, 7, 7, 7, 7, 7), empty = WORDS(0, 7);
    for (size_t i = 0; i < COUNT(orders); i++) {
        const size_t n = orders[i];
        from_lapack_refused("an order above 1024", n, 7, sound_list, 0, sound, ANSWER(1, 0));
        from_lapack_refused("an order above 1024, a broken list", n, 7, broken_list, -1, sound, ANSWER(1, 0));
        from_lapack_refused("an order above 1024, no list", n, 7, NO_WHOLES, 0, empty, ANSWER(1, 0));
        from_lapack_refused("an order above 1024, nothing lent", n, 7, NO_WHOLES, 0, NO_WORDS, ANSWER(1, 0));
        to_lapack_refused("an order above 1024", n, sound, sound_list, ANSWER(1, 0));
        to_lapack_refused("an order above 1024, a broken record", n, broken, sound_list, ANSWER(1, 0));
        to_lapack_refused("an order above 1024, no list", n, empty, NO_WHOLES, ANSWER(1, 0));
        to_lapack_refused("an order above 1024, nothing lent", n, NO_WORDS, NO_WHOLES, ANSWER(1, 0));
    }

    /* orders 0 to 3 with lists of 0 to 9 numbers and records of 0 to 12 words, and much longer ones */
    static const int32_t rows[] = {1, 2, 3, 4, 5, 6, 7, 8, 9};
    static const uint32_t own[] = {0, 1, 1, 1, 2, 1, 3, 1, 4, 1, 5, 1};
    for (size_t n = 0; n <= 3; n++)
        for (size_t numbers_lent = 0; numbers_lent <= COUNT(rows); numbers_lent++)
            for (size_t words_lent = 0; words_lent <= COUNT(own); words_lent++) {
                const wholes list = {numbers_lent == 0 ? NULL : rows, numbers_lent};
                const words record = {words_lent == 0 ? NULL : own, words_lent};
                if (numbers_lent == n && words_lent == 2 * n + 2)
                    continue;
                from_lapack_refused("a length that does not fit", n, 7, list, 0, record, ANSWER(4, 0));
                to_lapack_refused("a length that does not fit", n, record, list, ANSWER(4, 0));
            }
    from_lapack_refused("a list of 1024 numbers for 2", 2, 7, old_wholes(1024), 0, sound, ANSWER(4, 0));
    from_lapack_refused("a record of order 1024 for 2", 2, 7, sound_list, 0, old_record(1024), ANSWER(4, 0));
    to_lapack_refused("a list of 1024 numbers for 2", 2, sound, old_wholes(1024), ANSWER(4, 0));
    to_lapack_refused("a record of order 1024 for 2", 2, old_record(1024), sound_list, ANSWER(4, 0));

    from_lapack_refused("a list one short, broken", 3, 7, broken_list, 0, old_record(3), ANSWER(4, 0));
    from_lapack_refused("a list one long, INFO below 0", 2, 7, three, -1, sound, ANSWER(4, 0));
    from_lapack_refused("a record one short, a broken list", 2, 7, broken_list, 0, WORDS(9, 9, 9, 9, 9), ANSWER(4, 0));
    from_lapack_refused("a record one long, INFO above the order", 2, 7, sound_list, 3, WORDS(9, 9, 9, 9, 9, 9, 9),
                        ANSWER(4, 0));
    from_lapack_refused("order 0: a record one short, INFO 1", 0, 7, NO_WHOLES, 1, WORDS(9), ANSWER(4, 0));
    to_lapack_refused("a list one short, a broken record", 2, broken, WHOLES(4), ANSWER(4, 0));
    to_lapack_refused("a list one long, a broken record", 2, broken, three, ANSWER(4, 0));
    to_lapack_refused("no list, a broken record", 2, broken, NO_WHOLES, ANSWER(4, 0));
    to_lapack_refused("a record one short, broken", 2, WORDS(7, 7, 7, 7, 7), sound_list, ANSWER(4, 0));
    to_lapack_refused("order 0: a record one long, a mark", 0, WORDS(1, 7, 7), NO_WHOLES, ANSWER(4, 0));
}

/* ---- order 1024 */

static int32_t large_list[LARGEST + 1];
static uint32_t large_record[2 * LARGEST + 4];

typedef enum { OWN_ROWS, THE_LAST_ROW, PAIRS, PAIRS_WITH_THE_LAST, FORMS } form;

static int32_t number_of(form of, int32_t k)
{
    switch (of) {
    case THE_LAST_ROW:
        return LARGEST;
    case PAIRS:
        return k % 2 == 1 ? -k - 1 : -k;
    case PAIRS_WITH_THE_LAST:
        return -LARGEST;
    default:
        return k;
    }
}

static void fill_large(form of)
{
    for (int32_t k = 1; k <= LARGEST; k++)
        large_list[k - 1] = number_of(of, k);
}

static void largest_order(void)
{
    static const int32_t infos[] = {0, 1, LARGEST};
    const wholes list = {large_list, LARGEST};
    const words record = {large_record, 2 * LARGEST + 2};
    for (form of = 0; of < FORMS; of++) {
        fill_large(of);
        for (size_t i = 0; i < COUNT(infos); i++) {
            const int32_t info = infos[i];
            record_of(list, info, 7, large_record);
            if (judged_list(list, info) == 0)
                both_ways("order 1024", LARGEST, list, info, record);
            else {
                from_lapack_refused("order 1024, INFO", LARGEST, 7, list, info, old_record(LARGEST), ANSWER(12, LARGEST));
                to_lapack_refused("order 1024, a mark", LARGEST, record, old_wholes(LARGEST), ANSWER(5, LARGEST));
            }
        }
        from_lapack_refused("order 1024, INFO 1025", LARGEST, 7, list, LARGEST + 1, old_record(LARGEST),
                            ANSWER(12, LARGEST));
    }

    fill_large(OWN_ROWS);
    large_list[LARGEST - 1] = -LARGEST;
    from_lapack_refused("order 1024: a block in row 1023", LARGEST, 7, list, 0, old_record(LARGEST), ANSWER(12, 1023));
    large_list[LARGEST - 1] = LARGEST + 1;
    from_lapack_refused("order 1024: row 1025", LARGEST, 7, list, 0, old_record(LARGEST), ANSWER(12, 1023));
    large_list[LARGEST - 2] = -LARGEST;
    from_lapack_refused("order 1024: half a block in row 1022", LARGEST, 7, list, 0, old_record(LARGEST), ANSWER(12, 1022));
    large_list[LARGEST - 2] = large_list[LARGEST - 1] = -LARGEST - 1;
    from_lapack_refused("order 1024: a block with row 1025", LARGEST, 7, list, 0, old_record(LARGEST), ANSWER(12, 1022));

    /* one row more, sound but for that */
    large_list[LARGEST - 2] = LARGEST - 1;
    large_list[LARGEST - 1] = LARGEST;
    large_list[LARGEST] = LARGEST + 1;
    const wholes longer = {large_list, LARGEST + 1};
    from_lapack_refused("order 1025", LARGEST + 1, 7, longer, 0, old_record(LARGEST + 1), ANSWER(1, 0));
    from_lapack_refused("order 1024, a list of 1025", LARGEST, 7, longer, 0, old_record(LARGEST), ANSWER(4, 0));
    from_lapack_refused("order 1024, a record of 1025", LARGEST, 7, list, 0, old_record(LARGEST + 1), ANSWER(4, 0));
    record_of(longer, 0, 7, large_record);
    to_lapack_refused("order 1025", LARGEST + 1, (words){large_record, 2 * LARGEST + 4}, old_wholes(LARGEST + 1),
                      ANSWER(1, 0));
    record_of(list, 0, 7, large_record);
    to_lapack_refused("order 1024, a list of 1025", LARGEST, record, old_wholes(LARGEST + 1), ANSWER(4, 0));
    to_lapack_refused("order 1024, a list of 1023", LARGEST, record, old_wholes(LARGEST - 1), ANSWER(4, 0));
}

/* ---- factors */

/* Factors go out as LAPACK's and come back, in another run: what they solve is the same. */
static void factors_handed_over(void)
{
    enum { MOST = 24 };
    double a[MOST * MOST], b[MOST], left[MOST];
    uint32_t record[2 * MOST + 2], back[2 * MOST + 2];
    int32_t list[MOST];
    uint32_t chance = 4;
    for (size_t n = 0; n <= MOST; n++)
        for (int kind = 0; kind < 3; kind++) {
            for (size_t i = 0; i < n * n; i++)
                a[i] = kind == 1 && i / n == i % n ? 0 : by_chance(&chance);
            if (kind == 2 && n > 0) /* a row of zeros, so that there is a mark */
                for (size_t i = 0; i < n; i++)
                    a[n / 2 + i * n] = a[i + n / 2 * n] = 0;
            for (size_t i = 0; i < n; i++)
                left[i] = b[i] = by_chance(&chance);
            const uint32_t run = chance;
            const words pivots = {record, 2 * n + 2};
            answered(urgyelpat_lblt_factor(a, n * n, record, 2 * n + 2, n, run), 0);
            const urgyelpat_listed listed = urgyelpat_pivots_to_lapack(record, 2 * n + 2, list, n, n);
            answered(listed.answer, 0);
            both_ways("a factor's list", n, (wholes){n == 0 ? NULL : list, n}, (int32_t)record[2 * n], pivots);

            called("pivots_from_lapack", "a factor's list read in the next run", BETWEEN_CANARIES);
            answered(urgyelpat_pivots_from_lapack(list, n, listed.info, back, 2 * n + 2, n, run + 1), 0);
            const uint64_t answer = record[2 * n] == 0 ? 0 : ANSWER(6, record[2 * n] - 1);
            answered(urgyelpat_lblt_solve(a, n * n, record, 2 * n + 2, left, n, n, 1, run), answer);
            called("lblt_solve", "by a list that was read", BETWEEN_CANARIES);
            answered(urgyelpat_lblt_solve(a, n * n, back, 2 * n + 2, b, n, n, 1, run), ANSWER(13, 0));
            answered(urgyelpat_lblt_solve(a, n * n, back, 2 * n + 2, b, n, n, 1, run + 1), answer);
            for (size_t i = 0; i < n; i++)
                valued(b[i], left[i]);
        }
}

/* What dsytrf leaves and says of [0 / 3 4 / 4 8 16 / 2.5 5 2 0.25], for a solve here; and what it says of matrices whose
 * factor is the same here. */
static void factors_of_lapack(void)
{
    double a[16] = {16, 0.5, 0.25, 0.125, KEPT, 0, 4, 0.5, KEPT, KEPT, 0, 0.25, KEPT, KEPT, KEPT, -2};
    double b[4] = {28, 55, 76, 19.5}; /* of 1, 2, 3, 4 */
    uint32_t record[10];
    called("pivots_from_lapack", "a factor of dsytrf", BETWEEN_CANARIES);
    answered(urgyelpat_pivots_from_lapack(WHOLES(3, -4, -4, 4).at, 4, 0, record, 10, 4, 7), 0);
    answered(urgyelpat_lblt_solve(a, 16, record, 10, b, 4, 4, 1, 7), 0);
    for (size_t i = 0; i < 4; i++)
        valued(b[i], (double)(i + 1));

    static const struct {
        double a[9];
        size_t n;
        int32_t list[3], info;
    } known[] = {
        {{4, 2, 0, 3}, 2, {1, 2}, 0},
        {{0, 1, 0, 0}, 2, {-2, -2}, 0},
        {{0, 1, 0, 4}, 2, {2, 2}, 0},
        {{1, 2, 0, 4}, 2, {2, 2}, 2},
        {{0, 3, -3, 0, 0, 0, 0, 0, 0}, 3, {-2, -2, 3}, 3},
        {{0, 0, 0, 0, 0, 1, 0, 0, 0}, 3, {1, -3, -3}, 1},
    };
    for (size_t i = 0; i < COUNT(known); i++) {
        const size_t n = known[i].n;
        double matrix[9];
        for (size_t at = 0; at < n * n; at++)
            matrix[at] = known[i].a[at];
        answered(urgyelpat_lblt_factor(matrix, n * n, record, 2 * n + 2, n, 7), 0);
        to_lapack("as dsytrf", n, (words){record, 2 * n + 2}, old_wholes(n), 0, known[i].info, 7, (wholes){known[i].list, n});
    }

    /* the mark is row 2, and the factor has a zero at row 0 */
    double underflows[9] = {0, 0x1p-600, 0, KEPT, 0, 0x1p600, KEPT, KEPT, 0};
    answered(urgyelpat_lblt_factor(underflows, 9, record, 8, 3, 7), 0);
    valued(underflows[0], 0);
    to_lapack("a ratio that underflows", 3, (words){record, 8}, old_wholes(3), 0, 3, 7, WHOLES(1, 2, 3));
}

void list_cases(void)
{
    lists();
    every_list();
    every_sound_list();
    every_record();
    broken_lists();
    broken_records();
    refused_by_size();
    largest_order();
    factors_handed_over();
    factors_of_lapack();
}
