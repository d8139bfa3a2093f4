#include "lent.h"
#include <stdio.h>

/* what is called of the C library besides printf */
void *mmap(void *at, size_t bytes, int protection, int flags, int file, long offset);
int mprotect(void *at, size_t bytes, int protection);
int munmap(void *at, size_t bytes);
void *malloc(size_t bytes);
void free(void *memory);
void abort(void);
void _exit(int status);
int fflush(void *file);
void (*signal(int number, void (*handler)(int number)))(int number);
void *memcpy(void *to, const void *from, size_t bytes);
int memcmp(const void *one, const void *other, size_t bytes);

enum { PAGE = 4096, FORBIDDEN = 0, READ_AND_WRITE = 3, PRIVATE_AND_ANONYMOUS = 0x22, SEGMENTATION_FAULT = 11 };

static const unsigned char canary[8] = {0xca, 0x4a, 0x12, 0x9e, 0xd0, 0x0d, 0xf4, 0x7f};

unsigned long calls_made, calls_wrong;

static struct {
    const char *function, *about;
    placement where;
    int wrong;
} current;

double from_bits(uint64_t bits)
{
    double number;
    memcpy(&number, &bits, sizeof number);
    return number;
}

double by_chance(uint32_t *state)
{
    *state = *state * 1664525u + 1013904223u;
    return (double)(*state >> 8) / 16777216.0 - 0.5;
}

double root(double number)
{
    double result;
    __asm__("sqrtsd %1, %0" : "=x"(result) : "x"(number));
    return result;
}

static uint64_t to_bits(double number)
{
    uint64_t bits;
    memcpy(&bits, &number, sizeof bits);
    return bits;
}

double as_left(double number)
{
    return number == number || to_bits(number) == to_bits(KEPT) ? number : NAN;
}

/* as many as are asked for: those of a packed matrix of order 1025 and one more, of the records of 1025 items of order 3, of a
 * list, of the answers of 1025 items and one more */
enum { MOST_NUMBERS = 1025 * 1026 / 2 + 1, MOST_WORDS = 1025 * 8, MOST_WHOLES = 1025, MOST_LONGS = 1026 };

numbers old_numbers(size_t length)
{
    static double old[MOST_NUMBERS];
    if (length > MOST_NUMBERS)
        abort();
    if (old[1] == 0)
        for (size_t i = 0; i < MOST_NUMBERS; i++)
            old[i] = i % 2 ? -9e9 - (double)i : KEPT;
    return (numbers){length == 0 ? NULL : old, length};
}

words old_words(size_t length)
{
    static uint32_t old[MOST_WORDS];
    if (length > MOST_WORDS)
        abort();
    if (old[0] == 0)
        for (size_t i = 0; i < MOST_WORDS; i++)
            old[i] = 0x9e9e0000u + (uint32_t)i;
    return (words){length == 0 ? NULL : old, length};
}

wholes old_wholes(size_t length)
{
    static int32_t old[MOST_WHOLES];
    if (length > MOST_WHOLES)
        abort();
    if (old[0] == 0)
        for (size_t i = 0; i < MOST_WHOLES; i++)
            old[i] = -0x5e5e0000 + (int32_t)i;
    return (wholes){length == 0 ? NULL : old, length};
}

longs old_longs(size_t length)
{
    static uint64_t old[MOST_LONGS];
    if (length > MOST_LONGS)
        abort();
    if (old[0] == 0)
        for (size_t i = 0; i < MOST_LONGS; i++)
            old[i] = 0xe9e9e9e900000000u + i;
    return (longs){length == 0 ? NULL : old, length};
}

static lent lend(const void *given, size_t length, size_t width, placement where)
{
    size_t bytes = length * width;
    size_t margin = where == BETWEEN_CANARIES ? 2 * PAGE : 0;
    lent slice = {.length = length, .width = width, .null = given == NULL};
    slice.open_bytes = (bytes / PAGE + 1) * PAGE + margin;
    slice.mapped_bytes = slice.open_bytes + 2 * PAGE;
    slice.mapped = mmap(NULL, slice.mapped_bytes, READ_AND_WRITE, PRIVATE_AND_ANONYMOUS, -1, 0);
    slice.should = malloc(slice.open_bytes);
    if (slice.mapped == (void *)-1 || slice.should == NULL)
        abort();
    slice.open = slice.mapped + PAGE;
    slice.start = where == AT_THE_START ? 0 : where == AT_THE_END ? slice.open_bytes - bytes : PAGE;
    for (size_t i = 0; i < slice.open_bytes; i++)
        slice.open[i] = canary[i % sizeof canary];
    if (bytes > 0)
        memcpy(slice.open + slice.start, given, bytes);
    memcpy(slice.should, slice.open, slice.open_bytes);
    if (mprotect(slice.mapped, PAGE, FORBIDDEN) != 0 ||
        mprotect(slice.open + slice.open_bytes, PAGE, FORBIDDEN) != 0)
        abort();
    return slice;
}

lent lend_numbers(numbers given, placement where)
{
    return lend(given.at, given.length, sizeof(double), where);
}

lent lend_words(words given, placement where)
{
    return lend(given.at, given.length, sizeof(uint32_t), where);
}

lent lend_wholes(wholes given, placement where)
{
    return lend(given.at, given.length, sizeof(int32_t), where);
}

lent lend_longs(longs given, placement where)
{
    return lend(given.at, given.length, sizeof(uint64_t), where);
}

lent lend_bytes(const void *given, size_t bytes, placement where)
{
    return lend(given, bytes, 1, where);
}

/* as many as a matrix has that is lent so, and canaries on either side */
enum { MOST_FRAMED = 68 * 68, CANARIES = 8 };
static double frame[CANARIES + MOST_FRAMED + CANARIES];

double *lend_framed(const double *given, size_t length)
{
    if (length > MOST_FRAMED)
        abort();
    for (size_t i = 0; i < length + 2 * CANARIES; i++)
        frame[i] = i < CANARIES || i - CANARIES >= length ? KEPT : given[i - CANARIES];
    return frame + CANARIES;
}

void left_framed(const double *wanted, size_t length)
{
    for (size_t i = 0; i < length + 2 * CANARIES; i++)
        valued(frame[i], i < CANARIES || i - CANARIES >= length ? KEPT : wanted[i - CANARIES]);
}

double *numbers_at(const lent *slice)
{
    return slice->null ? NULL : (double *)(void *)(slice->open + slice->start);
}

uint32_t *words_at(const lent *slice)
{
    return slice->null ? NULL : (uint32_t *)(void *)(slice->open + slice->start);
}

int32_t *wholes_at(const lent *slice)
{
    return slice->null ? NULL : (int32_t *)(void *)(slice->open + slice->start);
}

uint64_t *longs_at(const lent *slice)
{
    return slice->null ? NULL : (uint64_t *)(void *)(slice->open + slice->start);
}

void *bytes_at(const lent *slice)
{
    return slice->open + slice->start;
}

void called(const char *function, const char *about, placement where)
{
    current.function = function;
    current.about = about;
    current.where = where;
    current.wrong = 0;
    calls_made++;
}

static void wrong(void)
{
    static const char *const places[PLACEMENTS] = {"between canaries", "at the end", "at the start"};
    if (!current.wrong)
        calls_wrong++;
    current.wrong = 1;
    printf("WRONG %s, %s (slices %s): ", current.function, current.about, places[current.where]);
}

static void touched(int number)
{
    (void)number;
    wrong();
    printf("a page beside a slice was touched\n");
    fflush(NULL);
    _exit(1);
}

void watch_the_pages(void)
{
    signal(SEGMENTATION_FAULT, touched);
}

void answered(uint64_t got, uint64_t wanted)
{
    if (got == wanted)
        return;
    wrong();
    printf("answer %lu place %lu, should be %lu place %lu\n", (unsigned long)(got / 4096u), (unsigned long)(got % 4096u),
           (unsigned long)(wanted / 4096u), (unsigned long)(wanted % 4096u));
}

/* the same bits, or both a NaN where any NaN is wanted */
static int meets(uint64_t got, uint64_t wanted)
{
    return got == wanted || (wanted == to_bits(NAN) && (got & 0x7fffffffffffffffu) > 0x7ff0000000000000u);
}

void valued(double got, double wanted)
{
    if (meets(to_bits(got), to_bits(wanted)))
        return;
    wrong();
    printf("value %016lx, should be %016lx\n", (unsigned long)to_bits(got), (unsigned long)to_bits(wanted));
}

void gave(const char *name, long got, long wanted)
{
    if (got == wanted)
        return;
    wrong();
    printf("%s %ld, should be %ld\n", name, got, wanted);
}

void kept(const char *name, const void *got, const void *given, size_t bytes)
{
    if (memcmp(got, given, bytes) == 0)
        return;
    wrong();
    printf("%s was changed\n", name);
}

static void give_back(lent slice, const char *name)
{
    if (memcmp(slice.open, slice.should, slice.open_bytes) != 0) {
        wrong();
        printf("something beside %s was written\n", name);
    }
    munmap(slice.mapped, slice.mapped_bytes);
    free(slice.should);
}

void left_numbers(lent slice, const char *name, numbers wanted)
{
    const double *got = (const double *)(const void *)(slice.open + slice.start);
    if (wanted.length != slice.length)
        abort();
    for (size_t i = 0; i < slice.length; i++)
        if (!meets(to_bits(got[i]), to_bits(wanted.at[i]))) {
            wrong();
            printf("%s[%lu] is %016lx, should be %016lx\n", name, (unsigned long)i, (unsigned long)to_bits(got[i]),
                   (unsigned long)to_bits(wanted.at[i]));
        }
    memcpy(slice.should + slice.start, got, slice.length * slice.width);
    give_back(slice, name);
}

void left_words(lent slice, const char *name, words wanted)
{
    const uint32_t *got = (const uint32_t *)(const void *)(slice.open + slice.start);
    if (wanted.length != slice.length)
        abort();
    for (size_t i = 0; i < slice.length; i++)
        if (got[i] != wanted.at[i]) {
            wrong();
            printf("%s[%lu] is %u, should be %u\n", name, (unsigned long)i, got[i], wanted.at[i]);
        }
    memcpy(slice.should + slice.start, got, slice.length * slice.width);
    give_back(slice, name);
}

void left_wholes(lent slice, const char *name, wholes wanted)
{
    const int32_t *got = (const int32_t *)(const void *)(slice.open + slice.start);
    if (wanted.length != slice.length)
        abort();
    for (size_t i = 0; i < slice.length; i++)
        if (got[i] != wanted.at[i]) {
            wrong();
            printf("%s[%lu] is %d, should be %d\n", name, (unsigned long)i, got[i], wanted.at[i]);
        }
    memcpy(slice.should + slice.start, got, slice.length * slice.width);
    give_back(slice, name);
}

void left_longs(lent slice, const char *name, longs wanted)
{
    const uint64_t *got = (const uint64_t *)(const void *)(slice.open + slice.start);
    if (wanted.length != slice.length)
        abort();
    for (size_t i = 0; i < slice.length; i++)
        if (got[i] != wanted.at[i]) {
            wrong();
            printf("%s[%lu] is %lx, should be %lx\n", name, (unsigned long)i, (unsigned long)got[i],
                   (unsigned long)wanted.at[i]);
        }
    memcpy(slice.should + slice.start, got, slice.length * slice.width);
    give_back(slice, name);
}

void left_around(lent slice, const char *name)
{
    memcpy(slice.should + slice.start, slice.open + slice.start, slice.length * slice.width);
    give_back(slice, name);
}
