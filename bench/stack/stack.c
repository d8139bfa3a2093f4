/* The stack that each call of the archive uses, in bytes.
 *
 * Every call has a thread of its own, with a stack of 1 MB. Just before the call the thread paints all of the stack that lies
 * below its own frame, and right after it looks for the lowest word that has lost the paint. From the stack above that word,
 * the same after an empty call is taken off. Arguments by value are counted, the place of a result is not. */
#define _GNU_SOURCE
#include "urgyelpat.h"
#include <pthread.h>
#include <stdio.h>
#include <stdlib.h>
#include <sys/mman.h>

#define STACK ((size_t)1 << 20)
#define PAGE ((size_t)4096)
#define PAINT 0xa5a5a5a5a5a5a5a5u
#define MOST ((size_t)URGYELPAT_LARGEST)
/* the columns of a solve: one, and many with a rest when they are taken four at a time; the items of a tray */
#define MANY ((size_t)67)
/* the run number of every record */
#define RUN ((uint32_t)7)
/* the floor of every call that takes one */
#define FLOOR 4.0

typedef enum {
    EMPTY,
    LBLT_FACTOR,
    LBLT_SOLVE_ONE,
    LBLT_SOLVE_MANY,
    LBLT_SOLVE_BENCH,
    LBLT_TRAY,
    LBLT_DETERMINANT,
    LBLT_D,
    LBLT_L_PERMUTED,
    PIVOTS_FROM_LAPACK,
    PIVOTS_TO_LAPACK,
    CHOLESKY_FACTOR,
    CHOLESKY_EXTEND,
    CHOLESKY_TEACHING,
    CHOLESKY_FACTOR_FLOORED,
    CHOLESKY_EXTEND_FLOORED,
    CHOLESKY_SOLVE_ONE,
    CHOLESKY_SOLVE_MANY,
    CHOLESKY_L,
    CHOLESKY_UNPACK,
    CHOLESKY_DETERMINANT,
    UDU_FACTOR,
    FIRST_TWIN_RANDOM,
    FIRST_TWIN_NEAR,
    FIRST_TWIN_SINCE,
    PACKED_LBLT_FACTOR,
    PACKED_LBLT_SOLVE_ONE,
    PACKED_LBLT_SOLVE_MANY,
    PACKED_LBLT_DETERMINANT,
    PACKED_CHOLESKY_FACTOR,
    PACKED_CHOLESKY_EXTEND,
    PACKED_CHOLESKY_SOLVE_ONE,
    PACKED_CHOLESKY_SOLVE_MANY,
    PACKED_FIRST_TWIN_RANDOM,
    PACKED_FIRST_TWIN_NEAR,
    HANDHELD_FACTOR,
    HANDHELD_FACTOR_NAN,
    HANDHELD_SOLVE,
    CALLS
} which;

static const char *const names[CALLS] = {
    "empty call",
    "lblt_factor",
    "lblt_solve, 1 column",
    "lblt_solve, 67 columns",
    "lblt_solve_bench, 50 columns of 67",
    "lblt_tray, 67 items",
    "lblt_determinant",
    "lblt_d",
    "lblt_l_permuted",
    "pivots_from_lapack",
    "pivots_to_lapack",
    "cholesky_factor",
    "cholesky_extend, the second half",
    "cholesky_teaching",
    "cholesky_factor_floored",
    "cholesky_extend_floored, the second half",
    "cholesky_solve, 1 column",
    "cholesky_solve, 67 columns",
    "cholesky_l",
    "cholesky_unpack",
    "cholesky_determinant",
    "udu_factor",
    "first_twin, random rows",
    "first_twin, rows that nearly agree",
    "first_twin_since, the second half",
    "packed_lblt_factor",
    "packed_lblt_solve, 1 column",
    "packed_lblt_solve, 67 columns",
    "packed_lblt_determinant",
    "packed_cholesky_factor",
    "packed_cholesky_extend, the second half",
    "packed_cholesky_solve, 1 column",
    "packed_cholesky_solve, 67 columns",
    "packed_first_twin, random rows",
    "packed_first_twin, rows that nearly agree",
    "handheld_factor",
    "handheld_factor, a NaN below the diagonal",
    "handheld_solve",
};

static void *stack; /* its lowest byte */
static double *a, *b;
static uint32_t record[2 * URGYELPAT_LARGEST + 2];
static int32_t list[URGYELPAT_LARGEST];
static uint32_t benches[MANY]; /* 47 columns of bench 1, which are solved together, 17 of bench 2, and 3 of bench 1, one by one */
static uint32_t records[MANY * (2 * URGYELPAT_TRAY_ORDER_LARGEST + 2)], runs[MANY];
static uint64_t answers[MANY];
static double vector[URGYELPAT_LARGEST];
static urgyelpat_factored3 factored; /* of the calls by value: the matrix before, the factor and its pivots after */
static urgyelpat_solved3 solved;

/* ---- what is lent */

static double unit(uint64_t *state)
{
    *state = *state * 6364136223846793005u + 1442695040888963407u;
    return (double)(*state >> 11) / 9007199254740992.0;
}

/* Symmetric, between -1 and 1 beside the diagonal. A diagonal of 0 makes LBLT begin with a pivot of size 2, one of n makes the
 * matrix positive definite. */
static void fill_random(size_t n, double diagonal)
{
    uint64_t state = 1;
    for (size_t j = 0; j < n; j++)
        for (size_t i = j; i < n; i++)
            a[i + j * n] = a[j + i * n] = i == j ? diagonal : 2.0 * unit(&state) - 1.0;
}

/* All entries 1 but for one a row: no rows are twins, and all nearly are. */
static void fill_near(size_t n)
{
    for (size_t j = 0; j < n; j++)
        for (size_t i = 0; i < n; i++)
            a[i + j * n] = (i ^ 1) == j ? 2.0 : 1.0;
}

/* From the first matrix of a tray, with pivots of size 2, number i of item t: in turn alike, with pivots of size 1, zero and so
 * without a pivot, with a NaN. */
static double in_tray(size_t n, size_t t, size_t i)
{
    switch (t % 4) {
    case 1:
        return i % (n + 1) == 0 ? (double)n : a[i];
    case 2:
        return 0.0;
    case 3:
        return i == 1 ? a[0] / a[0] : a[i];
    default:
        return a[i];
    }
}

static void fill_tray(size_t n)
{
    fill_random(n, 0.0);
    for (size_t t = 1; t < MANY; t++)
        for (size_t i = 0; i < n * n; i++)
            a[i + t * n * n] = in_tray(n, t, i);
}

/* The lower part of a, packed where it stands. */
static void pack(size_t n)
{
    double *packed = a;
    for (size_t j = 0; j < n; j++)
        for (size_t i = j; i < n; i++)
            *packed++ = a[i + j * n];
}

/* The lower rows of a end to end where it stands; b is written on the way. */
static void lay_end_to_end(size_t n)
{
    for (size_t i = 0; i < n; i++)
        for (size_t j = 0; j <= i; j++)
            b[urgyelpat_packed_length(i) + j] = a[i + j * n];
    for (size_t i = 0; i < urgyelpat_packed_length(n); i++)
        a[i] = b[i];
}

/* The lower part of a, of order 3, as a matrix that is passed by value. */
static void by_value(void)
{
    for (size_t j = 0; j < 3; j++)
        for (size_t i = j; i < 3; i++)
            factored.matrix.column[j].row[i] = a[i + j * 3];
}

static void must(int held, const char *what, size_t n)
{
    if (!held) {
        printf("%s, order %zu: the call did not do its work\n", what, n);
        exit(1);
    }
}

/* The slices as the call wants them: a matrix, or a factor of one. */
static void prepare(which call, size_t n)
{
    uint64_t answer = 0;
    for (size_t i = 0; i < MOST * MOST; i++)
        b[i] = 1.0;
    for (size_t j = 0; j < MANY; j++)
        benches[j] = j % 64 < 47 ? 1 : 2;
    switch (call) {
    case EMPTY:
        break;
    case LBLT_FACTOR:
        fill_random(n, 0.0);
        break;
    case LBLT_TRAY:
        fill_tray(n);
        break;
    case LBLT_SOLVE_ONE:
    case LBLT_SOLVE_MANY:
    case LBLT_SOLVE_BENCH:
    case LBLT_DETERMINANT:
    case LBLT_D:
    case LBLT_L_PERMUTED:
    case PIVOTS_TO_LAPACK:
        fill_random(n, 0.0);
        answer = urgyelpat_lblt_factor(a, n * n, record, 2 * n + 2, n, RUN);
        break;
    case PIVOTS_FROM_LAPACK:
        fill_random(n, 0.0);
        answer = urgyelpat_lblt_factor(a, n * n, record, 2 * n + 2, n, RUN);
        must(answer == 0, names[call], n);
        answer = urgyelpat_pivots_to_lapack(record, 2 * n + 2, list, n, n).answer;
        break;
    case CHOLESKY_FACTOR:
    case CHOLESKY_TEACHING:
    case UDU_FACTOR:
        fill_random(n, (double)n);
        break;
    case CHOLESKY_EXTEND:
        fill_random(n, (double)n);
        answer = urgyelpat_cholesky_factor(a, n * n, n, n / 2);
        break;
    case CHOLESKY_FACTOR_FLOORED: /* which uses the floor */
        fill_random(n, 0.0);
        break;
    case CHOLESKY_EXTEND_FLOORED:
        fill_random(n, 0.0);
        answer = urgyelpat_cholesky_factor_floored(a, n * n, n, n / 2, FLOOR).answer;
        break;
    case CHOLESKY_SOLVE_ONE:
    case CHOLESKY_SOLVE_MANY:
    case CHOLESKY_L:
    case CHOLESKY_UNPACK:
    case CHOLESKY_DETERMINANT:
        fill_random(n, (double)n);
        answer = urgyelpat_cholesky_factor(a, n * n, n, n);
        break;
    case FIRST_TWIN_RANDOM:
        fill_random(n, 0.0);
        break;
    case FIRST_TWIN_NEAR:
    case FIRST_TWIN_SINCE:
        fill_near(n);
        break;
    case PACKED_LBLT_FACTOR:
        fill_random(n, 0.0);
        pack(n);
        break;
    case PACKED_LBLT_SOLVE_ONE:
    case PACKED_LBLT_SOLVE_MANY:
    case PACKED_LBLT_DETERMINANT:
        fill_random(n, 0.0);
        pack(n);
        answer = urgyelpat_packed_lblt_factor(a, urgyelpat_packed_length(n), record, 2 * n + 2, n, RUN);
        break;
    case PACKED_CHOLESKY_FACTOR:
        fill_random(n, (double)n);
        pack(n);
        break;
    case PACKED_CHOLESKY_EXTEND: { /* the factor of the first half, then the rows of the second, in a */
        const size_t old = urgyelpat_packed_length(n / 2);
        fill_random(n, (double)n);
        lay_end_to_end(n);
        answer = urgyelpat_packed_cholesky_extend(NULL, 0, a, old, b, old, 0, n / 2);
        for (size_t i = 0; i < old; i++)
            a[i] = b[i];
        break;
    }
    case PACKED_CHOLESKY_SOLVE_ONE:
    case PACKED_CHOLESKY_SOLVE_MANY:
        fill_random(n, (double)n);
        pack(n);
        answer = urgyelpat_packed_cholesky_factor(a, urgyelpat_packed_length(n), n);
        break;
    case PACKED_FIRST_TWIN_RANDOM:
        fill_random(n, 0.0);
        pack(n);
        break;
    case PACKED_FIRST_TWIN_NEAR:
        fill_near(n);
        pack(n);
        break;
    case HANDHELD_FACTOR:
        fill_random(n, 0.0);
        by_value();
        break;
    case HANDHELD_FACTOR_NAN:
        fill_random(n, 0.0);
        a[1] = a[0] / a[0];
        by_value();
        break;
    case HANDHELD_SOLVE:
        fill_random(n, 0.0);
        by_value();
        factored = urgyelpat_handheld_factor(factored.matrix);
        break;
    case CALLS:
        break;
    }
    must(answer == 0, names[call], n);
}

/* ---- the call */

__attribute__((noinline)) static uint64_t nothing(size_t n)
{
    __asm__ volatile("" : : "r"(n));
    return 0;
}

__attribute__((noinline)) static uint64_t called(which call, size_t n)
{
    const size_t packed = urgyelpat_packed_length(n);
    uint64_t answer = 0;
    switch (call) {
    case EMPTY:
    case CALLS:
        answer = nothing(n);
        break;
    case LBLT_FACTOR:
        answer = urgyelpat_lblt_factor(a, n * n, record, 2 * n + 2, n, RUN);
        break;
    case LBLT_SOLVE_ONE:
        answer = urgyelpat_lblt_solve(a, n * n, record, 2 * n + 2, b, n, n, 1, RUN);
        break;
    case LBLT_SOLVE_MANY:
        answer = urgyelpat_lblt_solve(a, n * n, record, 2 * n + 2, b, n * MANY, n, MANY, RUN);
        break;
    case LBLT_SOLVE_BENCH:
        answer = urgyelpat_lblt_solve_bench(a, n * n, record, 2 * n + 2, b, n * MANY, benches, MANY, n, MANY, 1, RUN);
        break;
    case LBLT_TRAY:
        answer = urgyelpat_lblt_tray(a, n * n * MANY, records, (2 * n + 2) * MANY, b, n * MANY, runs, MANY, answers, MANY,
                                     n, MANY);
        break;
    case LBLT_DETERMINANT:
        answer = urgyelpat_lblt_determinant(a, n * n, record, 2 * n + 2, n, RUN).answer;
        break;
    case LBLT_D:
        answer = urgyelpat_lblt_d(a, n * n, record, 2 * n + 2, b, n * n, n, RUN);
        break;
    case LBLT_L_PERMUTED:
        answer = urgyelpat_lblt_l_permuted(a, n * n, record, 2 * n + 2, b, n * n, n, RUN);
        break;
    case PIVOTS_FROM_LAPACK:
        answer = urgyelpat_pivots_from_lapack(list, n, 0, record, 2 * n + 2, n, RUN);
        break;
    case PIVOTS_TO_LAPACK:
        answer = urgyelpat_pivots_to_lapack(record, 2 * n + 2, list, n, n).answer;
        break;
    case CHOLESKY_FACTOR:
        answer = urgyelpat_cholesky_factor(a, n * n, n, n);
        break;
    case CHOLESKY_EXTEND:
        answer = urgyelpat_cholesky_extend(a, n * n, n, n / 2, n);
        break;
    case CHOLESKY_TEACHING:
        answer = urgyelpat_cholesky_teaching(a, n * n, n, n);
        break;
    case CHOLESKY_FACTOR_FLOORED:
        answer = urgyelpat_cholesky_factor_floored(a, n * n, n, n, FLOOR).answer;
        break;
    case CHOLESKY_EXTEND_FLOORED:
        answer = urgyelpat_cholesky_extend_floored(a, n * n, n, n / 2, n, FLOOR).answer;
        break;
    case CHOLESKY_SOLVE_ONE:
        answer = urgyelpat_cholesky_solve(a, n * n, b, n, n, n, 1);
        break;
    case CHOLESKY_SOLVE_MANY:
        answer = urgyelpat_cholesky_solve(a, n * n, b, n * MANY, n, n, MANY);
        break;
    case CHOLESKY_L:
        answer = urgyelpat_cholesky_l(a, n * n, b, n * n, n, n);
        break;
    case CHOLESKY_UNPACK:
        answer = urgyelpat_cholesky_unpack(a, n * n, n, n);
        break;
    case CHOLESKY_DETERMINANT:
        answer = urgyelpat_cholesky_determinant(a, n * n, n, n).answer;
        break;
    case UDU_FACTOR:
        answer = urgyelpat_udu_factor(a, n * n, b, n * n, vector, n, n);
        break;
    case FIRST_TWIN_RANDOM:
    case FIRST_TWIN_NEAR:
        answer = urgyelpat_first_twin(a, n * n, n, n);
        break;
    case FIRST_TWIN_SINCE:
        answer = urgyelpat_first_twin_since(a, n * n, n, n / 2, n);
        break;
    case PACKED_LBLT_FACTOR:
        answer = urgyelpat_packed_lblt_factor(a, packed, record, 2 * n + 2, n, RUN);
        break;
    case PACKED_LBLT_SOLVE_ONE:
        answer = urgyelpat_packed_lblt_solve(a, packed, record, 2 * n + 2, b, n, n, 1, RUN);
        break;
    case PACKED_LBLT_SOLVE_MANY:
        answer = urgyelpat_packed_lblt_solve(a, packed, record, 2 * n + 2, b, n * MANY, n, MANY, RUN);
        break;
    case PACKED_LBLT_DETERMINANT:
        answer = urgyelpat_packed_lblt_determinant(a, packed, record, 2 * n + 2, n, RUN).answer;
        break;
    case PACKED_CHOLESKY_FACTOR:
        answer = urgyelpat_packed_cholesky_factor(a, packed, n);
        break;
    case PACKED_CHOLESKY_EXTEND: {
        const size_t old = urgyelpat_packed_length(n / 2);
        answer = urgyelpat_packed_cholesky_extend(a, old, a + old, packed - old, b, packed, n / 2, n);
        break;
    }
    case PACKED_CHOLESKY_SOLVE_ONE:
        answer = urgyelpat_packed_cholesky_solve(a, packed, b, n, n, 1);
        break;
    case PACKED_CHOLESKY_SOLVE_MANY:
        answer = urgyelpat_packed_cholesky_solve(a, packed, b, n * MANY, n, MANY);
        break;
    case PACKED_FIRST_TWIN_RANDOM:
    case PACKED_FIRST_TWIN_NEAR:
        answer = urgyelpat_packed_first_twin(a, packed, n);
        break;
    case HANDHELD_FACTOR:
    case HANDHELD_FACTOR_NAN:
        factored = urgyelpat_handheld_factor(factored.matrix);
        break;
    case HANDHELD_SOLVE:
        solved = urgyelpat_handheld_solve(factored.matrix, factored.pivots, solved.side);
        answer = solved.answer;
        break;
    }
    /* after the call, so that each is a call and no jump */
    __asm__ volatile("" : "+r"(answer));
    return answer;
}

/* ---- the paint */

typedef struct {
    which call;
    size_t n;
    uint64_t answer;
    size_t used; /* from the lowest word that has lost the paint up to the top of the stack */
} task;

/* A leaf whose few locals are in registers: nothing of its own lies below its frame. */
__attribute__((noinline)) static void paint(void)
{
    const volatile uint64_t *end = __builtin_frame_address(0);
    for (volatile uint64_t *word = stack; word < end; word++)
        *word = PAINT;
}

static void *painted_call(void *given)
{
    task *t = given;
    paint();
    t->answer = called(t->call, t->n);
    const volatile uint64_t *word = stack;
    while (*word == PAINT)
        word++;
    t->used = STACK - (size_t)((const volatile unsigned char *)word - (const volatile unsigned char *)stack);
    return NULL;
}

static size_t used(which call, size_t n)
{
    task t = {call, n, 1, 0};
    pthread_t thread;
    pthread_attr_t attributes;
    prepare(call, n);
    if (pthread_attr_init(&attributes) != 0 || pthread_attr_setstack(&attributes, stack, STACK) != 0 ||
        pthread_create(&thread, &attributes, painted_call, &t) != 0 || pthread_join(thread, NULL) != 0) {
        fprintf(stderr, "no thread\n");
        exit(1);
    }
    pthread_attr_destroy(&attributes);
    must(t.answer == 0, names[call], n);
    return t.used;
}

/* The teaching engine and the tray refuse larger orders than their own, and the handheld has order 3. */
static int takes(which call, size_t n)
{
    switch (call) {
    case CHOLESKY_TEACHING:
        return n <= URGYELPAT_TEACHING_LARGEST;
    case LBLT_TRAY:
        return n <= URGYELPAT_TRAY_ORDER_LARGEST;
    default:
        return call < HANDHELD_FACTOR || n == 3;
    }
}

int main(void)
{
    static const size_t orders[] = {3, 16, 64, 512, 1024};
    const size_t count = sizeof orders / sizeof *orders;
    /* the page below the stack cannot be touched */
    unsigned char *mapped = mmap(NULL, PAGE + STACK, PROT_READ | PROT_WRITE, MAP_PRIVATE | MAP_ANONYMOUS, -1, 0);
    a = malloc(sizeof(double) * MOST * MOST);
    b = malloc(sizeof(double) * MOST * MOST);
    if (mapped == MAP_FAILED || mprotect(mapped, PAGE, PROT_NONE) != 0 || a == NULL || b == NULL) {
        fprintf(stderr, "no memory\n");
        return 1;
    }
    stack = mapped + PAGE;
    const size_t empty = used(EMPTY, 0);
    printf("bytes of stack, less those of an empty call; - where there is no such order\n%-43s", "order");
    for (size_t o = 0; o < count; o++)
        printf("%7zu", orders[o]);
    printf("\n");
    for (which call = EMPTY + 1; call < CALLS; call++) {
        printf("%-43s", names[call]);
        for (size_t o = 0; o < count; o++)
            if (takes(call, orders[o]))
                printf("%7zu", used(call, orders[o]) - empty);
            else
                printf("%7s", "-");
        printf("\n");
    }
    return 0;
}
