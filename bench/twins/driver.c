/* first_twin and first_twin_since against a Cholesky factor call and against one pass over the triangle, in one run. */
#include "urgyelpat.h"
#include <stdio.h>
#include <stdlib.h>
#include <string.h>
#include <time.h>

static double now(void)
{
    struct timespec t;
    clock_gettime(CLOCK_MONOTONIC, &t);
    return (double)t.tv_sec * 1e9 + (double)t.tv_nsec;
}

static double unit(uint64_t *state)
{
    *state = *state * 6364136223846793005u + 1442695040888963407u;
    return (double)(*state >> 11) / 9007199254740992.0;
}

/* random with a heavy diagonal; or all entries 1 but for one pair of entries a row, so that no rows are twins and all nearly are */
static void fill(double *a, size_t n, int near)
{
    uint64_t state = 1;
    for (size_t j = 0; j < n; j++)
        for (size_t i = j; i < n; i++)
            a[i + j * n] = near ? ((i ^ 1) == j ? 2.0 : 1.0) : unit(&state) + (i == j ? (double)n : 0.0);
}

static double sum;

static double pass(const double *a, size_t n)
{
    double s = 0.0;
    for (size_t j = 0; j < n; j++)
        for (size_t i = j; i < n; i++)
            s += a[i + j * n];
    return s;
}

static int smaller(const void *x, const void *y)
{
    double a = *(const double *)x, b = *(const double *)y;
    return (a > b) - (a < b);
}

/* what is measured */
enum { FACTOR, TWIN, SINCE, PASS, WHATS };

/* the time of one call, in ns */
static double spent(int what, const double *a, double *copy, size_t n, size_t repeat)
{
    double total = 0.0;
    for (size_t r = 0; r < repeat; r++) {
        if (what == FACTOR)
            memcpy(copy, a, sizeof(double) * n * n);
        double began = now();
        switch (what) {
        case FACTOR:
            sum += (double)urgyelpat_cholesky_factor(copy, n * n, n, n);
            break;
        case TWIN:
            sum += (double)urgyelpat_first_twin(a, n * n, n, n);
            break;
        case SINCE: /* a tenth of the rows is new */
            sum += (double)urgyelpat_first_twin_since(a, n * n, n, n - n / 10, n);
            break;
        default:
            sum += pass(a, n);
        }
        total += now() - began;
    }
    return total / (double)repeat;
}

#define TURNS 501
#define ORDERS 13

static const size_t orders[ORDERS] = {3, 8, 16, 60, 100, 128, 200, 256, 400, 512, 700, 1000, 1024};

/* by random rows and by rows that are nearly twins; the latter's factor would be refused early and is not measured */
static double times[ORDERS][2][WHATS][TURNS];

/* every how many turns it is measured */
static size_t step_of(int what, size_t n)
{
    return what == FACTOR && n > 128 ? 50 : n > 512 ? 5 : 1;
}

static size_t turns_of(int what, size_t n)
{
    return (TURNS + step_of(what, n) - 1) / step_of(what, n);
}

/* All of them turn by turn, so that what else the machine does meets all alike. */
static void measure(double *a, double *copy)
{
    for (size_t k = 0; k < TURNS; k++)
        for (size_t o = 0; o < ORDERS; o++)
            for (int near = 0; near < 2; near++)
                for (int what = near ? TWIN : FACTOR; what < WHATS; what++) {
                    size_t n = orders[o], step = step_of(what, n);
                    if (k % step == 0) {
                        fill(a, n, near);
                        times[o][near][what][k / step] = spent(what, a, copy, n, n <= 16 ? 200 : 1);
                    }
                }
    for (size_t o = 0; o < ORDERS; o++)
        for (int near = 0; near < 2; near++)
            for (int what = near ? TWIN : FACTOR; what < WHATS; what++)
                qsort(times[o][near][what], turns_of(what, orders[o]), sizeof(double), smaller);
}

/* the median of the turns, or the least */
static double time_of(size_t o, int near, int what, int least)
{
    return times[o][near][what][least ? 0 : turns_of(what, orders[o]) / 2];
}

int main(void)
{
    double *a = malloc(sizeof(double) * 1024 * 1024), *copy = malloc(sizeof(double) * 1024 * 1024);
    if (a == NULL || copy == NULL)
        return 1;
    measure(a, copy);
    printf("each with random rows, then with rows that are nearly twins; first_twin_since with a tenth of the rows new\n");
    for (int least = 0; least < 2; least++) {
        printf("%s\n", least ? "by the least times" : "by the medians");
        printf(" order   factor / first_twin   first_twin / one pass   first_twin_since / one pass\n");
        for (size_t o = 0; o < ORDERS; o++) {
            double r[2][3];
            for (int near = 0; near < 2; near++) {
                double twin = time_of(o, near, TWIN, least), one_pass = time_of(o, near, PASS, least);
                r[near][0] = time_of(o, 0, FACTOR, least) / twin;
                r[near][1] = twin / one_pass;
                r[near][2] = time_of(o, near, SINCE, least) / one_pass;
            }
            printf("%6zu   %8.2f  %8.2f     %8.2f  %8.2f           %8.2f  %8.2f\n", orders[o], r[0][0], r[1][0], r[0][1], r[1][1], r[0][2],
                   r[1][2]);
        }
    }
    return sum == 0.5;
}
