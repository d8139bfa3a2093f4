#include "matrices.h"
#include <stdio.h>

const char *const kinds[KINDS] = {"random",         "zero diagonal", "heavy diagonal",      "small whole numbers",
                                  "a row of zeros", "like rows",     "NaNs and infinities", "zeros"};

size_t lower(size_t n, size_t i, size_t j)
{
    return i >= j ? i + j * n : j + i * n;
}

void repeat_row(size_t n, size_t p, size_t q, double *full)
{
    for (size_t k = 0; k < n; k++)
        if (k != p && k != q)
            full[lower(n, q, k)] = full[lower(n, p, k)];
    full[lower(n, q, p)] = full[lower(n, q, q)] = full[lower(n, p, p)];
}

static double entry(kind of, size_t n, size_t i, size_t j, double number)
{
    if (i < j)
        return KEPT;
    switch (of) {
    case ZERO_DIAGONAL:
        return i == j ? 0 : number;
    case HEAVY_DIAGONAL:
        return i == j ? number + (double)n : number;
    case SMALL_WHOLES:
        return (double)(int)(4 * number);
    case ROW_OF_ZEROS:
        return i == n / 2 || j == n / 2 ? 0 : number;
    case NANS_AND_INFINITIES:
        return number > 0.45 ? NAN : number < -0.45 ? -INF : number;
    case ZEROS:
        return 0;
    default:
        return number;
    }
}

void fill(kind of, size_t n, uint32_t *chance, double *full)
{
    for (size_t j = 0; j < n; j++)
        for (size_t i = 0; i < n; i++)
            full[i + j * n] = entry(of, n, i, j, by_chance(chance));
    if (of == LIKE_ROWS && n > 1)
        repeat_row(n, 0, n - 1, full);
}

void every_matrix(size_t n, numbers entries, void (*take)(const char *about, size_t n, const double *full))
{
    size_t chosen[10] = {0}, at;
    do {
        double full[16];
        char about[16 * 14];
        size_t entry = 0, written = 0;
        for (size_t j = 0; j < n; j++)
            for (size_t i = 0; i < n; i++)
                full[i + j * n] = i < j ? KEPT : entries.at[chosen[entry++]];
        for (size_t i = 0; i < n * n; i++)
            written += (size_t)snprintf(about + written, sizeof about - written, "%g ", full[i]);
        take(about, n, full);
        for (at = 0; at < entry && ++chosen[at] == entries.length; at++)
            chosen[at] = 0;
    } while (at < n * (n + 1) / 2);
}

unsigned lists_of_cuts(size_t n)
{
    return 1u << (n == 0 ? 0 : n - 1);
}

size_t cuts_of(unsigned list, size_t n, size_t *cuts)
{
    size_t count = 0;
    for (size_t cut = 1; cut <= n; cut++)
        if (cut == n || list >> (cut - 1) & 1u) {
            cuts[count++] = cut;
            if (__builtin_parity(list))
                cuts[count++] = cut;
        }
    return count;
}

void set_in_room(size_t room, size_t n, const double *full, double *a)
{
    for (size_t i = 0; i < room * room; i++)
        a[i] = KEPT;
    for (size_t j = 0; j < n; j++)
        copy(a + j * room, full + j * n, n);
}

void copy(double *to, const double *from, size_t length)
{
    for (size_t i = 0; i < length; i++)
        to[i] = from[i];
}

numbers some(const double *at, size_t length)
{
    return (numbers){length == 0 ? NULL : at, length};
}

const char *at_order(const char *about, size_t n)
{
    static char text[100];
    snprintf(text, sizeof text, "%s, order %lu", about, (unsigned long)n);
    return text;
}
