/* Matrices by chance and complete sets of small ones, in the full layout with KEPT above the diagonal, and the cuts of their
 * rows into batches. */
#ifndef MATRICES_H
#define MATRICES_H

#include "lent.h"

typedef enum {
    RANDOM,
    ZERO_DIAGONAL, /* with pivots of two rows */
    HEAVY_DIAGONAL,
    SMALL_WHOLES, /* with equal maxima */
    ROW_OF_ZEROS, /* which is marked */
    LIKE_ROWS,    /* the first and the last */
    NANS_AND_INFINITIES,
    ZEROS,
    KINDS
} kind;

extern const char *const kinds[KINDS];

void fill(kind of, size_t n, uint32_t *chance, double *full);
/* Every matrix of order n, 4 at most, whose lower part is made of these numbers. */
void every_matrix(size_t n, numbers entries, void (*take)(const char *about, size_t n, const double *full));

/* The place of (i, j) or (j, i) in the lower part. */
size_t lower(size_t n, size_t i, size_t j);
/* Row q, with its column, becomes row p. */
void repeat_row(size_t n, size_t p, size_t q, double *full);
/* The first n rows and columns of a room of KEPT. */
void set_in_room(size_t room, size_t n, const double *full, double *a);

/* The lists of cuts that end at n, up to order 5: how many they are; the cuts of one list, and how many those are. In every
 * second list each batch is followed by one of no rows. */
enum { MOST_CUTS = 10 };
unsigned lists_of_cuts(size_t n);
size_t cuts_of(unsigned list, size_t n, size_t *cuts);

void copy(double *to, const double *from, size_t length);
/* So many numbers from there on; none are lent as a null pointer. */
numbers some(const double *at, size_t length);
/* What a call is about, with its order. */
const char *at_order(const char *about, size_t n);

#endif
