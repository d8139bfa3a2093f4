/* Memory that is lent to a call, and the comparison of what the call leaves there, word for word.
 *
 * Every call that is tested on slices is made three times, its slices placed three ways: between canaries, at the end of the
 * memory (the page behind the slice cannot be touched), and at its start (the page before cannot). What lies around a slice is
 * compared too. Where very many matrices are tried (floored.c, teaching.c, handheld.c), a call is made once, between canaries;
 * where very many trays are tried, or large ones (tray.c), once in one of the three placements. A call that only prepares a case
 * or takes an answer apart is made once. */
#ifndef LENT_H
#define LENT_H

#include <stddef.h>
#include <stdint.h>

typedef struct {
    const double *at;
    size_t length;
} numbers;

typedef struct {
    const uint32_t *at;
    size_t length;
} words;

/* whole numbers, with a sign */
typedef struct {
    const int32_t *at;
    size_t length;
} wholes;

/* whole numbers of 64 bits: answers */
typedef struct {
    const uint64_t *at;
    size_t length;
} longs;

#define NUMBERS(...) ((numbers){(const double[]){__VA_ARGS__}, sizeof((const double[]){__VA_ARGS__}) / sizeof(double)})
#define WORDS(...) ((words){(const uint32_t[]){__VA_ARGS__}, sizeof((const uint32_t[]){__VA_ARGS__}) / sizeof(uint32_t)})
#define WHOLES(...) ((wholes){(const int32_t[]){__VA_ARGS__}, sizeof((const int32_t[]){__VA_ARGS__}) / sizeof(int32_t)})
#define LONGS(...) ((longs){(const uint64_t[]){__VA_ARGS__}, sizeof((const uint64_t[]){__VA_ARGS__}) / sizeof(uint64_t)})
/* A slice of length 0, lent as a null pointer. */
#define NO_NUMBERS ((numbers){NULL, 0})
#define NO_WORDS ((words){NULL, 0})
#define NO_WHOLES ((wholes){NULL, 0})
#define NO_LONGS ((longs){NULL, 0})

#define COUNT(array) (sizeof(array) / sizeof *(array))

/* What stands in a slice that a call is to fill: numbers and words that no call writes. */
numbers old_numbers(size_t length);
words old_words(size_t length);
wholes old_wholes(size_t length);
longs old_longs(size_t length);

/* The double with these bits. */
double from_bits(uint64_t bits);
/* A double from -0.5 to 0.5 that looks like chance and is the same in every run; moves the state on. */
double by_chance(uint32_t *state);
/* The root, as the processor rounds it. */
double root(double number);

#define INF __builtin_inf()
/* A NaN that a call works out: any NaN meets it. */
#define NAN from_bits(0x7ff8000000000000u)
/* A NaN of its own pattern, for what no call may touch: only itself meets it. */
#define KEPT from_bits(0x7ff4b1ade5eed001u)
/* What another call left, as what should stand: a NaN that it worked out is NAN, and KEPT is itself. */
double as_left(double number);

typedef enum { BETWEEN_CANARIES, AT_THE_END, AT_THE_START, PLACEMENTS } placement;

typedef struct {
    unsigned char *mapped; /* all that was mapped, with the two pages that cannot be touched */
    size_t mapped_bytes;
    unsigned char *open; /* what can be touched */
    size_t open_bytes;
    unsigned char *should; /* what should stand there after the call */
    size_t start;          /* of the slice, in bytes from `open` */
    size_t length;
    size_t width; /* of one element, in bytes */
    int null;
} lent;

lent lend_numbers(numbers given, placement where);
lent lend_words(words given, placement where);
lent lend_wholes(wholes given, placement where);
lent lend_longs(longs given, placement where);
/* What is no slice: the place of a result, or a stack with the arguments of a call at its end. */
lent lend_bytes(const void *given, size_t bytes, placement where);

/* Numbers between canaries, for calls on very many matrices: they are lent without pages of their own, until others are lent
 * so. What stands there after the call should be these numbers, and the canaries around them. */
double *lend_framed(const double *given, size_t length);
void left_framed(const double *wanted, size_t length);

/* The pointer to pass. */
double *numbers_at(const lent *slice);
uint32_t *words_at(const lent *slice);
int32_t *wholes_at(const lent *slice);
uint64_t *longs_at(const lent *slice);
void *bytes_at(const lent *slice);

/* From here on a touch of a page beside a slice is reported, with the call that did it. */
void watch_the_pages(void);

/* One call: its function, what it is about, its answer, and what it gives beside that. */
void called(const char *function, const char *about, placement where);
void answered(uint64_t got, uint64_t wanted);
void valued(double got, double wanted);
void gave(const char *name, long got, long wanted);
/* The same bytes as before, a NaN's too. */
void kept(const char *name, const void *got, const void *given, size_t bytes);

/* After the call the slice should hold this, and all around it be as it was. Gives the memory back. */
void left_numbers(lent slice, const char *name, numbers wanted);
void left_words(lent slice, const char *name, words wanted);
void left_wholes(lent slice, const char *name, wholes wanted);
void left_longs(lent slice, const char *name, longs wanted);
/* After the call all around the slice should be as it was, whatever it holds. Gives the memory back. */
void left_around(lent slice, const char *name);

/* How many calls were made, and how many of them did something wrong. */
extern unsigned long calls_made, calls_wrong;

/* The number of an answer. */
#define ANSWER(code, place) ((uint64_t)(code) * 4096u + (uint64_t)(place))

#endif
