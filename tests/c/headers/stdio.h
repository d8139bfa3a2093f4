/* The kit's clang comes without C headers: what the programs here take of <stdio.h>. */
int printf(const char *form, ...) __attribute__((format(printf, 1, 2)));
int snprintf(char *text, __SIZE_TYPE__ bytes, const char *form, ...) __attribute__((format(printf, 3, 4)));
